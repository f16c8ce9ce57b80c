"""Makes what has an arm or a clause a kind of call, from the one table of kinds.

python3 tools/kinds            writes the files that differ
python3 tools/kinds --check    names them, with the first line that differs; exit status 1 then

The table is the enum `Call` in crates/calls/src/lib.rt with the rows of `calls:Commands.commands`. A
made file says so in its first line; in include/cetomuhi.h what is made stands between two comments.
"""

import pathlib
import sys

import making
import table

ROOT = pathlib.Path(__file__).resolve().parent.parent.parent


def write(name, text):
    (ROOT / name).parent.mkdir(parents=True, exist_ok=True)
    (ROOT / name).write_text(text)
    print(f"wrote {name}")


def main():
    words = sys.argv[1:]
    if words not in ([], ["--check"]):
        sys.exit(__doc__.split("\n\n")[1])
    try:
        found = list(making.differing(ROOT))
    except (table.Fault, OSError) as fault:
        sys.exit(f"kinds: {fault}")
    for name, text, difference in found:
        if words:
            print(f"{name}: {difference}", file=sys.stderr)
        else:
            write(name, text)
    sys.exit(1 if words and found else 0)


if __name__ == "__main__":
    main()
