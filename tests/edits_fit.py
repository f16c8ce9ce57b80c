#!/usr/bin/env python3
"""Whether the edits outside the gate still fit: each pair of tests/edits/CRATE/*.edit names a file of the crate and a text that stands in it
once, as `rt must-fail` asks. That the prover refuses them is what tests/more_edits tries.
"""
import pathlib
import sys

ROOT = pathlib.Path(__file__).resolve().parent.parent


def fault(edit):
    """What is wrong with an edit; nothing if it fits."""
    crate, texts, path, old, pairs = ROOT / "crates" / edit.parent.name, {}, None, None, 0
    for line in edit.read_text().splitlines():
        word, _, rest = line.partition(": ")
        if word == "file":
            path = crate / rest
            if not path.is_file():
                return f"{rest} is no file of the crate"
            texts.setdefault(path, path.read_text())
        elif word == "old":
            old = rest
        elif line.startswith("new:"):
            if path is None or not old or texts[path].count(old) != 1:
                return f"its text does not stand once in {path and path.relative_to(crate)}: {old}"
            texts[path] = texts[path].replace(old, line[4:].removeprefix(" "))
            pairs += 1
    return None if pairs else "it changes nothing"


def main():
    edits = sorted(ROOT.glob("tests/edits/*/*.edit"))
    faults = [(edit, said) for edit in edits if (said := fault(edit))]
    for edit, said in faults:
        print(f"{edit.relative_to(ROOT)}: {said}")
    print(f"edits outside the gate: {len(edits) - len(faults)} fit, {len(faults)} do not")
    return 1 if faults or not edits else 0


if __name__ == "__main__":
    sys.exit(main())
