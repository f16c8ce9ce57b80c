#!/usr/bin/env python3
"""Compares the lines of the proved program `desk` with those that cetomuhi-desk prints over the library.

    same_lines.py [SEED]    200 random sessions from a seed, 1 if none is given, each of 150 commands

Both are those of this clone: target/bin/desk, which tools/made desk builds, and ./cetomuhi-desk. A session is of any kinds of
call on few parties, pages and registers, so that some are granted; a tenth of them end in bytes that are no command.
The last line says how many sessions agree; exit status 1 if one does not, or if not even a tenth of the commands are
granted.
"""

import pathlib
import random
import subprocess
import sys
import tempfile

ROOT = pathlib.Path(__file__).resolve().parent.parent
sys.path.insert(0, str(ROOT / "tools/kinds"))

import around  # noqa: E402

PROVED = ROOT / "target/bin/desk"
SESSIONS, COMMANDS = 200, 150
LIMIT = 60  # seconds for a program

SMALL = {"mask": range(16), "value": (0, 1, 42, 2**64 - 1), "limit": (0, 1, 2, 300), "n": (0, 5, 16, 65535)}
SMALL |= {"base": (0, 8, 16, 32), "len": (1, 8, 16), "off": range(17), "page": range(4), "frame": range(3)}


def command(chance, commands):
    """The bytes of a likely command: party 0, a number from the small ones, else below 4."""
    byte, (layout, _) = chance.choice(commands)
    data = bytes([byte])
    for word in layout.split():
        name, _, width = word.partition("/")
        choices = (0, 0, 0, 1, 3) if name == "P" else SMALL.get(name, range(4))
        data += chance.choice(choices).to_bytes(int(width or 1), "big")
    return data


def session(chance, commands):
    body = b"".join(command(chance, commands) for _ in range(COMMANDS))
    return bytes([0, chance.choice((1, 3, 4)), chance.choice((1, 2, 3))]) + body + (b"\xff\x00" if chance.random() < 0.1 else b"")


def lines(command, data):
    done = subprocess.run(command, input=data, capture_output=True, check=False, timeout=LIMIT)
    return done.stdout


def main():
    seed = int(sys.argv[1]) if len(sys.argv) > 1 else 1
    chance = random.Random(seed)
    commands = sorted(around.worded_commands(ROOT).items())
    agree = granted = 0
    with tempfile.TemporaryDirectory() as folder:
        path = pathlib.Path(folder, "session.hex")
        for number in range(SESSIONS):
            data = session(chance, commands)
            path.write_text(data.hex())
            proved = lines([PROVED], data)
            if proved and proved == lines([ROOT / "cetomuhi-desk", path], b""):
                agree += 1
            else:
                print(f"session {number} of seed {seed} differs: {data.hex()}")
            granted += sum(line.startswith(b"0 ") for line in proved.splitlines())
    print(f"{agree} of {SESSIONS} sessions agree; {granted} of {SESSIONS * COMMANDS} commands or starts are granted")
    return 0 if agree == SESSIONS and 10 * granted > SESSIONS * COMMANDS else 1


if __name__ == "__main__":
    sys.exit(main())
