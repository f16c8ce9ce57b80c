"""What the tests of cetomuhi-desk share: the program, compiled once with every warning as an error and
with the sanitizers, and a folder of its own for each test.

The library is libcetomuhi.a in the folder that CETOMUHI_LIB_DIR names, or in target/staticlib. DESK_SOURCES
names another folder for the program's sources than tools/desk, in which faults are planted, and DESK_PROGRAM
the program, if it is compiled already.
"""

import os
import pathlib
import re
import subprocess
import tempfile
import unittest

ROOT = pathlib.Path(__file__).resolve().parent.parent
SESSIONS = sorted(ROOT.glob("sessions/*.hex"))
LIBRARY = pathlib.Path(os.environ.get("CETOMUHI_LIB_DIR") or ROOT / "target/staticlib").resolve()
SOURCES = pathlib.Path(os.environ.get("DESK_SOURCES") or ROOT / "tools/desk")
LIMIT = 60  # seconds for a program

GOOD, DIFFERS, BAD_USE, OUTPUT_LOST, ENDED_EARLY, NOT_BUILT = range(6)

WARNINGS = "-Wall -Wextra -pedantic -Wconversion -Wsign-conversion -Wshadow -Werror".split()
SANITIZED = "-g -O1 -fsanitize=address,undefined -fno-sanitize-recover=all".split()

held = tempfile.TemporaryDirectory()
unittest.addModuleCleanup(held.cleanup)
program = pathlib.Path(os.environ.get("DESK_PROGRAM") or pathlib.Path(held.name, "cetomuhi-desk"))


def compile_program(out, include, *options):
    command = ["cc", "-std=c11", *WARNINGS, *options, f"-I{include}", *sorted(SOURCES.glob("*.c")),
               LIBRARY / "libcetomuhi.a", "-o", out]
    subprocess.run(command, check=True, timeout=LIMIT)


def setUpModule():
    if not program.exists():
        compile_program(program, ROOT / "include", *SANITIZED)


def run(*words, program=program, **changed):
    """Exit status, output and error text of the program, with these variables of the environment. The
    columns of who runs the tests play no part."""
    environment = {name: value for name, value in os.environ.items() if name != "COLUMNS"} | changed
    command = [str(program), *map(str, words)]
    done = subprocess.run(command, capture_output=True, check=False, env=environment, timeout=LIMIT,
                          encoding="utf-8", errors="surrogateescape", stdin=subprocess.DEVNULL)
    return done.returncode, done.stdout, done.stderr


class Case(unittest.TestCase):
    """A folder of its own, and what every test says of the program."""

    def setUp(self):
        holder = tempfile.TemporaryDirectory()
        self.addCleanup(holder.cleanup)
        self.folder = pathlib.Path(holder.name)

    def session(self, content, name="session.hex"):
        path = self.folder / name
        path.write_bytes(content if isinstance(content, bytes) else content.encode())
        return path

    def prints(self, expected, *words, status=GOOD, **changed):
        """The output is this, with this status; the last line of the error text is answered."""
        found, output, error = run(*words, **changed)
        self.assertEqual((found, output), (status, expected), error)
        return error.splitlines()[-1]

    def told(self, path, *lines, status, options=()):
        """The error text has these lines, each behind the program's and the file's name."""
        found, output, error = run(path, *options)
        self.assertEqual((found, error), (status, "".join(f"desk: {path}: {line}\n" for line in lines)))
        return output

    def refuses(self, fault, *words, status=BAD_USE):
        self.assertEqual(run(*words), (status, "", f"desk: {fault}\n"))


# A table's row: its word or none, what it is about, what is said of it.
ROW = re.compile(r" {4}(.{14})(.{20})(\S.*)")
CELLS = re.compile(r"cells? (\d+)(?: to (\d+))?")
RANGE = re.compile(r"(\d+)(?: to (\d+))?")


def spanned(pattern, text):
    """The numbers of a range in words."""
    first, last = re.fullmatch(pattern, text).groups()
    return list(range(int(first), int(last or first) + 1))


def split_tables(output):
    """The lines of an output, and the tables that stand below them, as texts."""
    lines = [line for line in output.splitlines() if line[:1].isdigit()]
    tables = re.findall(r"(?:^    .*\n)+", output, re.MULTILINE)
    return lines, tables


def standing(table):
    """A table without what the last call cleared, which is no part of the state."""
    return table.split("    cleared ")[0]
