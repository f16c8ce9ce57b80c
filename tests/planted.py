#!/usr/bin/env python3
"""Shows that the tests of cetomuhi-desk and of the scripts catch faults: `python3 tests/planted.py` tries
all, with the word `desk` or `scripts` one part.

Puts one fault after another into a copy of the sources and runs the test that is named with it, which must
then fail. Each function has a fault, or the program ends with its name. The faulty program is compiled
without the sanitizers, so that nothing but the test itself shows the fault.
"""

import os
import pathlib
import re
import shutil
import subprocess
import sys
import tempfile

import planted_desk
import planted_scripts
from desk_case import LIBRARY, ROOT, WARNINGS

LIMIT = 300  # seconds for a test or a compiler
FUNCTIONS = {
    "desk": re.compile(r"^[\w *]*?\b(\w+)\([^;{}#]*\)\n\{\n.*?^\}\n", re.MULTILINE | re.DOTALL),
    "scripts": re.compile(r"^(\w+)\(\) \{\n.*?^\}\n", re.MULTILINE | re.DOTALL),
}


def run(command, folder, **changed):
    """What a command came to; its folder is the copy's, in which a faulty script may write."""
    environment = {**os.environ, "CETOMUHI_LIB_DIR": str(LIBRARY), **changed}
    return subprocess.run(command, cwd=folder, env=environment, capture_output=True, check=False, timeout=LIMIT,
                          encoding="utf-8", errors="replace", stdin=subprocess.DEVNULL)


def must_run(command, folder):
    """A fault that does not compile is one of the list."""
    done = run(command, folder)
    if done.returncode != 0:
        sys.exit(done.stdout + done.stderr)


class Desk:
    """The program's sources, each compiled by itself, so that a fault takes one of them."""

    faults = planted_desk.FAULTS

    def __init__(self, folder):
        self.folder = folder
        self.program = folder / "cetomuhi-desk"
        shutil.copytree(ROOT / "tools/desk", folder, dirs_exist_ok=True)
        self.files = sorted(path.name for path in folder.glob("*.c"))
        for name in self.files:
            self.make(name)

    def make(self, name):
        must_run(["cc", "-std=c11", *WARNINGS, f"-I{ROOT / 'include'}", "-c", name], self.folder)

    def variables(self):
        objects = sorted(self.folder.glob("*.o"))
        must_run(["cc", *objects, LIBRARY / "libcetomuhi.a", "-o", self.program], self.folder)
        return {"DESK_PROGRAM": str(self.program), "DESK_SOURCES": str(self.folder)}


class Scripts:
    """The scripts, of which each small clone has copies."""

    faults = planted_scripts.FAULTS
    files = ("cetomuhi-desk", "install-programs", "histories", "tools/building.sh", "tools/proving.sh")

    def __init__(self, folder):
        self.folder = folder
        (folder / "tools").mkdir()
        for name in self.files:
            shutil.copy(ROOT / name, folder / name)

    def make(self, name):
        must_run(["bash", "-n", name], self.folder)

    def variables(self):
        return {"SCRIPTS_ROOT": str(self.folder)}


PARTS = {"desk": Desk, "scripts": Scripts}


def passes(part, tests):
    """Whether these tests of one file pass."""
    file = tests[0].split()[0]
    names = [test.split()[1] for test in tests]
    return run([sys.executable, ROOT / f"tests/{file}.py", *names], part.folder, **part.variables()).returncode == 0


def try_fault(part, name, fault):
    """Whether the test that is named with the fault shows it."""
    words, old, new, test = fault
    path = part.folder / name
    sound = path.read_text()
    path.write_text(sound.replace(old, new))
    part.make(name)
    missed = passes(part, [test])
    path.write_text(sound)
    part.make(name)
    print(f"{name}: {words}: {'MISSED' if missed else 'shown'} by {test}", flush=True)
    return not missed


def without_fault(part, pattern):
    """The functions of which no fault is listed. A text that does not stand once ends the program."""
    left = []
    for name in part.files:
        source = (part.folder / name).read_text()
        places = []
        for words, old, _, _ in part.faults[name]:
            if source.count(old) != 1:
                sys.exit(f"{name}: {words}: '{old}' stands {source.count(old)} times")
            places.append(source.index(old))
        for found in pattern.finditer(source):
            if not any(found.start() <= place < found.end() for place in places):
                left.append(f"{name} {found[1]}")
    return left


def try_part(which):
    """For each fault of a part whether it is caught."""
    with tempfile.TemporaryDirectory() as folder:
        part = PARTS[which](pathlib.Path(folder))
        if left := without_fault(part, FUNCTIONS[which]):
            sys.exit(f"no fault is planted in: {', '.join(left)}")
        tests = sorted({fault[3] for name in part.files for fault in part.faults[name]})
        for file in sorted({test.split()[0] for test in tests}):
            if not passes(part, [test for test in tests if test.split()[0] == file]):
                sys.exit(f"tests/{file}.py fails without a fault")
        return [try_fault(part, name, fault) for name in part.files for fault in part.faults[name]]


def main():
    wanted = sys.argv[1:] or list(PARTS)
    if len(wanted) > len(PARTS) or not set(wanted) <= set(PARTS):
        sys.exit("usage: python3 tests/planted.py [desk | scripts]")
    if not (LIBRARY / "libcetomuhi.a").is_file():
        sys.exit(f"{LIBRARY}/libcetomuhi.a is not there; CETOMUHI_LIB_DIR names its folder")
    caught = [each for which in wanted for each in try_part(which)]
    print(f"{sum(caught)} faults caught, {len(caught) - sum(caught)} missed")
    sys.exit(0 if all(caught) else 1)


if __name__ == "__main__":
    main()
