#!/usr/bin/env python3
"""Tries ./desk: its help, its errors, the words of refusals, and the tables of the state."""

import itertools
import os
import pathlib
import re
import shutil
import subprocess
import sys
import tempfile
import unittest

ROOT = pathlib.Path(__file__).resolve().parent.parent
SESSIONS = sorted(ROOT.glob("sessions/*.hex"))
LIBRARY = os.environ.get("CETOMUHI_LIB_DIR", str(ROOT / "target/staticlib"))


def desk(*words, root=ROOT, **changed):
    """Exit status, output and error text of ./desk, with these variables of the environment."""
    command = [str(root / "desk"), *map(str, words)]
    environment = {**os.environ, **changed}
    done = subprocess.run(command, capture_output=True, check=False, env=environment, text=True)
    return done.returncode, done.stdout, done.stderr


def setUpModule():
    """What is not built yet is built, once."""
    status, _, error = desk(SESSIONS[0], "--state")
    if status != 0:
        raise RuntimeError(error)


class Case(unittest.TestCase):
    """A folder of its own, and what every test says of ./desk."""

    def setUp(self):
        holder = tempfile.TemporaryDirectory()
        self.addCleanup(holder.cleanup)
        self.folder = pathlib.Path(holder.name)

    def session(self, text):
        path = self.folder / "session.hex"
        path.write_text(text)
        return path

    def prints(self, expected, *words):
        self.assertEqual(desk(*words), (0, expected, ""))

    def fails(self, fault, *words, **changed):
        self.assertEqual(desk(*words, **changed), (1, "", f"desk: {fault}\n"))


class Words(Case):
    """Help, and the errors that the words of the command line and the file make."""

    def test_help(self):
        for word in ("--help", "-h"):
            status, output, error = desk(word)
            self.assertEqual((status, error), (0, ""))
            options = ("--explain", "--state", "--state=end", "--map", "--help")
            for option in ("./desk FILE.hex", *options):
                self.assertIn(option, output)

    def test_words_that_are_wrong(self):
        session = SESSIONS[0]
        self.fails("no file is named; ./desk --help says how")
        self.fails("no file is named; ./desk --help says how", "--explain")
        for word in ("--states", "--state=all", "--map=end", "-x"):
            fault = f"{word}: no such option; ./desk --help says which there are"
            self.fails(fault, session, word)
        self.fails("a.hex and b.hex: one file at a time", "a.hex", "b.hex")

    def test_files_that_are_wrong(self):
        missing = self.folder / "missing.hex"
        for options in ((), ("--explain",), ("--state",), ("--map",)):
            self.fails(f"{missing}: No such file or directory", missing, *options)
            self.fails(f"{self.folder}: Is a directory", self.folder, *options)
            odd = self.session("00 02 01 # V and F\n\n0A 00 0\n")
            self.fails(f"{odd}: line 3: 5 digits, an odd count", odd, *options)
            other = self.session("00 02 01\n0A 00 0G\n")
            self.fails(f"{other}: line 2: 'G' is no hexadecimal digit", other, *options)

    def test_a_file_that_is_read_once(self):
        text = (ROOT / "sessions/document.hex").read_text()
        command = [ROOT / "desk", "/dev/stdin", "--explain"]
        done = subprocess.run(command, input=text, capture_output=True, check=False, text=True)
        expected = desk(ROOT / "sessions/document.hex", "--explain")
        self.assertEqual((done.returncode, done.stdout, done.stderr), expected)


class Building(Case):
    """Errors where something is missing, in a copy of what ./desk needs."""

    def setUp(self):
        super().setUp()
        self.root = self.folder / "root"
        (self.root / "target/bin").mkdir(parents=True)
        shutil.copy(ROOT / "desk", self.root)
        for name in ("tools", "include"):
            (self.root / name).symlink_to(ROOT / name)
        self.program = self.root / "target/bin/desk"
        self.program.symlink_to(ROOT / "target/bin/desk")
        self.document = ROOT / "sessions/document.hex"

    def path(self, *names):
        """A PATH with these programs and those that ./desk always uses."""
        folder = self.folder / "bin"
        folder.mkdir()
        (folder / "python3").symlink_to(sys.executable)
        for name in ("bash", "cat", "cmp", "dirname", "grep", "mktemp", "rm", "sed", *names):
            (folder / name).symlink_to(shutil.which(name))
        return str(folder)

    def misses(self, fault, *words, **changed):
        self.fails(fault, self.document, *words, root=self.root, **changed)

    def test_no_rt(self):
        path = self.path()
        archive = self.root / "target/staticlib/libcetomuhi.a"
        fault = f"{archive} is missing, and rt, which builds it, is not found"
        self.misses(fault, "--state", PATH=path, CETOMUHI_LIB_DIR="")
        self.program.unlink()
        self.misses(f"{self.program} is missing, and rt, which builds it, is not found", PATH=path)

    def test_an_rt_that_fails(self):
        path = self.path()
        failing = pathlib.Path(path, "rt")
        failing.write_text("#!/bin/sh\necho not proved\nexit 1\n")
        failing.chmod(0o755)
        archive = self.root / "target/staticlib/libcetomuhi.a"
        fault = f"not proved\ndesk: {archive} could not be built"
        self.misses(fault, "--state", PATH=path, CETOMUHI_LIB_DIR="")

    def test_no_library_and_no_compiler(self):
        archive = self.folder / "libcetomuhi.a"
        self.misses(f"{archive} is missing", "--state", CETOMUHI_LIB_DIR=str(self.folder))
        for option in ("--state", "--map"):
            fault = f"{option} needs a C compiler, and no-cc is not found"
            self.misses(fault, option, CC="no-cc", CETOMUHI_LIB_DIR=LIBRARY)

    # Times in seconds from the epoch: all parts at 1, the program at 2, then one part at 3.
    def test_a_part_that_is_newer(self):
        for name in ("tools", "include"):
            (self.root / name).unlink()
            shutil.copytree(ROOT / name, self.root / name)
        archive = self.root / "target/staticlib/libcetomuhi.a"
        archive.parent.mkdir()
        shutil.copy(f"{LIBRARY}/libcetomuhi.a", archive)
        parts = [*self.root.glob("tools/*.[ch]"), self.root / "include/cetomuhi.h", archive]
        self.assertEqual(len(parts), 5)
        shower = self.root / "target/tools/show_state"
        words = (self.document, "--state=end")
        expected = desk(*words, root=self.root, CETOMUHI_LIB_DIR="")
        for newer in (None, *parts):
            for part in parts:
                os.utime(part, (1, 1))
            os.utime(shower, (2, 2))
            if newer:
                os.utime(newer, (3, 3))
            self.assertEqual(desk(*words, root=self.root, CETOMUHI_LIB_DIR=""), expected)
            self.assertEqual(shower.stat().st_mtime != 2, newer is not None, newer)

    def test_a_program_with_other_lines(self):
        self.program.unlink()
        self.program.write_text("#!/bin/sh\necho 0 0 0\n")
        self.program.chmod(0o755)
        fault = f"{self.document}: the program's lines are not the library's"
        for option in ("--state", "--map"):
            self.misses(fault, option, CETOMUHI_LIB_DIR=LIBRARY)


# Each command after a start with V 2 and F 1, and why it is refused; granted ones have no reason.
REFUSED = [
    ("01 08 0000 00", "there is no party 8"),
    ("04 00 0000 09", "there is no party 9"),
    ("11 08 0000 09 0F", "there is no party 8 and no register 9"),
    ("0D 08 09 0000 0001 0F 0A", "there is no party 8 and no register 9 and no register 10"),
    ("05 01 0000", "only party 0 may"),
    ("06 01 0001", "only party 0 may"),
    ("07 01", "only party 0 may"),
    ("08 01 00 00", "only party 0 may"),
    ("09 01 00", "only party 0 may"),
    ("0A 01 00", "only party 0 may"),
    ("01 01 0000 00", "party 1 holds none that begins there"),
    ("11 01 0000 00 0F", "party 1 holds none that begins there"),
    ("02 01 0000 0001", "party 1 holds none that begins there"),
    ("03 01 0000", "party 1 holds none that begins there"),
    ("04 01 0000 01", "party 1 holds none that begins there"),
    ("05 00 0001", "party 0 holds none that begins there"),
    ("03 00 0000", "party 0 holds no next one, or the two are not both Open or both Taken"),
    ("02 00 0000 0000", "the length is 0 or not below the reservation's"),
    ("06 00 0001", "no revocation runs"),
    ("07 00", "no revocation runs, or cells are left to sweep"),
    ("08 00 02 01", "there is no page 2 or no frame 1"),
    ("09 00 02", "there is no page 2"),
    ("0A 00 01", "there is no frame 1"),
    ("09 00 00", "the page is not Mapped"),
    ("08 00 00 00", "the frame is not Free"),
    ("0A 00 00", None),
    ("0A 00 00", "the frame is not Dirty"),
    ("08 00 00 00", None),
    ("08 00 00 00", "the page is not Unmapped"),
    ("0B 00 00 0000 01", "register 0 holds no capability"),
    ("0C 00 01 0000 01", "register 1 holds no capability"),
    ("0D 00 02 0000 0001 0F 01", "register 2 holds no capability"),
    ("0F 00 03 01", "register 3 holds no capability"),
    ("10 00 00", "the mailbox of party 0 is empty"),
    ("02 00 0000 000F", None),
    ("05 00 0000", "its base or its length is no multiple of 16"),
    ("03 00 0000", None),
    ("02 00 0000 0010", None),
    ("01 00 0000 00", None),
    ("01 00 0000 00", "it is not Open"),
    ("11 00 0000 00 0F", "it is not Open"),
    ("02 00 0000 0001", "it is not Open"),
    ("04 00 0000 01", "it is not Open"),
    ("05 00 0000", "a page of it is Mapped"),
    ("0D 00 00 0000 0010 00 01", None),
    ("0B 00 01 0000 02", "the capability has no permission to load"),
    (
        "0C 00 01 0000 02",
        "the capability has no permission to store, or none to store capabilities",
    ),
    (
        "0C 00 00 0000 00",
        "the capability has no permission to store, or none to store capabilities",
    ),
    ("0B 00 00 0010 02", "the offset is not below the capability's length"),
    ("0C 00 00 0010 02", "the offset is not below the capability's length"),
    (
        "0D 00 00 0000 0000 0F 02",
        "the length is 0, or the range ends past the capability or begins above 65,535",
    ),
    ("11 00 0010 03 0F", None),
    ("0B 00 03 0000 02", "the page there is not Mapped"),
    ("0C 00 03 0000 02", "the page there is not Mapped"),
    ("0F 00 00 01", None),
    ("0F 00 00 01", "the mailbox of party 1 is full"),
    ("05 00 0010", None),
    ("05 00 0010", "it is Revoking already"),
    ("05 00 0000", "a revocation runs already"),
    ("12 00 00 01 0000 08", "there is no party 8"),
    ("12 01 00 01 0000 01", "party 1 holds no principal 0, or 1 is taken or above 31"),
    ("12 00 00 00 0000 01", "party 0 holds no principal 0, or 0 is taken or above 31"),
    ("12 00 00 01 2001 01", "principal 0 has less than 8193 unspent"),
    ("12 00 00 01 0001 03", None),
    ("13 03 01 02", "there is no page 2"),
    ("13 00 01 00", "party 0 holds no principal 1"),
    ("13 03 01 00", None),
    ("13 03 01 01", "principal 1 has nothing unspent, or its count is 65,535"),
    ("14 03 01 02", "there is no page 2"),
    ("14 03 02 00", "party 3 holds no principal 2"),
    ("14 03 01 01", "principal 1 does not claim the page"),
    ("09 00 00", "the page has a claim"),
    ("15 03 01", "there is no such principal, or party 3 does not hold its parent"),
    ("FF", "FF is no command"),
]


class Explained(Case):
    def test_lines_and_refusals_of_every_session(self):
        for path in SESSIONS:
            stored = path.with_suffix(".out").read_text()
            self.prints(stored, path)
            status, output, error = desk(path, "--explain")
            self.assertEqual((status, error), (0, ""))
            shown = output.splitlines()
            lines = [" ".join(line.split()[:3]) for line in shown]
            self.assertEqual(lines, stored.splitlines())
            for line in shown:
                self.assertEqual(line.startswith("0 "), "refused: " not in line)

    def test_every_refusal_has_its_words(self):
        path = self.session("0002 01\n" + "\n".join(command for command, _ in REFUSED))
        status, output, error = desk(path, "--explain")
        self.assertEqual((status, error), (0, ""))
        reasons = [(line.split("refused: ") + [None])[1] for line in output.splitlines()]
        self.assertEqual(reasons, [None, *(reason for _, reason in REFUSED)])

    def test_a_full_table(self):
        splits = "".join(f"02 00 {base:04X} 0001\n" for base in range(64))
        output = desk(self.session(f"0005 01\n{splits}"), "--explain")[1].splitlines()
        self.assertEqual(output[64].split("refused: ")[1], "the table has 64 reservations")
        self.assertNotIn("refused", output[63])

    def test_starts(self):
        expected = "start with V 257 and F 1; refused: V is not 1 to 256, or F is not 1 to 128"
        self.prints(f"1 0 0  {expected}\n", self.session("0101 01 0700"), "--explain")
        self.prints("1 0 0  refused: start, cut short\n", self.session("0001"), "--explain")
        expected = (
            "0 0 0  start with V 1 and F 1\n3 0 0  refused: the input ends within command 08\n"
        )
        self.prints(expected, self.session("0001 01 08 00"), "--explain")


# A table's row: its word or none, what it is about, what is said of it.
ROW = re.compile(r" {4}(.{14})(.{20})(\S.*)")
CELLS = re.compile(r"cells? (\d+)(?: to (\d+))?")
RANGE = re.compile(r"(\d+)(?: to (\d+))?")
SHOWN = re.compile(r"Mapped to frames? (\d+)(?: to (\d+))?")
CAPABILITY = (
    r"base \d+, length \d+, "
    r"(no permission|load(, store)?(, load capability)?(, store capability)?"
    r"|store(, load capability)?(, store capability)?"
    r"|load capability(, store capability)?|store capability), tag 1"
)
SAID = {
    "reservations": (
        r"Open, held by party [0-7]|Taken by (party [0-7]|several parties)"
        r"|Revoking, taken by (party [1-7]|party 0 or by nobody|several parties)"
    ),
    "revocation": r"sweep place \d+ of \d+",
    "pages": r"Unmapped|Freed|Mapped to frames? \d+( to \d+)?",
    "frames": r"Dirty|Free|Mapped",
    "registers": CAPABILITY + r"|number \d+, tag 0",
    "mailboxes": CAPABILITY,
    "principals": r"held by party [0-7], (below \d+, )?limit \d+, unspent \d+",
    "claims": r"principal \d+, count [1-9]\d*",
}
LIMITS = re.compile(r"held by party \d, (?:below (\d+), )?limit (\d+), unspent (\d+)")
PAGES = re.compile(r"pages? (\d+)(?: to (\d+))?")


def spanned(pattern, text):
    """The numbers of a range in words."""
    first, last = re.fullmatch(pattern, text).groups()
    return list(range(int(first), int(last or first) + 1))


def split_tables(output):
    """The lines of an output, and the tables that stand below them, as texts."""
    lines = [line for line in output.splitlines() if line[:1].isdigit()]
    tables = re.findall(r"(?:^    .*\n)+", output, re.MULTILINE)
    return lines, tables


# By hand: frames 4 to 7, 2 and 1 are zeroed and mapped to pages 0 to 5, and page 5 is unmapped
# again; cell 0 is taken with mask 0F, narrowed to permissions 5 and to none, and granted; cell 1 is
# taken, which gives permissions 3.
SUMMED = """\
    reservations  cell 0              Taken by party 0
                  cell 1              Taken by party 0
                  cells 2 to 4095     Open, held by party 0
    pages         0 to 3              Mapped to frames 4 to 7
                  4                   Mapped to frame 2
                  5                   Freed
                  6 to 255            Unmapped
    frames        0 to 1              Dirty
                  2                   Mapped
                  3                   Dirty
                  4 to 7              Mapped
                  8 to 127            Dirty
    registers     party 0 register 0  base 0, length 1, load, load capability, tag 1
                  party 0 register 1  base 0, length 1, no permission, tag 1
                  party 0 register 2  base 1, length 1, load, store, tag 1
                  party 0 register 7  base 0, length 1, load, store, load capability, store capability, tag 1
    mailboxes     party 7             base 0, length 1, load, load capability, tag 1
"""

# By hand, from request 2026-04: commands after a start with V 6 and F 1, and a row that the table
# then has.
TAKERS = [
    ("02 00 0000 0010", "16 to 95: Open, held by party 0"),
    ("02 00 0010 0010", "32 to 95: Open, held by party 0"),
    ("02 00 0020 0010", "48 to 95: Open, held by party 0"),
    ("02 00 0030 0010", "64 to 95: Open, held by party 0"),
    ("04 00 0000 03", "0 to 15: Open, held by party 3"),
    ("01 03 0000 00", "0 to 15: Taken by party 3"),
    ("04 00 0010 03", "16 to 31: Open, held by party 3"),
    ("11 03 0010 01 00", "16 to 31: Taken by party 3"),
    ("04 00 0020 05", "32 to 47: Open, held by party 5"),
    ("11 05 0020 00 0F", "32 to 47: Taken by party 5"),
    ("01 00 0030 00", "48 to 63: Taken by party 0"),
    ("03 00 0000", "0 to 31: Taken by party 3"),
    ("03 00 0000", "0 to 47: Taken by several parties"),
    ("05 00 0000", "0 to 47: Revoking, taken by several parties"),
    ("06 00 0010", "0 to 47: Revoking, taken by several parties"),
    ("07 00", "0 to 47: Open, held by party 0"),
    ("05 00 0030", "48 to 63: Revoking, taken by party 0 or by nobody"),
    ("06 00 0010", "48 to 63: Revoking, taken by party 0 or by nobody"),
    ("07 00", "48 to 63: Open, held by party 0"),
    ("05 00 0040", "64 to 95: Revoking, taken by party 0 or by nobody"),
    ("06 00 0010", "64 to 95: Revoking, taken by party 0 or by nobody"),
    ("07 00", "64 to 95: Open, held by party 0"),
    ("03 00 0000", "0 to 63: Open, held by party 0"),
    ("03 00 0000", "0 to 95: Open, held by party 0"),
    ("04 00 0000 07", "0 to 95: Open, held by party 7"),
    ("01 07 0000 07", "0 to 95: Taken by party 7"),
    ("05 00 0000", "0 to 95: Revoking, taken by party 7"),
]


# By hand, from request 2026-02: commands after a start with V 6 and F 1, and below each the rows of
# principals and claims that there are then.
CLAIMED = """\
13 00 00 05
    0: held by party 0, limit 8192, unspent 8191
    page 5: principal 0, count 1
14 00 00 05
12 00 00 02 000A 03
    0: held by party 0, limit 8182, unspent 8182
    2: held by party 3, below 0, limit 10, unspent 10
12 03 02 01 0004 05
    0: held by party 0, limit 8182, unspent 8182
    1: held by party 5, below 2, limit 4, unspent 4
    2: held by party 3, below 0, limit 6, unspent 6
13 05 01 00
    0: held by party 0, limit 8182, unspent 8182
    1: held by party 5, below 2, limit 4, unspent 3
    2: held by party 3, below 0, limit 6, unspent 6
    page 0: principal 1, count 1
13 05 01 02
    0: held by party 0, limit 8182, unspent 8182
    1: held by party 5, below 2, limit 4, unspent 2
    2: held by party 3, below 0, limit 6, unspent 6
    page 0: principal 1, count 1
    page 2: principal 1, count 1
13 05 01 01
    0: held by party 0, limit 8182, unspent 8182
    1: held by party 5, below 2, limit 4, unspent 1
    2: held by party 3, below 0, limit 6, unspent 6
    pages 0 to 2: principal 1, count 1
13 05 01 01
    0: held by party 0, limit 8182, unspent 8182
    1: held by party 5, below 2, limit 4, unspent 1
    2: held by party 3, below 0, limit 6, unspent 6
    page 0: principal 1, count 1
    page 1: principal 1, count 2
    page 2: principal 1, count 1
13 03 02 01
    0: held by party 0, limit 8182, unspent 8182
    1: held by party 5, below 2, limit 4, unspent 1
    2: held by party 3, below 0, limit 6, unspent 5
    page 0: principal 1, count 1
    page 1: principal 1, count 2
    page 2: principal 1, count 1
    page 1: principal 2, count 1
14 05 01 00
    0: held by party 0, limit 8182, unspent 8182
    1: held by party 5, below 2, limit 4, unspent 2
    2: held by party 3, below 0, limit 6, unspent 5
    page 1: principal 1, count 2
    page 2: principal 1, count 1
    page 1: principal 2, count 1
15 03 01
    0: held by party 0, limit 8182, unspent 8182
    2: held by party 3, below 0, limit 10, unspent 9
    page 1: principal 2, count 1
12 00 00 1F 1FF6 00
    0: held by party 0, limit 0, unspent 0
    2: held by party 3, below 0, limit 10, unspent 9
    31: held by party 0, below 0, limit 8182, unspent 8182
    page 1: principal 2, count 1
15 00 02
    0: held by party 0, limit 10, unspent 10
    31: held by party 0, below 0, limit 8182, unspent 8182
15 00 1F
"""


class State(Case):
    def tables(self, text):
        """A table's rows by its words."""
        found = {}
        for line in text.splitlines():
            word, thing, said = ROW.fullmatch(line).groups()
            latest = word.strip() or latest
            self.assertRegex(said, f"^({SAID[latest]})$")
            found.setdefault(latest, []).append((thing.strip(), said))
        self.assertEqual(list(found), [word for word in SAID if word in found])
        return found

    def limits_agree(self, found, v):
        """The limits add up to 8,192, parents are in being, and pages claimed are what is spent."""
        rows = found.get("principals", [])
        limits = {int(p): LIMITS.fullmatch(said).groups() for p, said in rows}
        parents = {int(parent) for parent, _, _ in limits.values() if parent}
        self.assertLessEqual(parents, {*limits})
        self.assertEqual([p for p in limits if not limits[p][0]], [0] if limits else [])
        total = sum(int(limit) for _, limit, _ in limits.values())
        self.assertEqual(total, 8192 if limits else 0)
        spent = dict.fromkeys(limits, 0)
        for thing, said in found.get("claims", []):
            pages = spanned(PAGES, thing)
            self.assertLess(max(pages), v)
            spent[int(said.split()[1].rstrip(","))] += len(pages)
        left = {p: int(limit) - int(unspent) for p, (_, limit, unspent) in limits.items()}
        self.assertEqual(spent, left)

    def agrees(self, text, v, f):
        """The rows cover each cell, page and frame once, and say the same of Mapped frames, of a
        revocation and of limits."""
        found = self.tables(text)
        self.limits_agree(found, v)
        cells = [n for thing, _ in found["reservations"] for n in spanned(CELLS, thing)]
        pages = [n for thing, _ in found["pages"] for n in spanned(RANGE, thing)]
        frames = [n for thing, _ in found["frames"] for n in spanned(RANGE, thing)]
        self.assertEqual(cells, list(range(16 * v)))
        self.assertEqual((pages, frames), (list(range(v)), list(range(f))))
        mapped = [thing for thing, said in found["frames"] if said == "Mapped"]
        shown = [said for _, said in found["pages"] if said.startswith("Mapped")]
        self.assertEqual(
            sorted(n for said in shown for n in spanned(SHOWN, said)),
            [n for thing in mapped for n in spanned(RANGE, thing)],
        )
        rows = found["reservations"]
        revoked = [thing for thing, said in rows if said.startswith("Revoking")]
        self.assertEqual([thing for thing, _ in found.get("revocation", [])], revoked)

    # sessions/document.state was written by hand from document 01, before the tables were first
    # printed: its commands and lines are those of "One session in full", the take by command 11 with
    # mask 0F as request 2026-01 says, and what each command changes is the sentence for it under
    # "Commands", with the taker that request 2026-04 adds. The sums: V 2 is cells 0 to 31 and F 1
    # is 16 cells of memory; mask 0F gives permissions 15, which are all four; 64425558016 is
    # 15 x 2^32 + 16 x 2^16, the number that is left of it when the collect clears its tag; the
    # stores change lent memory alone, so that the state is as before.
    def test_document(self):
        document = ROOT / "sessions/document.hex"
        expected = document.with_suffix(".state").read_text()
        self.prints(expected, document, "--explain", "--state")

    def test_state_without_words(self):
        document = ROOT / "sessions/document.hex"
        _, tables = split_tables(document.with_suffix(".state").read_text())
        lines = document.with_suffix(".out").read_text()
        both = [line + "\n" + table for line, table in zip(lines.splitlines(), tables)]
        self.prints("\n".join(both), document, "--state")
        self.prints(lines + "\n" + tables[-2], document, "--state=end")

    def test_every_session(self):
        for path in SESSIONS:
            stored = path.with_suffix(".out").read_text().splitlines()
            status, output, error = desk(path, "--state")
            self.assertEqual((status, error), (0, ""))
            lines, tables = split_tables(output)
            self.assertEqual((lines, len(tables)), (stored, len(stored)))
            start = bytes.fromhex(re.search("(?m)^0[0-9A-F ]*", path.read_text())[0])
            size = (start[0] << 8 | start[1], start[2])
            shown = [table for table in tables if table != "    as before\n"]
            for table in shown:
                self.agrees(table, *size)
            refused = [not line.startswith("0 ") for line in lines]
            for table in itertools.compress(tables, refused):
                self.assertEqual(table, "    as before\n")
            self.prints("\n".join([*stored, "", shown[-1]]), path, "--state=end")

    def test_a_refused_start(self):
        for text in ("0101 01 0700", "0001 00", "0001", ""):
            self.prints("1 0 0\n    all zero\n", self.session(text), "--state")
            self.prints("1 0 0\n\n    all zero\n", self.session(text), "--state=end")

    def test_rows_are_summed_up(self):
        frames = [4, 5, 6, 7, 2, 1]
        commands = [f"0A 00 {frame:02X}" for frame in frames]
        commands += [f"08 00 {page:02X} {frame:02X}" for page, frame in enumerate(frames)]
        commands += ["09 00 05", "02 00 0000 0001", "02 00 0001 0001"]
        commands += ["11 00 0000 07 0F", "01 00 0001 02"]
        commands += ["0D 00 07 0000 0001 05 00", "0D 00 07 0000 0001 10 01", "0F 00 00 07"]
        path = self.session("0100 80\n" + "\n".join(commands))
        lines = "0 0 0\n" * 16 + "0 1 0\n" * 2 + "0 0 0\n" * 3
        self.prints(lines + "\n" + SUMMED, path, "--state=end")

    def test_takers(self):
        path = self.session("0006 01\n" + "\n".join(command for command, _ in TAKERS))
        status, output, error = desk(path, "--state")
        self.assertEqual((status, error), (0, ""))
        lines, tables = split_tables(output)
        self.assertEqual((len(lines), len(tables)), (1 + len(TAKERS), 1 + len(TAKERS)))
        for (command, expected), table in zip(TAKERS, tables[1:]):
            rows = [f"{thing}: {said}" for thing, said in self.tables(table)["reservations"]]
            self.assertIn(f"cells {expected}", rows, command)
            self.agrees(table, 6, 1)

    def test_claims(self):
        commands = re.findall("(?m)^[0-9A-F].*", CLAIMED)
        path = self.session("0006 01\n" + "\n".join(commands))
        status, output, error = desk(path, "--state")
        self.assertEqual((status, error), (0, ""))
        lines, tables = split_tables(output)
        self.assertEqual(lines, ["0 0 0"] * (1 + len(commands)))
        shown = ""
        for command, table in zip(commands, tables[1:], strict=True):
            found = self.tables(table)
            rows = found.get("principals", []) + found.get("claims", [])
            shown += f"{command}\n" + "".join(f"    {thing}: {said}\n" for thing, said in rows)
            self.agrees(table, 6, 1)
        self.assertEqual(shown, CLAIMED)


if __name__ == "__main__":
    unittest.main()
