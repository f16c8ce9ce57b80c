#!/usr/bin/env python3
"""Tries the tables of state and memory that cetomuhi-desk shows.

The rows expected here were written from the documents, none taken from a run.
"""

import itertools
import re
import unittest

# unittest calls setUpModule.
from desk_case import (CELLS, ENDED_EARLY, GOOD, RANGE, ROOT, ROW, SESSIONS, Case, run, setUpModule, spanned,
                       split_tables, standing)

SHOWN = re.compile(r"Mapped to frames? (\d+)(?: to (\d+))?")
PERMISSIONS = (
    r"(no permission|all permissions|((load|store|load and store)(, |$|(?=;)))?"
    r"((load|store|load and store) capabilities)?)"
)
CAPABILITY = rf"cells? \d+( to \d+)?, {PERMISSIONS}(; dying)?"
SAID = {
    "reservations": (
        r"Open, held by party [0-7]|Taken by (party [0-7]|several parties)"
        r"|Revoking, taken by (party [1-7]|party 0 or by nobody|several parties)"
    ),
    "revocation": r"sweep place \d+ of \d+",
    "pages": r"Unmapped|Freed|Mapped to frames? \d+( to \d+)?",
    "frames": r"Dirty|Free|Mapped",
    "registers": CAPABILITY + r"|number \d+",
    "mailboxes": CAPABILITY,
    "principals": r"held by party [0-7], (below \d+, )?limit \d+, unspent \d+",
    "claims": r"principal \d+, count [1-9]\d*",
    "memory": CAPABILITY + r"|number [1-9]\d*",
    "cleared": CAPABILITY,
}
LIMITS = re.compile(r"held by party \d, (?:below (\d+), )?limit (\d+), unspent (\d+)")
PAGES = re.compile(r"pages? (\d+)(?: to (\d+))?")


# By hand: frames 4 to 7, 2 and 1 are zeroed and mapped to pages 0 to 5, and page 5 is unmapped
# again; cell 0 is taken with mask 0F, narrowed to permissions 5 and to none, and granted; cell 1 is
# taken, which gives permissions 3.
SUMMED = """\
    reservations  cell 0              Taken by party 0
                  cell 1              Taken by party 0
                  cells 2 to 4095     Open, held by party 0
    pages         0 to 3              Mapped to frames 4 to 7
                  4                   Mapped to frame 2
                  5                   Freed
                  6 to 255            Unmapped
    frames        0 to 1              Dirty
                  2                   Mapped
                  3                   Dirty
                  4 to 7              Mapped
                  8 to 127            Dirty
    registers     party 0 register 0  cell 0, load, load capabilities
                  party 0 register 1  cell 0, no permission
                  party 0 register 2  cell 1, load and store
                  party 0 register 7  cell 0, all permissions
    mailboxes     party 7             cell 0, load, load capabilities
"""

# By hand, from request 2026-04: commands after a start with V 6 and F 1, and a row that the table
# then has.
TAKERS = [
    ("02 00 0000 0010", "16 to 95: Open, held by party 0"),
    ("02 00 0010 0010", "32 to 95: Open, held by party 0"),
    ("02 00 0020 0010", "48 to 95: Open, held by party 0"),
    ("02 00 0030 0010", "64 to 95: Open, held by party 0"),
    ("04 00 0000 03", "0 to 15: Open, held by party 3"),
    ("01 03 0000 00", "0 to 15: Taken by party 3"),
    ("04 00 0010 03", "16 to 31: Open, held by party 3"),
    ("11 03 0010 01 00", "16 to 31: Taken by party 3"),
    ("04 00 0020 05", "32 to 47: Open, held by party 5"),
    ("11 05 0020 00 0F", "32 to 47: Taken by party 5"),
    ("01 00 0030 00", "48 to 63: Taken by party 0"),
    ("03 00 0000", "0 to 31: Taken by party 3"),
    ("03 00 0000", "0 to 47: Taken by several parties"),
    ("05 00 0000", "0 to 47: Revoking, taken by several parties"),
    ("06 00 0010", "0 to 47: Revoking, taken by several parties"),
    ("07 00", "0 to 47: Open, held by party 0"),
    ("05 00 0030", "48 to 63: Revoking, taken by party 0 or by nobody"),
    ("06 00 0010", "48 to 63: Revoking, taken by party 0 or by nobody"),
    ("07 00", "48 to 63: Open, held by party 0"),
    ("05 00 0040", "64 to 95: Revoking, taken by party 0 or by nobody"),
    ("06 00 0010", "64 to 95: Revoking, taken by party 0 or by nobody"),
    ("07 00", "64 to 95: Open, held by party 0"),
    ("03 00 0000", "0 to 63: Open, held by party 0"),
    ("03 00 0000", "0 to 95: Open, held by party 0"),
    ("04 00 0000 07", "0 to 95: Open, held by party 7"),
    ("01 07 0000 07", "0 to 95: Taken by party 7"),
    ("05 00 0000", "0 to 95: Revoking, taken by party 7"),
]


# By hand, from request 2026-02: commands after a start with V 6 and F 1, and below each the rows of
# principals and claims that there are then.
CLAIMED = """\
13 00 00 05
    0: held by party 0, limit 8192, unspent 8191
    page 5: principal 0, count 1
14 00 00 05
12 00 00 02 000A 03
    0: held by party 0, limit 8182, unspent 8182
    2: held by party 3, below 0, limit 10, unspent 10
12 03 02 01 0004 05
    0: held by party 0, limit 8182, unspent 8182
    1: held by party 5, below 2, limit 4, unspent 4
    2: held by party 3, below 0, limit 6, unspent 6
13 05 01 00
    0: held by party 0, limit 8182, unspent 8182
    1: held by party 5, below 2, limit 4, unspent 3
    2: held by party 3, below 0, limit 6, unspent 6
    page 0: principal 1, count 1
13 05 01 02
    0: held by party 0, limit 8182, unspent 8182
    1: held by party 5, below 2, limit 4, unspent 2
    2: held by party 3, below 0, limit 6, unspent 6
    page 0: principal 1, count 1
    page 2: principal 1, count 1
13 05 01 01
    0: held by party 0, limit 8182, unspent 8182
    1: held by party 5, below 2, limit 4, unspent 1
    2: held by party 3, below 0, limit 6, unspent 6
    pages 0 to 2: principal 1, count 1
13 05 01 01
    0: held by party 0, limit 8182, unspent 8182
    1: held by party 5, below 2, limit 4, unspent 1
    2: held by party 3, below 0, limit 6, unspent 6
    page 0: principal 1, count 1
    page 1: principal 1, count 2
    page 2: principal 1, count 1
13 03 02 01
    0: held by party 0, limit 8182, unspent 8182
    1: held by party 5, below 2, limit 4, unspent 1
    2: held by party 3, below 0, limit 6, unspent 5
    page 0: principal 1, count 1
    page 1: principal 1, count 2
    page 2: principal 1, count 1
    page 1: principal 2, count 1
14 05 01 00
    0: held by party 0, limit 8182, unspent 8182
    1: held by party 5, below 2, limit 4, unspent 2
    2: held by party 3, below 0, limit 6, unspent 5
    page 1: principal 1, count 2
    page 2: principal 1, count 1
    page 1: principal 2, count 1
15 03 01
    0: held by party 0, limit 8182, unspent 8182
    2: held by party 3, below 0, limit 10, unspent 9
    page 1: principal 2, count 1
12 00 00 1F 1FF6 00
    0: held by party 0, limit 0, unspent 0
    2: held by party 3, below 0, limit 10, unspent 9
    31: held by party 0, below 0, limit 8182, unspent 8182
    page 1: principal 2, count 1
15 00 02
    0: held by party 0, limit 10, unspent 10
    31: held by party 0, below 0, limit 8182, unspent 8182
15 00 1F
"""


class State(Case):
    def tables(self, text):
        """A table's rows by its words."""
        found = {}
        for line in text.splitlines():
            word, thing, said = ROW.fullmatch(line).groups()
            latest = word.strip() or latest
            self.assertRegex(said, f"^({SAID[latest]})$")
            found.setdefault(latest, []).append((thing.strip(), said))
        self.assertEqual(list(found), [word for word in SAID if word in found])
        return found

    def limits_agree(self, found, v):
        """The limits add up to 8,192, parents are in being, and pages claimed are what is spent."""
        rows = found.get("principals", [])
        limits = {int(p): LIMITS.fullmatch(said).groups() for p, said in rows}
        parents = {int(parent) for parent, _, _ in limits.values() if parent}
        self.assertLessEqual(parents, {*limits})
        self.assertEqual([p for p in limits if not limits[p][0]], [0] if limits else [])
        total = sum(int(limit) for _, limit, _ in limits.values())
        self.assertEqual(total, 8192 if limits else 0)
        spent = dict.fromkeys(limits, 0)
        for thing, said in found.get("claims", []):
            pages = spanned(PAGES, thing)
            self.assertLess(max(pages), v)
            spent[int(said.split()[1].rstrip(","))] += len(pages)
        left = {p: int(limit) - int(unspent) for p, (_, limit, unspent) in limits.items()}
        self.assertEqual(spent, left)

    def agrees(self, text, v, f):
        """The rows cover each cell, page and frame once, and say the same of Mapped frames, of a
        revocation and of limits."""
        found = self.tables(text)
        self.limits_agree(found, v)
        cells = [n for thing, _ in found["reservations"] for n in spanned(CELLS, thing)]
        pages = [n for thing, _ in found["pages"] for n in spanned(RANGE, thing)]
        frames = [n for thing, _ in found["frames"] for n in spanned(RANGE, thing)]
        self.assertEqual(cells, list(range(16 * v)))
        self.assertEqual((pages, frames), (list(range(v)), list(range(f))))
        mapped = [thing for thing, said in found["frames"] if said == "Mapped"]
        shown = [said for _, said in found["pages"] if said.startswith("Mapped")]
        self.assertEqual(
            sorted(n for said in shown for n in spanned(SHOWN, said)),
            [n for thing in mapped for n in spanned(RANGE, thing)],
        )
        rows = found["reservations"]
        revoked = [thing for thing, said in rows if said.startswith("Revoking")]
        self.assertEqual([thing for thing, _ in found.get("revocation", [])], revoked)

    # sessions/document.tables was written by hand from document 01, before the tables were first
    # printed: its commands and lines are those of "One session in full", the take by command 11 with
    # mask 0F as request 2026-01 says, and what each command changes is the sentence for it under
    # "Commands", with the taker that request 2026-04 adds. The sums: V 2 is cells 0 to 31 and F 1
    # is 16 cells of memory; mask 0F gives permissions 15, which are all four; 64425558016 is
    # 15 x 2^32 + 16 x 2^16, the number that is left of it when the collect clears its tag. Memory is
    # shown while its frame is Mapped: cell 5 from its store on, cell 6 from its own, neither after the
    # unmap. The capabilities in registers 0 and 2 are dying from the revoke on, and the collect clears
    # them.
    def test_document(self):
        document = ROOT / "sessions/document.hex"
        expected = document.with_suffix(".tables").read_text()
        self.prints(expected, document, "--explain", "--state")

    def test_state_without_words(self):
        document = ROOT / "sessions/document.hex"
        _, tables = split_tables(document.with_suffix(".tables").read_text())
        lines = document.with_suffix(".out").read_text()
        both = [line + "\n" + table for line, table in zip(lines.splitlines(), tables)]
        self.prints("\n".join(both), document, "--state")
        self.prints(lines + "\n" + standing(tables[-2]), document, "--state=end")

    def test_every_session(self):
        for path in SESSIONS:
            stored = path.with_suffix(".out").read_text().splitlines()
            status, output, error = run(path, "--state")
            self.assertEqual(status, GOOD, error)
            lines, tables = split_tables(output)
            self.assertEqual((lines, len(tables)), (stored, len(stored)))
            start = bytes.fromhex(re.search("(?m)^0[0-9A-F ]*", path.read_text())[0])
            size = (start[0] << 8 | start[1], start[2])
            shown = [table for table in tables if table != "    as before\n"]
            for table in shown:
                self.agrees(table, *size)
            refused = [not line.startswith("0 ") for line in lines]
            for table in itertools.compress(tables, refused):
                self.assertEqual(table, "    as before\n")
            self.prints("\n".join([*stored, "", standing(shown[-1])]), path, "--state=end")

    def test_a_refused_start(self):
        for text in ("0101 01 0700", "0001 00", "0001", ""):
            for option in ("--state", "--state=changes"):
                self.prints("1 0 0\n    all zero\n", self.session(text), option, status=ENDED_EARLY)
            self.prints("1 0 0\n\n    all zero\n", self.session(text), "--state=end", status=ENDED_EARLY)

    def test_rows_are_summed_up(self):
        frames = [4, 5, 6, 7, 2, 1]
        commands = [f"0A 00 {frame:02X}" for frame in frames]
        commands += [f"08 00 {page:02X} {frame:02X}" for page, frame in enumerate(frames)]
        commands += ["09 00 05", "02 00 0000 0001", "02 00 0001 0001"]
        commands += ["11 00 0000 07 0F", "01 00 0001 02"]
        commands += ["0D 00 07 0000 0001 05 00", "0D 00 07 0000 0001 10 01", "0F 00 00 07"]
        path = self.session("0100 80\n" + "\n".join(commands))
        lines = "0 0 0\n" * 16 + "0 1 0\n" * 2 + "0 0 0\n" * 3
        self.prints(lines + "\n" + SUMMED, path, "--state=end")

    def test_takers(self):
        path = self.session("0006 01\n" + "\n".join(command for command, _ in TAKERS))
        status, output, error = run(path, "--state")
        self.assertEqual(status, GOOD, error)
        lines, tables = split_tables(output)
        self.assertEqual((len(lines), len(tables)), (1 + len(TAKERS), 1 + len(TAKERS)))
        for (command, expected), table in zip(TAKERS, tables[1:]):
            rows = [f"{thing}: {said}" for thing, said in self.tables(table)["reservations"]]
            self.assertIn(f"cells {expected}", rows, command)
            self.agrees(table, 6, 1)

    def test_claims(self):
        commands = re.findall("(?m)^[0-9A-F].*", CLAIMED)
        path = self.session("0006 01\n" + "\n".join(commands))
        status, output, error = run(path, "--state")
        self.assertEqual(status, GOOD, error)
        lines, tables = split_tables(output)
        self.assertEqual(lines, ["0 0 0"] * (1 + len(commands)))
        shown = ""
        for command, table in zip(commands, tables[1:], strict=True):
            found = self.tables(table)
            rows = found.get("principals", []) + found.get("claims", [])
            shown += f"{command}\n" + "".join(f"    {thing}: {said}\n" for thing, said in rows)
            self.agrees(table, 6, 1)
        self.assertEqual(shown, CLAIMED)


if __name__ == "__main__":
    unittest.main()
