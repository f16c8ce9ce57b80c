#!/usr/bin/env python3
"""Tries what cetomuhi-desk says beside a session's lines: calls, answers and refusals in words, and lines that
are folded.

The words expected here were written from the documents, none taken from a run.
"""

import re
import unittest

# unittest calls setUpModule.
from desk_case import ENDED_EARLY, GOOD, SESSIONS, Case, run, setUpModule

# Each command after a start with V 2 and F 1, and why it is refused; granted ones have no reason.
REFUSED = [
    ("01 08 0000 00", "there is no party 8"),
    ("04 00 0000 09", "there is no party 9"),
    ("11 08 0000 09 0F", "there is no party 8 and no register 9"),
    ("0D 08 09 0000 0001 0F 0A", "there is no party 8 and no register 9 and no register 10"),
    ("05 01 0000", "only party 0 may"),
    ("06 01 0001", "only party 0 may"),
    ("07 01", "only party 0 may"),
    ("08 01 00 00", "only party 0 may"),
    ("09 01 00", "only party 0 may"),
    ("0A 01 00", "only party 0 may"),
    ("01 01 0000 00", "it is Open, held by party 0"),
    ("11 01 0000 00 0F", "it is Open, held by party 0"),
    ("02 01 0000 0001", "it is Open, held by party 0"),
    ("03 01 0000", "it is Open, held by party 0"),
    ("04 01 0000 01", "it is Open, held by party 0"),
    ("05 00 0001", "none begins there: it lies within cells 0 to 31"),
    ("01 00 001F 00", "none begins there: it lies within cells 0 to 31"),
    ("01 00 0020 00", "the table ends at cell 31"),
    ("03 00 0000", "no reservation lies above it"),
    ("02 00 0000 0000", "the length is 0"),
    ("02 00 0000 0020", "32 is not below its 32 cells"),
    ("06 00 0001", "no revocation runs"),
    ("07 00", "no revocation runs"),
    ("08 00 02 01", "there is no page 2 and no frame 1"),
    ("08 00 02 00", "there is no page 2"),
    ("08 00 00 01", "there is no frame 1"),
    ("09 00 02", "there is no page 2"),
    ("0A 00 01", "there is no frame 1"),
    ("09 00 00", "page 0 is Unmapped"),
    ("08 00 00 00", "frame 0 is Dirty"),
    ("0A 00 00", None),
    ("0A 00 00", "frame 0 is Free"),
    ("08 00 00 00", None),
    ("08 00 00 00", "page 0 is Mapped to frame 0"),
    ("08 00 01 00", "frame 0 is Mapped"),
    ("0A 00 00", "frame 0 is Mapped"),
    ("0B 00 00 0000 01", "register 0 holds no capability, but number 0"),
    ("0C 00 01 0000 01", "register 1 holds no capability, but number 0"),
    ("0D 00 02 0000 0001 0F 01", "register 2 holds no capability, but number 0"),
    ("0E 00 03 000000000000002A", None),
    ("0F 00 03 01", "register 3 holds no capability, but number 42"),
    ("0E 03 03 0000000000000007", None),
    ("0F 03 03 01", "register 3 holds no capability, but number 7"),
    ("10 00 00", "the mailbox of party 0 is empty"),
    ("02 00 0000 000F", None),
    ("05 00 0000", "its length, 15, is no multiple of 16"),
    ("05 00 000F", "its base, 15, is no multiple of 16, and its length, 17, is no multiple of 16"),
    ("02 00 000F 0010", None),
    ("05 00 000F", "its base, 15, is no multiple of 16"),
    ("03 00 000F", None),
    ("04 00 000F 05", None),
    ("03 00 0000", "it is Open, held by party 0, and the next one Open, held by party 5"),
    ("04 05 000F 00", None),
    ("03 00 0000", None),
    ("02 00 0000 0010", None),
    ("01 00 0000 00", None),
    ("01 00 0000 00", "it is Taken by party 0"),
    ("11 00 0000 00 0F", "it is Taken by party 0"),
    ("02 00 0000 0001", "it is Taken by party 0"),
    ("04 00 0000 01", "it is Taken by party 0"),
    ("04 03 0000 01", "it is Taken by party 0"),
    ("03 00 0000", "it is Taken by party 0, and the next one Open, held by party 0"),
    ("05 00 0000", "page 0 is Mapped to frame 0"),
    ("0D 00 00 0000 0010 00 01", None),
    ("0B 00 01 0000 02", "register 1 may not load: it has no permission"),
    ("0C 00 01 0000 02", "register 1 may not store: it has no permission"),
    ("0C 00 00 0000 01", "register 1 holds a capability, and register 0 stores none: it has load and store"),
    ("0B 00 00 0010 02", "register 0 has 16 cells"),
    ("0C 00 00 0010 02", "register 0 has 16 cells"),
    ("0D 00 00 0000 0000 0F 02", "the length is 0"),
    ("0D 00 00 0003 000E 0F 02", "offset 3 and 14 cells end past its 16 cells"),
    ("11 00 0010 03 0E", None),
    ("0B 00 03 0000 02", "register 3 may not load: it has store, load and store capabilities"),
    ("0C 00 03 0005 02", "cell 21 lies in page 1, which is Unmapped"),
    ("0F 00 00 01", None),
    ("0F 00 00 01", "the mailbox of party 1 is full"),
    ("05 00 0010", None),
    ("05 00 0010", "it is Revoking, taken by party 0 or by nobody"),
    ("05 00 0000", "cells 16 to 31 are being revoked"),
    ("03 00 0000", "it is Taken by party 0, and the next one Revoking, taken by party 0 or by nobody"),
    ("0C 00 03 000F 02", "cell 31 lies in page 1, which is Freed"),
    ("08 00 01 00", "page 1 is Freed"),
    ("09 00 01", "page 1 is Freed"),
    ("07 00", "16 of 16 cells are left to sweep"),
    ("06 00 000A", None),
    ("07 00", "6 of 16 cells are left to sweep"),
    ("12 00 00 01 0000 08", "there is no party 8"),
    ("12 01 00 01 0000 01", "principal 0 is held by party 0"),
    ("12 00 05 01 0000 01", "there is no principal 5"),
    ("12 00 00 00 0000 01", "principal 0 is in being already"),
    ("12 00 00 20 0000 01", "32 is above 31"),
    ("12 00 00 01 2001 01", "principal 0 has 8192 unspent"),
    ("12 00 00 01 0001 03", None),
    ("13 03 01 02", "there is no page 2"),
    ("13 00 01 00", "principal 1 is held by party 3"),
    ("13 03 01 00", None),
    ("13 03 01 01", "principal 1 has nothing unspent"),
    ("14 03 01 02", "there is no page 2"),
    ("14 03 02 00", "there is no principal 2"),
    ("14 03 01 01", "principal 1 does not claim page 1"),
    ("09 00 00", "it is claimed by principal 1"),
    ("13 00 00 00", None),
    ("09 00 00", "it is claimed by principal 0, 1"),
    ("15 03 01", "its parent: principal 0 is held by party 0"),
    ("15 00 00", "principal 0 has no parent"),
    ("15 00 07", "there is no principal 7"),
    ("FF", "FF is no command"),
]

# Each command after a start with V 2 and F 1, and what its answer says: party 0 keeps capabilities in page 0
# and revokes page 1. Register 0 is page 0 with all permissions, 1 is page 1, 2 may only load numbers.
ANSWERED = [
    ("0A 00 00", ""),
    ("08 00 00 00", ""),
    ("02 00 0000 0010", ""),
    ("02 00 0010 0001", ""),
    ("01 00 0010 07", ": 1 cell"),
    ("05 00 0010", "; refused: its length, 1, is no multiple of 16"),
    ("11 00 0000 00 0F", ": 16 cells"),
    ("11 00 0011 01 0D", ": 15 cells"),
    ("0D 00 00 0000 0008 01 02", ""),
    ("0C 00 00 0003 01", ""),
    ("0B 00 00 0003 04", ": cells 17 to 31, load, load and store capabilities"),
    ("0B 00 02 0003 04", ": number 55835557905, without its tag: register 2 loads no capabilities"),
    ("0B 00 00 0004 05", ": number 0"),
    ("0F 00 02 06", ""),
    ("10 06 00", ": cells 0 to 7, load"),
    ("03 00 0010", ""),
    ("05 00 0010", ""),
    ("0B 00 00 0003 04", ": number 55835557905, without its tag: it is dying"),
    ("0C 00 00 0005 01", ", without its tag: it is dying"),
    ("0C 00 00 0006 00", ""),
    ("0B 00 00 0006 05", ": cells 0 to 15, all permissions"),
    ("0F 00 01 06", ""),
    ("10 06 01", ": cells 17 to 31, load, load and store capabilities; dying"),
    ("06 00 0000", ": 16 cells left"),
    ("06 00 000F", ": 1 cell left"),
    ("06 00 FFFF", ": 0 cells left"),
    ("07 00", ""),
]

# The call in words, each kind once; the operands are those of their bytes.
WORDED = {
    "01 01 0102 03": "party 1 takes the reservation at cell 258 into register 3",
    "02 01 0102 0304": "party 1 splits the reservation at cell 258, 772 cells below",
    "03 01 0102": "party 1 merges the reservation at cell 258 with the next one",
    "04 01 0102 03": "party 1 gives the reservation at cell 258 to party 3",
    "05 01 0102": "party 1 revokes the reservation at cell 258",
    "06 01 0102": "party 1 sweeps the next 258 cells",
    "07 01": "party 1 collects",
    "08 01 02 03": "party 1 maps page 2 to frame 3",
    "09 01 02": "party 1 unmaps page 2",
    "0A 01 02": "party 1 zeroes frame 2",
    "0B 01 02 0304 05": "party 1 loads through register 2, offset 772, into register 5",
    "0C 01 02 0304 05": "party 1 stores register 5 through register 2, offset 772",
    "0D 01 02 0304 0506 07 08": "party 1 narrows register 2 to 1286 cells from offset 772 on, "
    "permissions 7, into register 8",
    "0E 01 02 FFFFFFFFFFFFFFFF": "party 1 sets register 2 to the number 18446744073709551615",
    "0F 01 02 03": "party 1 grants register 2 to party 3",
    "10 01 02": "party 1 receives into register 2",
    "11 01 0102 03 04": "party 1 takes the reservation at cell 258 into register 3 with mask 4",
    "12 01 02 03 0405 06": "party 1 creates principal 3 below principal 2 with limit 1029 for party 6",
    "13 01 02 03": "party 1 claims page 3 for principal 2",
    "14 01 02 03": "party 1 releases page 3 for principal 2",
    "15 01 02": "party 1 destroys principal 2",
}


class Explained(Case):
    def said(self, start, commands, status=GOOD):
        """What stands beside each answer, without the first column."""
        found, output, error = run(self.session("\n".join([start, *commands])), "--explain")
        self.assertEqual(found, status, error)
        return [re.fullmatch(r"\d+ \d+ \d +(.*)", line)[1] for line in output.splitlines()]

    def test_lines_and_refusals_of_every_session(self):
        for path in SESSIONS:
            stored = path.with_suffix(".out").read_text()
            status, output, _ = run(path, "--explain")
            shown = output.splitlines()
            lines = [" ".join(line.split()[:3]) for line in shown]
            self.assertEqual((status, lines), (GOOD, stored.splitlines()))
            for line in shown:
                self.assertEqual(line.startswith("0 "), "refused: " not in line)

    def test_every_command_has_words(self):
        words = [line.split(";")[0] for line in self.said("0100 80", WORDED)]
        self.assertEqual(words, ["start with V 256 and F 128", *WORDED.values()])

    def test_every_refusal_has_its_cause(self):
        said = self.said("0002 01", [command for command, _ in REFUSED], status=ENDED_EARLY)
        reasons = [(line.split("refused: ") + [None])[1] for line in said]
        self.assertEqual(reasons, [None, *(reason for _, reason in REFUSED)])

    def test_what_answers_say(self):
        said = self.said("0002 01", [command for command, _ in ANSWERED])[1:]
        for (command, expected), line in zip(ANSWERED, said, strict=True):
            words = re.match(r"party .*?(?=: |; refused|, without|$)", line)[0]
            self.assertEqual(line.removeprefix(words), expected, command)

    def test_the_mapped_page_of_a_revoke(self):
        said = self.said("0003 01", ["0A 00 00", "08 00 01 00", "05 00 0000"])
        self.assertEqual(said[3].split("refused: ")[1], "page 1 is Mapped to frame 0")

    # Page 0 shows frame 1. Register 0 is cells 0 to 31 with all permissions, 2 may only load numbers.
    def test_a_tag_in_another_frame(self):
        commands = ["0A 00 01", "08 00 00 01", "11 00 0000 00 0F", "0C 00 00 0003 00", "0D 00 00 0000 0008 01 02"]
        said = self.said("0002 02", [*commands, "0B 00 02 0003 04"])
        words = f"number {15 * 2**32 + 32 * 2**16}, without its tag: register 2 loads no capabilities"
        self.assertEqual(said[6].split(": ", 1)[1], words)

    def test_a_full_table(self):
        said = self.said("0005 01", [f"02 00 {base:04X} 0001" for base in range(64)])
        self.assertEqual(said[64].split("refused: ")[1], "the table has 64 reservations")
        self.assertNotIn("refused", said[63])

    def test_starts(self):
        for text, expected in (
            ("0101 01 0700", "1 0 0  start with V 257 and F 1; refused: V is not 1 to 256\n"),
            ("0001", "1 0 0  refused: start, cut short\n"),
            (
                "0001 01 08 00",
                "0 0 0  start with V 1 and F 1\n3 0 0  refused: the input ends within command 08\n",
            ),
        ):
            self.prints(expected, self.session(text), "--explain", status=ENDED_EARLY)


class Folded(Case):
    OPTIONS = ("--explain", "--state", "--map")
    SOME = SESSIONS[::5]

    def test_no_line_is_wider(self):
        for path in self.SOME:
            for columns, limit in (("80", 80), ("60", 60), ("40", 40), ("1", 40)):
                status, output, error = run(path, *self.OPTIONS, COLUMNS=columns)
                self.assertEqual(status, GOOD, error)
                self.assertLessEqual(max(map(len, output.splitlines())), limit)
                stored = path.with_suffix(".out").read_text().splitlines()
                lines = [" ".join(line.split()[:3]) for line in output.splitlines() if line[:1].isdigit()]
                self.assertEqual(lines, stored)

    def test_all_words_are_there(self):
        for path in self.SOME:
            whole = run(path, "--explain", "--state=changes")[1]
            for columns in ("80", "40"):
                folded = run(path, "--explain", "--state=changes", COLUMNS=columns)[1]
                self.assertEqual(folded.split(), whole.split())

    # Behind the 8 columns of the lines there are 32 at 40: as many as 'party 0 takes the reservation at' and
    # as the rest has. The next word would fit at 45.
    def test_beside_a_line(self):
        path = self.session("0002 01 01 00 0000 00")
        expected = """\
0 0 0   start with V 2 and F 1
0 32 0  party 0 takes the reservation at
        cell 0 into register 0: 32 cells
"""
        for columns in ("40", "42", "44"):
            self.prints(expected, path, "--explain", COLUMNS=columns)

    # A table has 38 columns before what is said of a thing. Where less than 24 are left, one stands below the
    # other, two columns to the right.
    def test_a_narrow_table(self):
        path = self.session("0002 01 05 00 0000")
        narrow = """\
0 0 0
0 0 0

    reservations
      cells 0 to 31
        Revoking, taken by party 0 or by{}nobody
    revocation
      cells 0 to 31
        sweep place 0 of 16
    pages
      0 to 1
        Freed
    frames
      0
        Dirty
"""
        wide = """\
0 0 0
0 0 0

    reservations  cells 0 to 31       Revoking, taken by party
                                      0 or by nobody
    revocation    cells 0 to 31       sweep place 0 of 16
    pages         0 to 1              Freed
    frames        0                   Dirty
"""
        self.prints(narrow.format("\n        "), path, "--state=end", COLUMNS="40")
        self.prints(narrow.format(" "), path, "--state=end", COLUMNS="61")
        self.prints(wide, path, "--state=end", COLUMNS="62")

    def test_where_the_columns_are_not_known(self):
        whole = run(SESSIONS[0], "--explain", "--state")[1]
        self.assertGreater(max(map(len, whole.splitlines())), 80)
        for columns in ("", "0", "x", "10000", "-5"):
            self.assertEqual(run(SESSIONS[0], "--explain", "--state", COLUMNS=columns)[1], whole)


if __name__ == "__main__":
    unittest.main()
