#!/usr/bin/env python3
"""Tries what cetomuhi-desk --state=changes shows.

The rows expected here were written from the documents, none taken from a run.
"""

import re
import unittest

# unittest calls setUpModule.
from desk_case import GOOD, SESSIONS, Case, run, setUpModule, split_tables

# By hand: V 3 and F 2, pages 0 and 2 show frames 1 and 0, party 0 has page 0 and page 1 (registers 0 and 1).
# Page 1 is revoked while capabilities into it lie in page 0 and in page 2's frame, which a Dirty frame would
# keep from the sweep; 42 is 2A. Below each command what changed, then the state after the last command.
CHANGED = """\
0A 00 00
    frames        0                   Free
0A 00 01
    frames        1                   Free
08 00 00 01
    pages         0                   Mapped to frame 1
    frames        1                   Mapped
08 00 02 00
    pages         2                   Mapped to frame 0
    frames        0                   Mapped
02 00 0000 0010
    reservations  cells 0 to 15       Open, held by party 0
                  cells 16 to 47      Open, held by party 0
02 00 0010 0010
    reservations  cells 16 to 31      Open, held by party 0
                  cells 32 to 47      Open, held by party 0
11 00 0000 00 0F
    reservations  cells 0 to 15       Taken by party 0
    registers     party 0 register 0  cells 0 to 15, all permissions
11 00 0010 01 01
    reservations  cells 16 to 31      Taken by party 0
    registers     party 0 register 1  cells 16 to 31, load
11 00 0020 02 0F
    reservations  cells 32 to 47      Taken by party 0
    registers     party 0 register 2  cells 32 to 47, all permissions
0E 00 03 000000000000002A
    registers     party 0 register 3  number 42
0C 00 00 0000 03
    memory        cell 0              number 42
0C 00 00 0001 03
    memory        cell 1              number 42
0C 00 00 0002 01
    memory        cell 2              cells 16 to 31, load
0C 00 02 000F 01
    memory        cell 47             cells 16 to 31, load
0C 00 02 000E 02
    memory        cell 46             cells 32 to 47, all permissions
0F 00 01 04
    mailboxes     party 4             cells 16 to 31, load
05 00 0010
    reservations  cells 16 to 31      Revoking, taken by party 0 or by nobody
    revocation    cells 16 to 31      sweep place 0 of 32
    pages         1                   Freed
0C 00 00 0001 01
    memory        cell 1              number 4296015888
06 00 0010
    revocation    cells 16 to 31      sweep place 16 of 32
    memory        cell 47             number 4296015888
    cleared       cell 47             cells 16 to 31, load; dying
06 00 0010
    revocation    cells 16 to 31      sweep place 32 of 32
    memory        cell 2              number 4296015888
    cleared       cell 2              cells 16 to 31, load; dying
06 00 0010
    as before
07 00
    reservations  cells 16 to 31      Open, held by party 0
    revocation    cells 16 to 31      has ended
    pages         1                   Unmapped
    registers     party 0 register 1  number 4296015888
    mailboxes     party 4             empty
    cleared       party 0 register 1  cells 16 to 31, load; dying
                  party 4 mailbox     cells 16 to 31, load; dying
0E 00 03 0000000000000000
    registers     party 0 register 3  number 0
0C 00 00 0000 03
    memory        cell 0              number 0
09 00 02
    pages         2                   Freed
    frames        0                   Dirty
0A 00 00
    frames        0                   Free
    memory        frame 0 cells 14 to 15 number 0
12 00 00 02 000A 03
    principals    0                   held by party 0, limit 8182, unspent 8182
                  2                   held by party 3, below 0, limit 10, unspent 10
13 03 02 00
    principals    2                   held by party 3, below 0, limit 10, unspent 9
    claims        page 0              principal 2, count 1
13 03 02 01
    principals    2                   held by party 3, below 0, limit 10, unspent 8
    claims        page 1              principal 2, count 1
15 00 02
    principals    0                   held by party 0, limit 8192, unspent 8192
                  2                   not in being
    claims        pages 0 to 1        principal 2, count 0
"""

LEFT = """\
    reservations  cells 0 to 15       Taken by party 0
                  cells 16 to 31      Open, held by party 0
                  cells 32 to 47      Taken by party 0
    pages         0                   Mapped to frame 1
                  1                   Unmapped
                  2                   Freed
    frames        0                   Free
                  1                   Mapped
    registers     party 0 register 0  cells 0 to 15, all permissions
                  party 0 register 1  number 4296015888
                  party 0 register 2  cells 32 to 47, all permissions
    memory        cells 1 to 2        number 4296015888
"""


class Changes(Case):
    def test_what_changed(self):
        commands = re.findall("(?m)^[0-9A-F].*", CHANGED)
        path = self.session("0003 02\n" + "\n".join(commands))
        status, output, error = run(path, "--state=changes")
        _, tables = split_tables(output)
        shown = "".join(f"{command}\n{table}" for command, table in zip(commands, tables[1:], strict=True))
        self.assertEqual((status, shown), (GOOD, CHANGED), error)
        lines, _ = split_tables(run(path)[1])
        self.prints("\n".join([*lines, "", LEFT]), path, "--state=end")

    # After the start all is shown; then a line is followed by 'as before' in both, or in neither.
    def test_beside_the_whole_state(self):
        for path in SESSIONS:
            _, whole = split_tables(run(path, "--state")[1])
            _, changed = split_tables(run(path, "--state=changes")[1])
            self.assertEqual(changed[0], whole[0])
            for all_of_it, part in zip(whole, changed, strict=True):
                self.assertEqual(all_of_it == "    as before\n", part == "    as before\n")
                self.assertNotEqual(part, "")


if __name__ == "__main__":
    unittest.main()
