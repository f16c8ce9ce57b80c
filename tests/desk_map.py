#!/usr/bin/env python3
"""Tries ./desk --map: maps worked out by hand, widths, and maps beside the state's tables.

The maps here were written from document 01, request 2026-04 and the legend, none taken from a run.
A character is k cells, k the least of 1, 2, 4, ... with which 16 V / k characters, and 16 F / k and
one for the sweep's mark, have room in the width without the 12 columns of the margin.
"""

import contextlib
import fcntl
import itertools
import os
import pty
import random
import re
import struct
import subprocess
import termios
import unittest

# unittest calls setUpModule.
from desk_options import CELLS, RANGE, ROOT, ROW, SESSIONS, Case, desk, setUpModule, spanned

LEGEND = """\
    map     V 2, F 1; a character is 1 cell; a page and a frame are 16
    bases   | a reservation begins
    cells   0 to 7 Open, by its holder; A to H Taken, by 0 to 7;
            S Taken, by several; a to h, s Revoking likewise;
            a also if it was Open; / several reservations
    pages   . Unmapped; - Freed; = Mapped; / several states
    frames  cells of lent memory; . Free; - Dirty; = Mapped; / several states
    sweep   ^ the next cell to sweep; cells passed of all

"""

FRESH = """\
            0       8       16      24
    bases   |
    cells   00000000000000000000000000000000
    pages   ................................
    frames  ----------------
"""

# V 2 and F 1 in 80 columns: 32 and 16 cells, so that a character is a cell. Each command, its line,
# and the map; a number in a register and a refusal change nothing that is drawn.
SMALL = [
    ("0002 01", "0 0 0", LEGEND + FRESH),
    ("0A 00 00", "0 0 0", FRESH.replace("----------------", "................")),
    (
        "08 00 00 00",
        "0 0 0",
        """\
            0       8       16      24
    bases   |
    cells   00000000000000000000000000000000
    pages   ================................
    frames  ================
""",
    ),
    (
        "02 00 0000 0010",
        "0 0 0",
        """\
            0       8       16      24
    bases   |               |
    cells   00000000000000000000000000000000
    pages   ================................
    frames  ================
""",
    ),
    (
        "04 00 0000 03",
        "0 0 0",
        """\
            0       8       16      24
    bases   |               |
    cells   33333333333333330000000000000000
    pages   ================................
    frames  ================
""",
    ),
    (
        "01 03 0000 00",
        "0 16 0",
        """\
            0       8       16      24
    bases   |               |
    cells   DDDDDDDDDDDDDDDD0000000000000000
    pages   ================................
    frames  ================
""",
    ),
    ("0E 03 07 0000000000000001", "0 0 0", "    as before\n"),
    ("01 03 0000 00", "6 0 0", "    as before\n"),
    (
        "05 00 0010",
        "0 0 0",
        """\
            0       8       16      24
    bases   |               |
    cells   DDDDDDDDDDDDDDDDaaaaaaaaaaaaaaaa
    pages   ================----------------
    frames  ================
    sweep   ^ 0 of 16
""",
    ),
    (
        "06 00 0005",
        "0 11 0",
        """\
            0       8       16      24
    bases   |               |
    cells   DDDDDDDDDDDDDDDDaaaaaaaaaaaaaaaa
    pages   ================----------------
    frames  ================
    sweep        ^ 5 of 16
""",
    ),
    (
        "06 00 0020",
        "0 0 0",
        """\
            0       8       16      24
    bases   |               |
    cells   DDDDDDDDDDDDDDDDaaaaaaaaaaaaaaaa
    pages   ================----------------
    frames  ================
    sweep                   ^ 16 of 16
""",
    ),
    (
        "07 00",
        "0 0 0",
        """\
            0       8       16      24
    bases   |               |
    cells   DDDDDDDDDDDDDDDD0000000000000000
    pages   ================................
    frames  ================
""",
    ),
    (
        "09 00 00",
        "0 0 0",
        """\
            0       8       16      24
    bases   |               |
    cells   DDDDDDDDDDDDDDDD0000000000000000
    pages   ----------------................
    frames  ----------------
""",
    ),
]

# V 8 and F 1: parties 1 to 7 take a page each and party 0 the first one; merges of different takers
# leave several, and the whole is revoked. The row of cells after each command.
TAKEN = "AAAAAAAAAAAAAAAABBBBBBBBBBBBBBBBCCCCCCCCCCCCCCCCDDDDDDDDDDDDDDDD"
TAKEN += "EEEEEEEEEEEEEEEEFFFFFFFFFFFFFFFFGGGGGGGGGGGGGGGGHHHHHHHHHHHHHHHH"
HELD = TAKEN.translate(str.maketrans("ABCDEFGH", "01234567"))
MERGED = [
    ("03 00 0000", "S" * 32 + TAKEN[32:]),
    ("03 00 0060", "S" * 32 + TAKEN[32:96] + "S" * 32),
    ("05 00 0020", "S" * 32 + "c" * 16 + TAKEN[48:96] + "S" * 32),
    ("06 00 0010", "S" * 32 + "c" * 16 + TAKEN[48:96] + "S" * 32),
    ("07 00", "S" * 32 + "0" * 16 + TAKEN[48:96] + "S" * 32),
    ("05 00 0060", "S" * 32 + "0" * 16 + TAKEN[48:96] + "s" * 32),
]

# V 256 and F 128: party 2 takes cells 0 to 63; cell 64 is Open, 65 to 3967 too, and 3968 to 4095,
# pages 248 to 255, is revoked; page 0 shows frame 3; 1,000 cells are swept.
LARGE = """\
0100 80
02 00 0000 0040  02 00 0040 0001  02 00 0041 0F3F
04 00 0000 02    01 02 0000 00
0A 00 03         08 00 00 03
05 00 0F80       06 00 03E8
"""

# In 40 columns 28 are left, and 4,096 cells are 16 characters of 256; in 80 they are 64 of 64, in
# 200 they are 128 of 32. A character of 64 cells is 4 frames: 0 to 3, of which 3 is Mapped, are
# one, and the sweep's cell 1,000 is in character 15, as 15 x 64 is 960. Of 32 cells: frames 2 and
# 3, and character 31; of 256 cells: frames 0 to 15, and character 3.
LARGE_MAPS = {
    40: [
        "0       2048",
        "|              |",
        "/00000000000000/",
        "/............../",
        "/-------",
        "   ^ 1000 of 2048",
    ],
    80: [
        "0       512     1024    1536    2048    2560    3072    3584",
        "||" + " " * 60 + "|",
        "C/" + "0" * 60 + "aa",
        "/" + "." * 61 + "--",
        "/" + "-" * 31,
        " " * 15 + "^ 1000 of 2048",
    ],
    200: [
        "0       256     512     768     1024    1280    1536    1792    "
        "2048    2304    2560    2816    3072    3328    3584    3840",
        "| |" + " " * 121 + "|",
        "CC/" + "0" * 121 + "aaaa",
        "/" + "." * 123 + "----",
        "-/" + "-" * 62,
        " " * 31 + "^ 1000 of 2048",
    ],
}

WORDS = ("", "bases", "cells", "pages", "frames", "sweep")


def mapped(texts):
    """The lines of a map with these rows."""
    return "".join(f"    {word:8}{text}\n" for word, text in zip(WORDS, texts))


def rows_of(output, word):
    """The rows with this word in every map of an output, without the legend's."""
    shown = re.sub(r"(?m)(^    map     .*\n)(^ {4}.*\n)*", "", output)
    return re.findall(rf"(?m)^    {word:8}(.*)$", shown)


class Drawn(Case):
    """Maps that were worked out by hand."""

    def test_a_small_session(self):
        path = self.session("\n".join(command for command, _, _ in SMALL))
        expected = "\n".join(f"{line}\n{drawn}" for _, line, drawn in SMALL)
        self.assertEqual(desk(path, "--map", COLUMNS="80"), (0, expected, ""))

    def test_takers(self):
        commands = [f"02 00 {16 * p:04X} 0010" for p in range(7)]
        commands += [f"04 00 {16 * p:04X} {p:02X}" for p in range(1, 8)]
        held = len(commands)
        commands += [f"01 {p:02X} {16 * p:04X} 00" for p in range(8)]
        commands += [command for command, _ in MERGED]
        path = self.session("0008 01\n" + "\n".join(commands))
        _, output, _ = desk(path, "--map", COLUMNS="140")
        cells = rows_of(output, "cells")
        self.assertEqual(cells[held], HELD)
        self.assertEqual(cells[held + 8], TAKEN)
        self.assertEqual(cells[held + 9 :], [drawn for _, drawn in MERGED])
        bases = rows_of(output, "bases")
        self.assertEqual(bases[held], ("|" + " " * 15) * 7 + "|")
        self.assertEqual(bases[-1], "|" + " " * 31 + ("|" + " " * 15) * 4 + "|")

    def test_runs_of_cells(self):
        path = self.session(LARGE)
        for width, rows in LARGE_MAPS.items():
            status, output, error = desk(path, "--map", COLUMNS=str(width))
            self.assertEqual((status, error), (0, ""))
            self.assertTrue(output.endswith(f"\n0 1048 0\n{mapped(rows)}"), output)
            each = 4096 // len(rows[2])
            self.assertIn(f"a character is {each} cells;", output)

    # 65 pages in 77 columns, of which 65 are left: a character is a page, and the four digits of
    # cell 1,024 have no room above the last.
    def test_a_ruler_that_has_no_room(self):
        _, output, _ = desk(self.session("0041 01"), "--map", COLUMNS="77")
        ruler = "0       128     256     384     512     640     768     896"
        self.assertTrue(output.endswith(mapped([ruler, "|", "0" * 65, "." * 65, "-"])), output)

    # In 40 columns V 3 is 24 characters of 2 cells. V 33 is 17 of 32, but the last one is 16 cells:
    # page 32, which the revoke frees.
    def test_a_last_character_of_fewer_cells(self):
        path = self.session("0021 01 02 00 0000 0200 05 00 0200 06 00 FFFF")
        _, output, _ = desk(path, "--map", COLUMNS="40")
        self.assertEqual(rows_of(output, "cells")[-1], "0" * 16 + "a")
        self.assertEqual(rows_of(output, "pages")[-1], "." * 16 + "-")
        self.assertEqual(rows_of(output, "frames")[-1], "-")
        self.assertEqual(rows_of(output, "sweep"), ["^ 0 of 16", " ^ 16 of 16"])
        _, output, _ = desk(self.session("0003 01"), "--map", COLUMNS="40")
        self.assertEqual(rows_of(output, "cells"), ["0" * 24])

    # V 1 and F 128 in 80 columns: lent memory is 64 characters of 32 cells. The mark, a blank and
    # the words '1728 of 2048' fit the 68 columns if 54 or fewer are before them.
    def test_words_before_the_mark(self):
        sweeps = "06 00 06C0 06 00 0020 06 00 0120"
        path = self.session(f"0001 80 05 00 0000 {sweeps}")
        _, output, _ = desk(path, "--map", COLUMNS="80")
        expected = [
            "^ 0 of 2048",
            " " * 54 + "^ 1728 of 2048",
            " " * 42 + "1760 of 2048 ^",
            " " * 51 + "2048 of 2048 ^",
        ]
        self.assertEqual(rows_of(output, "sweep"), expected)

    # V 1 and F 128: of 77 columns 65 are left for 64 characters of 32 cells of lent memory and the
    # mark behind them; in 76 columns a character is 64 cells.
    def test_frames_that_go_on_past_the_table(self):
        path = self.session("0001 80 05 00 0000 06 00 FFFF")
        _, output, _ = desk(path, "--map", COLUMNS="77")
        ruler = "0       256     512     768     1024    1280    1536    1792"
        rows = [ruler, "|", "a", "-", "-" * 64, " " * 51 + "2048 of 2048 ^"]
        self.assertTrue(output.endswith(mapped(rows)), output)
        _, output, _ = desk(path, "--map", COLUMNS="76")
        ruler = "0       512     1024    1536"
        rows = [ruler, "|", "a", "-", "-" * 32, " " * 32 + "^ 2048 of 2048"]
        self.assertTrue(output.endswith(mapped(rows)), output)


class Width(Case):
    maps = {}

    def setUp(self):
        super().setUp()
        self.path = self.session(LARGE)
        for width in LARGE_MAPS:
            if width not in self.maps:
                self.maps[width] = desk(self.path, "--map", COLUMNS=str(width))[1]

    def run_on(self, columns, stream, **changed):
        """What ./desk --map prints with a terminal of so many columns for a stream."""
        ours, theirs = pty.openpty()
        fcntl.ioctl(theirs, termios.TIOCSWINSZ, struct.pack("HHHH", 24, columns, 0, 0))
        environment = {name: text for name, text in os.environ.items() if name != "COLUMNS"}
        streams = {"stdout": subprocess.PIPE, stream: theirs}
        command = [ROOT / "desk", self.path, "--map"]
        with subprocess.Popen(command, env={**environment, **changed}, **streams) as running:
            os.close(theirs)
            output = b"" if stream == "stdout" else running.stdout.read()
            with open(ours, "rb", buffering=0) as screen, contextlib.suppress(OSError):
                while part := screen.read(4096):  # or an error: the other end is closed
                    output += part
        return output.decode().replace("\r\n", "\n")

    def on_terminal(self, columns, **changed):
        return self.run_on(columns, "stdout", **changed)

    def test_columns_that_are_no_width(self):
        for columns in ("", "0", "-40", "40x", "4e1", "040", "40000", " 40"):
            self.assertEqual(desk(self.path, "--map", COLUMNS=columns), (0, self.maps[80], ""))

    def test_a_width_below_the_least(self):
        for columns in ("1", "39"):
            self.assertEqual(desk(self.path, "--map", COLUMNS=columns), (0, self.maps[40], ""))

    def test_a_terminal(self):
        self.assertEqual(self.on_terminal(40), self.maps[40])
        self.assertEqual(self.on_terminal(200), self.maps[200])
        self.assertEqual(self.on_terminal(200, COLUMNS="40"), self.maps[40])
        self.assertEqual(self.on_terminal(200, COLUMNS="0"), self.maps[200])
        self.assertEqual(self.on_terminal(0), self.maps[80])
        self.assertEqual(self.run_on(200, "stderr"), self.maps[80])

    # 12 columns, 4,096 cells, each a character.
    def test_the_widest(self):
        _, output, _ = desk(self.path, "--map", COLUMNS="4108")
        cells = "C" * 64 + "0" * 3904 + "a" * 128
        self.assertEqual(rows_of(output, "cells")[-1], cells)
        self.assertEqual(rows_of(output, "bases")[-1].replace(" ", ""), "||||")
        _, output, _ = desk(self.path, "--map", COLUMNS="4107")
        self.assertIn("a character is 2 cells;", output)


class Combined(Case):
    """--map with other options."""

    # A register changes the tables and not the map; a refusal changes neither.
    def test_below_the_tables(self):
        path = self.session("0002 01 0E 00 00 0000000000000007 07 00 0A 00 00")
        table = """\
    reservations  cells 0 to 31       Open, held by party 0
    pages         0 to 1              Unmapped
    frames        0                   Dirty
"""
        number = "    registers     party 0 register 0  number 7, tag 0\n"
        zeroed = table.replace("Dirty", "Free") + number
        last = FRESH.replace("----------------", "................")
        expected = f"0 0 0\n{table}\n{LEGEND}{FRESH}\n0 0 0\n{table}{number}    map     as before\n"
        expected += f"\n11 0 0\n    as before\n\n0 0 0\n{zeroed}\n{last}"
        self.assertEqual(desk(path, "--map", "--state", COLUMNS="80"), (0, expected, ""))
        self.assertEqual(desk(path, "--state", "--map", COLUMNS="80"), (0, expected, ""))
        expected = f"0 0 0\n0 0 0\n11 0 0\n0 0 0\n\n{zeroed}\n{LEGEND}{last}"
        self.assertEqual(desk(path, "--map", "--state=end", COLUMNS="80"), (0, expected, ""))

    def test_beside_words(self):
        path = self.session("0002 01 07 00")
        expected = f"0 0 0   start with V 2 and F 1\n{LEGEND}{FRESH}\n"
        refused = "refused: no revocation runs, or cells are left to sweep"
        expected += f"11 0 0  party 0 collects; {refused}\n    as before\n"
        self.assertEqual(desk(path, "--map", "--explain", COLUMNS="80"), (0, expected, ""))

    def test_a_refused_start(self):
        for text in ("0101 01 0700", "0001 00", "0001", ""):
            path = self.session(text)
            self.prints("1 0 0\n    all zero\n", path, "--map")
            self.prints("1 0 0\n    all zero\n", path, "--map", "--state")
            self.prints("1 0 0\n\n    all zero\n", path, "--map", "--state=end")


def table_rows(text):
    """The rows of the state's tables by their words."""
    found = {}
    for line in text.splitlines():
        word, thing, said = ROW.fullmatch(line).groups()
        latest = word.strip() or latest
        found.setdefault(latest, []).append((thing.strip(), said))
    return found


def reservation_sign(said):
    party = re.search(r"party (\d)|several", said)[1]
    if said.startswith("Open"):
        return party
    letter = "S" if party is None else "ABCDEFGH"[int(party)]
    return letter if said.startswith("Taken") else letter.lower()


def state_row(rows, signs, each):
    """The row for pages or frames in these states."""
    counted = [(len(spanned(RANGE, thing)), said.split()[0]) for thing, said in rows]
    whole = "".join(16 * count * signs[state] for count, state in counted)
    runs = [whole[at : at + each] for at in range(0, len(whole), each)]
    return "".join(run[0] if len({*run}) == 1 else "/" for run in runs)


def from_tables(found, each):
    """What a map shows of these tables: its rows but for the ruler, the sweep's mark and words."""
    spans = [(spanned(CELLS, thing), said) for thing, said in found["reservations"]]
    whole = "".join(reservation_sign(said) * len(cells) for cells, said in spans)
    firsts = [cells[0] for cells, _ in spans]
    shared = {first // each for first in firsts if first % each}
    begun = {first // each for first in firsts}
    count = -(-len(whole) // each)
    bases = "".join(" |"[at in begun] for at in range(count)).rstrip()
    cells = "".join("/" if at in shared else whole[each * at] for at in range(count))
    pages = state_row(found["pages"], {"Unmapped": ".", "Freed": "-", "Mapped": "="}, each)
    frames = state_row(found["frames"], {"Free": ".", "Dirty": "-", "Mapped": "="}, each)
    shown = [bases, cells, pages, frames]
    for _, said in found.get("revocation", []):
        place, size = map(int, re.findall(r"\d+", said))
        shown += [len(frames) if place == size else place // each, f"{place} of {size}"]
    return shown


def from_map(text):
    """The same of a map."""
    rows = [line[12:] for line in text.splitlines()[1:]]
    for sweep in rows[4:]:
        rows[4:] = [sweep.index("^"), sweep.replace("^", "").strip()]
    return rows


def least_scale(v, f, width):
    scales = (2**n for n in itertools.count())
    room = width - 12
    return next(k for k in scales if -(-16 * v // k) <= room and -(-16 * f // k) < room)


# V, F and the width of sessions of random commands, and the signs that come in all of them.
SIGNS = {"bases": "|", "cells": "012ABCSabcs/", "pages": ".-=/", "frames": ".-=/"}
SIZES = [(1, 128, 80), (3, 1, 40), (17, 2, 57), (33, 5, 40), (65, 128, 132), (256, 100, 200)]


def random_command(chance, v, f):
    """A command on the first pages and frames. What begins at page p is taken by party p mod 3, to
    which it is mostly given."""
    page, frame = chance.randrange(min(v, 8)), chance.randrange(min(f, 8))
    base = 16 * page + chance.choice([0, 0, 0, 0, 0, 8])
    party, to = chance.choice([0, page % 3]), chance.choice([0, page % 3, page % 3])
    length = chance.choice([8, 16, 16, 16])
    return chance.choice(
        [
            f"01 {page % 3:02X} {base:04X} 00",
            f"02 {party:02X} {base:04X} {length:04X}",
            f"03 {party:02X} {base:04X}",
            f"04 {party:02X} {base:04X} {to:02X}",
            f"05 00 {base:04X}",
            f"06 00 {16 * f // 3:04X}",
            "07 00",
            f"0A 00 {frame:02X}",
            f"08 00 {page:02X} {frame:02X}",
            f"09 00 {page:02X}",
        ]
    )


class Everywhere(Case):
    """Every map shows what the state's tables say."""

    def agrees(self, path, v, f, width):
        """The maps of a session below its tables; all that they drew."""
        each = least_scale(v, f, width)
        status, output, error = desk(path, "--state", "--map", COLUMNS=str(width))
        self.assertEqual((status, error), (0, ""))
        legend = re.search(r"    map     V (\d+), F (\d+);\s+a character is (\d+) cell", output)
        self.assertEqual(tuple(map(int, legend.groups())), (v, f, each))
        latest, drawn = None, ""
        for block in re.split(r"(?m)^\d.*\n", output)[1:]:
            if block.strip() == "as before":
                continue
            tables, *maps = re.split(r"\n\n|^    map     as before\n", block, flags=re.MULTILINE)
            shown = from_tables(table_rows(tables), each)
            again = "\n    map     as before\n" in block
            self.assertEqual(again, shown == latest)
            if not again:
                whole = [part for part in maps if part.strip()][-1]
                self.assertEqual(from_map(whole), shown)
                drawn += whole + "\n"
            latest = shown
        return drawn

    def test_every_session(self):
        for path, width in zip(SESSIONS, itertools.cycle(LARGE_MAPS)):
            stored = path.with_suffix(".out").read_text().splitlines()
            status, output, error = desk(path, "--map", COLUMNS=str(width))
            self.assertEqual((status, error), (0, ""))
            lines = output.splitlines()
            self.assertEqual([line for line in lines if line[:1].isdigit()], stored)
            self.assertLessEqual(max(map(len, lines)), width)
            self.assertEqual([line for line in lines if line != line.rstrip()], [])
            start = bytes.fromhex(re.search("(?m)^0[0-9A-F ]*", path.read_text())[0])
            self.agrees(path, start[0] << 8 | start[1], start[2], width)

    def test_random_sessions(self):
        chance = random.Random(7)
        drawn = ""
        for v, f, width in SIZES:
            commands = [f"02 00 {16 * page:04X} 0010" for page in range(min(v, 8) - 1)]
            commands += [random_command(chance, v, f) for _ in range(1000)]
            path = self.session(f"{v:04X} {f:02X}\n" + "\n".join(commands))
            drawn += self.agrees(path, v, f, width)
        for word, signs in SIGNS.items():
            found = re.findall(rf"(?m)^    {word:8}(.*)$", drawn)
            self.assertEqual({*signs}, {*"".join(found)} - {" "}, word)


if __name__ == "__main__":
    unittest.main()
