#!/usr/bin/env python3
"""Whether what is written for each kind of call is as the one table has it (tools/kinds).

What is made of the table is made anew and compared, and so is what tests/calls_vectors.py writes from the documents' lists. What
is written by hand is held against the table: bytes, names and widths of operands in the enum of include/cetomuhi.h, the enum of the
Rust crate, tools/hex, tools/desk/calls.c and tests/calls_vectors.py. A line for each difference; the exit status is 1 then. At last each of the faults
listed below is put into a copy of these files, where it has to be found. Ends after two minutes at the latest.
"""
import pathlib
import re
import runpy
import shutil
import signal
import sys
import tempfile

ROOT = pathlib.Path(__file__).resolve().parent.parent
sys.path.insert(0, str(ROOT / "tools/kinds"))

import around  # noqa: E402
import making  # noqa: E402
import table  # noqa: E402

LIMIT = 120
CRATE, VECTORS = "rust/cetomuhi/src/call.rs", "tests/calls_vectors.py"
STDIN, STDOUT = "crates/calls_run/stdin", "crates/calls_run/stdout"
IN_C, IN_RUST, BENCH = "tests/widths.h", "rust/cetomuhi/tests/widths/mod.rs", "bench/src/plain/kinds.rs"
OTHERS = table.ENUM, table.ROWS, around.HEADER, around.HEX, around.WORDS, CRATE, VECTORS, STDIN, STDOUT, IN_C, IN_RUST, BENCH

READ, WRITTEN = "crates/calls/src/kinds_read.rt", "crates/calls/src/kinds_written.rt"
FROM, NUMBERS = "crates/operands/src/kinds_from.rt", "crates/operands/src/kinds_numbers.rt"
WORDS = "rust/cetomuhi/src/kinds.rs"

# What goes wrong, the file, the text there, what stands in its place, and a word of the line by which it is found. The line begins
# with the file; where a variant and its row differ, with that of the rows.
FAULTS = [
    ("a variant's operand is wider", table.ENUM, "to: u8,\n    },\n    Revoke", "to: u16,\n    },\n    Revoke", "Give"),
    ("a variant has no row", table.ENUM, "    Destroy {", "    Extra {\n        party: u8,\n    },\n    Destroy {", "Extra"),
    ("a row's width", table.ROWS, "(1 ∷ 2 ∷ 2 ∷ []) (λ x. Split", "(1 ∷ 2 ∷ 1 ∷ []) (λ x. Split", "Split"),
    ("a row's line", table.ROWS, "-- 0F grant P s to", "-- 0F grant P to s", "Grant"),
    ("a row's operands", table.ROWS, "Zero (x 0) (frame (x 1))", "Zero (x 0) (page (x 1))", "Zero"),
    ("a length", READ, "        0x02 => 6,", "        0x02 => 5,", "0x02"),
    ("a reader's place", READ, "from_be_bytes([limit1, limit0])", "from_be_bytes([limit0, limit1])", "limit"),
    ("a writer's byte", WRITTEN, "[0x02, party", "[0x01, party", "0x02"),
    ("a maker's width", FROM, "n: two_at(numbers, 2)", "n: byte_at(numbers, 2)", "two_at"),
    ("a call's number", NUMBERS, "[7, party", "[8, party", "[7, party"),
    ("a printed word", "crates/calls_run/src/kinds_shown.rt", '"merge ', '"revoke ', "merge"),
    ("the way back", "crates/calls/specs/Parts.antt", "(0x0F, party ∷ s ∷ to", "(0x0F, party ∷ to ∷ s", "Grant"),
    ("a law's clause", "crates/calls/proofs/Listed.antt", "listed (Claim", "listed (Claims", "Claim"),
    ("the header's function", around.HEADER, "_SPLIT, party, base, len,", "_SPLIT, party, len, base,", "SPLIT"),
    ("the header's parameters", around.HEADER, "uint64_t party, uint64_t frame)", "uint64_t frame, uint64_t party)", "zero"),
    ("the header's word", around.HEADER, '"store", ', "", "store"),
    ("the header's byte", around.HEADER, "CETOMUHI_LOAD = 0x0B,", "CETOMUHI_LOAD = 0x0C,", "LOAD"),
    ("the header's width", around.HEADER, "/* party base/2 to:", "/* party base to:", "GIVE"),
    ("the header's order", around.HEADER, "/* party d value/8:", "/* party value/8 d:", "NUMBER"),
    ("a kind that the header lacks", around.HEADER, "    CETOMUHI_UNMAP = 0x09,", "", "UNMAP"),
    ("the crate's width", CRATE, "Sweep { party: u8, n: u16 }", "Sweep { party: u8, n: u8 }", "Sweep"),
    ("the crate's order", CRATE, "Grant { party: u8, s: u8, to: u8 }", "Grant { party: u8, to: u8, s: u8 }", "Grant"),
    ("a kind that the crate lacks", CRATE, "    Collect { party: u8 },\n", "", "Collect"),
    ("the crate's numbers", WORDS, "=> [0x03,", "=> [0x05,", "Merge"),
    ("the crate's words", WORDS, "zeroes frame", "clears frame", "Zero"),
    ("a width of hex", around.HEX, '0x06: ("P n/2"', '0x06: ("P n"', "Sweep"),
    ("an order of hex", around.HEX, '"P a off/2 d"', '"P d off/2 a"', "Load"),
    ("a kind that hex lacks", around.HEX, "    0x15: (", "    0x1F: (", "15"),
    ("words of hex that name no operand", around.HEX, "unmaps page {page}", "unmaps page {frame}", "09"),
    ("a width of the words", around.WORDS, '0x06, "P n/2"', '0x06, "P n"', "Sweep"),
    ("an order of the words", around.WORDS, '"P a off/2 d"', '"P d off/2 a"', "Load"),
    ("a kind that the words lack", around.WORDS, "{0x15, ", "{0x1F, ", "Destroy"),
    ("other words than those of hex", around.WORDS, "unmaps page {page}", "unmaps page {frame}", "Unmap"),
    ("a width of the vectors", VECTORS, "05 revoke P base/2", "05 revoke P base", "Revoke"),
    ("an order of the vectors", VECTORS, "04 give P base/2 to", "04 give P to base/2", "Give"),
    ("a kind that the vectors lack", VECTORS, "15 destroy P principal\n", "", "Destroy"),
    ("a stored line", STDOUT, "0 take 0 0 0 5", "0 take 0 0 1 5", "COMMANDS"),
    ("a width in C", IN_C, "{1, 1, 8}", "{1, 8, 1}", "COMMANDS"),
    ("a width in Rust", IN_RUST, "&[1, 1, 8]", "&[1, 8, 1]", "COMMANDS"),
    ("a width in bench", BENCH, "    &[1, 1, 8],", "    &[1, 8, 1],", "COMMANDS"),
    ("a reader in bench", BENCH, "from_be_bytes([limit1, limit0])", "from_be_bytes([limit0, limit1])", "COMMANDS"),
]


def compared(path, found, wanted):
    """A line for each kind whose entry is not the wanted one. Both: entries by the kind's name."""
    for name, want in wanted.items():
        if found.get(name) != want:
            yield f"{path}: {name}: '{found.get(name, 'nothing')}' stands there; expected '{want}'"
    for name in found.keys() - wanted.keys():
        yield f"{path}: {name}: there is no such kind"


def header_faults(root, kinds):
    body = re.search(r"enum cetomuhi_kind \{(.*?)\n\};", (root / around.HEADER).read_text(), re.DOTALL)[1]
    rows = re.findall(r"CETOMUHI_(\w+) = (0x\w\w),? +/\* ([^:]*):", body)
    found = {name: f"{code} {layout}" for name, code, layout in rows}
    wanted = {kind.constant: f"{kind.code} party{kind.layout[1:]}" for kind in kinds}
    yield from compared(around.HEADER, found, wanted)


def crate_faults(root, kinds):
    def fields(operands):
        return ", ".join(f"{operand.name}: {operand.type}" for operand in operands)

    declared = table.variants((root / CRATE).read_text(), CRATE)
    found = {name: fields(operands) for name, operands in declared}
    yield from compared(CRATE, found, {kind.variant: fields(kind.operands) for kind in kinds})


def hex_faults(root, kinds):
    names = {kind.byte: kind.variant for kind in kinds}
    found = {names.get(byte, f"{byte:02X}"): layout for byte, (layout, _) in around.hex_commands(root).items()}
    yield from compared(around.HEX, found, {kind.variant: kind.layout for kind in kinds})


def word_faults(root, kinds):
    names = {kind.byte: kind.variant for kind in kinds}

    def shown(commands):
        return {names.get(byte, f"{byte:02X}"): f"{layout}: {words}" for byte, (layout, words) in commands.items()}

    yield from compared(around.WORDS, shown(around.worded_commands(root)), shown(around.hex_commands(root)))


def vector_faults(root, kinds):
    names = {f"{kind.byte:02X}": kind.variant for kind in kinds}
    vectors = runpy.run_path(str(root / VECTORS))
    lines = vectors["COMMANDS"].strip().split("\n")
    found = {names.get(line[:2], line[:2]): line for line in lines}
    wanted = {kind.variant: f"{kind.byte:02X} {kind.word} {kind.layout}" for kind in kinds}
    yield from compared(VECTORS, found, wanted)
    for name in vectors["differing"](root):
        yield f"{name}: not as COMMANDS in {VECTORS} has it"


def faults(root):
    """All differences, a line each."""
    try:
        kinds = table.kinds(root)
        found = [f"{name}: {words}" for name, _, words in making.differing(root)]
        for look in (header_faults, crate_faults, hex_faults, word_faults, vector_faults):
            found += look(root, kinds)
    except (table.Fault, OSError) as fault:
        return [str(fault)]
    return found


def copied(folder):
    """A copy of all files that are looked at."""
    for name in {*OTHERS, *(name for name, _ in making.files(ROOT))}:
        (folder / name).parent.mkdir(parents=True, exist_ok=True)
        shutil.copy(ROOT / name, folder / name)


def is_found(folder, words, name, old, new, beside):
    """Whether a fault is found in the copy."""
    named = table.ROWS if name == table.ENUM else name
    sound = (folder / name).read_text()
    if old not in sound:
        print(f"kinds: {words}: '{old}' does not stand in {name}")
        return False
    (folder / name).write_text(sound.replace(old, new, 1))
    found = faults(folder)
    (folder / name).write_text(sound)
    is_there = any(line.startswith(f"{named}: ") and beside in line for line in found)
    if not is_there:
        print(f"kinds: {words}: not found; the lines were {found}")
    return is_there


def main():
    signal.alarm(LIMIT)
    found = faults(ROOT)
    for line in found:
        print(line)
    if found:
        return 1
    with tempfile.TemporaryDirectory() as name:
        folder = pathlib.Path(name)
        copied(folder)
        caught = [is_found(folder, *fault) for fault in FAULTS]
    print(f"kinds: all places are as the table has them; {sum(caught)} faults found, {len(caught) - sum(caught)} missed")
    return 0 if all(caught) else 1


if __name__ == "__main__":
    sys.exit(main())
