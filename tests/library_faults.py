#!/usr/bin/env python3
"""Shows that the tests of the cost of a page and of the questions about a table catch faults in what stands
around the proved functions.

Puts one fault after another into a copy of the C header, the Rust crate or the plain implementation in
bench/ and runs the test that is named with it, which must then fail. No session asks such a question. The
library is libcetomuhi.a in the folder that CETOMUHI_LIB_DIR names, or in target/staticlib.
"""

import os
import pathlib
import shutil
import subprocess
import sys
import tempfile

ROOT = pathlib.Path(__file__).resolve().parent.parent
LIBRARY = pathlib.Path(os.environ.get("CETOMUHI_LIB_DIR") or ROOT / "target/staticlib").resolve()

C, RUST, PLAIN = "tests/cost.c", "rust/cetomuhi/tests/cost.rs", "bench/tests/cost.rs"
MAPS_C, MAPS_RUST = "tests/maps.c", "rust/cetomuhi/tests/maps.rs"
WORDS_C, WORDS_RUST = "tests/histories.c", "rust/cetomuhi/tests/shown.rs"
TESTS = (C, RUST, PLAIN, MAPS_C, MAPS_RUST, WORDS_C, WORDS_RUST)

# What goes wrong, the file, the text there, what stands in its place, the test that shows it.
FAULTS = [
    (
        "the header swaps share and remainder",
        "include/cetomuhi.h",
        "page, &cost.share, &cost.remainder);",
        "page, &cost.remainder, &cost.share);",
        C,
    ),
    (
        "the header drops the code",
        "include/cetomuhi.h",
        "cost.code = cetomuhi_page_cost(",
        "cetomuhi_page_cost(",
        C,
    ),
    (
        "the header cuts a page's number to a byte",
        "include/cetomuhi.h",
        "cetomuhi_page_cost(CETOMUHI_SLICES(state), page,",
        "cetomuhi_page_cost(CETOMUHI_SLICES(state), (uint8_t)page,",
        C,
    ),
    (
        "a machine in C is asked about the last page instead of one beyond",
        "include/cetomuhi.h",
        "return cetomuhi_state_page_cost(&machine->state, page);",
        "return cetomuhi_state_page_cost(&machine->state, page < 256 ? page : 255);",
        C,
    ),
    (
        "the crate swaps share and remainder",
        "rust/cetomuhi/src/boundary.rs",
        "(page, share, remainder)) }",
        "(page, remainder, share)) }",
        RUST,
    ),
    (
        "the crate takes refusal 12 for granted",
        "rust/cetomuhi/src/state.rs",
        "0 => Ok(cost),",
        "0 | 12 => Ok(cost),",
        RUST,
    ),
    (
        "the crate cuts a page's number to a byte",
        "rust/cetomuhi/src/state.rs",
        "boundary::page_cost(self.arrays(), page,",
        "boundary::page_cost(self.arrays(), page & 255,",
        RUST,
    ),
    (
        "a machine in Rust is asked about the last page instead of one beyond",
        "rust/cetomuhi/src/machine.rs",
        "self.state.page_cost(page)",
        "self.state.page_cost(page.min(255))",
        RUST,
    ),
    (
        "the plain rules count claims instead of claimants",
        "bench/src/plain/claims.rs",
        "self.counts.iter().filter(|counts| counts[page] > 0).count()",
        "self.counts.iter().map(|counts| usize::from(counts[page])).sum()",
        PLAIN,
    ),
    (
        "the plain rules leave principal 0 out",
        "bench/src/plain/claims.rs",
        "self.counts.iter().filter(",
        "self.counts[1..].iter().filter(",
        PLAIN,
    ),
    (
        "the plain rules keep the last round of cells back",
        "bench/src/plain/cost.rs",
        "left >= claimants",
        "left > claimants",
        PLAIN,
    ),
    (
        "the plain rules judge 12 before 1",
        "bench/src/plain/cost.rs",
        "if !self.is_well_formed() {",
        "if !self.is_well_formed() && page < self.pages.pages().len() as u64 {",
        PLAIN,
    ),
    (
        "the header asks about all rows instead of those in use",
        "include/cetomuhi.h",
        "return count <= CETOMUHI_ROWS ? count : 0;",
        "return count > 0 ? CETOMUHI_ROWS : 0;",
        MAPS_C,
    ),
    (
        "the header takes 64 rows where the state counts more",
        "include/cetomuhi.h",
        "return count <= CETOMUHI_ROWS ? count : 0;",
        "return count <= CETOMUHI_ROWS ? count : CETOMUHI_ROWS;",
        MAPS_C,
    ),
    (
        "the header lists those that share cells for those within",
        "include/cetomuhi.h",
        "listed.code = cetomuhi_within(",
        "listed.code = cetomuhi_sharing(",
        MAPS_C,
    ),
    (
        "the header swaps the range's first cell and its length",
        "include/cetomuhi.h",
        "cetomuhi_sharing(state->rows, cetomuhi_table_length(state), first, cells,",
        "cetomuhi_sharing(state->rows, cetomuhi_table_length(state), cells, first,",
        MAPS_C,
    ),
    (
        "the header lends one number too few",
        "include/cetomuhi.h",
        """listed.code = cetomuhi_within(state->rows, cetomuhi_table_length(state), first, cells,
                                  listed.bases, CETOMUHI_ROWS,""",
        """listed.code = cetomuhi_within(state->rows, cetomuhi_table_length(state), first, cells,
                                  listed.bases, CETOMUHI_ROWS - 1,""",
        MAPS_C,
    ),
    (
        "the header drops the code of the nearest",
        "include/cetomuhi.h",
        "nearest.code = cetomuhi_nearest(",
        "cetomuhi_nearest(",
        MAPS_C,
    ),
    (
        "the header swaps found and base",
        "include/cetomuhi.h",
        "&nearest.found, &nearest.base);",
        "&nearest.base, &nearest.found);",
        MAPS_C,
    ),
    (
        "a machine in C cuts a cell to 16 bits",
        "include/cetomuhi.h",
        "return cetomuhi_state_nearest(&machine->state, cell, cells);",
        "return cetomuhi_state_nearest(&machine->state, (uint16_t)cell, cells);",
        MAPS_C,
    ),
    (
        "a machine in C is asked about the last cells instead of those beyond",
        "include/cetomuhi.h",
        "return cetomuhi_state_within(&machine->state, first, cells);",
        "return cetomuhi_state_within(&machine->state, first < 99 ? first : 99, cells);",
        MAPS_C,
    ),
    (
        "the header has no empty places before refusal 25",
        "include/cetomuhi.h",
        "        NULL, /* 23 and 24 are not in use */\n        NULL,\n",
        "",
        WORDS_C,
    ),
    (
        "the header has no words for refusal 25",
        "include/cetomuhi.h",
        "words[code] : NULL;",
        "words[code < 23 ? code : 23] : NULL;",
        WORDS_C,
    ),
    (
        "the crate takes 64 rows where the state counts more",
        "rust/cetomuhi/src/maps.rs",
        "unwrap_or_default()",
        "unwrap_or(&self.rows)",
        MAPS_RUST,
    ),
    (
        "the crate lists those within for those that share cells",
        "rust/cetomuhi/src/maps.rs",
        "self.listed(boundary::sharing, first, cells)",
        "self.listed(boundary::within, first, cells)",
        MAPS_RUST,
    ),
    (
        "the crate lends one number too few",
        "rust/cetomuhi/src/maps.rs",
        "const ROOM: usize = 64;",
        "const ROOM: usize = 63;",
        MAPS_RUST,
    ),
    (
        "the crate answers a list with its unused places",
        "rust/cetomuhi/src/maps.rs",
        ".take(count as usize)",
        ".take(count.max(1) as usize)",
        MAPS_RUST,
    ),
    (
        "the crate finds base 0 where none is found",
        "rust/cetomuhi/src/maps.rs",
        "(found == 1).then_some(base)",
        "(found <= 1).then_some(base)",
        MAPS_RUST,
    ),
    (
        "the crate takes refusal 25 for granted",
        "rust/cetomuhi/src/maps.rs",
        "0 => Ok(()),",
        "0 | 25 => Ok(()),",
        MAPS_RUST,
    ),
    (
        "the crate swaps the cell and the length",
        "rust/cetomuhi/src/boundary.rs",
        "rows.len(), cell, cells, found, base)",
        "rows.len(), cells, cell, found, base)",
        MAPS_RUST,
    ),
    (
        "a machine in Rust cuts a cell to 16 bits",
        "rust/cetomuhi/src/machine.rs",
        "self.state.nearest(cell, cells)",
        "self.state.nearest(cell & 0xFFFF, cells)",
        MAPS_RUST,
    ),
    (
        "the crate has refusals by place instead of number",
        "rust/cetomuhi/src/refusal.rs",
        "Some(Refusal::ALL[index.ok()?])",
        "Some(Refusal::ALL[index.unwrap_or_else(|place| place.min(22))])",
        WORDS_RUST,
    ),
]


def run(command, folder):
    environment = dict(os.environ, CETOMUHI_LIB_DIR=str(LIBRARY), CARGO_TARGET_DIR=str(folder / "target"))
    return subprocess.run(command, cwd=folder, env=environment, capture_output=True, text=True, check=False)


def passes(folder, test):
    """Whether a test passes in a copy of the repository. One that does not compile ends the program."""
    path = pathlib.Path(test)
    if path.suffix == ".c":
        program = folder / path.stem
        build = ["cc", "-std=c11", "-Iinclude", test, f"-L{LIBRARY}", "-lcetomuhi", "-o", program]
        start = [program]
    else:
        manifest = folder / path.parent.parent / "Cargo.toml"
        start = ["cargo", "test", "--quiet", "--offline", "--manifest-path", manifest, "--test", path.stem]
        build = [*start, "--no-run"]
    built = run(build, folder)
    if built.returncode != 0:
        sys.exit(built.stderr)
    return run(start, folder).returncode == 0


def try_fault(folder, fault):
    """Whether the test that is named with the fault shows it."""
    words, name, old, new, test = fault
    path = folder / name
    sound = path.read_text()
    if sound.count(old) != 1:
        sys.exit(f"{words}: '{old}' stands {sound.count(old)} times in {name}")
    path.write_text(sound.replace(old, new))
    missed = passes(folder, test)
    path.write_text(sound)
    print(f"{words}: {'MISSED' if missed else 'shown'} by {test}")
    return not missed


def try_all():
    """For each fault whether it is caught; none is tried without the library."""
    if not (LIBRARY / "libcetomuhi.a").is_file():
        print("the library's faults: skipped, libcetomuhi.a is not there")
        return []
    with tempfile.TemporaryDirectory() as name:
        folder = pathlib.Path(name)
        for part in ("include", "tests", "rust", "bench"):
            shutil.copytree(ROOT / part, folder / part, ignore=shutil.ignore_patterns("target"))
        failing = [test for test in TESTS if not passes(folder, test)]
        if failing:
            sys.exit(f"fails without a fault: {' '.join(failing)}")
        return [try_fault(folder, fault) for fault in FAULTS]


def main():
    caught = try_all()
    print(f"{sum(caught)} faults caught, {len(caught) - sum(caught)} missed")
    sys.exit(0 if caught and all(caught) else 1)


if __name__ == "__main__":
    main()
