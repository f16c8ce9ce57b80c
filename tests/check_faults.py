#!/usr/bin/env python3
"""Shows that cetomuhi-check notices faults: that each of its checks fails for the faults that it is for.

Puts one fault after another into a copy of the plain implementation, builds that as the library's archive
(bench/archive), links the check program's objects with it and runs it. Without a fault all checks must pass,
and so must the tests of the C boundary. With --one, one fault for each check, and only the checks that are for
it run; otherwise all faults and all checks.
"""

import argparse
import hashlib
import os
import pathlib
import shutil
import subprocess
import sys
import tempfile
from typing import NamedTuple

import faults
import library_faults

ROOT = pathlib.Path(__file__).resolve().parent.parent
PLAIN = "bench/src/plain"

CHECKS = (
    "lent-once",
    "crosses-over",
    "survivor",
    "nothing-lost",
    "take-masked",
    "claims",
    "takers",
    "load-filtered",
    "maps",
    "page-cost",
    "answered",
)

# The tests of the C boundary, which pass with the proved library.
BOUNDARY = ("boundary", "histories", "claims", "cost", "maps")

# What an archive of Rust's wants from the system, as rustc --print native-static-libs says.
SYSTEM = ("-lgcc_s", "-lutil", "-lrt", "-lpthread", "-lm", "-ldl")
ARGUMENTS = ("--seed", "1", "--orders", "200")
BUILD_SECONDS, RUN_SECONDS = 180, 120


class Fault(NamedTuple):
    words: str
    file: str
    old: str
    new: str
    checks: tuple


OWN = [
    Fault("a take writes no taker", f"{PLAIN}/step.rs", "row.taker = party;", "", ("takers",)),
    Fault("a take writes party 0 as the taker", f"{PLAIN}/step.rs", "row.taker = party;", "row.taker = 0;", ("takers",)),
    Fault("a merge keeps the lower one's taker", f"{PLAIN}/table.rs", "            SEVERAL\n", "            self.taker\n", ("takers",)),
    Fault(
        "a merge of one party's has several takers",
        f"{PLAIN}/table.rs",
        "if self.taker == next.taker {",
        "if self.taker == next.taker && self.taker == NOBODY {",
        ("takers",),
    ),
    Fault("a collect leaves the taker", f"{PLAIN}/step.rs", "row.taker = NOBODY;", "", ("takers",)),
    Fault("a revoke of an Open one leaves its taker", f"{PLAIN}/step.rs", "row.taker = 0;", "", ("takers",)),
    Fault(
        "a revoke of a Taken one drops its taker",
        f"{PLAIN}/step.rs",
        "if row.standing == Standing::Open {",
        "if row.standing != Standing::Revoking {",
        ("takers",),
    ),
    Fault(
        "those that share the range's first cell alone are not listed",
        f"{PLAIN}/maps.rs",
        "range.for_each(|cell|",
        "range.skip(1).for_each(|cell|",
        ("maps",),
    ),
    Fault(
        "those that end past the range are listed as within",
        f"{PLAIN}/maps.rs",
        "range.contains(&cell)",
        "(range.start <= cell)",
        ("maps",),
    ),
    Fault("the nearest is one that is not Open", f"{PLAIN}/maps.rs", "record.is_open() && u64::from", "u64::from", ("maps",)),
    Fault("the nearest must have more than so many cells", f"{PLAIN}/maps.rs", "length) >= cells", "length) > cells", ("maps",)),
    Fault(
        "the nearest is the one with the nearest base",
        f"{PLAIN}/maps.rs",
        "cell.abs_diff(other)",
        "cell.abs_diff((other & 0) + u64::from(record.base))",
        ("maps",),
    ),
    Fault(
        "of two equally near the upper is found",
        f"{PLAIN}/maps.rs",
        ".into_iter().min().map(",
        ".into_iter().min_by_key(|(far, base)| (*far, std::cmp::Reverse(*base))).map(",
        ("maps",),
    ),
    Fault("a list has room in 63 places", f"{PLAIN}/maps.rs", "LIST_ROOM: usize = 64;", "LIST_ROOM: usize = 63;", ("maps",)),
    Fault(
        "a list's other places are cleared",
        f"{PLAIN}/maps.rs",
        "let put = bases",
        "bases.fill(0);\n        let put = bases",
        ("maps",),
    ),
    Fault(
        "a refused load clears its register",
        f"{PLAIN}/step.rs",
        "let place = self.addressed(through, off)?;\n        let cell",
        "*self.register(party, d) = Slot::default();\n        let place = self.addressed(through, off)?;\n        let cell",
        ("answered",),
    ),
    Fault(
        "a refused grant overwrites the mailbox",
        f"{PLAIN}/step.rs",
        "refuse_if(mailbox.tag, Refusal::Mailbox)?;\n        *mailbox = Slot { cell, tag: true };",
        "let is_full = mailbox.tag;\n        *mailbox = Slot { cell, tag: true };\n        refuse_if(is_full, Refusal::Mailbox)?;",
        ("answered",),
    ),
    Fault(
        "a refused receive clears its register",
        f"{PLAIN}/step.rs",
        "refuse_if(!mailbox.tag, Refusal::Mailbox)?;\n        let received = std::mem::take(mailbox);\n"
        "        *self.register(party, d) = received;",
        "let received = std::mem::take(mailbox);\n        *self.register(party, d) = received;\n"
        "        refuse_if(!received.tag, Refusal::Mailbox)?;",
        ("answered",),
    ),
    Fault(
        "a refused revoke frees the pages that are not Mapped",
        f"{PLAIN}/pages.rs",
        "if pages.iter().any(|page| matches!(page, Page::Mapped(_))) {",
        "pages.iter_mut().filter(|page| **page == Page::Unmapped).for_each(|page| *page = Page::Freed);\n"
        "        if pages.iter().any(|page| matches!(page, Page::Mapped(_))) {",
        ("answered",),
    ),
    Fault(
        "a refused create spends the parent's limit",
        f"{PLAIN}/claims.rs",
        "if !is_free {\n",
        "payer.unspent -= limit.min(payer.unspent) * u16::from(!is_free);\n        if !is_free {\n",
        ("answered",),
    ),
    Fault(
        "a wrong lent length is told as an ill-formed state",
        f"{PLAIN}/step.rs",
        "refuse_if(differs, Refusal::LentLength)",
        "refuse_if(differs, Refusal::IllFormed)",
        ("answered",),
    ),
    Fault(
        "more lent tags than 16 F are taken",
        f"{PLAIN}/step.rs",
        "memory.tags.len() != lent",
        "memory.tags.len() < lent",
        ("answered",),
    ),
    Fault(
        "a refused start leaves the state as it was",
        "bench/archive/src/rules.rs",
        "arrays.clear();",
        "",
        ("answered",),
    ),
]


def checks_for(sessions):
    """The checks after which sessions are named; those of the document alone are about any answer."""
    named = tuple(check for check in CHECKS if any(session.startswith(check) for session in sessions))
    return named or ("answered",)


def all_faults():
    of_sessions = [
        Fault(words, f"{PLAIN}/{name}", old, new, checks_for(sessions)) for words, name, old, new, sessions in faults.FAULTS
    ]
    of_costs = [
        Fault(words, name, old, new, ("page-cost",))
        for words, name, old, new, _ in library_faults.FAULTS
        if name.startswith(PLAIN)
    ]
    return of_sessions + of_costs + OWN


def one_a_check(every):
    """The first fault that is listed for each check."""
    first = [next(fault for fault in every if check in fault.checks) for check in CHECKS]
    return list(dict.fromkeys(first))


def built(command, folder):
    """Runs a compiler, whose failure ends the program."""
    environment = dict(os.environ, CARGO_TARGET_DIR=str(folder / "target"))
    limits = {"cwd": folder, "env": environment, "timeout": BUILD_SECONDS}
    try:
        done = subprocess.run(command, **limits, capture_output=True, text=True, check=False)
    except subprocess.TimeoutExpired:
        sys.exit(f"not built within {BUILD_SECONDS} seconds: {' '.join(map(str, command))}")
    if done.returncode != 0:
        sys.exit(f"not built: {' '.join(map(str, command))}\n{done.stderr}")


def build_archive(folder):
    manifest = "bench/archive/Cargo.toml"
    built(["cargo", "build", "--quiet", "--offline", "--locked", "--manifest-path", manifest], folder)


def link(folder, parts, name):
    program = folder / "bin" / name
    built(["cc", "-std=c11", "-Iinclude", *parts, "target/debug/libcetomuhi.a", *SYSTEM, "-o", program], folder)
    return program


def run(command):
    """The exit status and the output."""
    try:
        done = subprocess.run(command, capture_output=True, text=True, timeout=RUN_SECONDS, check=False)
    except subprocess.TimeoutExpired:
        return f"no end in {RUN_SECONDS} seconds", ""
    return done.returncode, done.stdout


def compile_check(folder):
    """The check program's objects, of sources that no fault is put into."""
    sources = sorted((folder / "tools/check").glob("*.c"))
    digest = hashlib.sha256(b"").hexdigest()  # no archive's: each fault makes another one
    built(["cc", "-std=c11", "-O2", "-Iinclude", f'-DARCHIVE_SHA256="{digest}"', "-c", *sources], folder)
    return [folder / source.with_suffix(".o").name for source in sources]


def said_by_checks(folder, objects, chosen):
    """The check program's exit status over the archive as it stands, and PASS or FAIL of each chosen check."""
    only = [word for check in chosen for word in ("--only", check)]
    status, output = run([link(folder, objects, "cetomuhi-check"), *ARGUMENTS, *only])
    words = [line.split()[:2] for line in output.splitlines()]
    return status, {pair[1]: pair[0] for pair in words if pair and pair[0] in ("PASS", "FAIL")}


def try_sound(folder, objects):
    """Ends the program if anything fails without a fault."""
    build_archive(folder)
    failing = [name for name in BOUNDARY if run([link(folder, [f"tests/{name}.c"], name)])[0] != 0]
    if failing:
        sys.exit(f"without a fault these tests fail: {' '.join(failing)}")
    status, said = said_by_checks(folder, objects, CHECKS)
    if (status, said) != (0, dict.fromkeys(CHECKS, "PASS")):
        sys.exit(f"without a fault the check program ends with {status} and says {said}")


def try_fault(folder, objects, fault, chosen):
    """Whether every check that is for the fault fails, when the chosen ones run."""
    path = folder / fault.file
    sound = path.read_text()
    if sound.count(fault.old) != 1:
        sys.exit(f"{fault.words}: '{fault.old}' stands {sound.count(fault.old)} times in {fault.file}")
    path.write_text(sound.replace(fault.old, fault.new))
    build_archive(folder)
    status, said = said_by_checks(folder, objects, chosen)
    path.write_text(sound)
    failed = [check for check in CHECKS if said.get(check) == "FAIL"]
    missed = [check for check in fault.checks if check not in failed]
    ends = "" if status == 1 else f", ENDS WITH {status}"
    print(
        f"{fault.words}: noticed by {' '.join(failed) or 'nothing'}"
        + (f", MISSED by {' '.join(missed)}" if missed else "")
        + ends,
        flush=True,
    )
    return not missed and status == 1


def main():
    parser = argparse.ArgumentParser(description="Shows that cetomuhi-check notices faults.")
    parser.add_argument("--one", action="store_true", help="one fault for each check")
    is_short = parser.parse_args().one
    listed = one_a_check(all_faults()) if is_short else all_faults()
    with tempfile.TemporaryDirectory() as name:
        folder = pathlib.Path(name)
        for part in ("bench", "rust", "include", "tests", "tools/check"):
            shutil.copytree(ROOT / part, folder / part, ignore=shutil.ignore_patterns("target"))
        (folder / "bin").mkdir()
        objects = compile_check(folder)
        try_sound(folder, objects)
        caught = [try_fault(folder, objects, fault, fault.checks if is_short else CHECKS) for fault in listed]
    print(f"{sum(caught)} faults caught, {len(caught) - sum(caught)} missed")
    sys.exit(0 if all(caught) else 1)


if __name__ == "__main__":
    main()
