#!/usr/bin/env python3
"""Shows that the checklist's sessions catch its faults, and those of requests 2026-01, 2026-02 and 2026-05 theirs.
Then, if the library is built, that its tests catch theirs (tests/library_faults.py).

Puts one fault after another into a copy of the plain implementation in bench/ and runs sessions/
over it. Each fault must make the sessions that are named with it print something else. No line
shows a taker, or the tag that a load leaves in memory while a revocation runs, and no session is long
enough for a count of 65,535, so that none of these faults is about one: bench/tests/rules.rs, loads.rs
and claims.rs look at them.
"""

import pathlib
import shutil
import subprocess
import sys
import tempfile

import library_faults

ROOT = pathlib.Path(__file__).resolve().parent.parent

# What goes wrong, the file, the text there, what stands in its place, the sessions that show it.
FAULTS = [
    (
        "a take leaves the reservation Open",
        "step.rs",
        "row.standing = Standing::Taken;",
        "",
        ["lent-once-twice", "lent-once-halves", "lent-once-again"],
    ),
    (
        "a take leaves the reservation with its holder",
        "step.rs",
        "row.holder = 0;",
        "",
        ["lent-once-twice", "lent-once-halves"],
    ),
    (
        "take, split and give accept Taken ones",
        "table.rs",
        "Standing::Open => Ok(index),",
        "Standing::Open | Standing::Taken => Ok(index),",
        ["lent-once-twice", "lent-once-halves", "lent-once-again"],
    ),
    (
        "a merge joins a Taken one with an Open one",
        "table.rs",
        "&& self.standing == next.standing",
        "",
        ["lent-once-twice", "nothing-lost-holders"],
    ),
    (
        "a Dirty frame is mapped",
        "pages.rs",
        "self.frames[frame] != FrameUse::Free",
        "self.frames[frame] == FrameUse::Mapped",
        ["crosses-over-frame", "crosses-over-page", "crosses-over-orders"],
    ),
    (
        "a zeroed frame keeps its cells",
        "step.rs",
        "memory.cells[lent.clone()].fill(0);",
        "",
        ["crosses-over-frame", "crosses-over-page", "crosses-over-orders"],
    ),
    (
        "a zeroed frame keeps its tags",
        "step.rs",
        "memory.tags[lent].fill(0);",
        "",
        ["crosses-over-frame"],
    ),
    (
        "an unmapped page is Unmapped, not Freed",
        "pages.rs",
        "self.pages[page] = Page::Freed;",
        "self.pages[page] = Page::Unmapped;",
        ["crosses-over-page"],
    ),
    (
        "a store keeps the tags of dying capabilities",
        "step.rs",
        "stored.tag && !self.is_dying(stored.cell)",
        "stored.tag",
        ["survivor-behind", "survivor-mailbox", "survivor-loader", "survivor-two"],
    ),
    (
        "a collect forgets the registers",
        "step.rs",
        "slot.tag &= !range.kills(slot.cell);",
        "let _ = slot;",
        ["survivor-behind", "survivor-mailbox", "survivor-loader", "survivor-two"],
    ),
    (
        "a collect forgets the mailboxes",
        "step.rs",
        "slot.tag && range.kills(slot.cell)",
        "slot.tag && slot.cell == 0",
        ["survivor-mailbox", "lent-once-again"],
    ),
    (
        "a sweep clears nothing",
        "step.rs",
        "if dying.kills(*cell) { 0 } else { *tag }",
        "if dying.kills(*cell) { *tag } else { *tag }",
        ["survivor-behind", "survivor-two", "lent-once-again"],
    ),
    (
        "a sweep clears every tag",
        "step.rs",
        "if dying.kills(*cell) { 0 } else { *tag }",
        "if dying.kills(*cell) { 0 } else { 0 }",
        ["survivor-behind", "survivor-two"],
    ),
    (
        "a collect is granted while cells are left",
        "step.rs",
        "Some(running) if running.place == self.pages.lent_cells() => running.range,",
        "Some(running) => running.range,",
        ["survivor-behind", "survivor-two", "document"],
    ),
    (
        "a split pleads a full table at 63",
        "table.rs",
        "self.count == ROWS",
        "self.count >= ROWS - 1",
        ["edges", "nothing-lost-fill", "nothing-lost-merge-all", "nothing-lost-holders"],
    ),
    (
        "a merge loses the next one's cells",
        "table.rs",
        "self.rows[index].length += next.length;",
        "",
        ["edges", "nothing-lost-fill", "nothing-lost-merge-all", "nothing-lost-holders"],
    ),
    (
        "a merge does not move the rows above it",
        "table.rs",
        "self.rows.copy_within(index + 2..self.count, index + 1);",
        "",
        ["nothing-lost-fill", "nothing-lost-holders"],
    ),
    (
        "a split does not move the rows above it",
        "table.rs",
        "self.rows.copy_within(index + 1..self.count, index + 2);",
        "",
        ["nothing-lost-fill", "nothing-lost-holders"],
    ),
    (
        "register 8 is taken for a register",
        "step.rs",
        "*number > 7",
        "*number > 8",
        ["edges"],
    ),
    (
        "a take gives all permissions",
        "capability.rs",
        "PLAIN_PERMISSIONS: u8 = LOAD | STORE;",
        "PLAIN_PERMISSIONS: u8 = ALL_PERMISSIONS;",
        ["take-masked-plain", "lent-once-twice"],
    ),
    (
        "a take by mask gives all permissions",
        "step.rs",
        "cap::ALL_PERMISSIONS & mask",
        "cap::ALL_PERMISSIONS | mask & 0",
        ["take-masked-none", "take-masked-each", "take-masked-refused"],
    ),
    (
        "a take by mask gives permissions above 15",
        "step.rs",
        "cap::ALL_PERMISSIONS & mask",
        "mask",
        ["take-masked-none", "take-masked-all"],
    ),
    (
        "a take by mask gives what a take gives",
        "step.rs",
        "cap::ALL_PERMISSIONS & mask",
        "cap::PLAIN_PERMISSIONS & mask",
        ["take-masked-all", "take-masked-each", "take-masked-plain", "document"],
    ),
    (
        "a load keeps the tag without permission 4",
        "step.rs",
        "cap::allows(through, cap::LOAD_CAPABILITY) && !self.is_dying(cell)",
        "!self.is_dying(cell)",
        ["take-masked-plain", "take-masked-each", "load-filtered"],
    ),
    (
        "a load keeps the tags of dying capabilities",
        "step.rs",
        "cap::allows(through, cap::LOAD_CAPABILITY) && !self.is_dying(cell)",
        "cap::allows(through, cap::LOAD_CAPABILITY)",
        ["load-filtered", "load-filtered-at-once", "survivor-behind", "survivor-two"],
    ),
    (
        "a load drops the number of a dying capability, too",
        "step.rs",
        "let cell = memory.cells[place];",
        "let cell = if self.is_dying(memory.cells[place]) { 0 } else { memory.cells[place] };",
        ["load-filtered", "load-filtered-at-once", "survivor-behind", "survivor-two"],
    ),
    (
        "a load filters by the first reservation when no revocation runs",
        "step.rs",
        "cap::allows(through, cap::LOAD_CAPABILITY) && !self.is_dying(cell)",
        "{ let first = self.table.rows()[0].range();"
        " cap::allows(through, cap::LOAD_CAPABILITY) && !self.revocation.map_or(first, |r| r.range).kills(cell) }",
        ["load-filtered", "document"],
    ),
    (
        "a capability is stored without permission 8",
        "step.rs",
        "stored.tag && !cap::allows(through, cap::STORE_CAPABILITY)",
        "stored.tag && through == 0",
        ["take-masked-plain", "take-masked-each"],
    ),
    (
        "an unmap does not look at claims",
        "pages.rs",
        "if is_claimed(page) {",
        "if is_claimed(page) && page == PAGES {",
        ["claims-front-matter", "claims-depth", "claims-refusals"],
    ),
    (
        "an unmap looks at the claims of principal 0 alone",
        "claims.rs",
        "self.counts.iter().any(|counts| counts[page] > 0)",
        "self.counts[0][page] > 0",
        ["claims-front-matter", "claims-depth", "claims-refusals"],
    ),
    (
        "22 is judged before 13",
        "step.rs",
        "self.pages.unmap(page, |page| self.claims.is_claimed(page))?;",
        "refuse_if(self.claims.is_claimed(page.into()), Refusal::Claimed)?; self.pages.unmap(page, |_| false)?;",
        ["claims-front-matter", "claims-refusals"],
    ),
    (
        "a create leaves the parent its limit",
        "claims.rs",
        "payer.unspent = payer.unspent.checked_sub(limit)",
        "let _ = payer.unspent.checked_sub(limit)",
        ["claims-limits", "claims-refusals"],
    ),
    (
        "a create takes a number that is taken",
        "claims.rs",
        "if !is_free {",
        "if !is_free && usize::from(child) >= PRINCIPALS {",
        ["claims-depth", "claims-refusals"],
    ),
    (
        "party 0 holds every principal",
        "claims.rs",
        "if principal.holder == party => Ok(principal),",
        "if principal.holder == party || party == 0 => Ok(principal),",
        ["claims-depth", "claims-refusals"],
    ),
    (
        "a claim spends at every count",
        "claims.rs",
        "if *count == 0 {\n            principal.unspent = ",
        "{\n            principal.unspent = ",
        ["claims-limits"],
    ),
    (
        "a claim spends nothing",
        "claims.rs",
        "principal.unspent = principal.unspent.checked_sub(1).ok_or(Refusal::ClaimLimit)?;",
        "let _ = principal;",
        ["claims-limits", "claims-depth", "claims-refusals"],
    ),
    (
        "a claim is granted for a page at V",
        "step.rs",
        "let page = self.pages.named_page(page)?;\n        self.claims.claim(",
        "let page = page.into();\n        self.claims.claim(",
        ["claims-refusals"],
    ),
    (
        "a release gives nothing back",
        "claims.rs",
        "principal.unspent += 1;",
        "let _ = principal;",
        ["claims-limits"],
    ),
    (
        "a release lets go of all counts of the page",
        "claims.rs",
        "*count = count.checked_sub(1).ok_or(Refusal::ClaimLimit)?;",
        "count.checked_sub(1).ok_or(Refusal::ClaimLimit)?; *count = 0;",
        ["claims-front-matter", "claims-limits"],
    ),
    (
        "a release at 0 is granted",
        "claims.rs",
        "*count = count.checked_sub(1).ok_or(Refusal::ClaimLimit)?;",
        "*count = count.saturating_sub(1);",
        ["claims-front-matter", "claims-limits", "claims-depth", "claims-refusals"],
    ),
    (
        "a destroy is for who holds the principal",
        "claims.rs",
        "held(&mut self.principals, party, parent)?;\n        let family",
        "held(&mut self.principals, party, number)?;\n        let family",
        ["claims-front-matter", "claims-depth", "claims-refusals"],
    ),
    (
        "a destroy leaves the descendants",
        "claims.rs",
        "let family = self.family(number);",
        "let family = 1 << number;",
        ["claims-limits", "claims-depth"],
    ),
    (
        "a destroy leaves the claims",
        "claims.rs",
        "counts.fill(0);",
        "",
        ["claims-front-matter", "claims-depth", "claims-refusals"],
    ),
    (
        "a destroy returns what is unspent alone",
        "claims.rs",
        "returned += spent(counts) + entry",
        "returned += entry",
        ["claims-limits", "claims-depth"],
    ),
    (
        "a destroy returns nothing",
        "claims.rs",
        "?.unspent += returned;",
        "?.unspent += returned & 0;",
        ["claims-limits", "claims-depth"],
    ),
]


def differing_sessions(bench):
    """The sessions that differ, or None if the program does not even end."""
    command = ["cargo", "run", "--quiet", "--bin", "check_sessions", "--", ROOT / "sessions"]
    done = subprocess.run(command, cwd=bench, capture_output=True, text=True, check=False)
    if "error: could not compile" in done.stderr:
        sys.exit(done.stderr)
    if "sessions agree" not in done.stdout:
        return None
    names = [line.split(": ")[0] for line in done.stdout.splitlines() if ": " in line]
    return {pathlib.Path(name).stem for name in names}


def try_fault(bench, fault):
    """Whether every session that is named with the fault shows it."""
    words, name, old, new, sessions = fault
    path = bench / "src/plain" / name
    sound = path.read_text()
    if sound.count(old) != 1:
        sys.exit(f"{words}: '{old}' stands {sound.count(old)} times in {name}")
    path.write_text(sound.replace(old, new))
    found = differing_sessions(bench)
    path.write_text(sound)
    missed = [] if found is None else sorted(set(sessions) - found)
    shown = "the program stops" if found is None else " ".join(sorted(found)) or "nothing"
    print(f"{words}: shown by {shown}" + (f", MISSED by {' '.join(missed)}" if missed else ""))
    return not missed


def main():
    with tempfile.TemporaryDirectory() as folder:
        bench = pathlib.Path(folder, "bench")
        for name in ("bench", "rust"):  # bench names the crate in rust/, though the plain rules need it not
            shutil.copytree(ROOT / name, pathlib.Path(folder, name), ignore=shutil.ignore_patterns("target"))
        if differing_sessions(bench) != set():
            sys.exit("sessions differ without a fault")
        caught = [try_fault(bench, fault) for fault in FAULTS]
    caught += library_faults.try_all()
    print(f"{sum(caught)} faults caught, {len(caught) - sum(caught)} missed")
    sys.exit(0 if all(caught) else 1)


if __name__ == "__main__":
    main()
