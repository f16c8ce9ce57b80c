#!/usr/bin/env python3
"""Whether the documents name what there is.

In README.md and docs/*.md, `crate:Module.name` is a definition or theorem of crates/crate/specs/Module.antt or
crates/crate/proofs/Module.antt, `crate:lib.Name` a type of crates/crate/src/lib.rt, and `crate!edit` the file
crates/crate/must-fail/edit.edit; an edit outside the gate is cited by its path, `tests/edits/crate/edit.edit`. Each one that stands for
nothing is printed, and the exit status is 1 then.
"""
import pathlib
import re
import sys

ROOT = pathlib.Path(__file__).resolve().parent.parent
CRATES = ROOT / "crates"
NAMED = re.compile(r"`([a-z_]+):([A-Za-z]+)\.([^`\s]+)`")
EDIT = re.compile(r"`([a-z_]+)!([a-z0-9_]+)`")
OUTSIDE = re.compile(r"`(tests/edits/[^`\s]+\.edit)`")


def read(path):
    return path.read_text() if path.is_file() else ""


def is_type(crate, name):
    return re.search(rf"\b(struct|enum)\s+{re.escape(name)}\b", read(CRATES / crate / "src" / "lib.rt"))


def is_declared(crate, module, name):
    """A line that begins with the name, behind words as `pub` or `record`, and goes on with a colon, a bracket or arguments."""
    line = re.compile(rf"^\s*((abbrev|unfoldable|pub|private|data|record)\s+)*{re.escape(name)}(?=[\s:({{])", re.MULTILINE)
    return any(line.search(read(CRATES / crate / kind / f"{module}.antt")) for kind in ("specs", "proofs"))


def is_edit(crate, name):
    return (CRATES / crate / "must-fail" / f"{name}.edit").is_file()


def faults(text):
    for crate, module, name in NAMED.findall(text):
        there = is_type(crate, name) if module == "lib" else is_declared(crate, module, name)
        if not there:
            yield f"`{crate}:{module}.{name}`"
    for crate, edit in EDIT.findall(text):
        if not is_edit(crate, edit):
            yield f"`{crate}!{edit}`"
    for path in OUTSIDE.findall(text):
        if not (ROOT / path).is_file():
            yield f"`{path}`"


def main():
    wrong = 0
    for document in [ROOT / "README.md", *sorted((ROOT / "docs").glob("*.md"))]:
        for fault in faults(document.read_text()):
            print(f"{document.relative_to(ROOT)}: {fault} names nothing")
            wrong += 1
    print(f"references that name nothing: {wrong}")
    return 1 if wrong else 0


if __name__ == "__main__":
    sys.exit(main())
