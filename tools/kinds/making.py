"""The made files, and how one differs from what it is to be."""

import around
import proofs
import rattle
import table


def files(root):
    """The path and the text of each made file."""
    kinds = table.kinds(root)
    return rattle.files(kinds) + proofs.files(kinds) + around.files(kinds, root)


def difference(path, text):
    """The first line in which a file differs from what it is to be; None: there is none."""
    if not path.is_file():
        return "there is no such file"
    there, wanted = path.read_text().split("\n"), text.split("\n")
    for number, (got, want) in enumerate(zip(there, wanted), 1):
        if got != want:
            return f"line {number}: '{got.strip()}' stands there; expected '{want.strip()}'"
    if len(there) != len(wanted):
        return f"{len(there) - 1} lines; expected {len(wanted) - 1}"
    return None


def differing(root):
    """Path, text and difference of each made file that differs."""
    for name, text in files(root):
        found = difference(root / name, text)
        if found is not None:
            yield name, text, found
