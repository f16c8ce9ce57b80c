#!/usr/bin/env python3
"""Every short history (document 02, 2026-10), from the rules of document 01 written anew for commands 01 to 0A, V 1 and F 1.

It shares nothing with the crates: every sequence is made and played, and those that are granted throughout are sorted.

  short_histories.py                 prints the lines; crates/histories_list/stdout is this
  short_histories.py --check FILE    compares a file with them, byte for byte, and says how many there are
"""
import itertools
import sys
from dataclasses import dataclass, replace

OPEN, TAKEN, REVOKING = "Open", "Taken", "Revoking"
UNMAPPED, FREED, MAPPED = "Unmapped", "Freed", "Mapped"
DIRTY, FREE = "Dirty", "Free"
V, F, PAGE = 1, 1, 16


@dataclass(frozen=True)
class Row:
    base: int
    length: int
    state: str
    holder: int


@dataclass(frozen=True)
class State:
    """What refusals 4 to 14 look at: no register, mailbox or memory cell is among it."""
    rows: tuple
    pages: tuple
    frames: tuple
    place: int


FRESH = State((Row(0, PAGE * V, OPEN, 0),), (UNMAPPED,) * V, (DIRTY,) * F, 0)


class Refused(Exception):
    pass


def refuse(number, applies):
    if applies:
        raise Refused(number)


def put(entries, at, *new, instead_of=1):
    return entries[:at] + new + entries[at + instead_of:]


def held_by(s, party, base):
    """Refusal 6: the caller's reservation that begins at base, and its place."""
    found = [(i, r) for i, r in enumerate(s.rows) if (r.base, r.holder) == (base, party)]
    refuse(6, not found)
    return found[0]


def revoking(s):
    return [(i, r) for i, r in enumerate(s.rows) if r.state == REVOKING]


def pages_of(r):
    return range(r.base // PAGE, (r.base + r.length) // PAGE)


def take(s, party, base, _register):
    i, r = held_by(s, party, base)
    refuse(7, r.state != OPEN)
    return replace(s, rows=put(s.rows, i, replace(r, state=TAKEN, holder=0)))


def split(s, party, base, length):
    i, r = held_by(s, party, base)
    refuse(7, r.state != OPEN)
    refuse(8, not 0 < length < r.length)
    refuse(9, len(s.rows) == 64)
    parts = replace(r, length=length), Row(base + length, r.length - length, OPEN, party)
    return replace(s, rows=put(s.rows, i, *parts))


def merge(s, party, base):
    i, r = held_by(s, party, base)
    above = [q for q in s.rows if (q.base, q.holder) == (r.base + r.length, party)]
    refuse(7, not above or {r.state, above[0].state} not in ({OPEN}, {TAKEN}))
    joined = replace(r, length=r.length + above[0].length)
    return replace(s, rows=put(s.rows, i, joined, instead_of=2))


def give(s, party, base, to):
    i, r = held_by(s, party, base)
    refuse(7, r.state != OPEN)
    return replace(s, rows=put(s.rows, i, replace(r, holder=to)))


def revoke(s, party, base):
    refuse(5, party != 0)
    i, r = held_by(s, party, base)
    refuse(7, r.state == REVOKING)
    refuse(10, r.base % PAGE or r.length % PAGE)
    refuse(11, revoking(s))
    refuse(13, any(s.pages[k] == MAPPED for k in pages_of(r)))
    pages = tuple(FREED if k in pages_of(r) else p for k, p in enumerate(s.pages))
    return State(put(s.rows, i, replace(r, state=REVOKING, holder=0)), pages, s.frames, 0)


def sweep(s, party, count):
    refuse(5, party != 0)
    refuse(11, not revoking(s))
    return replace(s, place=min(s.place + count, PAGE * F))


def collect(s, party):
    refuse(5, party != 0)
    refuse(11, not revoking(s) or s.place < PAGE * F)
    i, r = revoking(s)[0]
    pages = tuple(UNMAPPED if k in pages_of(r) else p for k, p in enumerate(s.pages))
    return State(put(s.rows, i, replace(r, state=OPEN, holder=0)), pages, s.frames, 0)


def map_page(s, party, page, frame):
    refuse(5, party != 0)
    refuse(12, page >= V or frame >= F)
    refuse(13, s.pages[page] != UNMAPPED)
    refuse(14, s.frames[frame] != FREE)
    return replace(s, pages=put(s.pages, page, MAPPED), frames=put(s.frames, frame, MAPPED))


def unmap(s, party, page):
    """There is one frame, so a Mapped page shows frame 0."""
    refuse(5, party != 0)
    refuse(12, page >= V)
    refuse(13, s.pages[page] != MAPPED)
    return replace(s, pages=put(s.pages, page, FREED), frames=put(s.frames, 0, DIRTY))


def zero(s, party, frame):
    refuse(5, party != 0)
    refuse(12, frame >= F)
    refuse(14, s.frames[frame] != DIRTY)
    return replace(s, frames=put(s.frames, frame, FREE))


# An operand: its width in bytes, and what it may be.
PARTY, BASE, LENGTH, NOUGHT = (1, (0, 1)), (2, (0, 8)), (2, (8, 16)), (1, (0,))

COMMANDS = {
    0x01: (take, PARTY, BASE, NOUGHT),
    0x02: (split, PARTY, BASE, LENGTH),
    0x03: (merge, PARTY, BASE),
    0x04: (give, PARTY, BASE, PARTY),
    0x05: (revoke, PARTY, BASE),
    0x06: (sweep, PARTY, LENGTH),
    0x07: (collect, PARTY),
    0x08: (map_page, PARTY, NOUGHT, NOUGHT),
    0x09: (unmap, PARTY, NOUGHT),
    0x0A: (zero, PARTY, NOUGHT),
}


def commands():
    """Each command with each choice of its operands: its bytes, its rule and the operands."""
    for byte, (rule, *operands) in COMMANDS.items():
        for values in itertools.product(*(choices for _, choices in operands)):
            written = (v.to_bytes(width, "big") for (width, _), v in zip(operands, values))
            yield bytes([byte]) + b"".join(written), rule, values


def granted(history):
    s = FRESH
    try:
        for _, rule, operands in history:
            s = rule(s, *operands)
    except Refused:
        return False
    return True


def histories():
    """The bytes of every history, for each number of commands."""
    every = list(commands())
    for count in range(4):
        sequences = itertools.product(every, repeat=count)
        yield sorted(b"".join(c[0] for c in h) for h in sequences if granted(h))


def main():
    by_count = list(histories())
    text = "".join(h.hex().upper() + "\n" for group in by_count for h in group).encode()
    if sys.argv[1:2] != ["--check"]:
        sys.stdout.buffer.write(text)
        return
    counts = ", ".join(f"{len(group)} of {n}" for n, group in enumerate(by_count))
    with open(sys.argv[2], "rb") as stored:
        if stored.read() != text:
            sys.exit(f"{sys.argv[2]} is not what the enumerator makes: {counts} commands, {len(text)} bytes")
    print(f"short histories: {counts} commands; {len(text)} bytes, as stored")


main()
