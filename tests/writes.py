#!/usr/bin/env python3
"""Whether the number of writes that split and merge answer is the number of writes that they do (document 02, 2026-03).

Their contract says the table and the number. That the number is a count is read off their MIR (`rt check --generated`, in each function's
Code/Mir.antt):

- of all the functions that they reach, `write_row` alone stores to memory, by one statement; it has no loop, and each way through it
  stores once. Its contract says that it answers one more than it is handed;
- a mover's count is one local. It begins once, outside every loop, at 0 or at the answer of a mover that it calls; each write is handed
  it and leaves its answer there; nothing else sets it; and it is what the mover answers;
- split and merge have no loop. Each way through them calls a mover once and answers its answer as `writes`, or calls none and answers a
  refusal, which has no number;
- nothing else calls `write_row` or a mover;
- of std they reach the few functions of STD alone, which are handed no row that may be written;
- what a mover reads from a row goes into a write and nowhere else, and it calls nothing but writes and movers, so that what rows hold
  does not decide which places are written.

All is read in copies, three at a time, so that no other `rt` is disturbed; each of the faults listed below is put into one and has to be found
there. Nothing is proved for that, and a faulty program need not meet its contract.
"""
import pathlib
import re
import shutil
import subprocess
import sys
import tempfile
from concurrent.futures import ThreadPoolExecutor

ROOT = pathlib.Path(__file__).resolve().parent.parent
SOURCE = pathlib.Path("crates/table/src/rows.rt")
CALLS = ["table::rows::split", "table::rows::merge"]
WRITE = "table::rows::write_row"
COPIES = 3
FROM_RESIDUAL = "std::prelude::ResultFromResidualErrResidual::from_residual"
# What is called of std, whose code is not read. None is handed a place that it could write through but its own iterator's.
STD = re.compile(r"std::(cmp::PartialEq::ne|prelude::(Result|Option)(Try::branch|FromResidual\w+::from_residual)|option::Option::\w+|\w+::Iter\w*::\w+|.*::(iter|position|get|min|saturating_sub|unwrap_or|copied|is_none|is_some))$")
OK, ERR = ["int", "8", "0"], ["int", "8", "1"]
MOVERS = ["table::rows::" + name for name in ("move_up", "move_down", "spread", "gather")]

LAST = "    writes = write_row(rows, i, lower, writes);\n"
TURN = "        writes = write_row(rows, j, above, writes);\n"
STORE = "    rows[at] = number;\n"
SPREAD = "    let writes = spread(rows, count, found.unwrap_or(0), lower, upper);\n"
HEAD = "// One Open reservation becomes two, the lower of `len` cells.\n"
AGAIN = "fn again(rows: &mut [u64]) -> usize {\n    if rows.len() > 0 {\n        return move_up(rows, 0, 0);\n    }\n    0\n}\n\n"
# The contracts refuse a write counted from 0 again and a row passed over. The other programs leave the table and the number that are
# promised, so that no contract tells them from the right one.
FAULTS = [
    ("a row stored beside write_row", LAST, "    rows[i] = upper;\n" + LAST),
    ("a write whose answer is dropped", LAST, "    write_row(rows, i, lower, writes);\n" + LAST),
    ("a write counted from 0 again", LAST, "    writes = write_row(rows, i, lower, 0);\n"),
    ("a move whose answer is dropped", "    let mut writes = move_up(rows, i + 1, n);\n",
     "    move_up(rows, i + 1, n);\n    let mut writes = n - i - 1;\n"),
    ("a count set anew at each turn", TURN, "        writes = j - from;\n" + TURN),
    ("a row passed over for what it holds", TURN, "        if above != 0 {\n    " + TURN + "        }\n"),
    ("two stores in one write", STORE, STORE + STORE),
    ("an answer that is no count", LAST + "    writes\n", LAST + "    n - i + 1\n"),
    ("a store in a loop of two turns", STORE, "    let mut k: usize = 0;\n    while k < 2 {\n    " + STORE + "        k += 1;\n    }\n"),
    ("a store left out where the number stands there", STORE, "    if rows[at] != number {\n    " + STORE + "    }\n"),
    ("a row passed over for what another function finds there", TURN, "        if (LentRows { rows, count: last }).find(0, 0).unwrap_or(0) != j {\n    " + TURN + "        }\n"),
    ("a split that works the number out", SPREAD, SPREAD.replace("let writes = ", "") + "    let writes = count - found.unwrap_or(0) + 1;\n"),
    ("a split that spreads, gathers and spreads again", SPREAD,
     SPREAD.replace("let writes = ", "") + "    gather(rows, count + 1, found.unwrap_or(0), lower);\n" + SPREAD),
    ("a mover called by another function", HEAD, AGAIN + HEAD),
]


# Words that the MIR has now, by those that are used below.
WORDS = {"List.◌∷◌": "lcons", "List.[]": "lnil", "cond": "if", "rv_opd": "rvOpd"}
WORDS |= {f"w{width}": str(width) for width in (8, 16, 32, 64)}


def parsed(text):
    """A term of antt: words, and lists for what stands in brackets."""
    stack = [[]]
    for token in re.findall(r"[()]|[^\s()]+", text):
        if token == "(":
            stack.append([])
        elif token == ")":
            inner = stack.pop()
            stack[-1].append(inner)
        else:
            token = token.removeprefix("Syntax.")
            stack[-1].append(WORDS.get(token, token))
    return stack[0] if len(stack[0]) > 1 else stack[0][0]


def listed(term):
    while isinstance(term, list) and term[0] == "lcons":
        yield term[1]
        term = term[2]


def body_of(path):
    """The body of a function: the last word of its record, in which each word that is defined beside it stands for its definition."""
    text = path.read_text()
    parts = dict(re.findall(r"^abbrev pub (\S+) : Syntax\.Body\n\1 =(.*?)(?=^abbrev |\Z)", text, re.MULTILINE | re.DOTALL))
    names = {local or "Symbol": whole.replace(".", "::")
             for whole, local in re.findall(r"^use Rattle\.(\S+)\.Symbol(?: as (\S+))?$", text, re.MULTILINE)}

    def whole(term):
        if isinstance(term, list):
            if term[:2] == ["MapTy.spell_body", "table"]:
                return whole(term[2])
            if term[0] == "call":
                called = term[1] if isinstance(term[1], str) else term[1][0]
                return ["call", names[called.removesuffix(".name")].replace("::proofs::", "::", 1), *map(whole, term[2:])]
            return list(map(whole, term))
        return whole(parsed(parts[term])) if term in parts else term

    return whole(re.search(r"^  body = (\S+);$", text, re.MULTILINE)[1])


def functions(root, crate):
    """The body of each function of a crate, by its name."""
    with tempfile.TemporaryDirectory() as made:
        mir = subprocess.run(["rt", "check", "--generated", made], cwd=root / "crates" / crate, text=True, capture_output=True)
        proofs = pathlib.Path(made) / f"Rattle-{crate}-proofs"
        files = sorted(proofs.glob("**/Code/Mir.antt"))
        if not files:
            sys.exit(f"writes: rt check --generated of {crate} failed:\n{mir.stdout}{mir.stderr}")
        return {"::".join((crate, *path.relative_to(proofs).parts[:-2])): body_of(path) for path in files}


class Statement:
    """An assignment, a call or a test: where its value goes, what it copies, whom it calls."""

    def __init__(self, term, in_loop):
        self.in_loop = in_loop
        self.called = term[1] if term[0] == "call" else None
        self.operands = list(listed(term[2])) if self.called else []
        self.value = term[2] if term[0] == "assign" else None
        place = {"assign": term[1], "call": term[-1]}.get(term[0])
        self.stores = place is not None and through(place)
        self.local = place[1] if place is not None else None
        self.into = place[1] if place is not None and place[2] == "lnil" else None
        self.copies = list(copies(term[1] if term[0] in ("if", "switch") else term[2]))

    def local_copied(self):
        """The local whose whole value is assigned, if that is all."""
        whole = self.value and self.value[0] == "rvOpd" and self.value[1][0] == "copy" and self.value[1][1][2] == "lnil"
        return self.value[1][1][1] if whole else None


def statements(term, in_loop=False):
    if not isinstance(term, list) or not term:
        return
    if term[0] in ("assign", "call", "if", "switch"):
        yield Statement(term, in_loop)
    if term[0] not in ("assign", "call"):
        for part in term[1:]:
            yield from statements(part, in_loop or term[0] == "loop")


def ways(term):
    """Each way through a term: its statements, and whether it returns. None for a term with a loop."""
    kind = term if isinstance(term, str) else term[0]
    if kind in ("skip", "return"):
        return [([], kind == "return")]
    if kind in ("assign", "call"):
        return [([Statement(term, False)], False)]
    if kind == "seq":
        first, rest = ways(term[1]), ways(term[2])
        if first is None or rest is None:
            return None
        return [way for way in first if way[1]] + [(a + b, ends) for a, goes in first if not goes for b, ends in rest]
    if kind in ("if", "switch"):
        branches = [ways(each) for each in (term[2:] if kind == "if" else arms(term[2]))]
        return None if None in branches else [way for branch in branches for way in branch]
    return None


def arms(term):
    while isinstance(term, list) and term[0] == "arm":
        yield term[2]
        term = term[3]
    if isinstance(term, list):
        yield term[1]


def through(place):
    """Whether a place is reached through a reference or a pointer."""
    return any(step[0] == "deref" for step in listed(place[2]))


def copies(term):
    """The places that a term copies."""
    if isinstance(term, list) and term:
        if term[0] == "copy":
            yield term[1]
        for part in term[1:]:
            yield from copies(part)


def reached(bodies):
    names, left = set(), list(CALLS)
    while left:
        name = left.pop()
        if name not in names and not STD.match(name):
            names.add(name)
            left += [each.called for each in bodies.get(name, []) if each.called]
    return names


def write_faults(body):
    taken = ways(body)
    if taken is None:
        return ["it has a loop"]
    return ["a way through it does not store once"] if any(sum(each.stores for each in way) != 1 for way, _ in taken) else []


def fields_of(statement):
    """What a statement puts together, if it does that."""
    return list(listed(statement.value[1])) if statement.value and statement.value[0] == "aggregate" else []


def granted(answer, way):
    """The fields of what an answer grants, if that is put together by one statement."""
    fields = fields_of(answer)
    made = [each for each in way if fields[:1] == [OK] and fields[1:] == [["copy", ["place", each.local, "lnil"]]]]
    return fields_of(made[0]) if len(made) == 1 and made[0].into else []


def call_faults(body, writes):
    """Of split or merge, whose answer, where it is granted, has its number of writes at a place."""
    taken = ways(body)
    if taken is None:
        return ["it has a loop"]
    found = []
    for way, _ in taken:
        moves = [i for i, each in enumerate(way) if each.called in MOVERS]
        answers = [each for each in way if each.local == "0"]
        one = answers[0] if len(answers) == 1 and answers[0].into else None
        if len(moves) > 1:
            found.append(f"a way through it calls movers {len(moves)} times")
        elif one is None:
            found.append("what it answers is not put together by one statement")
        elif not moves and one.called != FROM_RESIDUAL and fields_of(one)[:1] != [ERR]:
            found.append("a way through it that calls no mover does not answer a refusal")
        elif moves:
            local, fields = way[moves[0]].into, granted(one, way)
            if local is None or not fields or fields[writes] != ["copy", ["place", local, "lnil"]] or any(each.local == local for each in way[moves[0] + 1:]):
                found.append("the number of writes that it answers is not the mover's answer")
    return found


def count_faults(body):
    answers = [each for each in body if each.into == "0"]
    count = answers[0].local_copied() if len(answers) == 1 else None
    if count is None:
        return ["what it answers is not one local"]
    found, begins = [], 0
    for each in body:
        if each.called == WRITE:
            if each.into != count or each.operands[3] != ["copy", ["place", count, "lnil"]]:
                found.append("a write is not handed the count, or its answer is not kept")
        elif each.called and each.called not in MOVERS:
            found.append(f"it calls {each.called}")
        elif each.called or each.into == count:
            begins += 1
            if each.into != count or each.in_loop or each.called is None and each.value != ["rvOpd", ["int", "64", "0"]]:
                found.append("the count begins at something else than 0 or a mover's answer")
    return found if begins == 1 else found + [f"the count begins {begins} times"]


def read_faults(body):
    loads = [each for each in body if each.value and each.value[0] == "rvOpd" and each.copies]
    held, more = set(), True
    while more:
        more = {each.local for each in loads if holds(each.copies[0], held)} - held
        held |= more
    for each in body:
        used = [place for place in each.copies if holds(place, held)]
        if used and each not in loads and not (each.called == WRITE and [["copy", place] for place in used] == [each.operands[2]]):
            return ["what a row holds is used otherwise than in a write"]
    return []


def holds(place, held):
    return through(place) or place[1] in held


def faults(root, below):
    """What is wrong with the crate, which calls these functions of the crate below it."""
    terms = below | functions(root, "table")
    bodies = {name: list(statements(term)) for name, term in terms.items()}
    found = []
    for name in sorted(reached(bodies)):
        if name not in bodies:
            found.append(f"{name}: its code is not read")
            continue
        stores = sum(each.stores for each in bodies[name])
        if stores != (1 if name == WRITE else 0):
            found.append(f"{name}: {stores} statements store to memory")
    for name, body in sorted(bodies.items()):
        if name in MOVERS:
            found += [f"{name}: {fault}" for fault in count_faults(body) + read_faults(body)]
            continue
        moves = [each.called for each in body if each.called == WRITE or each.called in MOVERS and name not in CALLS]
        found += [f"{name}: it calls {called}, and is no mover" for called in moves]
    found += [f"{WRITE}: {fault}" for fault in write_faults(terms[WRITE])]
    return found + [f"{name}: {fault}" for name in CALLS for fault in call_faults(terms[name], writes_field(root))]


def writes_field(root):
    """At which place the number of writes stands in what split and merge answer."""
    text = (pathlib.Path(root) / "crates/table/src/lib.rt").read_text()
    return re.findall(r"pub (\w+):", re.search(r"pub struct Moved \{(.*?)\}", text, re.S)[1]).index("writes")


def copied(folder):
    """A copy of the crate and of those that it stands on."""
    folder.mkdir()
    lines = [line for line in (ROOT / "crates.txt").read_text().splitlines() if re.match(r"(table|capabilities):", line)]
    (folder / "crates.txt").write_text("".join(f"{line}\n" for line in lines))
    for name in ("table", "capabilities"):
        shutil.copytree(ROOT / "crates" / name, folder / "crates" / name, ignore=shutil.ignore_patterns("out", "must-fail"))
    return folder


def main():
    text = (ROOT / SOURCE).read_text()
    for what, old, _ in FAULTS:
        if text.count(old) != 1:
            sys.exit(f"writes: the text for '{what}' stands {text.count(old)} times in {SOURCE}")
    with tempfile.TemporaryDirectory() as place:
        free = [copied(pathlib.Path(place, str(number))) for number in range(COPIES)]

        def seen(fault):
            """What is found in a copy with a fault in it."""
            _, old, new = fault
            folder = free.pop()
            (folder / SOURCE).write_text(text.replace(old, new))
            try:
                return faults(folder, below)
            finally:
                free.append(folder)

        below = functions(free[0], "capabilities")
        found = faults(free[0], below)
        for fault in found:
            print(f"writes: {fault}")
        with ThreadPoolExecutor(COPIES) as workers:
            each = list(workers.map(seen, FAULTS))
    for (what, _, _), shown in zip(FAULTS, each):
        if not shown or "-v" in sys.argv:
            print(f"writes: {what}: {shown or 'not found'}")
    missed = sum(not shown for shown in each)
    print(f"writes: {len(found)} faults; {len(FAULTS) - missed} of {len(FAULTS)} planted ones found")
    sys.exit(1 if found or missed else 0)


main()
