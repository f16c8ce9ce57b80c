#!/usr/bin/env python3
"""Brings the names of definitions and lemmas to today's spelling: values, lemmas and fields in snake case, types in camel case.

usage: tools/spelling.py [--names]      at the top of a checkout; --names prints the names, old and new, and changes nothing

A lemma that would have the name of a definition gets `_lem`. It runs once, after port.py, over crates/ (sources, specifications, proofs, edits), the edits
in tests/ and the documents' names in backticks; functions of src/, goals and places that Rattle names itself keep theirs. Where two
names of one file would fall together it says so and writes nothing.
"""

import pathlib
import re
import sys

ROOT = pathlib.Path(__file__).resolve().parent.parent
NAME = r"[^\s(){}.,;:\"«»@|?`]+"
TOKEN = re.compile(NAME)
HEAD = re.compile(r"^( *)(?:(?:abbrev|unfoldable|pub|record|data|ruleset) )*(" + NAME + r")(?: \{[^}]*\})* :(?: (.*))?$")
FIELD = re.compile(r"(?m)^ +(?:pub )?([a-z]" + NAME + r") : ")
RECORD = re.compile(r"(?m)^((?:(?:abbrev|unfoldable|pub) )*(?:record|data) [^\n]*where\n)((?: [^\n]*\n?)+)")
MADE = ("Goals", "Given", "Lts", "Tie", "Statement", "Reads", "Stops", "Loops")


def words(name):
    """The words of a name in dashes or in camel case."""
    parts = re.split(r"-", name)
    out = []
    for part in parts:
        out += re.sub(r"(?<=[a-z0-9])(?=[A-Z])", "_", part).lower().split("_") if not part[:1].isupper() else [part]
    return [w for w in out if w]


def files():
    return sorted(p for p in (ROOT / "crates").rglob("*.antt") if "out" not in p.parts)


def is_type(rest):
    """Whether a signature's result is a type."""
    return re.search(r"(?:^|→ |→\n +)Type(?: \d+| ℓ)?\s*$", rest.strip()) is not None


def heads(text):
    """The names that a text declares, with their types."""
    lines = text.split("\n")
    for i, line in enumerate(lines):
        m = HEAD.match(line)
        if m:
            rest = [m.group(3) or ""]
            for more in lines[i + 1 :]:
                if not more.startswith(m.group(1) + " "):
                    break
                rest.append(more)
            yield m.group(2), "\n".join(rest)


# Names that need one of their own: both of a pair that would fall together are definitions.
CHOSEN = {"noCall": "no_call_numbers"}


def definitions():
    """The names of definitions and lemmas: name to (is it a type, does a specification define it)."""
    found = {}
    for path in files():
        for name, rest in heads(path.read_text(encoding="utf-8")):
            if re.match(r"\s*(?:\{[^}]*\} → )?(tie|goal|given|lts|loops)\.", rest) or "◌" in name:
                continue
            spec = "specs" in path.parts
            old = found.get(name, (False, False))
            found[name] = (old[0] or is_type(rest) and spec, old[1] or spec)
    return found


def odd(name):
    """Whether a name is in dashes or in lower camel case."""
    return bool(re.search(r"[a-z0-9'₀-₉μ]-|-[a-z0-9]", name) or re.match(r"[a-z][a-z0-9]*[A-Z]", name))


def camel(name):
    return "".join(w[:1].upper() + w[1:] for w in words(name))


def mapping():
    found = definitions()
    to = {}
    for name, (typed, spec) in sorted(found.items()):
        if not odd(name):
            continue
        to[name] = CHOSEN.get(name) or (camel(name) if typed else "_".join(words(name)))
    for path in files():
        seen = {}
        for word in sorted(own_words(path.read_text(encoding="utf-8"))):
            other = seen.setdefault(to.get(word, word), word)
            if other != word:
                lemma = max((w for w in (word, other) if w in found), key=lambda w: (not found[w][1], "-" in w))
                to[lemma] = to.get(lemma, lemma).removesuffix("_lem") + "_lem"
    return to


def own_words(text):
    """The words of a text that stand for themselves: no comments, no words of a path or behind a projection's dot."""
    text = re.sub(r"--[^\n]*|(?m:^use .* as )|\bRattle\.[^\s{]*", "", text)
    return {m.group(0) for m in TOKEN.finditer(text) if text[m.start() - 1 : m.start()] != "."}


def aliases(text):
    """The heads after which a dot leads into a module of ours: aliases and last words of `use`."""
    ours, made = set(), set()
    for m in re.finditer(r"(?m)^\s*(?:ghost )?use ([^\s;{]+?)(?:\.\{[^}]*\})?(?: as (\S+?))?;?$", text):
        last = m.group(1).split(".")[-1]
        (made if last in MADE else ours).add(m.group(2) or last)
    return ours - made


def foreign(text):
    """The names that a text imports from libraries: they keep theirs."""
    own = {p.name for p in (ROOT / "crates").iterdir()}
    out = set()
    for m in re.finditer(r"(?m)^\s*(?:ghost )?use ([\w.◌·+]+)\.\{([^}]*)\}", text):
        parts = m.group(1).split(".")
        if parts[0] != "Rattle" or parts[1] not in own:
            out |= {part.split(" as ")[0].strip() for part in m.group(2).split(",")}
    return out


def turned(text, to, ours):
    """A text with its names turned. After a dot only what a module of ours or a path holds, and fields."""
    fields, theirs = to["."], foreign(text)
    out, at = [], 0
    for m in TOKEN.finditer(text):
        word = m.group(0)
        new = None if word in theirs else to.get(word)
        if new and m.start() and text[m.start() - 1] == ".":
            chain = re.search(r"([^\s(){},;:]*)\.$", text[: m.start()]).group(1)
            head = chain.split(".")[0]
            if not odd(word) or not (head in ours or head == "Rattle" and not any("." + k in "." + chain for k in MADE) or word in fields):
                new = None
        if new:
            out.append(text[at : m.start()] + new)
            at = m.end()
    return "".join(out) + text[at:]


def fields_of():
    out = set()
    for path in files():
        for m in RECORD.finditer(path.read_text(encoding="utf-8")):
            out |= {f.group(1) for f in FIELD.finditer(m.group(2))}
    return out


def clauses(text, to):
    """A source with the names in its clauses, its ghost imports and its comments turned."""
    theirs = foreign(text)
    one = lambda s: TOKEN.sub(lambda m: to.get(m.group(0), m.group(0)) if odd(m.group(0)) and m.group(0) not in theirs else m.group(0), s)
    out = []
    for line in text.split("\n"):
        is_clause = re.match(r"\s*(//|ghost |requires|ensures)", line)
        out.append(one(line) if is_clause else line)
    return "\n".join(out)


def edits(text, to):
    one = lambda s: TOKEN.sub(lambda m: to.get(m.group(0), m.group(0)) if odd(m.group(0)) else m.group(0), s)
    return "\n".join(one(l) if re.match(r"(old|new|//|#|-)", l) else l for l in text.split("\n"))


def documents(text, to):
    """The names in backticks: of definitions and lemmas, and those behind `crate:Module.`, which port.py may have turned."""

    def placed(m):
        crate, module, name = m.groups()
        held = set()
        for part in ("specs", "proofs"):
            path = ROOT / "crates" / crate / part / (module.replace(".", "/") + ".antt")
            if path.is_file():
                held |= {n for n, _ in heads(path.read_text(encoding="utf-8"))}
        new = to.get(name, name)
        for one in (name, "_".join(words(name)), camel(name)):
            if one in held:
                new = to.get(one, one)
                break
        return f"{crate}:{module}.{new}"

    def span(m):
        held = re.sub(r"\b(\w+):([\w.]+)\.(" + NAME + ")", placed, m.group(1))
        return "`" + re.sub(NAME, lambda w: to.get(w.group(0), w.group(0)) if odd(w.group(0)) else w.group(0), held) + "`"

    return re.sub(r"`([^`\n]+)`", span, text)


def merged(path, text, to):
    """Names of one file that would fall together."""
    seen = {}
    out = []
    for word in own_words(text):
        new = to.get(word, word)
        if new in seen and seen[new] != word:
            out.append(f"{path.relative_to(ROOT)}: {seen[new]} and {word} would both be {new}")
        seen[new] = word
    return out


def main(argv):
    to = mapping()
    if argv == ["--names"]:
        for name, new in sorted(to.items()):
            print(name, new)
        return 0
    if argv:
        print(__doc__)
        return 2
    bad, write = [], []
    to["."] = {f for f in fields_of() if f in to}
    for path in files():
        text = path.read_text(encoding="utf-8")
        bad += merged(path, text, to)
        new = turned(text, to, aliases(text))
        write.append((path, text, new))
    for path in sorted((ROOT / "crates").rglob("*.rt")):
        if "out" not in path.parts:
            text = path.read_text(encoding="utf-8")
            write.append((path, text, clauses(text, to)))
    for path in sorted((ROOT / "crates").rglob("*.edit")) + sorted((ROOT / "tests/edits").rglob("*.edit")):
        text = path.read_text(encoding="utf-8")
        write.append((path, text, edits(text, to)))
    for path in [ROOT / "README.md", *sorted((ROOT / "docs").glob("*.md"))]:
        text = path.read_text(encoding="utf-8")
        write.append((path, text, documents(text, to)))
    if bad:
        print("\n".join(bad))
        return 1
    n = 0
    for path, old, new in write:
        if old != new:
            path.write_text(new, encoding="utf-8")
            n += 1
    print(f"{len(to) - 1} names, {n} files")
    return 0


if __name__ == "__main__":
    sys.exit(main(sys.argv[1:]))
