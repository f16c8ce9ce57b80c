"""What has an arm or a function a kind around the proved crates: the C header and the Rust crate."""

import re
import runpy

from rattle import LINE, made
from table import Fault

RUST = "// Made by tools/kinds from the enum of calls: not to be changed here."
HEADER = "include/cetomuhi.h"
HEX = "tools/hex"
WORDS = "tools/desk/calls.c"


# ---- include/cetomuhi.h

def filled(head, items):
    """Items behind a head, as many on a line as there is room for; further lines begin below the first item."""
    lines = [head + items[0]]
    for item in items[1:]:
        if len(lines[-1]) + len(" " + item) <= LINE:
            lines[-1] += " " + item
        else:
            lines.append(" " * len(head) + item)
    return "\n".join(lines)


def function(kind):
    """The function that makes a call of the kind."""
    head = f"static inline cetomuhi_call cetomuhi_{kind.snake}("
    *first, last = [f"uint64_t {name}" for name in kind.names]
    signature = filled(head, [*(f"{name}," for name in first), f"{last}) {{"])
    if len(kind.names) <= 4:
        values = ", ".join([f"CETOMUHI_{kind.constant}", *kind.names, *["0"] * (4 - len(kind.names))])
        return f"{signature}\n    return cetomuhi_call_of({values});\n}}\n"
    values = ", ".join([f"CETOMUHI_{kind.constant}", *kind.names, *["0"] * (6 - len(kind.names))])
    return f"{signature}\n    const cetomuhi_call call = {{{{{values}}}}};\n    return call;\n}}\n"


def comments(text):
    """The comment above each function, which is written by hand."""
    pairs = re.findall(r"((?:/\*(?:(?!\*/).)*\*/\n)?)static inline cetomuhi_call cetomuhi_(\w+)\(", text, re.DOTALL)
    return {name: comment for comment, name in pairs}


def functions(kinds, text):
    kept = comments(text)
    return "".join(kept.get(kind.snake, "") + function(kind) for kind in kinds)


def words(kinds, _):
    """The words of cetomuhi_kind_word."""
    return filled(" " * 8, ['"no command",', *(f'"{kind.snake.replace("_", " ")}",' for kind in kinds)]) + "\n"


def region(text, name, make):
    """The text with what stands between two comments made anew."""
    found = re.search(rf"(/\* Made by tools/kinds: {name}\b[^*]*\*/\n)(.*?)( *)(/\* End of {name}\. \*/)", text, re.DOTALL)
    if not found:
        raise Fault(f"{HEADER}: the comments around {name} are not there")
    return text[: found.start(2)] + make(found[2]) + text[found.start(3):]


def header(kinds, root):
    text = (root / HEADER).read_text()
    for name, make in (("the words", words), ("the functions", functions)):
        text = region(text, name, lambda old, make=make: make(kinds, old))
    return HEADER, text


# ---- tools/hex

def hex_commands(root):
    """The commands of tools/hex: of each byte the operands and the words."""
    return runpy.run_path(str(root / HEX))["COMMANDS"]


# ---- tools/desk/calls.c

ROW = re.compile(r'\{0x(\w\w), "([^"]*)",\s*((?:"[^"]*"\s*)+)\}')


def worded_commands(root):
    """The commands of tools/desk/calls.c: of each byte the operands and the words."""
    rows = ROW.findall((root / WORDS).read_text())
    return {int(byte, 16): (layout, "".join(re.findall('"([^"]*)"', words))) for byte, layout, words in rows}


# ---- rust/cetomuhi

def rust_pattern(kind, names):
    return f"Call::{kind.variant} {{ {', '.join(names)} }}"


def to_numbers(kind):
    values = [o.name if o.type == "u64" else f"{o.number}.into()" for o in kind.operands]
    return f"            {rust_pattern(kind, kind.names)} => [{', '.join([kind.code, *values, *['0'] * (6 - len(values))])}],"


FROM = {"u8": "byte({})?", "VirtualPage": "VirtualPage(byte({})?)", "Frame": "Frame(byte({})?)", "u16": "two({})?", "u64": "{}"}


def from_numbers(kind):
    fields = [f"{o.name}: {FROM[o.type].format(f'n{i}')}" for i, o in enumerate(kind.operands, 1)]
    return f"            {kind.code} => {rust_pattern(kind, fields)},"


def in_words(kind, text):
    """The arm that writes the words of tools/hex. A page or a frame is written by its number."""
    inner = {o.layout.split("/")[0]: o for o in kind.operands}
    numbers = []

    def put(found):
        operand = inner.get(found[1])
        if operand is None:
            raise Fault(f"{HEX}: {kind.code[2:]}: the words name {found[0]}, which is no operand")
        if operand.number == operand.name:
            return f"{{{operand.name}}}"
        numbers.append(operand.number)
        return "{}"

    words = re.sub(r"\{(\w+)\}", put, text)
    named = [o.name for o in kind.operands if f"{{{o.name}}}" in words or o.number in numbers]
    bound = [*named, ".."] if len(named) < len(kind.operands) else named
    arguments = "".join(f", {number}" for number in numbers)
    return f'            {rust_pattern(kind, bound)} => write!(out, "{words}"{arguments}),'


CRATE = f"""{RUST}
//! A call as the boundary's seven numbers, and in words.

use crate::call::{{byte, two, Call, Frame, VirtualPage, CALL_NUMBERS}};
use std::fmt;

impl Call {{
    /// The call as the boundary's seven numbers.
    pub fn numbers(&self) -> [u64; CALL_NUMBERS] {{
        match *self {{
%s
        }}
    }}

    /// The call of seven numbers; none if the command or an operand is out of range.
    pub fn of(numbers: [u64; CALL_NUMBERS]) -> Option<Call> {{
        let [command, n1, n2, n3, n4, n5, n6] = numbers;
        let call = match command {{
%s
            _ => return None,
        }};
        (call.numbers() == numbers).then_some(call)
    }}
}}

/// The call in words.
impl fmt::Display for Call {{
    fn fmt(&self, out: &mut fmt::Formatter) -> fmt::Result {{
        match *self {{
%s
        }}
    }}
}}"""


def crate(kinds, root):
    commands = hex_commands(root)
    missing = [kind.code[2:] for kind in kinds if kind.byte not in commands]
    if missing:
        raise Fault(f"{HEX}: command {missing[0]} has no words")
    arms = (
        [to_numbers(kind) for kind in kinds],
        [from_numbers(kind) for kind in kinds],
        [in_words(kind, commands[kind.byte][1]) for kind in kinds],
    )
    return made("rust/cetomuhi/src/kinds.rs", [CRATE % tuple(map("\n".join, arms))])


def files(kinds, root):
    return [header(kinds, root), crate(kinds, root)]
