"""The Rattle code that has an arm a kind, in the form that `rt fmt` leaves. The search finds each arm alone, so that no proof is made."""

# The longest line of code.
LINE = 100
RATTLE = "// Made by tools/kinds from the enum of calls: not to be changed here."


def made(path, parts):
    """A made file: its path and its text."""
    return path, "\n\n".join(parts) + "\n"


def listed(items, limit, open_, close, depth):
    """Items on one line if they are no longer than the limit, else on a line each."""
    line = ", ".join(items)
    if len(line) <= limit:
        pad = " " if open_.endswith("{") else ""
        return f"{open_}{pad}{line}{pad}{close}"
    step = " " * (depth + 4)
    return "\n".join([open_, *(f"{step}{item}," for item in items), " " * depth + close])


def array(items, depth=4):
    return listed(items, 60, "[", "]", depth)


def pattern(kind, depth=8):
    """The pattern that binds a kind's operands."""
    return listed(kind.names, 18, f"Call::{kind.variant} {{", "}", depth)


def imports(kinds, *wanted):
    """The page layer's types that the kinds have."""
    types = {operand.type for kind in kinds for operand in kind.operands}
    return used("pages", types & set(wanted))


def used(path, names):
    """The line that brings names of one module into scope."""
    names = sorted(names)
    if not names:
        return []
    return [f"use {path}::{{{', '.join(names)}}};" if len(names) > 1 else f"use {path}::{names[0]};"]


# ---- crates/calls

# The number of bytes, by how many there are.
NUMBERS = {2: "u16", 8: "u64"}


def byte_names(operand):
    """The names of an operand's bytes, the high one first."""
    if operand.width == 1:
        return [operand.name]
    name = operand.name if operand.width == 2 else operand.name[0]
    return [f"{name}{place}" for place in reversed(range(operand.width))]


def wide(kind):
    """The operands of several bytes."""
    return [operand for operand in kind.operands if operand.width > 1]


def call(kind, depth):
    """The call of operands that are bound to their names."""
    fields = [o.name if o.plain == o.type else f"{o.name}: {o.type}({o.name})" for o in kind.operands]
    return listed(fields, 18, f"Call::{kind.variant} {{", "}", depth)


def read_arm(kind, pattern=None):
    names = [name for operand in kind.operands for name in byte_names(operand)]
    lets = [f"let {o.name} = {NUMBERS[o.width]}::from_be_bytes({array(byte_names(o), 12)});" for o in wide(kind)]
    return f"""        {pattern or kind.code} => {{
            let [{", ".join(["_", *names, ".."])}] = *input else {{
                unreachable!();
            }};
{"".join(f"            {line}" + chr(10) for line in lets)}            {call(kind, 12)}
        }}"""


def reader(kinds):
    head = "\n".join([
        RATTLE,
        "// Bytes read as calls. One arm a kind in one function, though it is long: a function a kind behind it would say no more. The length",
        "// is tested first, so that no arm fails: with a test in each arm a command of a session took 28 instructions more.",
        "ghost use Rattle.std.specs.Prelude.{◌≡◌, ◌≤◌, length};",
        "ghost use Rattle.calls.specs.Commands.{call_at, command_length, last_byte};",
        "ghost use Rattle.calls.specs.Reader.{Reads};",
        "",
        "use crate::Call;",
        *imports(kinds, "Frame", "VirtualPage"),
    ])
    length_of = """// How many bytes a command has, by its first; 0 for a byte that is none.
#[tactic(auto, using(crate::proofs::Cases::no_length))]
fn length_of(command: u8) -> usize
    ensures { result ≡ command_length command }
{
    match command {
%s
        _ => 0,
    }
}""" % "\n".join(f"        {kind.code} => {kind.length}," for kind in kinds)
    call_of = """// The call of a command's byte and the operands after it. In the last arm only the last command is left.
#[tactic(auto, using(crate::proofs::Bytes::two_bytes, crate::proofs::Bytes::eight_bytes))]
fn call_of(command: u8, input: &[u8]) -> Call
    requires { ((1 ≤ command) × (command ≤ last_byte)) × (command_length command ≤ length input.now) }
    ensures { result ≡ call_at command input.now }
{
    match command {
%s
    }
}""" % "\n".join([*map(read_arm, kinds[:-1]), read_arm(kinds[-1], "_")])
    read_call = """// The call at the beginning of an input and how many bytes it used, or refusal 3. Nothing of its operands is judged here.
#[tactic(auto, using(crate::proofs::Inputs::no_command, crate::proofs::Inputs::cut_short, crate::proofs::Inputs::call_read), unfolding(crate::specs::Reader::read_of, crate::specs::Reader::whole))]
pub fn read_call(input: &[u8]) -> Option<(Call, usize)>
    ensures { Reads input.now result }
{
    let command = *input.first()?;
    let used = length_of(command);
    if used == 0 || input.len() < used {
        return None;
    }
    Some((call_of(command, input), used))
}"""
    return made("crates/calls/src/kinds_read.rt", [head, length_of, call_of, read_call])


def put_arm(kind):
    lets = [f"let {array(byte_names(o), 12)} = {o.name}.to_be_bytes();" for o in wide(kind)]
    items = [kind.code] + [o.number if o.width == 1 else name for o in kind.operands for name in byte_names(o)]
    put = f"put(&{array(items, 12)}, out)"
    if not lets and len(f"        {pattern(kind)} => {put},".split("\n")[-1]) <= LINE:
        return f"        {pattern(kind)} => {put},"
    return "\n".join([f"        {pattern(kind)} => {{", *(f"            {line}" for line in [*lets, put]), "        }"])


def writer(kinds):
    head = "\n".join([
        RATTLE,
        "// Calls written as bytes.",
        "ghost use Rattle.std.specs.Prelude.{◌≡◌};",
        "ghost use Rattle.calls.specs.Writer.{outcome_of, write_of};",
        "",
        "use crate::Call;",
        "use crate::writer::put;",
    ])
    write_call = """// Puts a call's bytes first in a lent buffer, keeps the rest and answers how many they are; too short a buffer, refusal 3, is left as it was.
#[tactic(auto, unfolding(crate::specs::Writer::write_of))]
pub fn write_call(call: Call, out: &mut [u8]) -> Option<usize>
    ensures { outcome_of result out.new ≡ write_of call out.old }
{
    match call {
%s
    }
}""" % "\n".join(map(put_arm, kinds))
    return made("crates/calls/src/kinds_written.rt", [head, write_call])


# ---- crates/operands

def operand_from(operand, place):
    """An operand cut out of the numbers."""
    if operand.type == "u64":
        return f"at_or(numbers, {place}, 0)"
    if operand.width == 2:
        return f"two_at(numbers, {place})"
    byte = f"byte_at(numbers, {place})"
    return byte if operand.plain == operand.type else f"{operand.type}({byte})"


def from_arm(kind, pattern=None):
    fields = [f"            {o.name}: {operand_from(o, place)}," for place, o in enumerate(kind.operands, 1)]
    return "\n".join([f"        {pattern or kind.byte} => Call::{kind.variant} {{", *fields, "        },"])


def making(kinds):
    head = "\n".join([
        RATTLE,
        "// Calls made of numbers, each cut to its operand's width.",
        "ghost use Rattle.std.specs.Prelude.{◌≡◌};",
        "ghost use Rattle.operands.specs.Numbers.{call_from};",
        "",
        "use crate::making::{byte_at, two_at};",
        "use calls::Call;",
        "use capabilities::slices::at_or;",
        *imports(kinds, "Frame", "VirtualPage"),
    ])
    call_from = """// The call that numbers make. The table answers with %s for a number that is no command: no `TryFrom`, since the clause of `call_from`
// promises a call of any numbers.
#[tactic(auto, using(crate::proofs::Commands::made, crate::proofs::Commands::no_command), unfolding(crate::specs::Numbers::call_from))]
pub fn call_from(numbers: &[u64]) -> Call
    ensures { result ≡ call_from numbers.now }
{
    match at_or(numbers, 0, 0) {
%s
    }
}""" % (kinds[0].word, "\n".join([*map(from_arm, kinds[1:]), from_arm(kinds[0], "_")]))
    return made("crates/operands/src/kinds_from.rt", [head, call_from])


def numbers_arm(kind):
    zeros = ["0"] * (6 - len(kind.operands))
    values = [o.name if o.type == "u64" else f"{o.number} as u64" for o in kind.operands]
    head, items = f"        {pattern(kind)} => ", [str(kind.byte), *values, *zeros]
    room = LINE - len(head.split("\n")[-1]) - len("[],")
    return f"{head}{listed(items, min(60, room), '[', ']', 8)},"


def numbers(kinds):
    head = f"""{RATTLE}
// Calls as seven numbers: the command, its operands, and 0 after them. No `From<Call>`: the array and `Call` are both of other crates.
ghost use Rattle.std.specs.Prelude.{{◌≡◌}};
ghost use Rattle.operands.specs.Numbers.{{numbers_of}};

use calls::Call;"""
    numbers_of = """// A call's seven numbers.
#[tactic(auto, unfolding(crate::specs::Numbers::numbers_of))]
pub fn numbers_of(call: Call) -> [u64; 7]
    ensures { result ≡ numbers_of call }
{
    match call {
%s
    }
}""" % "\n".join(map(numbers_arm, kinds))
    return made("crates/operands/src/kinds_numbers.rt", [head, numbers_of])


# ---- crates/calls_run

def shown_arm(kind):
    """The arm that writes a kind's word and operands. A page or a frame is written by its number."""
    text = " ".join([kind.word, *("{}" if o.number != o.name else f"{{{o.name}}}" for o in kind.operands)])
    values = "".join(f", {o.number}" for o in kind.operands if o.number != o.name)
    write = f'write!(f, "{text}"{values})'
    head = f"        {pattern(kind, 12)}".replace("        ", "            ", 1)
    if len(head.split("\n")[-1]) + len(f" => {write},") <= LINE:
        return f"{head} => {write},"
    return f"{head} => {{\n                {write}\n            }}"


def shown(kinds):
    head = "\n".join([RATTLE, "use calls::Call;", "use std::fmt;"])
    display = """// A call as its word and its operands, in the order of their bytes.
#[derive(Clone, Copy)]
pub(crate) struct Shown(pub Call);

impl fmt::Display for Shown {
    fn fmt<W: fmt::Write>(&self, f: &mut fmt::Formatter<W>) -> fmt::Result {
        match self.0 {
%s
        }
    }
}""" % "\n".join(map(shown_arm, kinds))
    return made("crates/calls_run/src/kinds_shown.rt", [head, display])


def files(kinds):
    return [reader(kinds), writer(kinds), making(kinds), numbers(kinds), shown(kinds)]
