#!/usr/bin/env python3
"""Writes what the documents' lists of commands say, apart from the crates: crates/calls_run/stdin and stdout, the calls read and
written at every place of an input; tests/widths.h and rust/cetomuhi/tests/widths/mod.rs, the widths of operands; and
bench/src/plain/kinds.rs, the plain rules' enum of calls with its reader and writer.

  calls_vectors.py            a new command is a line of COMMANDS
  calls_vectors.py --check    names the files that differ; exit status 1 then
"""
import pathlib
import sys

# The documents' own lines: the byte in hexadecimal, the word, the operands with their widths.
COMMANDS = """
01 take P base/2 reg
02 split P base/2 len/2
03 merge P base/2
04 give P base/2 to
05 revoke P base/2
06 sweep P n/2
07 collect P
08 map P page frame
09 unmap P page
0A zero P frame
0B load P a off/2 d
0C store P a off/2 s
0D narrow P s off/2 len/2 mask d
0E number P d value/8
0F grant P s to
10 receive P d
11 take P base/2 reg mask
12 create P parent child limit/2 holder
13 claim P principal page
14 release P principal page
15 destroy P principal
"""
BUFFER, KEPT = 12, "ee"
# The plain rules' names of commands whose word an earlier one has.
RENAMED = {0x11: "TakeMasked"}

rows, names = {}, {}
for line in COMMANDS.split("\n"):
    if line:
        byte, word, *operands = line.split()
        rows[int(byte, 16)] = (word, [int((o + "/1").split("/")[1]) for o in operands])
        names[int(byte, 16)] = [o.split("/")[0] for o in operands]

def encode(byte, values):
    widths = rows[byte][1]
    return bytes([byte]) + b"".join(v.to_bytes(w, "big") for v, w in zip(values, widths))

def read(s):
    """(word, values, bytes used), or None: refusal 3."""
    if not s or s[0] not in rows:
        return None
    word, widths = rows[s[0]]
    used = 1 + sum(widths)
    if len(s) < used:
        return None
    values, at = [], 1
    for w in widths:
        values.append(int.from_bytes(s[at:at + w], "big"))
        at += w
    return word, values, used

def line(s, at):
    got = read(s[at:])
    if got is None:
        return f"{at} 3"
    word, values, used = got
    buffer = s[at:at + used].hex() + KEPT * (BUFFER - used)
    cut = "".join(("3" if read(s[at:at + n]) is None else "0") + "3" for n in range(used))
    return f"{at} {word} {' '.join(map(str, values))} {used} 0 {buffer} {cut}"

def program_input():
    """Every kind with operands 0, at their largest, and with bytes that all differ; then bytes that are no command, and one cut
    short."""
    stdin = b""
    for byte, (_, widths) in rows.items():
        stdin += encode(byte, [0 for _ in widths])
        stdin += encode(byte, [256 ** w - 1 for w in widths])
        stdin += bytes([byte]) + bytes(0xA1 + i for i in range(sum(widths)))
    return stdin + bytes([0, max(rows) + 1, 255, 14, 1, 2, 3])

def table_in_c():
    lines = [f"    {{{', '.join(map(str, widths))}}}, /* {byte:02X} {word} */\n" for byte, (word, widths) in rows.items()]
    return ("/* Made by tests/calls_vectors.py. Widths of the operands, from the documents' lists of commands. */\n"
            f"static const uint8_t widths[{max(rows) + 1}][7] = {{\n    {{0}},\n{''.join(lines)}}};\n")

def table_in_rust():
    lists = {byte: f"&[{', '.join(map(str, widths))}]," for byte, (_, widths) in rows.items()}
    longest = max(map(len, lists.values()))
    lines = [f"    {text:<{longest}} // {byte:02X} {rows[byte][0]}\n" for byte, text in lists.items()]
    return ("//! Made by tests/calls_vectors.py. Widths of the operands, from the documents' lists of commands.\n\n"
            f"pub const WIDTHS: [&[usize]; {max(rows)}] = [\n{''.join(lines)}];\n")

PLAIN = """//! Made by tests/calls_vectors.py: the kinds of call, by the documents' lists, read from bytes and written to them.

use super::call::Call;

#[derive(Clone, Copy, Debug, PartialEq, Eq)]
pub enum Action {
%s
}

/// The bytes of each operand of each command, the party's first.
pub const WIDTHS: &[&[usize]] = &[
%s
];

/// How many kinds there are: the commands are 1 to this.
pub const KINDS: usize = WIDTHS.len();

/// The call at the input's beginning and its length in bytes. None is refusal 3.
#[inline]
pub fn read(input: &[u8]) -> Option<(Call, usize)> {
    let (&command, rest) = input.split_first()?;
    let (party, action, operands) = match command {
%s
        _ => return None,
    };
    Some((Call { party, action }, 1 + operands))
}

impl Call {
    /// Appends the call's bytes.
    pub fn write(&self, out: &mut Vec<u8>) {
        let mut put = |command: u8, operands: &[&[u8]]| {
            out.extend_from_slice(&[command, self.party]);
            out.extend(operands.iter().copied().flatten());
        };
        match self.action {
%s
        }
    }
}
"""

def action(byte, inner):
    name = RENAMED.get(byte) or "".join(part.capitalize() for part in rows[byte][0].split("-"))
    return f"{name} {{ {', '.join(inner)} }}" if inner else name

def plain_variant(byte):
    fields = [f"{name}: u{8 * width}" for name, width in zip(names[byte][1:], rows[byte][1][1:])]
    return f"    {action(byte, fields)},"

def plain_read(byte):
    bound, lets = ["p"], []
    for name, width in zip(names[byte][1:], rows[byte][1][1:]):
        bytes_of = [f"{name}{place}" for place in reversed(range(width))] if width > 1 else [name]
        bound += bytes_of
        if width > 1:
            lets.append(f"            let {name} = u{8 * width}::from_be_bytes([{', '.join(bytes_of)}]);\n")
    used = sum(rows[byte][1])
    return (f"        0x{byte:02X} => {{\n            let &[{', '.join(bound)}] = rest.first_chunk()?;\n{''.join(lets)}"
            f"            (p, Action::{action(byte, names[byte][1:])}, {used})\n        }}")

def plain_write(byte):
    pieces = []
    for name, width in zip(names[byte][1:], rows[byte][1][1:]):
        if width > 1:
            pieces.append(f"&{name}.to_be_bytes()")
        elif pieces and pieces[-1].endswith("]"):
            pieces[-1] = f"{pieces[-1][:-1]}, {name}]"
        else:
            pieces.append(f"&[{name}]")
    return f"            Action::{action(byte, names[byte][1:])} => put(0x{byte:02X}, &[{', '.join(pieces)}]),"

def plain_kinds():
    lists = [f"    &[{', '.join(map(str, widths))}]," for _, widths in rows.values()]
    parts = map(plain_variant, rows), lists, map(plain_read, rows), map(plain_write, rows)
    return PLAIN % tuple("\n".join(part) for part in parts)

def files():
    stdin = program_input()
    return {
        "crates/calls_run/stdin": stdin,
        "crates/calls_run/stdout": "".join(line(stdin, at) + "\n" for at in range(len(stdin) + 2)).encode(),
        "tests/widths.h": table_in_c().encode(),
        "rust/cetomuhi/tests/widths/mod.rs": table_in_rust().encode(),
        "bench/src/plain/kinds.rs": plain_kinds().encode(),
    }

def differing(root):
    """The files that are not as the lists have them."""
    return {name: data for name, data in files().items() if not (root / name).is_file() or (root / name).read_bytes() != data}

def main():
    root = pathlib.Path(__file__).resolve().parent.parent
    wrong = differing(root)
    for name, data in wrong.items():
        if sys.argv[1:] == ["--check"]:
            print(f"{name}: not as COMMANDS in tests/calls_vectors.py has it", file=sys.stderr)
            continue
        (root / name).parent.mkdir(parents=True, exist_ok=True)
        (root / name).write_bytes(data)
    return 1 if wrong and sys.argv[1:] == ["--check"] else 0

if __name__ == "__main__":
    sys.exit(main())
