"""The table of the kinds of call: the enum `Call` with the rows of `calls:Commands.commands`."""

import re
from dataclasses import dataclass

ENUM = "crates/calls/src/lib.rt"
ROWS = "crates/calls/specs/Commands.antt"

# The bytes of an operand, by its type.
WIDTHS = {"u8": 1, "VirtualPage": 1, "Frame": 1, "u16": 2, "u64": 8}
# What makes the value of a type that is no number; the same words read it in a row.
MAKERS = {"VirtualPage": "page", "Frame": "frame"}
# The documents' names of operands that have another one in the enum.
NAMES = {"party": "P"}
# The longest command and the most operands, which include/cetomuhi.h and `operands:Numbers.numbers_of` have.
LONGEST = 11
MOST = 6


class Fault(Exception):
    """What is wrong with the table, or with what is made of it."""


@dataclass(frozen=True)
class Operand:
    name: str
    type: str

    @property
    def width(self):
        return WIDTHS[self.type]

    @property
    def plain(self):
        """The type of the number itself."""
        return "u8" if self.type in MAKERS else self.type

    @property
    def number(self):
        """The number itself, in Rattle and in Rust."""
        return f"{self.name}.0" if self.type in MAKERS else self.name

    @property
    def layout(self):
        """As the documents write it: `P`, `base/2`."""
        name = NAMES.get(self.name, self.name)
        return name if self.width == 1 else f"{name}/{self.width}"


@dataclass(frozen=True)
class Kind:
    byte: int
    variant: str
    word: str  # as the documents and calls_run print it; 01 and 11 are both `take`
    operands: tuple

    @property
    def code(self):
        return f"0x{self.byte:02X}"

    @property
    def snake(self):
        return re.sub(r"(?<=.)([A-Z])", r"_\1", self.variant).lower()

    @property
    def dashed(self):
        return self.snake.replace("_", "-")

    @property
    def constant(self):
        return self.snake.upper()

    @property
    def names(self):
        return [operand.name for operand in self.operands]

    @property
    def length(self):
        return 1 + sum(operand.width for operand in self.operands)

    @property
    def layout(self):
        return " ".join(operand.layout for operand in self.operands)

    def of(self, *types):
        """The operands of these types."""
        return [operand for operand in self.operands if operand.type in types]


def variants(text, path=ENUM):
    """Names and operands of the enum's variants, in their order."""
    body = re.search(r"^pub enum Call \{\n(.*?)^\}", text, re.DOTALL | re.MULTILINE)
    if not body:
        raise Fault(f"{path}: there is no enum Call")
    for name, fields in re.findall(r"(\w+) \{([^}]*)\}", body[1]):
        operands = tuple(Operand(*pair) for pair in re.findall(r"(\w+): (\w+)", fields))
        unknown = [operand.type for operand in operands if operand.type not in WIDTHS]
        if unknown:
            raise Fault(f"{path}: {name}: {unknown[0]} is not among the types of operands")
        if not operands or operands[0] != Operand("party", "u8"):
            raise Fault(f"{path}: {name}: the first operand is `party: u8`")
        yield name, operands


def row(name, operands):
    """The row that a variant has."""
    widths = " ∷ ".join([str(operand.width) for operand in operands] + ["[]"])
    values = [f"({MAKERS[o.type]} (x {i}))" if o.type in MAKERS else f"(x {i})" for i, o in enumerate(operands)]
    return f"command ({widths}) (λ x. {name} {' '.join(values)})"


def rows(text):
    """Of each row: the byte, the word and the operands in its comment, and what stands below it."""
    first = re.search(r"^take_command = (.*)$", text, re.MULTILINE)
    body = re.search(r"^commands =\n(.*?)^    ∷ \[\]$", text, re.DOTALL | re.MULTILINE)
    if not first or not body:
        raise Fault(f"{ROWS}: there are no rows of commands")
    for comment, row_text in re.findall(r"^    -- (.*)\n    (?:∷ )?(.*)$", body[1], re.MULTILINE):
        byte, word, layout = comment.split(" ", 2)
        yield byte, word, layout, first[1] if row_text == "take_command" else row_text


def kinds(root):
    """The kinds in the order of their bytes. Each row is held against its variant."""
    listed = list(rows((root / ROWS).read_text()))
    declared = list(variants((root / ENUM).read_text()))
    found = []
    for byte, (name, operands) in enumerate(declared, 1):
        kind = Kind(byte, name, "", operands)
        if byte > len(listed):
            raise Fault(f"{ROWS}: {name}: there is no row; expected -- {byte:02X} WORD {kind.layout}")
        code, word, layout, text = listed[byte - 1]
        for got, want in ((code, f"{byte:02X}"), (layout, kind.layout), (text, row(name, operands))):
            if got != want:
                raise Fault(f"{ROWS}: {name}: '{got}' stands there; expected '{want}'")
        found.append(Kind(byte, name, word, operands))
    if len(listed) > len(declared):
        raise Fault(f"{ROWS}: row {listed[len(declared)][0]} has no variant in {ENUM}")
    long = [kind.variant for kind in found if kind.length > LONGEST or len(kind.operands) > MOST]
    if long:
        raise Fault(f"{ENUM}: {long[0]}: more than {LONGEST} bytes or {MOST} operands")
    return found
