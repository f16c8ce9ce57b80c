"""The definition and the laws that have a clause a kind."""

from rattle import made

ANTT = "-- Made by tools/kinds from the enum of calls: not to be changed here."


def variants(kinds):
    names = ", ".join(kind.variant for kind in kinds)
    return f"use Rattle.calls.specs.declared.Call.TheVariants.{{{names}}}"


def parts(kinds):
    clauses = [
        f"parts_of ({kind.variant} {' '.join(kind.names)}) = "
        f"({kind.code}, {' ∷ '.join([o.number for o in kind.operands] + ['[]'])})"
        for kind in kinds
    ]
    head = f"""{ANTT}
-- The way back from a call to its row.
use Rattle.std.specs.Prelude.{{ℕ, List, [], ◌∷◌}}
use Rattle.calls.specs.declared.Call.{{Call}}
{variants(kinds)}"""
    body = "\n".join(["-- A call's command byte and operands.", "abbrev pub parts_of : Call → ℕ × List ℕ", *clauses])
    return made("crates/calls/specs/Parts.antt", [head, body])


def listed(kinds):
    clauses = [
        f"listed ({kind.variant} {' '.join(kind.names)}) = record {{ made = refl; long = refl; shaped = refl }}" for kind in kinds
    ]
    head = f"""{ANTT}
-- The calls of each kind fit their row, by computing.
use mathlib.Core.Path.{{refl}}
use Rattle.calls.specs.declared.Call.{{Call}}
{variants(kinds)}
use Rattle.calls.proofs.Cases.{{Listed}}"""
    return made("crates/calls/proofs/Listed.antt", [head, "\n".join(["pub listed : (c : Call) → Listed c", *clauses])])


def files(kinds):
    return [parts(kinds), listed(kinds)]
