// Made by tools/kinds from the enum of calls: not to be changed here.
//! A call as the boundary's seven numbers, and in words.

use crate::call::{byte, two, Call, Frame, VirtualPage, CALL_NUMBERS};
use std::fmt;

impl Call {
    /// The call as the boundary's seven numbers.
    pub fn numbers(&self) -> [u64; CALL_NUMBERS] {
        match *self {
            Call::Take { party, base, reg } => [0x01, party.into(), base.into(), reg.into(), 0, 0, 0],
            Call::Split { party, base, len } => [0x02, party.into(), base.into(), len.into(), 0, 0, 0],
            Call::Merge { party, base } => [0x03, party.into(), base.into(), 0, 0, 0, 0],
            Call::Give { party, base, to } => [0x04, party.into(), base.into(), to.into(), 0, 0, 0],
            Call::Revoke { party, base } => [0x05, party.into(), base.into(), 0, 0, 0, 0],
            Call::Sweep { party, n } => [0x06, party.into(), n.into(), 0, 0, 0, 0],
            Call::Collect { party } => [0x07, party.into(), 0, 0, 0, 0, 0],
            Call::Map { party, page, frame } => [0x08, party.into(), page.0.into(), frame.0.into(), 0, 0, 0],
            Call::Unmap { party, page } => [0x09, party.into(), page.0.into(), 0, 0, 0, 0],
            Call::Zero { party, frame } => [0x0A, party.into(), frame.0.into(), 0, 0, 0, 0],
            Call::Load { party, a, off, d } => [0x0B, party.into(), a.into(), off.into(), d.into(), 0, 0],
            Call::Store { party, a, off, s } => [0x0C, party.into(), a.into(), off.into(), s.into(), 0, 0],
            Call::Narrow { party, s, off, len, mask, d } => [0x0D, party.into(), s.into(), off.into(), len.into(), mask.into(), d.into()],
            Call::Number { party, d, value } => [0x0E, party.into(), d.into(), value, 0, 0, 0],
            Call::Grant { party, s, to } => [0x0F, party.into(), s.into(), to.into(), 0, 0, 0],
            Call::Receive { party, d } => [0x10, party.into(), d.into(), 0, 0, 0, 0],
            Call::TakeMasked { party, base, reg, mask } => [0x11, party.into(), base.into(), reg.into(), mask.into(), 0, 0],
            Call::Create { party, parent, child, limit, holder } => [0x12, party.into(), parent.into(), child.into(), limit.into(), holder.into(), 0],
            Call::Claim { party, principal, page } => [0x13, party.into(), principal.into(), page.0.into(), 0, 0, 0],
            Call::Release { party, principal, page } => [0x14, party.into(), principal.into(), page.0.into(), 0, 0, 0],
            Call::Destroy { party, principal } => [0x15, party.into(), principal.into(), 0, 0, 0, 0],
        }
    }

    /// The call of seven numbers; none if the command or an operand is out of range.
    pub fn of(numbers: [u64; CALL_NUMBERS]) -> Option<Call> {
        let [command, n1, n2, n3, n4, n5, n6] = numbers;
        let call = match command {
            0x01 => Call::Take { party: byte(n1)?, base: two(n2)?, reg: byte(n3)? },
            0x02 => Call::Split { party: byte(n1)?, base: two(n2)?, len: two(n3)? },
            0x03 => Call::Merge { party: byte(n1)?, base: two(n2)? },
            0x04 => Call::Give { party: byte(n1)?, base: two(n2)?, to: byte(n3)? },
            0x05 => Call::Revoke { party: byte(n1)?, base: two(n2)? },
            0x06 => Call::Sweep { party: byte(n1)?, n: two(n2)? },
            0x07 => Call::Collect { party: byte(n1)? },
            0x08 => Call::Map { party: byte(n1)?, page: VirtualPage(byte(n2)?), frame: Frame(byte(n3)?) },
            0x09 => Call::Unmap { party: byte(n1)?, page: VirtualPage(byte(n2)?) },
            0x0A => Call::Zero { party: byte(n1)?, frame: Frame(byte(n2)?) },
            0x0B => Call::Load { party: byte(n1)?, a: byte(n2)?, off: two(n3)?, d: byte(n4)? },
            0x0C => Call::Store { party: byte(n1)?, a: byte(n2)?, off: two(n3)?, s: byte(n4)? },
            0x0D => Call::Narrow { party: byte(n1)?, s: byte(n2)?, off: two(n3)?, len: two(n4)?, mask: byte(n5)?, d: byte(n6)? },
            0x0E => Call::Number { party: byte(n1)?, d: byte(n2)?, value: n3 },
            0x0F => Call::Grant { party: byte(n1)?, s: byte(n2)?, to: byte(n3)? },
            0x10 => Call::Receive { party: byte(n1)?, d: byte(n2)? },
            0x11 => Call::TakeMasked { party: byte(n1)?, base: two(n2)?, reg: byte(n3)?, mask: byte(n4)? },
            0x12 => Call::Create { party: byte(n1)?, parent: byte(n2)?, child: byte(n3)?, limit: two(n4)?, holder: byte(n5)? },
            0x13 => Call::Claim { party: byte(n1)?, principal: byte(n2)?, page: VirtualPage(byte(n3)?) },
            0x14 => Call::Release { party: byte(n1)?, principal: byte(n2)?, page: VirtualPage(byte(n3)?) },
            0x15 => Call::Destroy { party: byte(n1)?, principal: byte(n2)? },
            _ => return None,
        };
        (call.numbers() == numbers).then_some(call)
    }
}

/// The call in words.
impl fmt::Display for Call {
    fn fmt(&self, out: &mut fmt::Formatter) -> fmt::Result {
        match *self {
            Call::Take { party, base, reg } => write!(out, "party {party} takes the reservation at cell {base} into register {reg}"),
            Call::Split { party, base, len } => write!(out, "party {party} splits the reservation at cell {base}, {len} cells below"),
            Call::Merge { party, base } => write!(out, "party {party} merges the reservation at cell {base} with the next one"),
            Call::Give { party, base, to } => write!(out, "party {party} gives the reservation at cell {base} to party {to}"),
            Call::Revoke { party, base } => write!(out, "party {party} revokes the reservation at cell {base}"),
            Call::Sweep { party, n } => write!(out, "party {party} sweeps the next {n} cells"),
            Call::Collect { party } => write!(out, "party {party} collects"),
            Call::Map { party, page, frame } => write!(out, "party {party} maps page {} to frame {}", page.0, frame.0),
            Call::Unmap { party, page } => write!(out, "party {party} unmaps page {}", page.0),
            Call::Zero { party, frame } => write!(out, "party {party} zeroes frame {}", frame.0),
            Call::Load { party, a, off, d } => write!(out, "party {party} loads through register {a}, offset {off}, into register {d}"),
            Call::Store { party, a, off, s } => write!(out, "party {party} stores register {s} through register {a}, offset {off}"),
            Call::Narrow { party, s, off, len, mask, d } => write!(out, "party {party} narrows register {s} to {len} cells from offset {off} on, permissions {mask}, into register {d}"),
            Call::Number { party, d, value } => write!(out, "party {party} sets register {d} to the number {value}"),
            Call::Grant { party, s, to } => write!(out, "party {party} grants register {s} to party {to}"),
            Call::Receive { party, d } => write!(out, "party {party} receives into register {d}"),
            Call::TakeMasked { party, base, reg, mask } => write!(out, "party {party} takes the reservation at cell {base} into register {reg} with mask {mask}"),
            Call::Create { party, parent, child, limit, holder } => write!(out, "party {party} creates principal {child} below principal {parent} with limit {limit} for party {holder}"),
            Call::Claim { party, principal, page } => write!(out, "party {party} claims page {} for principal {principal}", page.0),
            Call::Release { party, principal, page } => write!(out, "party {party} releases page {} for principal {principal}", page.0),
            Call::Destroy { party, principal } => write!(out, "party {party} destroys principal {principal}"),
        }
    }
}
