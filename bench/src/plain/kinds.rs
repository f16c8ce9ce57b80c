//! Made by tests/calls_vectors.py: the kinds of call, by the documents' lists, read from bytes and written to them.

use super::call::Call;

#[derive(Clone, Copy, Debug, PartialEq, Eq)]
pub enum Action {
    Take { base: u16, reg: u8 },
    Split { base: u16, len: u16 },
    Merge { base: u16 },
    Give { base: u16, to: u8 },
    Revoke { base: u16 },
    Sweep { n: u16 },
    Collect,
    Map { page: u8, frame: u8 },
    Unmap { page: u8 },
    Zero { frame: u8 },
    Load { a: u8, off: u16, d: u8 },
    Store { a: u8, off: u16, s: u8 },
    Narrow { s: u8, off: u16, len: u16, mask: u8, d: u8 },
    Number { d: u8, value: u64 },
    Grant { s: u8, to: u8 },
    Receive { d: u8 },
    TakeMasked { base: u16, reg: u8, mask: u8 },
    Create { parent: u8, child: u8, limit: u16, holder: u8 },
    Claim { principal: u8, page: u8 },
    Release { principal: u8, page: u8 },
    Destroy { principal: u8 },
}

/// The bytes of each operand of each command, the party's first.
pub const WIDTHS: &[&[usize]] = &[
    &[1, 2, 1],
    &[1, 2, 2],
    &[1, 2],
    &[1, 2, 1],
    &[1, 2],
    &[1, 2],
    &[1],
    &[1, 1, 1],
    &[1, 1],
    &[1, 1],
    &[1, 1, 2, 1],
    &[1, 1, 2, 1],
    &[1, 1, 2, 2, 1, 1],
    &[1, 1, 8],
    &[1, 1, 1],
    &[1, 1],
    &[1, 2, 1, 1],
    &[1, 1, 1, 2, 1],
    &[1, 1, 1],
    &[1, 1, 1],
    &[1, 1],
];

/// How many kinds there are: the commands are 1 to this.
pub const KINDS: usize = WIDTHS.len();

/// The call at the input's beginning and its length in bytes. None is refusal 3.
#[inline]
pub fn read(input: &[u8]) -> Option<(Call, usize)> {
    let (&command, rest) = input.split_first()?;
    let (party, action, operands) = match command {
        0x01 => {
            let &[p, base1, base0, reg] = rest.first_chunk()?;
            let base = u16::from_be_bytes([base1, base0]);
            (p, Action::Take { base, reg }, 4)
        }
        0x02 => {
            let &[p, base1, base0, len1, len0] = rest.first_chunk()?;
            let base = u16::from_be_bytes([base1, base0]);
            let len = u16::from_be_bytes([len1, len0]);
            (p, Action::Split { base, len }, 5)
        }
        0x03 => {
            let &[p, base1, base0] = rest.first_chunk()?;
            let base = u16::from_be_bytes([base1, base0]);
            (p, Action::Merge { base }, 3)
        }
        0x04 => {
            let &[p, base1, base0, to] = rest.first_chunk()?;
            let base = u16::from_be_bytes([base1, base0]);
            (p, Action::Give { base, to }, 4)
        }
        0x05 => {
            let &[p, base1, base0] = rest.first_chunk()?;
            let base = u16::from_be_bytes([base1, base0]);
            (p, Action::Revoke { base }, 3)
        }
        0x06 => {
            let &[p, n1, n0] = rest.first_chunk()?;
            let n = u16::from_be_bytes([n1, n0]);
            (p, Action::Sweep { n }, 3)
        }
        0x07 => {
            let &[p] = rest.first_chunk()?;
            (p, Action::Collect, 1)
        }
        0x08 => {
            let &[p, page, frame] = rest.first_chunk()?;
            (p, Action::Map { page, frame }, 3)
        }
        0x09 => {
            let &[p, page] = rest.first_chunk()?;
            (p, Action::Unmap { page }, 2)
        }
        0x0A => {
            let &[p, frame] = rest.first_chunk()?;
            (p, Action::Zero { frame }, 2)
        }
        0x0B => {
            let &[p, a, off1, off0, d] = rest.first_chunk()?;
            let off = u16::from_be_bytes([off1, off0]);
            (p, Action::Load { a, off, d }, 5)
        }
        0x0C => {
            let &[p, a, off1, off0, s] = rest.first_chunk()?;
            let off = u16::from_be_bytes([off1, off0]);
            (p, Action::Store { a, off, s }, 5)
        }
        0x0D => {
            let &[p, s, off1, off0, len1, len0, mask, d] = rest.first_chunk()?;
            let off = u16::from_be_bytes([off1, off0]);
            let len = u16::from_be_bytes([len1, len0]);
            (p, Action::Narrow { s, off, len, mask, d }, 8)
        }
        0x0E => {
            let &[p, d, value7, value6, value5, value4, value3, value2, value1, value0] = rest.first_chunk()?;
            let value = u64::from_be_bytes([value7, value6, value5, value4, value3, value2, value1, value0]);
            (p, Action::Number { d, value }, 10)
        }
        0x0F => {
            let &[p, s, to] = rest.first_chunk()?;
            (p, Action::Grant { s, to }, 3)
        }
        0x10 => {
            let &[p, d] = rest.first_chunk()?;
            (p, Action::Receive { d }, 2)
        }
        0x11 => {
            let &[p, base1, base0, reg, mask] = rest.first_chunk()?;
            let base = u16::from_be_bytes([base1, base0]);
            (p, Action::TakeMasked { base, reg, mask }, 5)
        }
        0x12 => {
            let &[p, parent, child, limit1, limit0, holder] = rest.first_chunk()?;
            let limit = u16::from_be_bytes([limit1, limit0]);
            (p, Action::Create { parent, child, limit, holder }, 6)
        }
        0x13 => {
            let &[p, principal, page] = rest.first_chunk()?;
            (p, Action::Claim { principal, page }, 3)
        }
        0x14 => {
            let &[p, principal, page] = rest.first_chunk()?;
            (p, Action::Release { principal, page }, 3)
        }
        0x15 => {
            let &[p, principal] = rest.first_chunk()?;
            (p, Action::Destroy { principal }, 2)
        }
        _ => return None,
    };
    Some((Call { party, action }, 1 + operands))
}

impl Call {
    /// Appends the call's bytes.
    pub fn write(&self, out: &mut Vec<u8>) {
        let mut put = |command: u8, operands: &[&[u8]]| {
            out.extend_from_slice(&[command, self.party]);
            out.extend(operands.iter().copied().flatten());
        };
        match self.action {
            Action::Take { base, reg } => put(0x01, &[&base.to_be_bytes(), &[reg]]),
            Action::Split { base, len } => put(0x02, &[&base.to_be_bytes(), &len.to_be_bytes()]),
            Action::Merge { base } => put(0x03, &[&base.to_be_bytes()]),
            Action::Give { base, to } => put(0x04, &[&base.to_be_bytes(), &[to]]),
            Action::Revoke { base } => put(0x05, &[&base.to_be_bytes()]),
            Action::Sweep { n } => put(0x06, &[&n.to_be_bytes()]),
            Action::Collect => put(0x07, &[]),
            Action::Map { page, frame } => put(0x08, &[&[page, frame]]),
            Action::Unmap { page } => put(0x09, &[&[page]]),
            Action::Zero { frame } => put(0x0A, &[&[frame]]),
            Action::Load { a, off, d } => put(0x0B, &[&[a], &off.to_be_bytes(), &[d]]),
            Action::Store { a, off, s } => put(0x0C, &[&[a], &off.to_be_bytes(), &[s]]),
            Action::Narrow { s, off, len, mask, d } => put(0x0D, &[&[s], &off.to_be_bytes(), &len.to_be_bytes(), &[mask, d]]),
            Action::Number { d, value } => put(0x0E, &[&[d], &value.to_be_bytes()]),
            Action::Grant { s, to } => put(0x0F, &[&[s, to]]),
            Action::Receive { d } => put(0x10, &[&[d]]),
            Action::TakeMasked { base, reg, mask } => put(0x11, &[&base.to_be_bytes(), &[reg, mask]]),
            Action::Create { parent, child, limit, holder } => put(0x12, &[&[parent, child], &limit.to_be_bytes(), &[holder]]),
            Action::Claim { principal, page } => put(0x13, &[&[principal, page]]),
            Action::Release { principal, page } => put(0x14, &[&[principal, page]]),
            Action::Destroy { principal } => put(0x15, &[&[principal]]),
        }
    }
}
