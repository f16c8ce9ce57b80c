//! Commands as seven numbers, by the documents' lists: the command, its operands, 0 after them.

use crate::plain::kinds::WIDTHS;

fn widths(command: u64) -> Option<&'static [usize]> {
    WIDTHS.get(usize::try_from(command).ok()?.checked_sub(1)?).copied()
}

/// The numbers of the command at an input's beginning, and its length.
pub fn numbers(input: &[u8]) -> Option<([u64; 7], usize)> {
    let mut numbers = [0; 7];
    numbers[0] = u64::from(*input.first()?);
    let mut place = 1;
    for (number, width) in numbers[1..].iter_mut().zip(widths(input[0].into())?) {
        let bytes = input.get(place..place + width)?;
        *number = bytes.iter().fold(0, |high, low| high << 8 | u64::from(*low));
        place += width;
    }
    Some((numbers, place))
}

/// The bytes of the command that numbers name; None if they are no command's.
pub fn bytes(numbers: &[u64]) -> Option<Vec<u8>> {
    let (&command, operands) = numbers.split_first()?;
    let widths = widths(command)?;
    let (used, unused) = operands.split_at_checked(widths.len())?;
    let mut bytes = vec![command as u8];
    for (number, width) in used.iter().zip(widths) {
        let all = number.to_be_bytes();
        let (high, low) = all.split_at(8 - width);
        if high.iter().any(|byte| *byte != 0) {
            return None;
        }
        bytes.extend_from_slice(low);
    }
    (numbers.len() == 7 && unused.iter().all(|number| *number == 0)).then_some(bytes)
}

#[cfg(test)]
mod tests {
    use super::*;
    use crate::plain::{read, KINDS};

    #[test]
    fn numbers_and_bytes_undo_each_other() {
        for command in 0..=KINDS as u8 + 1 {
            let input: Vec<u8> = (0..11).map(|place| command + 23 * place).collect();
            let found = numbers(&input);
            assert_eq!(found.map(|(_, length)| length), read(&input).map(|(_, length)| length));
            if let Some((numbers, length)) = found {
                assert_eq!(bytes(&numbers).as_deref(), Some(&input[..length]));
            }
        }
        assert_eq!(bytes(&[7, 256, 0, 0, 0, 0, 0]), None);
        assert_eq!(bytes(&[7, 0, 1, 0, 0, 0, 0]), None);
        assert_eq!((bytes(&[7, 0, 0, 0, 0, 0]), bytes(&[])), (None, None));
    }
}
