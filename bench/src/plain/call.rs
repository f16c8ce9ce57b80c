//! A call by a party. Its kinds, and their bytes, are in `kinds`.

pub use super::kinds::{read, Action, KINDS};

#[derive(Clone, Copy, Debug, PartialEq, Eq)]
pub struct Call {
    pub party: u8,
    pub action: Action,
}

#[cfg(test)]
mod tests {
    use super::*;

    #[test]
    fn a_written_call_reads_back_from_its_length_on() {
        for command in 1..=KINDS as u8 {
            let bytes: Vec<u8> = (0..12).map(|i| command + 17 * i).collect();
            let (call, length) = read(&bytes).expect("twelve bytes hold every command");
            let mut written = Vec::new();
            call.write(&mut written);
            assert_eq!(written, &bytes[..length]);
            assert_eq!(read(&bytes[..length - 1]), None);
        }
    }

    #[test]
    fn other_first_bytes_are_no_command() {
        assert_eq!(read(&[]), None);
        assert_eq!(read(&[0; 16]), None);
        assert_eq!(read(&[KINDS as u8 + 1; 16]), None);
    }
}
