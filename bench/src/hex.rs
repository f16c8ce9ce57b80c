//! Session files: hexadecimal digits, blanks, and comments from `#` to the line's end.

use std::path::{Path, PathBuf};
use std::{fs, io};

/// The bytes of a session file, or what is wrong with which line.
pub fn bytes(text: &str) -> Result<Vec<u8>, String> {
    let mut bytes = Vec::new();
    for (index, line) in text.lines().enumerate() {
        line_bytes(line, &mut bytes).map_err(|fault| format!("line {}: {fault}", index + 1))?;
    }
    Ok(bytes)
}

fn line_bytes(line: &str, bytes: &mut Vec<u8>) -> Result<(), String> {
    let code = line.split('#').next().unwrap_or("");
    let digits = code.chars().filter(|c| !c.is_whitespace());
    let digits = digits.map(|c| c.to_digit(16).ok_or(format!("'{c}' is no hexadecimal digit")));
    let digits = digits.collect::<Result<Vec<u32>, String>>()?;
    if digits.len() % 2 != 0 {
        return Err(format!("{} digits, an odd count", digits.len()));
    }
    bytes.extend(digits.chunks(2).map(|pair| (pair[0] << 4 | pair[1]) as u8));
    Ok(())
}

/// A session's name, its input, and the lines that it must print.
pub struct Stored {
    pub name: String,
    pub input: Vec<u8>,
    pub lines: Vec<u8>,
}

/// Every NAME.hex of a folder with its NAME.out, by name.
pub fn stored_sessions(folder: &Path) -> io::Result<Vec<Stored>> {
    let entries = fs::read_dir(folder)?.map(|entry| entry.map(|entry| entry.path()));
    let mut paths = entries.collect::<io::Result<Vec<PathBuf>>>()?;
    paths.retain(|path| path.extension().is_some_and(|extension| extension == "hex"));
    paths.sort();
    paths.iter().map(|path| stored(path)).collect()
}

fn stored(path: &Path) -> io::Result<Stored> {
    let name = path.display().to_string();
    let input = bytes(&fs::read_to_string(path)?)
        .map_err(|fault| io::Error::new(io::ErrorKind::InvalidData, format!("{name}: {fault}")))?;
    let lines = fs::read(path.with_extension("out"))?;
    Ok(Stored { name, input, lines })
}
