//! Inputs as text: a line for each, its name and its bytes in hex.

use std::fmt::Write;
use std::fs;
use std::io;
use std::path::Path;

use crate::input::split;

/// An input and its name.
#[derive(Clone, Debug, PartialEq, Eq)]
pub struct Named {
    pub name: String,
    pub input: Vec<u8>,
}

impl Named {
    /// An input by the name of its group and a number that goes by its bytes.
    pub fn new(input: Vec<u8>) -> Self {
        let group = split(&input).map_or("none", |(head, _)| head.group.name());
        let name = format!("{group}-{:016x}", hash(&input));
        Self { name, input }
    }
}

/// FNV-1a, 64 bits.
fn hash(bytes: &[u8]) -> u64 {
    bytes.iter().fold(0xCBF2_9CE4_8422_2325, |hash, &byte| {
        (hash ^ u64::from(byte)).wrapping_mul(0x0000_0100_0000_01B3)
    })
}

/// The text of inputs, in the order of their names.
pub fn packed(mut inputs: Vec<Named>) -> String {
    inputs.sort_by(|one, two| one.name.cmp(&two.name));
    let mut text = String::new();
    for Named { name, input } in &inputs {
        text.push_str(name);
        text.push(' ');
        for byte in input {
            // Writing to a text always succeeds.
            let _ = write!(text, "{byte:02x}");
        }
        text.push('\n');
    }
    text
}

/// The inputs of a text, or what is wrong with it.
pub fn unpacked(text: &str) -> Result<Vec<Named>, String> {
    let mut inputs = Vec::new();
    for (at, line) in text.lines().enumerate() {
        let both = line.split_once(' ');
        let both = both.and_then(|(name, hex)| Some((name, Named::new(bytes(hex)?))));
        match both {
            Some((name, named)) if named.name == name => inputs.push(named),
            Some(_) => {
                return Err(format!(
                    "line {} has other bytes than its name says",
                    at + 1
                ))
            }
            None => return Err(format!("line {} is no name with bytes in hex", at + 1)),
        }
    }
    Ok(inputs)
}

fn bytes(hex: &str) -> Option<Vec<u8>> {
    let (pairs, []) = hex.as_bytes().as_chunks::<2>() else {
        return None;
    };
    let digit = |byte: u8| char::from(byte).to_digit(16);
    let pairs = pairs.iter();
    let byte = |&[high, low]: &[u8; 2]| u8::try_from(digit(high)? << 4 | digit(low)?).ok();
    pairs.map(byte).collect()
}

/// The inputs of a folder, a file each; of a text that ends in .txt; or the one of any
/// other file.
pub fn read(path: &Path) -> Result<Vec<Named>, String> {
    let failed = |error: io::Error| format!("{} can't be read: {error}", path.display());
    if path.is_dir() {
        let mut inputs = Vec::new();
        for entry in fs::read_dir(path).map_err(failed)? {
            let path = entry.map_err(failed)?.path();
            // What was told of an input stands beside it.
            if path.extension().is_none_or(|end| end != "shown") {
                inputs.push(one(&path).map_err(failed)?);
            }
        }
        inputs.sort_by(|one, two| one.name.cmp(&two.name));
        return Ok(inputs);
    }
    if path.extension().is_some_and(|end| end == "txt") {
        let text = fs::read_to_string(path).map_err(failed)?;
        return unpacked(&text).map_err(|wrong| format!("{}: {wrong}", path.display()));
    }
    Ok(vec![one(path).map_err(failed)?])
}

/// The input of a file, by the file's path.
fn one(path: &Path) -> io::Result<Named> {
    let name = depot::folder::printable(path);
    fs::read(path).map(|input| Named { name, input })
}

#[cfg(test)]
mod tests {
    use super::{packed, unpacked, Named};

    #[test]
    fn text_comes_back() {
        let inputs = [vec![1, 0xAB, 0, 0, 0, 0, 0, 0], vec![], vec![0; 9]].map(Named::new);
        let text = packed(inputs.to_vec());
        let mut sorted = inputs.to_vec();
        sorted.sort_by(|one, two| one.name.cmp(&two.name));
        assert_eq!(unpacked(&text), Ok(sorted));
        assert!(
            text.contains("nl_auth-") && text.contains(" 01ab000000000000\n"),
            "{text}"
        );
    }

    #[test]
    fn other_text_is_told_by_its_line() {
        let first = packed(vec![Named::new(vec![0; 9])]);
        for wrong in ["b\n", "b 0\n", "b 0g\n", "b +1\n"] {
            let told = unpacked(&format!("{first}{wrong}")).expect_err("no inputs");
            assert_eq!(told, "line 2 is no name with bytes in hex", "{wrong}");
        }
    }

    #[test]
    fn a_text_that_is_cut_is_told() {
        let text = packed(vec![Named::new(vec![0; 9]), Named::new(vec![7; 20])]);
        let cut = &text[..text.len() - 3];
        let told = unpacked(cut).expect_err("bytes are missing");
        assert_eq!(told, "line 2 has other bytes than its name says");
    }
}
