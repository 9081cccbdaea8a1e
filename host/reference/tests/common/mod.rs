//! What tests of the plain program against vectors share.

use std::path::Path;

/// A file of vectors.
pub fn vectors(name: &str) -> String {
    let path = Path::new(env!("CARGO_MANIFEST_DIR")).join("../../vectors").join(name);
    std::fs::read_to_string(&path).unwrap_or_else(|error| panic!("{}: {error}", path.display()))
}

/// Bytes as the vectors have them, in hex, or `-` for none.
pub fn unhex(word: &str) -> Vec<u8> {
    let digit = |d: u8| (d as char).to_digit(16).expect("a hex digit") as u8;
    let digits = if word == "-" { "" } else { word };
    digits.as_bytes().chunks(2).map(|pair| 16 * digit(pair[0]) + digit(pair[1])).collect()
}
