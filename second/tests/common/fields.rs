//! Files of vectors: a line each, with fields between blanks.

use second::hex;

/// The fields of each line of a file that is not a comment.
pub fn lines(file: &str) -> impl Iterator<Item = Vec<&str>> {
    let lines = file.lines().filter(|line| !line.starts_with('#'));
    lines.map(|line| line.split(' ').collect())
}

/// The bytes that a field has in hexadecimal, and no bytes for `-`.
pub fn bytes(field: &str) -> Vec<u8> {
    hex::decode(text(field)).expect("not hexadecimal")
}

/// The text of a field, which is empty for `-`.
pub fn text(field: &str) -> &str {
    if field == "-" {
        ""
    } else {
        field
    }
}
