//! Where a text is broken, found from what that means: by trying how the text
//! could go on.

#[cfg(test)]
pub mod exhaustive;

/// The place of the first character with which, behind those before it, no
/// well-formed text begins, or the length of a text that only ends too early.
///
/// `begins` says whether some well-formed text begins so. If one does, then one
/// begins with each shorter part as well, so that not all need be tried.
pub fn place(text: &[u8], begins: impl Fn(&[u8]) -> bool) -> usize {
    let ends: Vec<_> = (1..=text.len()).collect();
    ends.partition_point(|&end| begins(&text[..end]))
}

/// Whether the start of a text is well formed with one of these behind it: up to
/// `most` times `A`, the character of base64url with no bit set, and then one of
/// the endings.
pub fn goes_on(
    start: &[u8],
    most: usize,
    endings: &[&str],
    is_well_formed: impl Fn(&[u8]) -> bool,
) -> bool {
    let fill = vec![b'A'; most];
    let with = |count, ending: &str| [start, &fill[..count], ending.as_bytes()].concat();
    let tried = (0..=most).flat_map(|count| endings.iter().map(move |ending| (count, ending)));
    tried
        .map(|(count, ending)| with(count, ending))
        .any(|text| is_well_formed(&text))
}
