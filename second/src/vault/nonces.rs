//! Chunk nonces that come again (row 8).

/// Whether no two of these are equal.
pub fn all_differ<'a>(nonces: impl Iterator<Item = &'a [u8]>) -> bool {
    without_repeats(nonces).is_some()
}

/// Whether none of the new nonces is another of them or an old one. Old ones may
/// be equal to each other.
pub fn are_fresh<'a>(
    new: impl Iterator<Item = &'a [u8]>,
    mut old: impl Iterator<Item = &'a [u8]>,
) -> bool {
    let new = without_repeats(new);
    new.is_some_and(|new| old.all(|nonce| new.binary_search(&nonce).is_err()))
}

/// The nonces in order, unless two are equal.
fn without_repeats<'a>(nonces: impl Iterator<Item = &'a [u8]>) -> Option<Vec<&'a [u8]>> {
    let mut sorted: Vec<_> = nonces.collect();
    sorted.sort_unstable();
    let differ = sorted.windows(2).all(|pair| pair[0] != pair[1]);
    differ.then_some(sorted)
}

#[cfg(test)]
mod tests {
    use super::*;

    const A: &[u8] = &[1, 0];
    const B: &[u8] = &[0, 1];
    const C: &[u8] = &[1, 1];

    fn fresh(new: &[&'static [u8]], old: &[&'static [u8]]) -> bool {
        are_fresh(new.iter().copied(), old.iter().copied())
    }

    #[test]
    fn among_themselves() {
        for (nonces, differ) in [
            (&[][..], true),
            (&[A], true),
            (&[A, B, C], true),
            (&[A, A], false),
            (&[A, B, A], false),
            (&[C, B, A, B], false),
        ] {
            assert_eq!(all_differ(nonces.iter().copied()), differ);
            assert_eq!(fresh(nonces, &[]), differ);
        }
    }

    #[test]
    fn old_and_new() {
        assert!(fresh(&[], &[A, B, C]));
        assert!(fresh(&[B], &[A, C, A]));
        for old in [A, B, C] {
            assert!(!fresh(&[A, B, C], &[old]));
            assert!(!fresh(&[old], &[A, B, C]));
            assert!(!fresh(&[old], &[C, A, B]));
        }
    }
}
