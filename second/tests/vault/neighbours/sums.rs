//! Reads of two neighbouring ranges add up to that of both.

use super::expected::is_behind;
use super::{ended, of_range};
use crate::case::{Case, End};
use crate::compare::Compare;
use crate::log::Log;
use crate::make;

/// Reads from `a` to `b`, from `b` to `c` and from `a` to `c`, and fails unless
/// each ends as it must and they add up. Gives their rows.
pub fn add_up(compare: &mut Compare, log: &Log, read: &Case, [a, b, c]: [u64; 3]) -> [u32; 3] {
    let reads = [[a, b], [b, c], [a, c]].map(|[from, end]| {
        let out = make::buffer(&mut compare.random, (end - from) as usize);
        of_range(read, from, end - from, &out)
    });
    let ends = reads.each_ref().map(|read| ended(compare, log, read));
    let [first, second, whole] = &ends;
    let both = first.row == 0 && second.row == 0;
    assert_eq!(both, whole.row == 0, "{a} {b} {c}");
    if both {
        let joined = [bytes(first), bytes(second)].concat();
        assert!(joined == bytes(whole), "{a} {b} {c}: other bytes");
        let pages = paged(compare, &reads[2], (b - a) as usize);
        assert!(pages == whole.buffers[0], "{a} {b} {c}: another buffer");
    } else if !is_behind(read, c.into()) {
        let refusal = if first.row == 0 { second } else { first };
        let answers = [whole, refusal].map(|end| (end.row, end.place()));
        assert_eq!(answers[0], answers[1], "{a} {b} {c}");
    }
    ends.map(|end| end.row)
}

fn bytes(end: &End) -> &[u8] {
    &end.buffers[0][..end.length as usize]
}

/// What a read's buffer holds when so many of its bytes are read into it, and
/// then the others behind them.
fn paged(compare: &mut Compare, whole: &Case, first: usize) -> Vec<u8> {
    let (from, count) = whole.range();
    let (second, out) = (from + first as u64, &whole.buffers[0]);
    let mut end = compare.end(&of_range(whole, from, first as u64, out));
    let mut page = end.buffers.swap_remove(0);
    let rest = page.split_off(first);
    let end = compare.end(&of_range(whole, second, count - first as u64, &rest));
    page.extend(&end.buffers[0]);
    page
}
