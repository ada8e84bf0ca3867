//! Timing.

use std::fmt::Debug;
use std::time::{Duration, Instant};

pub const ROUNDS: u32 = 7;

/// Times both on buffers of zeros, as [`both_after`] does.
pub fn both<L: Debug, S: Debug>(
    name: &str,
    buffers: &mut [Vec<u8>],
    library: impl FnMut(&mut [Vec<u8>]) -> Result<usize, L>,
    second: impl FnMut(&mut [Vec<u8>]) -> Result<usize, S>,
) -> [Duration; 2] {
    both_after(name, buffers, zeros, library, second)
}

/// What most buffers are set to before each time that is taken.
pub fn zeros(buffer: &mut [u8]) {
    buffer.fill(0);
}

/// Times both as [`in_turns`] does, and prints the times and their ratio.
pub fn both_after<L: Debug, S: Debug>(
    name: &str,
    buffers: &mut [Vec<u8>],
    set: impl Fn(&mut [u8]),
    library: impl FnMut(&mut [Vec<u8>]) -> Result<usize, L>,
    second: impl FnMut(&mut [Vec<u8>]) -> Result<usize, S>,
) -> [Duration; 2] {
    let least = in_turns(name, buffers, set, library, second);
    let [library, second] = least.map(|time| time.as_secs_f64() * 1e3);
    let ratio = library / second;
    println!("{name:44} {library:9.2} ms {second:9.2} ms {ratio:7.2}");
    least
}

/// Times two, each after the buffers were set. Each gives how many bytes it wrote.
/// Fails if one is refused, and unless both write as many bytes and the buffers
/// are equal in the end. Gives the least times.
pub fn in_turns<A: Debug, B: Debug>(
    name: &str,
    buffers: &mut [Vec<u8>],
    set: impl Fn(&mut [u8]),
    mut one: impl FnMut(&mut [Vec<u8>]) -> Result<usize, A>,
    mut other: impl FnMut(&mut [Vec<u8>]) -> Result<usize, B>,
) -> [Duration; 2] {
    let mut least = [Duration::MAX; 2];
    for _ in 0..ROUNDS {
        buffers.iter_mut().for_each(|buffer| set(buffer));
        let (time, length) = once(buffers, &mut one);
        least[0] = least[0].min(time);
        let answers = buffers.to_vec();
        buffers.iter_mut().for_each(|buffer| set(buffer));
        let (time, other_length) = once(buffers, &mut other);
        least[1] = least[1].min(time);
        let [length, other_length] = [
            length.unwrap_or_else(|refusal| panic!("{name}: {refusal:?}")),
            other_length.unwrap_or_else(|refusal| panic!("{name}: {refusal:?}")),
        ];
        assert_eq!(length, other_length, "{name}: different lengths");
        assert!(answers == buffers, "{name}: different answers");
    }
    least
}

fn once<R>(buffers: &mut [Vec<u8>], run: impl FnOnce(&mut [Vec<u8>]) -> R) -> (Duration, R) {
    let start = Instant::now();
    let result = run(buffers);
    (start.elapsed(), result)
}
