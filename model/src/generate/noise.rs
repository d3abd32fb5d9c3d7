//! Arbitrary bytes.

use super::head;
use crate::rng::Rng;

/// Bytes behind a good first line or none, or next to nothing.
pub fn noise(rng: &mut Rng) -> Vec<u8> {
    let mut text = if rng.percent(75) { head(rng) } else { Vec::new() };
    match rng.below(10) {
        0 => return Vec::new(),
        1 => return vec![b'\n'; rng.between(1, 40)],
        2 => drop(text.pop()),
        3 => text.extend(vec![b'\n'; rng.between(1, 200)]),
        4 | 5 => text.extend(bytes(rng, |rng| rng.byte())),
        _ => text.extend(bytes(rng, |rng| rng.pick(b"BRWCA  \n\n001257-"))),
    }
    text
}

fn bytes(rng: &mut Rng, byte: impl Fn(&mut Rng) -> u8) -> Vec<u8> {
    (0..rng.between(1, 400)).map(|_| byte(rng)).collect()
}
