//! Random inputs of splitting and of the auction, in range and out of it.
use crate::Random;

/// What stands in a lent run before a call.
pub const OLD: u64 = 0xdead_beef;

/// A length: mostly short, sometimes at the limit or past it.
pub fn length(r: &mut Random, limit: u64) -> usize {
    match r.below(40) {
        0 => limit as usize,
        1 => limit as usize + 1,
        2 => r.below(limit + 20) as usize,
        3 => 0,
        _ => r.below(24) as usize,
    }
}

/// The length of a lent run beside one of n places: mostly the same.
pub fn other_length(r: &mut Random, n: usize) -> usize {
    if r.once_in(25) { length(r, n as u64 + 2) } else { n }
}

/// What a split is asked for: the amount, the weights, and the length of the run that is lent for the result.
pub struct Splitting {
    pub q: u64,
    pub weights: Vec<u64>,
    pub room: usize,
}

impl Splitting {
    pub fn draw(r: &mut Random) -> Splitting {
        let weights = weights(r);
        let whole = weights.iter().fold(0, |sum: u64, w| sum.saturating_add(*w));
        let q = match r.below(12) {
            0 => 0,
            1 => whole,
            2 => r.below(16_000_000_001),
            3 => 16_000_000_000 + r.below(2),
            4 => whole.saturating_add(1),
            5..9 => simple_part(r, whole),
            _ => r.below(whole.saturating_add(1).max(1)),
        };
        let room = other_length(r, weights.len());
        Splitting { q, weights, room }
    }
}

/// A half, a third, a quarter or three quarters of the whole, where it can be parted so, at times that and the whole once more; so remainders of different weights
/// tie, as with 2 by 1 and 3.
pub fn simple_part(r: &mut Random, whole: u64) -> u64 {
    let parts = [2, 2, 3, 4][r.below(4) as usize];
    let part = whole / parts * (1 + r.below(parts - 1));
    if r.once_in(8) { part.saturating_add(whole) } else { part }
}

/// Many of them small, so that remainders tie; some all equal or all 0, and some with one out of range.
fn weights(r: &mut Random) -> Vec<u64> {
    let places = length(r, 512);
    let top = [1, 2, 5, 30, 1_000, 500_000_000, 1_000_000_000][r.below(7) as usize];
    let mut weights = match r.below(20) {
        0 => vec![0; places],
        1 | 2 => vec![1 + r.below(top); places],
        _ => (0..places).map(|_| if r.once_in(4) { 0 } else { r.below(top + 1) }).collect(),
    };
    if places > 0 && r.once_in(30) {
        let at = r.below(places as u64) as usize;
        weights[at] = if r.once_in(2) { 1_000_000_001 } else { u64::MAX };
    }
    weights
}
