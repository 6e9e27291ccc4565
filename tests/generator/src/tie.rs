//! Which exact ties of remainders decide in a split (C-15).

use model::split::{floors, odd_cents};
use std::cmp::Reverse;

/// How a tie decides who gets one of what is left.
#[derive(Clone, Copy, Debug, Default, PartialEq, Eq)]
pub struct Tie {
    /// The last that gets one and the first that gets none have one remainder.
    pub decides: bool,
    /// Ties to the earlier, whatever the weights, give other shares.
    pub to_the_larger: bool,
    /// The last that gets one and the first that gets none have one remainder and one weight.
    pub to_the_earlier: bool,
}

impl Tie {
    pub fn of(q: u64, weights: &[u64]) -> Tie {
        let sum: u128 = weights.iter().map(|&weight| u128::from(weight)).sum();
        if sum == 0 {
            return Tie::default();
        }
        let left = odd_cents(q, &floors(q, weights));
        if left == 0 {
            return Tie::default();
        }
        let remainder = |place: usize| u128::from(q) * u128::from(weights[place]) % sum;
        let mut places: Vec<usize> = (0..weights.len()).collect();
        // Both sorts are stable, so what they hold for equal stays in list order.
        places.sort_by_cached_key(|&place| Reverse(remainder(place)));
        let mut before = places[..left].to_vec();
        places.sort_by_cached_key(|&place| Reverse((remainder(place), weights[place])));
        let (last, next) = (places[left - 1], places[left]);
        let decides = remainder(last) == remainder(next);
        let to_the_earlier = decides && weights[last] == weights[next];
        places.truncate(left);
        places.sort_unstable();
        before.sort_unstable();
        Tie { decides, to_the_larger: places != before, to_the_earlier }
    }
}

#[cfg(test)]
mod tests {
    use super::Tie;

    #[test]
    fn a_tie_is_told_by_what_decides_it() {
        let tie = |to_the_larger, to_the_earlier| Tie { decides: true, to_the_larger, to_the_earlier };
        // 2 by 1 and 3, in both orders: only behind the smaller is the larger helped by its weight.
        assert_eq!(Tie::of(2, &[1, 3]), tie(true, false));
        assert_eq!(Tie::of(2, &[3, 1]), tie(false, false));
        assert_eq!(Tie::of(3, &[2, 2]), tie(false, true));
        // Two of four: the 3, and of the others the first.
        assert_eq!(Tie::of(3, &[1, 1, 3, 1]), tie(true, true));
        // The remainders differ, nothing is left, or there is no weight.
        for (q, weights) in [(6, vec![5, 3]), (4, vec![1, 3]), (0, vec![1, 3]), (2, vec![0, 0]), (0, Vec::new())] {
            assert_eq!(Tie::of(q, &weights), Tie::default(), "{q} by {weights:?}");
        }
    }
}
