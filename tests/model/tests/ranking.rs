//! C-13 of document 02, with the ties of C-15: rankings worked by hand, the sweep against the split, and the limits of the entry.

#[path = "common/random.rs"]
mod random;

use model::{ranking, ranking_alone, split, swept};
use random::Random;

#[test]
fn k1_k2_k3_by_ranking_and_sweep() {
    assert_eq!(ranking(6, &[5, 3]), [0, 1]);
    assert_eq!(swept(6, &[5, 3]), [4, 2]);
    assert_eq!(ranking(1, &[1, 1, 1]), [0, 1, 2]);
    assert_eq!(swept(1, &[1, 1, 1]), [1, 0, 0]);
    assert_eq!(ranking(2, &[0, 0]), []);
    assert_eq!(swept(2, &[0, 0]), [0, 0]);
}

#[test]
fn larger_remainders_come_first() {
    // The remainders by 7 are 5, 3 and 6.
    assert_eq!(ranking(5, &[1, 2, 4]), [2, 0, 1]);
    assert_eq!(swept(5, &[1, 2, 4]), [1, 1, 3]);
    assert_eq!(ranking(5, &[2, 4, 1]), [1, 2, 0]);
}

#[test]
fn a_tie_goes_to_the_larger_weight_and_then_to_the_earlier_place() {
    // The remainders by 6 are 2, 4, 2 and 4.
    assert_eq!(ranking(4, &[2, 1, 2, 1]), [1, 3, 0, 2]);
    // The remainders by 4 are 2 and 2, so that the larger weight comes first, wherever it stands (C-15).
    assert_eq!(ranking(2, &[3, 1]), [0, 1]);
    assert_eq!(ranking(2, &[1, 3]), [1, 0]);
    assert_eq!(swept(2, &[1, 3]), [0, 2]);
}

#[test]
fn a_place_of_weight_0_is_named() {
    assert_eq!(ranking(6, &[0, 5, 3, 0]), [1, 2, 0, 3]);
    // A remainder of 0 with a weight ties with that of no weight, and the weight decides.
    assert_eq!(ranking(1, &[0, 1]), [1, 0]);
    assert_eq!(swept(1, &[0, 1]), [0, 1]);
}

#[test]
fn the_ranking_is_there_where_nothing_is_left() {
    assert_eq!(ranking(8, &[5, 3]), [0, 1]);
    assert_eq!(ranking(0, &[1, 9, 1]), [1, 0, 2]);
    assert_eq!(swept(8, &[5, 3]), [5, 3]);
}

#[test]
fn no_weight_has_no_ranking() {
    assert_eq!(ranking(0, &[]), []);
    assert_eq!(ranking(5, &[]), []);
    assert_eq!(swept(5, &[]), []);
    assert_eq!(ranking(0, &[0, 0, 0]), []);
}

#[test]
fn the_entry_keeps_its_limits() {
    let mut places = [7, 7];
    assert_eq!(ranking_alone(6, &[5, 3, 1], &mut places), (1, 0));
    assert_eq!(ranking_alone(16_000_000_001, &[5, 3], &mut places), (5, 0));
    assert_eq!(ranking_alone(6, &[5, 1_000_000_001], &mut places), (5, 0));
    assert_eq!(ranking_alone(6, &[0, 0], &mut places), (0, 0));
    assert_eq!(places, [7, 7]);
    // The remainder by 1,999,999,999 is the larger at the second place.
    assert_eq!(ranking_alone(16_000_000_000, &[1_000_000_000, 999_999_999], &mut places), (0, 2));
    assert_eq!(places, [1, 0]);
    let mut long = vec![9; 513];
    // A length past the limit comes before a number out of range.
    assert_eq!(ranking_alone(16_000_000_001, &vec![1; 513], &mut long), (1, 0));
    assert_eq!(ranking_alone(1, &vec![1; 512], &mut long[..512]), (0, 512));
    assert!((0..512).all(|place| long[place] == place) && long[512] == 9);
    assert_eq!(ranking_alone(3, &[], &mut []), (0, 0));
}

#[test]
fn the_sweep_gives_the_shares_of_the_split() {
    let mut r = Random(13);
    for _ in 0..20_000 {
        let top = [1, 2, 4, 10, 1_000, 1_000_000_000, usize::MAX][r.below(7)];
        let weights: Vec<u64> = (0..r.below(12)).map(|_| r.below(top) as u64).collect();
        let most = [3, 20, 1_000, usize::MAX][r.below(4)];
        let q = r.below(most) as u64;
        assert_eq!(swept(q, &weights), split(q, &weights), "{q} by {weights:?}");
        let mut named = ranking(q, &weights);
        named.sort_unstable();
        let all = if weights.iter().all(|&weight| weight == 0) { 0 } else { weights.len() };
        assert_eq!(named, Vec::from_iter(0..all), "the places of {q} by {weights:?}");
    }
}
