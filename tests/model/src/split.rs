//! Splitting by largest remainder with the ties of C-15 of document 02, and the ranking of C-13.

use std::cmp::{Ordering, Reverse};

/// The public entry takes at most this many weights.
pub const WEIGHTS_LIMIT: usize = 512;
/// The public entry takes no larger amount: 32 members' contributions at their most.
pub const AMOUNT_LIMIT: u64 = 16_000_000_000;
/// The public entry takes no larger weight: a payment at its most.
pub const WEIGHT_LIMIT: u64 = 1_000_000_000;

/// "To split q by a list of weights w with sum W: each share is floor(q × w / W). What is left goes one each to the largest
/// remainders of q × w by W, ties to the earlier in the list. If W = 0 every share is 0." C-15: "From now on such a tie goes to
/// the larger weight, and only then to the earlier in the list."
pub fn split(q: u64, weights: &[u64]) -> Vec<u64> {
    let sum: u128 = weights.iter().map(|&w| u128::from(w)).sum();
    if sum == 0 {
        return vec![0; weights.len()];
    }
    let product = |w: u64| u128::from(q) * u128::from(w);
    // A share is at most q, so it fits.
    let mut shares: Vec<u64> = weights.iter().map(|&w| (product(w) / sum) as u64).collect();
    let left = q - shares.iter().sum::<u64>();
    let mut order: Vec<usize> = (0..weights.len()).collect();
    // The sort is stable, so equal remainders of equal weights stay in list order.
    order.sort_by_key(|&i| Reverse((product(weights[i]) % sum, weights[i])));
    for &i in order.iter().take(left as usize) {
        shares[i] += 1;
    }
    shares
}

/// "The ranking names each place of the weights exactly once, larger remainders first, ties as splitting has them." "If W = 0
/// there is no ranking and no sweep." By C-15 the weight stands between remainder and place. `split` sorts; here each place is put
/// behind as many as come before it.
pub fn ranking(q: u64, weights: &[u64]) -> Vec<usize> {
    let sum = sum_of(weights);
    if sum == 0 {
        return Vec::new();
    }
    let remainders: Vec<u128> = weights.iter().map(|&weight| u128::from(weight) * u128::from(q) % sum).collect();
    let before = |one: usize, other: usize| match remainders[one].cmp(&remainders[other]) {
        Ordering::Greater => true,
        Ordering::Equal if weights[one] == weights[other] => one < other,
        Ordering::Equal => weights[one] > weights[other],
        Ordering::Less => false,
    };
    let all = 0..weights.len();
    let mut places = vec![usize::MAX; weights.len()];
    for place in all.clone() {
        places[all.clone().filter(|&other| before(other, place)).count()] = place;
    }
    places
}

/// The floors and the sweep over the ranking. "Every share is as before."
pub fn swept(q: u64, weights: &[u64]) -> Vec<u64> {
    swept_by(q, weights, &ranking(q, weights))
}

/// "The sweep adds one at as many of its first places as there are odd cents, and nowhere else", over a ranking from anywhere.
pub fn swept_by(q: u64, weights: &[u64], ranking: &[usize]) -> Vec<u64> {
    if ranking.is_empty() {
        return vec![0; weights.len()];
    }
    let mut shares = floors(q, weights);
    for &place in &ranking[..odd_cents(q, &shares)] {
        shares[place] += 1;
    }
    shares
}

/// What the floors leave.
pub fn odd_cents(q: u64, floors: &[u64]) -> usize {
    (q - floors.iter().sum::<u64>()) as usize
}

/// "each share is floor(q × w / W)", where W is not 0.
pub fn floors(q: u64, weights: &[u64]) -> Vec<u64> {
    let sum = sum_of(weights);
    weights.iter().map(|&weight| (u128::from(weight) * u128::from(q) / sum) as u64).collect()
}

fn sum_of(weights: &[u64]) -> u128 {
    weights.iter().copied().map(u128::from).sum()
}

/// What both entries below refuse: 1 where the lengths differ or pass the limit, then 5 where a number is out of range, else 0.
pub fn refusal(q: u64, weights: &[u64], room: usize) -> u8 {
    if weights.len() != room || weights.len() > WEIGHTS_LIMIT {
        return 1;
    }
    if q > AMOUNT_LIMIT || weights.iter().any(|&w| w > WEIGHT_LIMIT) {
        return 5;
    }
    0
}

/// The public entry: the answer, and the shares where it is 0.
pub fn split_alone(q: u64, weights: &[u64], shares: &mut [u64]) -> u8 {
    let answer = refusal(q, weights, shares.len());
    if answer == 0 {
        shares.copy_from_slice(&split(q, weights));
    }
    answer
}

/// The ranking as a public entry: the answer, and how many places are named. Where none is, `places` is as it was.
pub fn ranking_alone(q: u64, weights: &[u64], places: &mut [usize]) -> (u8, usize) {
    let answer = refusal(q, weights, places.len());
    if answer != 0 {
        return (answer, 0);
    }
    let ranking = ranking(q, weights);
    places[..ranking.len()].copy_from_slice(&ranking);
    (0, ranking.len())
}
