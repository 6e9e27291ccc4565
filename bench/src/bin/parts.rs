//! Splitting, its ranking and the auction against a Rust version that sorts, in one run: nanoseconds a call and their ratio. Each line is over many inputs of one
//! kind, made before and taken in turn, since one input repeated flatters both. Each side has one buffer, which is not cleared between calls.
use linked::{BidRecord, Random, Ranked};
use model::split::{AMOUNT_LIMIT, refusal};
use std::cmp::Reverse;
use std::fmt::Debug;
use std::hint::black_box;
use std::time::Instant;

/// The least time of one call, over rounds of the two in turn that take every input once.
fn both<I>(inputs: &[I], mut mine: impl FnMut(&I), mut theirs: impl FnMut(&I)) -> (f64, f64) {
    let (mut a, mut b) = (f64::MAX, f64::MAX);
    for _ in 0..30 {
        for (best, f) in [(&mut a, &mut mine as &mut dyn FnMut(&I)), (&mut b, &mut theirs)] {
            let start = Instant::now();
            for input in inputs {
                f(black_box(input));
            }
            *best = best.min(start.elapsed().as_secs_f64() * 1e9 / inputs.len() as f64);
        }
    }
    (a, b)
}

/// One line; each side writes into a run of so many places.
fn line<I, T>(name: &str, places: usize, inputs: &[I], mine: impl Fn(&I, &mut [T]), theirs: impl Fn(&I, &mut [T]))
where
    T: Clone + Default + PartialEq + Debug,
{
    let (mut ours, mut others) = (vec![T::default(); places], vec![T::default(); places]);
    let (a, b) = both(inputs, |input| mine(input, &mut ours), |input| theirs(input, &mut others));
    assert_eq!(ours, others, "{name}");
    println!("{name:<44} {a:>9.0} ns {b:>9.0} ns   ratio {:.2}", a / b);
}

/// 200 inputs, more where they are short, so that no branch is foretold from the round before.
fn inputs<I>(r: &mut Random, places: usize, input: impl Fn(&mut Random) -> I) -> Vec<I> {
    (0..200.max(51_200 / places)).map(|_| input(r)).collect()
}

struct Splitting {
    q: u64,
    weights: Vec<u64>,
}

type Weights = fn(&mut Random, usize) -> Vec<u64>;

fn splittings(r: &mut Random, places: usize, weights: Weights) -> Vec<Splitting> {
    inputs(r, places, |r| {
        let weights = weights(r, places);
        let q = r.below(AMOUNT_LIMIT.min(weights.iter().sum()) + 1);
        Splitting { q, weights }
    })
}

fn any(r: &mut Random, places: usize) -> Vec<u64> {
    (0..places).map(|_| 1 + r.below(500_000_000)).collect()
}

fn equal(r: &mut Random, places: usize) -> Vec<u64> {
    vec![1 + r.below(1_000); places]
}

/// One place of each eight has a weight.
fn one_in_eight(r: &mut Random, places: usize) -> Vec<u64> {
    let mut weights = vec![0; places];
    for eight in weights.chunks_mut(8) {
        eight[r.below(8) as usize] = 1 + r.below(1_000);
    }
    weights
}

fn split_of(name: &str, r: &mut Random, places: usize, weights: Weights) {
    line(
        name,
        places,
        &splittings(r, places, weights),
        |input, shares| assert_eq!(linked::split(input.q, &input.weights, shares), 0),
        |input, shares| assert_eq!(model::split_alone(input.q, &input.weights, shares), 0),
    );
}

/// The ranking by a sort, since the model's counts for each place how many come before it; a remainder is computed at each comparison, as in the model's split, or
/// once. The sort is stable, so places of one remainder and weight stay in list order (C-15).
fn sorted<const ONCE: bool>(q: u64, weights: &[u64], places: &mut [usize]) -> Ranked {
    let answer = refusal(q, weights, places.len());
    let sum: u128 = weights.iter().map(|&w| u128::from(w)).sum();
    if answer != 0 || sum == 0 {
        return Ranked { answer, named: 0 };
    }
    let mut order: Vec<usize> = (0..weights.len()).collect();
    let standing = |&i: &usize| Reverse((u128::from(q) * u128::from(weights[i]) % sum, weights[i]));
    if ONCE {
        order.sort_by_cached_key(standing);
    } else {
        order.sort_by_key(standing);
    }
    places.copy_from_slice(&order);
    Ranked { answer, named: order.len() }
}

fn ranking_of<const ONCE: bool>(name: &str, r: &mut Random, count: usize, weights: Weights) {
    let all = Ranked { answer: 0, named: count };
    line(
        name,
        count,
        &splittings(r, count, weights),
        |input, places| assert_eq!(linked::ranking(input.q, &input.weights, places), all),
        |input, places| assert_eq!(sorted::<ONCE>(input.q, &input.weights, places), all),
    );
}

/// The bids of a round, lent and flat, for half of their units or for 1,000.
struct Bids {
    open: u16,
    records: Vec<BidRecord>,
    units: Vec<u64>,
    held: Vec<u32>,
}

/// Bids at so many prices, as many at each, in any order.
fn bids(r: &mut Random, count: usize, prices: usize) -> Bids {
    let mut records: Vec<BidRecord> =
        (0..count).map(|i| BidRecord { units: 1 + r.below(20) as u16, price: (i % prices) as i32 - 500 }).collect();
    records.sort_by_cached_key(|_| r.next());
    let units: Vec<u64> = records.iter().map(|bid| bid.units.into()).collect();
    let held = records.iter().map(|bid| (bid.price + 1_000_000) as u32).collect();
    Bids { open: (units.iter().sum::<u64>() / 2).min(1_000) as u16, records, units, held }
}

fn auction_of(name: &str, r: &mut Random, count: usize, prices: usize) {
    let rounds = inputs(r, count, |r| bids(r, count, prices));
    line(
        &format!("{name}, flat"),
        count,
        &rounds,
        |b, won| assert_eq!(linked::alone(b.open.into(), 999_000, &b.units, &b.held, won), 0),
        |b, won| assert_eq!(model::alone_flat(b.open.into(), 999_000, &b.units, &b.held, won), 0),
    );
    line(
        &format!("{name}, lent"),
        count,
        &rounds,
        |b, won| assert_eq!(linked::alone_lent(&b.records, b.open, -1_000, won), 0),
        |b, won| assert_eq!(model::alone_lent(&b.records, b.open, -1_000, won), 0),
    );
}

fn main() {
    let mut r = Random(7);
    println!("{:<44} {:>12} {:>12}", "", "proved", "sorting");
    for places in [3, 32] {
        split_of(&format!("split, {places} members"), &mut r, places, any);
    }
    for places in [256, 512] {
        split_of(&format!("split, {places} weights"), &mut r, places, any);
    }
    for places in [32, 256, 512] {
        split_of(&format!("split, {places} equal weights"), &mut r, places, equal);
    }
    split_of("split, 256 places, 32 with a weight", &mut r, 256, one_in_eight);
    ranking_of::<false>("ranking, 256 weights", &mut r, 256, any);
    ranking_of::<true>("ranking, 256 weights, remainders once", &mut r, 256, any);
    auction_of("auction, 256 bids at one price", &mut r, 256, 1);
    auction_of("auction, 256 bids at 40 prices", &mut r, 256, 40);
    auction_of("auction, 256 bids at 256 prices", &mut r, 256, 256);
    auction_of("auction, 32 bids at 8 prices", &mut r, 32, 8);
}
