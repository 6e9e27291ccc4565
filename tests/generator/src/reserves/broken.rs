//! Pairs that break one part of the premise, so that it is seen that texts can tell lists apart.

use super::{HIGHEST, Pair, Part, Round, are_in_range, gap, in_range, neighbours, out_of_range};
use super::{broken_parts, prices_in, round_field};
use crate::rng::Rng;
use model::field::exactly_one;
use model::write;
use std::collections::BTreeSet;

/// How the premise is broken.
#[derive(Clone, Copy, Debug, PartialEq, Eq)]
pub enum Kind {
    /// A reserve of an accepted ROUND lies on the other side of one price at which there are bids.
    Crossed,
    /// A reserve is out of range, in a ROUND with one for each pool of the case.
    OutOfRange,
    /// A ROUND has another length.
    OtherLength,
    /// A field that is no ROUND has another value.
    OtherField,
    /// One call is left out.
    LeftOut,
}

impl Kind {
    pub const ALL: [Kind; 5] = [Kind::Crossed, Kind::OutOfRange, Kind::OtherLength, Kind::OtherField, Kind::LeftOut];

    /// The one part of the premise that is broken.
    pub fn part(self) -> Part {
        match self {
            Kind::Crossed => Part::Validity,
            Kind::OutOfRange | Kind::OtherLength | Kind::OtherField => Part::Fields,
            Kind::LeftOut => Part::Number,
        }
    }
}

/// Whether two texts tell the lists apart, as far as the papers say so beforehand.
#[derive(Clone, Copy, Debug, PartialEq, Eq)]
pub enum Told {
    Always,
    Never,
    Perhaps,
}

/// A list that breaks one part of the premise beside the first list of a pair.
pub struct Broken {
    pub list: Vec<Vec<u8>>,
    pub told: Told,
}

/// A change may break another part too, and is then drawn again so often.
const TRIES: usize = 10;

/// The pair's second list with one change more, which breaks this part of the premise and no other; none where there is nothing to change so.
pub fn broken(seed: u64, pair: &Pair, kind: Kind) -> Option<Broken> {
    let mut rng = Rng::new(seed ^ 0x62726F6B656E ^ kind as u64);
    let mut drawn = (0..TRIES).map_while(|_| changed(&mut rng, pair, kind));
    let only = BTreeSet::from([kind.part()]);
    drawn.find(|broken| broken_parts(&pair.one, &broken.list) == only)
}

fn changed(rng: &mut Rng, pair: &Pair, kind: Kind) -> Option<Broken> {
    match kind {
        Kind::Crossed => crossed(rng, pair),
        Kind::OutOfRange => past_the_range(rng, pair),
        Kind::OtherLength => of_another_length(rng, pair),
        Kind::OtherField => with_another_value(rng, pair),
        Kind::LeftOut => one_left_out(rng, pair),
    }
}

fn with_field(pair: &Pair, at: usize, field: Vec<u8>) -> Vec<Vec<u8>> {
    let mut list = pair.other.clone();
    list[at] = field;
    list
}

/// The second list with this reserve of a ROUND.
fn with_reserve(pair: &Pair, round: &Round, pool: usize, reserve: i64) -> Vec<Vec<u8>> {
    let mut reserves = pair.others_at(round);
    reserves[pool] = reserve;
    with_field(pair, round.at, round_field(&reserves))
}

/// The gaps on both sides of the one that holds the reserve, as far as there are bids between them.
fn gaps_beside(reserve: i64, prices: &BTreeSet<i64>) -> Vec<(i64, i64)> {
    let (below, above) = neighbours(reserve, prices);
    let above = above.filter(|&price| price < HIGHEST).map(|price| price + 1);
    below.into_iter().chain(above).map(|beyond| gap(beyond, prices)).collect()
}

fn crossed(rng: &mut Rng, pair: &Pair) -> Option<Broken> {
    let mut places = Vec::new();
    for round in &pair.seen.rounds {
        let Some(number) = round.opens else {
            continue;
        };
        for (pool, &reserve) in round.reserves.iter().enumerate() {
            let gaps = gaps_beside(reserve, &prices_in(&pair.seen.bids, number, pool));
            places.extend(gaps.into_iter().map(|gap| (round, pool, gap)));
        }
    }
    let (round, pool, (low, high)) = pick(rng, &places)?;
    let between = rng.between(low, high);
    let reserve = rng.pick(&[low, high, between]);
    Some(Broken { list: with_reserve(pair, round, pool, reserve), told: Told::Perhaps })
}

/// 5 stands before 8 and 10 in the list of reasons and behind 2, so a ROUND that would be accepted or declined by 8 or 10 is then declined by 5, and one declined by
/// 2 still is.
fn past_the_range(rng: &mut Rng, pair: &Pair) -> Option<Broken> {
    let fitting: Vec<&Round> = pair.seen.rounds.iter().filter(|r| r.fits() && are_in_range(&r.reserves)).collect();
    let round = pick(rng, &fitting)?;
    let pool = rng.below(round.reserves.len() as u64) as usize;
    let told = if round.answer == 2 { Told::Never } else { Told::Always };
    let reserve = out_of_range(rng);
    Some(Broken { list: with_reserve(pair, round, pool, reserve), told })
}

/// "1. ... a wrong length (ROUND: 4 × pools; with no case 4, 8, 12 or 16)."
fn is_wrong_length(length: usize, pools: Option<usize>) -> bool {
    match pools {
        Some(pools) => length != 4 * pools,
        None => !matches!(length, 4 | 8 | 12 | 16),
    }
}

/// 1 is the first of the reasons, so it tells the lists apart where one length is wrong and the other is not. Where both are, or where there is no case and neither
/// is, the answers are alike.
fn of_another_length(rng: &mut Rng, pair: &Pair) -> Option<Broken> {
    let all: Vec<&Round> = pair.seen.rounds.iter().collect();
    let round = pick(rng, &all)?;
    let length = 4 * round.reserves.len();
    let mut lengths = vec![4, 8, 12, 16, 0, length - 1, length + 1, 20];
    lengths.retain(|&other| other != length);
    let other = rng.pick(&lengths);
    let mut value: Vec<u8> = pair.other[round.at][3..].to_vec();
    while value.len() < other {
        value.extend((in_range(rng) as i32).to_be_bytes());
    }
    value.truncate(other);
    let differs = is_wrong_length(length, round.pools) != is_wrong_length(other, round.pools);
    let told = if differs { Told::Always } else { Told::Never };
    Some(Broken { list: with_field(pair, round.at, write::field(write::ROUND, &value)), told })
}

fn with_another_value(rng: &mut Rng, pair: &Pair) -> Option<Broken> {
    let has_value = |bytes: &[u8]| exactly_one(bytes).is_some_and(|f| f.tag != write::ROUND && !f.value.is_empty());
    let places: Vec<usize> = (0..pair.other.len()).filter(|&at| has_value(&pair.other[at])).collect();
    let at = pick(rng, &places)?;
    let mut field = pair.other[at].clone();
    let byte = 3 + rng.below(field.len() as u64 - 3) as usize;
    field[byte] = field[byte].wrapping_add(rng.pick(&[1, 255]));
    Some(Broken { list: with_field(pair, at, field), told: Told::Perhaps })
}

/// There is one s line fewer, whatever follows the s lines.
fn one_left_out(rng: &mut Rng, pair: &Pair) -> Option<Broken> {
    let places: Vec<usize> = (0..pair.other.len()).collect();
    let mut list = pair.other.clone();
    list.remove(pick(rng, &places)?);
    Some(Broken { list, told: Told::Always })
}

fn pick<T: Copy>(rng: &mut Rng, from: &[T]) -> Option<T> {
    (!from.is_empty()).then(|| rng.pick(from))
}

#[cfg(test)]
mod tests {
    use super::super::LOWEST;
    use super::*;

    #[test]
    fn a_gap_beside_lies_across_one_price() {
        let prices = BTreeSet::from([-40, -20, -10]);
        assert_eq!(gaps_beside(-30, &prices), [(LOWEST, -40), (-19, -10)]);
        // A bid at the reserve is valid with it and not with one a cent higher.
        assert_eq!(gaps_beside(-40, &prices), [(-39, -20)]);
        assert_eq!(gaps_beside(-5, &prices), [(-19, -10)]);
        assert_eq!(gaps_beside(0, &BTreeSet::new()), []);
        assert_eq!(gaps_beside(HIGHEST, &BTreeSet::from([HIGHEST])), []);
    }
}
