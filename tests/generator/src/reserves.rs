//! Pairs of inputs that are the same but for reserves, and the premise of C-17 that they meet: "Two cases receive the same fields except for the reserves, all in
//! range, and each bid is valid in one exactly when it is valid in the other."

mod broken;

pub use broken::{Broken, Kind, Told, broken};

use crate::profile::Profile;
use crate::rng::Rng;
use crate::writer::head_of;
use crate::{Unlike, fields, first_unlike, input};
use model::field::{exactly_one, price_at};
use model::roll::Bid;
use model::{Counts, Ledger, Roll, write};
use std::collections::BTreeSet;

/// "prices and reserves −10^6 to 10^6"
const LOWEST: i64 = -1_000_000;
const HIGHEST: i64 = 1_000_000;

/// The fields of two inputs; the last field of each may be cut off.
pub struct Pair {
    pub one: Vec<Vec<u8>>,
    pub other: Vec<Vec<u8>>,
    /// What the first list goes through.
    pub seen: Seen,
}

impl Pair {
    /// The ROUNDs of the first list whose reserves are others in the second, with those.
    pub fn moved(&self) -> impl Iterator<Item = (&Round, Vec<i64>)> {
        let both = self.seen.rounds.iter().map(|round| (round, self.others_at(round)));
        both.filter(|(round, others)| round.reserves != *others)
    }

    /// The reserves of the second list where the first has this ROUND.
    fn others_at(&self, round: &Round) -> Vec<i64> {
        reserves_of(&self.other[round.at]).expect("it is a ROUND in both lists")
    }
}

/// So many second lists are drawn, to take one that shows more.
const DRAWS: usize = 5;

/// The input of the seed, and one beside it that is the same but for reserves. One that changes a charge on contribution is taken, where it is drawn, else one that
/// changes a rank; whether it meets the premise does not depend on that.
pub fn pair(seed: u64, profile: Profile) -> Pair {
    let mut rng = Rng::new(seed ^ 0x7265736572766573);
    let one = fields(&input(seed, profile));
    let seen = Seen::of(&one);
    let of_one = ranks_and_charges(&one);
    let drawn = (0..DRAWS).map(|_| with_other_reserves(&mut rng, &one, &seen));
    let shows_more = |other: &Vec<Vec<u8>>| {
        let of_other = ranks_and_charges(other);
        (of_other.1 != of_one.1, of_other.0 != of_one.0)
    };
    let other = drawn.max_by_key(shows_more).expect("several are drawn");
    Pair { one, other, seen }
}

/// What may differ.
fn ranks_and_charges(list: &[Vec<u8>]) -> (Vec<u64>, Vec<u64>) {
    let mut case = Counts::default();
    list.iter().for_each(|bytes| {
        case.call(bytes);
    });
    let members = case.result().map_or(Vec::new(), |outcome| outcome.members);
    members.iter().map(|member| (member.rank, member.contribution_charge)).unzip()
}

fn with_other_reserves(rng: &mut Rng, one: &[Vec<u8>], seen: &Seen) -> Vec<Vec<u8>> {
    let mut other = one.to_vec();
    for round in &seen.rounds {
        other[round.at] = round_field(&other_reserves(rng, round, &seen.bids));
    }
    other
}

fn round_field(reserves: &[i64]) -> Vec<u8> {
    let reserves: Vec<i32> = reserves.iter().map(|&reserve| reserve as i32).collect();
    write::round(&reserves)
}

/// The reserves of a ROUND that is one whole field, of a length that some case takes.
fn reserves_of(bytes: &[u8]) -> Option<Vec<i64>> {
    let field = exactly_one(bytes)?;
    let length = field.value.len();
    let is_round = field.tag == write::ROUND && matches!(length, 4 | 8 | 12 | 16);
    is_round.then(|| (0..length / 4).map(|pool| price_at(field.value, 4 * pool)).collect())
}

fn are_in_range(reserves: &[i64]) -> bool {
    reserves.iter().all(|reserve| (LOWEST..=HIGHEST).contains(reserve))
}

// The premise

/// The parts of the premise.
#[derive(Clone, Copy, Debug, PartialEq, Eq, PartialOrd, Ord)]
pub enum Part {
    /// Both lists have as many fields.
    Number,
    /// Each field is the same in both, or in both a ROUND with as many reserves, all in range where there is one for each pool of the case.
    Fields,
    /// After any number of calls each bid that both cases have is valid in one exactly when it is valid in the other.
    Validity,
}

/// Whether the lists meet the premise.
pub fn same_but_reserves(one: &[Vec<u8>], other: &[Vec<u8>]) -> bool {
    broken_parts(one, other).is_empty()
}

/// The parts of the premise that the lists do not meet. Where they are of different length, the other parts are not asked, as they go field by field.
pub fn broken_parts(one: &[Vec<u8>], other: &[Vec<u8>]) -> BTreeSet<Part> {
    if one.len() != other.len() {
        return BTreeSet::from([Part::Number]);
    }
    let mut broken = BTreeSet::new();
    let mut cases = [Watched::default(), Watched::default()];
    for fields in one.iter().zip(other) {
        if !fields_are_alike(fields, &cases) {
            broken.insert(Part::Fields);
        }
        cases[0].call(fields.0);
        cases[1].call(fields.1);
        if !bids_are_alike(&cases) {
            broken.insert(Part::Validity);
        }
    }
    broken
}

fn fields_are_alike((one, other): (&Vec<u8>, &Vec<u8>), cases: &[Watched; 2]) -> bool {
    if one == other {
        return true;
    }
    let (Some(one), Some(other)) = (reserves_of(one), reserves_of(other)) else {
        return false;
    };
    let fits = cases.iter().any(|case| case.pools == Some(one.len()));
    one.len() == other.len() && (!fits || are_in_range(&one) && are_in_range(&other))
}

/// "Each bid" is every accepted bid, by its number, withdrawn ones and those of an earlier round too.
fn bids_are_alike([one, other]: &[Watched; 2]) -> bool {
    let mut of_both = one.roll.bids().iter().zip(other.roll.bids());
    of_both.all(|(a, b)| one.is_valid(a) == other.is_valid(b))
}

/// The roll, and beside it what it does not show: HEAD's pools and the reserves of each round.
#[derive(Default)]
struct Watched {
    roll: Roll,
    pools: Option<usize>,
    rounds: Vec<Vec<i64>>,
}

impl Watched {
    fn call(&mut self, bytes: &[u8]) -> u8 {
        let answer = self.roll.call(bytes);
        match bytes.first() {
            Some(&write::HEAD) if answer == 0 => self.pools = Some(head_of(bytes).pools.into()),
            Some(&write::ROUND) if answer == 0 => self.rounds.extend(reserves_of(bytes)),
            _ => {}
        }
        answer
    }

    /// "a bid of this round is valid if its price is at or above its pool's reserve"
    fn is_valid(&self, bid: &Bid) -> bool {
        bid.price >= self.rounds[usize::from(bid.round) - 1][usize::from(bid.pool)]
    }
}

// What is alike in the texts

/// The first line in which the texts of two lists that meet the premise may not differ.
pub fn text_difference(one: &[u8], other: &[u8]) -> Option<Unlike> {
    first_unlike(one, other, masked)
}

/// "m: member, rank, charge on contribution, on payments": a line of this form without its second and third number, any other as it is.
fn masked(line: &str) -> String {
    let mut words: Vec<&str> = line.split(' ').collect();
    let is_number = |word: &&str| !word.is_empty() && word.bytes().all(|byte| byte.is_ascii_digit());
    if words.len() == 5 && words[0] == "m" && words[1..4].iter().all(is_number) {
        words[2..4].fill("*");
    }
    words.join(" ")
}

// What a list goes through

/// A ROUND of a length that some case takes, as the model takes it.
pub struct Round {
    /// Its place in the list.
    pub at: usize,
    pub reserves: Vec<i64>,
    pub answer: u8,
    /// HEAD's pools, where there is a case.
    pub pools: Option<usize>,
    /// The round that it opens, where it is accepted.
    pub opens: Option<u8>,
    /// Open units by pool.
    pub open: [u64; 4],
}

impl Round {
    /// Whether there is one reserve for each pool of the case.
    pub fn fits(&self) -> bool {
        self.pools == Some(self.reserves.len())
    }
}

/// The answers that a list gets, its ROUNDs, and the bids that it leaves.
pub struct Seen {
    pub answers: Vec<u8>,
    pub rounds: Vec<Round>,
    pub bids: Vec<Bid>,
}

impl Seen {
    pub fn of(list: &[Vec<u8>]) -> Seen {
        let mut case = Watched::default();
        let mut answers = Vec::new();
        let mut rounds = Vec::new();
        for (at, bytes) in list.iter().enumerate() {
            let open = [0, 1, 2, 3].map(|pool| case.roll.counts(pool)[0]);
            let answer = case.call(bytes);
            answers.push(answer);
            let opens = (answer == 0).then_some(case.rounds.len() as u8);
            rounds.extend(reserves_of(bytes).map(|reserves| Round {
                at,
                reserves,
                answer,
                pools: case.pools,
                opens,
                open,
            }));
        }
        Seen { answers, rounds, bids: case.roll.bids().to_vec() }
    }
}

/// The bids of a round in a pool, withdrawn ones too.
pub fn bids_in(bids: &[Bid], round: u8, pool: usize) -> impl Iterator<Item = &Bid> {
    bids.iter().filter(move |bid| bid.round == round && usize::from(bid.pool) == pool)
}

/// The highest price below the reserve and the lowest at or above it.
pub fn neighbours(reserve: i64, prices: &BTreeSet<i64>) -> (Option<i64>, Option<i64>) {
    (prices.range(..reserve).next_back().copied(), prices.range(reserve..).next().copied())
}

// Other reserves

/// Reserves with which the case answers the ROUND and takes its bids as the premise has it; those of a ROUND that is out of range stay.
fn other_reserves(rng: &mut Rng, round: &Round, bids: &[Bid]) -> Vec<i64> {
    let each = round.reserves.iter().enumerate();
    if let Some(number) = round.opens {
        return each.map(|(pool, &reserve)| within_the_gap(rng, reserve, number, pool, bids)).collect();
    }
    if !round.fits() {
        return each.map(|_| any_reserve(rng)).collect();
    }
    if !are_in_range(&round.reserves) {
        return round.reserves.clone();
    }
    each.map(|_| in_range(rng)).collect()
}

fn prices_in(bids: &[Bid], round: u8, pool: usize) -> BTreeSet<i64> {
    bids_in(bids, round, pool).map(|bid| bid.price).collect()
}

/// The lowest and the highest reserve with which the same bids are valid.
fn gap(reserve: i64, prices: &BTreeSet<i64>) -> (i64, i64) {
    let (below, above) = neighbours(reserve, prices);
    (below.map_or(LOWEST, |price| price + 1), above.unwrap_or(HIGHEST))
}

/// Often an end of the gap, where a bid stands or the range ends; or beside some bid, which may be one of the other round or of another pool; and now and then the
/// reserve as it was.
fn within_the_gap(rng: &mut Rng, reserve: i64, round: u8, pool: usize, bids: &[Bid]) -> i64 {
    let (low, high) = gap(reserve, &prices_in(bids, round, pool));
    let beside = bids.iter().flat_map(|bid| [bid.price, bid.price + 1]);
    let beside: Vec<i64> = beside.filter(|price| (low..=high).contains(price)).collect();
    match rng.below(20) {
        0..=5 => low,
        6..=11 => high,
        12..=15 if !beside.is_empty() => rng.pick(&beside),
        12..=17 => rng.between(low, high),
        _ => reserve,
    }
}

fn in_range(rng: &mut Rng) -> i64 {
    match rng.below(4) {
        0 => rng.pick(&[LOWEST, HIGHEST]),
        1 => rng.between(-20, 20),
        _ => rng.between(LOWEST, HIGHEST),
    }
}

fn out_of_range(rng: &mut Rng) -> i64 {
    let past = rng.between(1, 1_000_000);
    rng.pick(&[LOWEST - 1, HIGHEST + 1, LOWEST - past, HIGHEST + past, i32::MIN.into(), i32::MAX.into()])
}

fn any_reserve(rng: &mut Rng) -> i64 {
    if rng.chance(50) { in_range(rng) } else { out_of_range(rng) }
}
