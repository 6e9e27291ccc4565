//! Holds the two models against each other, call by call and in all that they can be asked.

use crate::pairs::place;
use crate::tally::Tally;
use generator::{shown_difference, unlike};
use model::field::{exactly_one, price_at};
use model::{Counts, Ledger, Roll, print, stream, write};
use std::collections::BTreeSet;
use std::io::Read;

/// The call after which the models differ, and in what.
pub struct ModelDifference {
    pub call: usize,
    pub what: String,
}

/// None where the models agree after every call.
pub fn difference(calls: &[Vec<u8>], tally: &mut Tally) -> Option<ModelDifference> {
    let mut roll = Roll::default();
    let mut counts = Counts::default();
    let mut prices = BTreeSet::from([0]);
    let mut had_round = false;
    for (call, bytes) in calls.iter().enumerate() {
        let place = place(roll.stage(), had_round);
        let before = (roll.clone(), counts.clone());
        let answers = (roll.call(bytes), counts.call(bytes));
        let differs = |what: String| Some(ModelDifference { call, what });
        if answers.0 != answers.1 {
            return differs(format!("answer: roll {}, counts {}", answers.0, answers.1));
        }
        tally.count(bytes.first().copied().unwrap_or(0), answers.0, place);
        had_round |= answers.0 == 0 && bytes[0] == write::ROUND;
        tally.bytes += bytes.len() as u64;
        if answers.0 != 0 && before != (roll.clone(), counts.clone()) {
            return differs("a declined call left something changed".to_string());
        }
        if answers.0 == 0 {
            prices.extend(prices_of(bytes));
            if let Some(what) = holding_difference(&roll, &counts, &prices) {
                return differs(what);
            }
        }
        if let Some(what) = observed_difference(&roll, &counts) {
            return differs(what);
        }
        if let Some(what) = sum_difference(&roll, &counts) {
            return differs(what);
        }
    }
    tally.inputs += 1;
    tally.count_situations(calls);
    None
}

/// Everything but single holdings.
fn observed_difference(roll: &Roll, counts: &Counts) -> Option<String> {
    let names = ["roll", "counts"];
    shown_difference(roll, counts, names).or_else(|| unlike("result", [roll.result(), counts.result()], names))
}

/// The running sum of each pool beside the same added up anew over the counts, and the pools' sums beside the one sum.
fn sum_difference(roll: &Roll, counts: &Counts) -> Option<String> {
    if let Some(pool) = (0..5).find(|&pool| counts.prices_of(pool) != counts.prices_recounted(pool)) {
        return Some(format!("the running sum of pool {pool} is not that of the counts"));
    }
    let by_pool: i64 = (0..5).map(|pool| roll.prices_of(pool)).sum();
    (by_pool != roll.sum_of_prices()).then(|| "the sums of the pools do not add up to the sum of prices".to_string())
}

/// Each member's holding in each pool at each price that has occurred.
fn holding_difference(roll: &Roll, counts: &Counts, prices: &BTreeSet<i64>) -> Option<String> {
    for member in 0..33 {
        for pool in 0..5 {
            for &price in prices {
                let (a, b) = (roll.holding(member, pool, price), counts.holding(member, pool, price));
                if a != b {
                    return Some(format!("holding of member {member} in pool {pool} at {price}: roll {a}, counts {b}"));
                }
            }
        }
    }
    None
}

/// The prices that an accepted call names.
fn prices_of(bytes: &[u8]) -> Option<i64> {
    let field = exactly_one(bytes)?;
    match field.tag {
        write::BID => Some(price_at(field.value, 4)),
        write::ALLOCATE | write::TEAR | write::MISS => Some(price_at(field.value, 1)),
        write::SALE => Some(price_at(field.value, 2)),
        _ => None,
    }
}

/// Whether the text of an input is one and the same over both models, at once and piece by piece.
pub fn text_difference(input: &[u8]) -> Option<String> {
    let whole = print::<Roll>(input);
    if print::<Counts>(input) != whole {
        return Some("the text over roll is not that over counts".to_string());
    }
    let mut streamed = Vec::new();
    let mut pieces = Pieces { rest: input, size: 1 };
    if stream::<Counts>(&mut pieces, &mut streamed).is_err() || streamed != whole {
        return Some("the text read piece by piece is not that read at once".to_string());
    }
    None
}

/// Gives an input in pieces of 1 byte, 2, 3 and so on, so that fields are cut everywhere.
struct Pieces<'a> {
    rest: &'a [u8],
    size: usize,
}

impl Read for Pieces<'_> {
    fn read(&mut self, into: &mut [u8]) -> std::io::Result<usize> {
        let size = self.size.min(self.rest.len()).min(into.len());
        into[..size].copy_from_slice(&self.rest[..size]);
        self.rest = &self.rest[size..];
        self.size += 1;
        Ok(size)
    }
}
