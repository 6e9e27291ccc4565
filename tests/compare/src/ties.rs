//! Where an exact tie of remainders decides who gets an odd unit or cent (C-15), by the call that splits.

use crate::situations::Situations;
use generator::Tie;
use model::field::{price_at, u16_at, u32_at};
use model::roll::Bid;
use model::{Ledger, Roll, write};
use std::collections::BTreeMap;

/// What is split and by what: the amount, and the weights in list order.
struct Split {
    by: By,
    q: u64,
    weights: Vec<u64>,
}

#[derive(Clone, Copy)]
enum By {
    Close,
    Allocate,
    Call,
    Contributions,
    Payments,
}

impl By {
    /// Where ties to the earlier, whatever the weights, give other shares.
    const fn to_the_larger(self) -> &'static str {
        match self {
            By::Close => "CLOSE where a tie goes to a larger bid behind a smaller",
            By::Allocate => "ALLOCATE where a tie goes to a larger shortfall behind a smaller",
            By::Call => "CALL where a tie goes to a larger contribution behind a smaller",
            By::Contributions => "FINISH where a tie goes to a larger contribution of a rank behind a smaller",
            By::Payments => "FINISH where a tie goes to a larger payment behind a smaller",
        }
    }

    /// Where the last that gets one and the first that gets none have one remainder and one weight.
    const fn to_the_earlier(self) -> &'static str {
        match self {
            By::Close => "CLOSE where a tie of like bids goes to the earlier",
            By::Allocate => "ALLOCATE where a tie of like shortfalls goes to the earlier",
            By::Call => "CALL where a tie of like contributions goes to the earlier",
            By::Contributions => "FINISH where a tie of like contributions of a rank goes to the earlier",
            By::Payments => "FINISH where a tie of like payments goes to the earlier",
        }
    }
}

/// All that has to occur.
pub const ALL: [&str; 10] = [
    By::Close.to_the_larger(),
    By::Allocate.to_the_larger(),
    By::Call.to_the_larger(),
    By::Contributions.to_the_larger(),
    By::Payments.to_the_larger(),
    By::Close.to_the_earlier(),
    By::Allocate.to_the_earlier(),
    By::Call.to_the_earlier(),
    By::Contributions.to_the_earlier(),
    By::Payments.to_the_earlier(),
];

/// What the accepted fields say of the weights: those of members by number, so in member order.
#[derive(Default)]
pub struct Fields {
    contributions: BTreeMap<u8, u64>,
    expected: BTreeMap<u8, [u64; 4]>,
    payments: BTreeMap<u8, u64>,
    reserves: Vec<i64>,
}

impl Fields {
    /// Counts the ties of an accepted call, with the ledger before and after it.
    pub fn count(&mut self, bytes: &[u8], before: &Roll, after: &Roll, found: &mut Situations) {
        let value = &bytes[3..];
        match bytes[0] {
            write::MEMBER => {
                self.contributions.insert(value[0], u32_at(value, 1).into());
                self.expected.insert(value[0], std::array::from_fn(|pool| u16_at(value, 5 + 2 * pool).into()));
            }
            write::ROUND => self.reserves = (0..value.len() / 4).map(|pool| price_at(value, 4 * pool)).collect(),
            write::PAY => *self.payments.entry(value[0]).or_default() += u64::from(u32_at(value, 1)),
            _ => {}
        }
        for split in self.splits(bytes, before, after) {
            let tie = Tie::of(split.q, &split.weights);
            if tie.to_the_larger {
                *found.entry(split.by.to_the_larger()).or_default() += 1;
            }
            if tie.to_the_earlier {
                *found.entry(split.by.to_the_earlier()).or_default() += 1;
            }
        }
    }

    fn splits(&self, bytes: &[u8], before: &Roll, after: &Roll) -> Vec<Split> {
        let contributions: Vec<u64> = self.contributions.values().copied().collect();
        match bytes[0] {
            write::CLOSE => (0..4).filter_map(|pool| self.at_close(pool, before)).collect(),
            write::ALLOCATE => {
                let pool = bytes[3];
                // ALLOCATE is accepted at most once in a pool, so nothing was allocated there before.
                let won = |member: u8| -> u64 {
                    let bids = before.bids().iter().filter(|bid| (bid.member, bid.pool) == (member, pool));
                    bids.map(|bid| bid.won).sum()
                };
                let short =
                    |(&member, expected): (&u8, &[u64; 4])| expected[usize::from(pool)].saturating_sub(won(member));
                let weights: Vec<u64> = self.expected.iter().map(short).collect();
                vec![Split { by: By::Allocate, q: before.counts(pool)[0].min(weights.iter().sum()), weights }]
            }
            write::CALL => {
                let needed = before.requirement().unwrap_or(0) - before.prefunded().unwrap_or(0);
                let q = needed.min(contributions.iter().sum());
                vec![Split { by: By::Call, q, weights: contributions }]
            }
            write::FINISH => self.at_finish(after),
            _ => Vec::new(),
        }
    }

    /// The balance among the bids at the price where the open units run out, if they do.
    fn at_close(&self, pool: u8, before: &Roll) -> Option<Split> {
        let round = before.bids().last()?.round;
        let reserve = *self.reserves.get(usize::from(pool))?;
        let is_valid = |bid: &&Bid| bid.round == round && bid.pool == pool && bid.stands && bid.price >= reserve;
        let valid: Vec<&Bid> = before.bids().iter().filter(is_valid).collect();
        let open = before.counts(pool)[0];
        let above = |price: i64| valid.iter().filter(|bid| bid.price > price).map(|bid| bid.units).sum::<u64>();
        let at = |price: i64| valid.iter().filter(|bid| bid.price == price).map(|bid| bid.units).collect::<Vec<u64>>();
        let runs_out = |price: &i64| above(*price) < open && above(*price) + at(*price).iter().sum::<u64>() > open;
        let price = valid.iter().map(|bid| bid.price).find(runs_out)?;
        Some(Split { by: By::Close, q: open - above(price), weights: at(price) })
    }

    /// What each rank bore, by contribution, and what payments bore.
    fn at_finish(&self, after: &Roll) -> Vec<Split> {
        let Some(result) = after.result() else {
            return Vec::new();
        };
        let of_rank = |rank: u64| {
            let members: Vec<_> = result.members.iter().filter(|member| member.rank == rank).collect();
            let q = members.iter().map(|member| member.contribution_charge).sum();
            let weights = members.iter().map(|member| self.contributions[&member.member]).collect();
            Split { by: By::Contributions, q, weights }
        };
        let ranks = 1..=result.members.len() as u64;
        let paid = |member: u8| self.payments.get(&member).copied().unwrap_or(0);
        let payments = result.members.iter().map(|member| paid(member.member)).collect();
        let mut splits: Vec<Split> = ranks.map(of_rank).collect();
        splits.push(Split { by: By::Payments, q: result.charges[5], weights: payments });
        splits
    }
}

#[cfg(test)]
mod tests {
    use super::*;
    use crate::situations::of;
    use model::write::{Head, allocate, bid, call, close, finish, head, member, miss, pay, pool, round, tear};

    /// The situations of a case with a pool of so many units, and of each member the contribution and expected units.
    fn found(loss: u32, units: u16, members: [(u32, u16); 2], rest: &[Vec<u8>]) -> Vec<&'static str> {
        let h = Head { pools: 1, least_bid: 1, set: 3, hedge_loss: loss, other_loss: 0, margin: 0, fund: 0, house: 0 };
        let [first, second] = members;
        let given = [
            head(&h),
            pool(0, units, 0),
            member(1, second.0, [second.1, 0, 0, 0]),
            member(0, first.0, [first.1, 0, 0, 0]),
            round(&[-9]),
        ];
        let found = of(&[&given, rest].concat()).into_keys();
        found.filter(|name| ALL.contains(name)).collect()
    }

    #[test]
    fn each_call_that_splits_is_told_by_itself() {
        let none = [(0, 0), (0, 0)];
        let bids = |units: [u16; 2]| [bid(0, 0, units[0], -5), bid(0, 1, units[1], -5), bid(0, 0, 9, -10), close()];
        assert_eq!(found(0, 2, none, &bids([1, 3])), [By::Close.to_the_larger()]);
        assert_eq!(found(0, 3, none, &bids([2, 2])), [By::Close.to_the_earlier()]);
        assert_eq!(found(0, 4, none, &bids([1, 3])), [""; 0]);
        let placed = [close(), allocate(0, 0)];
        assert_eq!(found(0, 2, [(0, 1), (0, 3)], &placed), [By::Allocate.to_the_larger()]);
        assert_eq!(found(0, 3, [(0, 2), (0, 2)], &placed), [By::Allocate.to_the_earlier()]);
        let called = [close(), tear(0, 0), call()];
        assert_eq!(found(6, 1, [(1, 0), (3, 0)], &called), [By::Call.to_the_larger()]);
        assert_eq!(found(7, 1, [(2, 0), (2, 0)], &called), [By::Call.to_the_earlier()]);
        let finished = [close(), tear(0, 0), finish()];
        assert_eq!(found(2, 1, [(1, 0), (3, 0)], &finished), [By::Contributions.to_the_larger()]);
        assert_eq!(found(3, 1, [(2, 0), (2, 0)], &finished), [By::Contributions.to_the_earlier()]);
        let missed = |paid: [u32; 2], price| {
            [close(), allocate(0, 0), call(), pay(0, paid[0]), pay(1, paid[1]), miss(0, price), finish()]
        };
        assert_eq!(found(8, 1, [(1, 1), (3, 0)], &missed([1, 3], 2)), [By::Payments.to_the_larger()]);
        assert_eq!(found(8, 1, [(2, 1), (2, 0)], &missed([2, 2], 1)), [By::Payments.to_the_earlier()]);
    }
}
