//! How the requirement and the sums of prices that it is read from move (C-16), by what a wrong running sum would show.

use crate::situations::{Situations, those_of};
use model::field::{price_at, u32_at};
use model::roll::Entry;
use model::{Ledger, Roll, write};

const AT_0: &str = "the sum of prices above the losses, so the requirement held at 0";
const ABOVE_0_AGAIN: &str = "a call that leaves the requirement above 0 after the sum of prices was above the losses";
const CLOSE_POOLS: &str = "CLOSE that changes the sums of two pools or more";
const ALLOCATE_LESS: &str = "ALLOCATE of less than all open units, not at 0";
const TEAR_BESIDE: &str = "TEAR not at 0 in a pool that has a sum";
const MOVE_OTHER_POOL: &str = "MOVE that changes the sum of another pool than pool 0";
const MOVE_POOLS: &str = "MOVE that changes the sums of two pools or more";
const MISS_ALLOCATED: &str = "MISS of allocated units alone, at another price";
const MISS_MOVED: &str = "MISS of moved units alone, not at 0";
const MISS_BOTH: &str = "MISS of allocated units at another price and of moved units not at 0";
const MISS_POOLS: &str = "MISS that changes the sums of two pools or more";
const SALE_FIRST: &str = "the first ROUND after a SALE not at 0";
const OPEN_BESIDE: &str = "open units in a pool that has a sum";
const GAIN_BESIDE_LOSS: &str = "a pool with a gain beside a pool with a loss";
const PAST_32_BITS: &str = "a sum of prices past 32 bits";
const REQUIREMENT_PAST_32_BITS: &str = "a requirement past 32 bits";

/// All that has to occur.
pub const ALL: [&str; 16] = [
    AT_0,
    ABOVE_0_AGAIN,
    CLOSE_POOLS,
    ALLOCATE_LESS,
    TEAR_BESIDE,
    MOVE_OTHER_POOL,
    MOVE_POOLS,
    MISS_ALLOCATED,
    MISS_MOVED,
    MISS_BOTH,
    MISS_POOLS,
    SALE_FIRST,
    OPEN_BESIDE,
    GAIN_BESIDE_LOSS,
    PAST_32_BITS,
    REQUIREMENT_PAST_32_BITS,
];

/// The losses, and the sums of the pools after the last accepted call.
#[derive(Default)]
pub struct Sums {
    losses: i64,
    prices: [i64; 4],
    was_above_losses: bool,
    had_round: bool,
}

impl Sums {
    /// Counts what an accepted call is an example of, with the ledger before it, which MISS alone looks at, and after it.
    pub fn count(&mut self, bytes: &[u8], before: &Roll, after: &Roll, found: &mut Situations) {
        let value = &bytes[3..];
        if bytes[0] == write::HEAD {
            self.losses = i64::from(u32_at(value, 7)) + i64::from(u32_at(value, 11));
        }
        let old = self.prices;
        self.prices = std::array::from_fn(|pool| after.prices_of(pool as u8));
        let changed: Vec<usize> = (0..4).filter(|&pool| self.prices[pool] != old[pool]).collect();
        let names = match bytes[0] {
            write::CLOSE if changed.len() > 1 => vec![CLOSE_POOLS],
            write::ALLOCATE if !changed.is_empty() && after.counts(value[0])[0] > 0 => vec![ALLOCATE_LESS],
            write::TEAR if !changed.is_empty() && old[usize::from(value[0])] != 0 => vec![TEAR_BESIDE],
            write::MOVE => at_move(&changed),
            write::MISS => at_miss(before, value[0], price_at(value, 1), &changed),
            write::ROUND if !self.had_round && old != [0; 4] => vec![SALE_FIRST],
            _ => Vec::new(),
        };
        self.had_round |= bytes[0] == write::ROUND;
        let again = !changed.is_empty() && self.was_above_losses && self.sum() < self.losses;
        self.was_above_losses |= self.sum() > self.losses;
        let all = names.into_iter().chain(again.then_some(ABOVE_0_AGAIN)).chain(self.at_rest(after));
        all.for_each(|name| *found.entry(name).or_default() += 1);
    }

    fn sum(&self) -> i64 {
        self.prices.iter().sum()
    }

    /// What the sums are an example of, whichever call led there.
    fn at_rest(&self, after: &Roll) -> Vec<&'static str> {
        let (sum, requirement) = (self.sum(), after.reading().1);
        let open_beside = |pool: usize| after.counts(pool as u8)[0] > 0 && self.prices[pool] != 0;
        those_of(&[
            (AT_0, sum > self.losses),
            (OPEN_BESIDE, (0..4).any(open_beside)),
            (GAIN_BESIDE_LOSS, self.prices.iter().any(|&p| p > 0) && self.prices.iter().any(|&p| p < 0)),
            (PAST_32_BITS, i32::try_from(sum).is_err()),
            (REQUIREMENT_PAST_32_BITS, u32::try_from(requirement).is_err()),
        ])
    }
}

fn at_move(changed: &[usize]) -> Vec<&'static str> {
    those_of(&[(MOVE_OTHER_POOL, changed.iter().any(|&pool| pool > 0)), (MOVE_POOLS, changed.len() > 1)])
}

/// Which of the member's units, allocated and moved, have another price than before.
fn at_miss(before: &Roll, of: u8, price: i64, changed: &[usize]) -> Vec<&'static str> {
    let entries: Vec<Entry> = (0..4).flat_map(|pool| before.entries(pool)).copied().collect();
    let allocated = |entry: &Entry| match *entry {
        Entry::Allocated { member, price } if member == of => Some(price),
        _ => None,
    };
    let old: Vec<i64> = entries.iter().filter_map(allocated).collect();
    let has_moved = entries.contains(&Entry::Moved { member: of });
    let changes_allocated = old.iter().any(|&old| old != price);
    those_of(&[
        (MISS_ALLOCATED, changes_allocated && !has_moved),
        (MISS_MOVED, old.is_empty() && has_moved && price != 0),
        (MISS_BOTH, changes_allocated && has_moved && price != 0),
        (MISS_POOLS, changed.len() > 1),
    ])
}

#[cfg(test)]
mod tests {
    use super::*;
    use crate::situations::of;
    use model::write::{Head, allocate, bid, call, close, head, member, miss, move_units, pool, round, sale, tear};

    /// The situations of the requirement in a case with two pools of so many units, losses of 10 and members 0 and 1, of whom each expects so many in each pool
    /// and has a contribution of 20.
    fn found(units: [u16; 2], expected: u16, rest: &[Vec<u8>]) -> Vec<&'static str> {
        let h = Head { pools: 2, least_bid: 1, set: 3, hedge_loss: 4, other_loss: 6, margin: 0, fund: 0, house: 0 };
        let of_member = |number| member(number, 20, [expected, expected, 0, 0]);
        let given = [head(&h), pool(0, units[0], 0), pool(1, units[1], 0), of_member(0), of_member(1)];
        let found = of(&[&given, rest].concat());
        ALL.into_iter().filter(|name| found.contains_key(name)).collect()
    }

    #[test]
    fn a_requirement_that_comes_back_from_0_is_told() {
        let sold = [sale(0, 0, 11), round(&[0, 0]), close()];
        assert_eq!(found([1, 2], 0, &sold), [AT_0, SALE_FIRST]);
        assert_eq!(found([1, 2], 0, &[&sold[..], &[tear(1, 0)]].concat()), [AT_0, SALE_FIRST]);
        let back = [&sold[..], &[tear(1, -1)]].concat();
        assert_eq!(found([1, 2], 0, &back), [AT_0, ABOVE_0_AGAIN, SALE_FIRST, GAIN_BESIDE_LOSS]);
        // At the losses exactly the requirement is 0 and nothing is held.
        assert_eq!(found([1, 2], 0, &[sale(0, 0, 10)]), [""; 0]);
    }

    #[test]
    fn units_that_leave_are_told_by_the_call() {
        let bids = [round(&[-9, -9]), bid(0, 0, 1, -1), bid(1, 1, 2, -2)];
        assert_eq!(found([1, 2], 0, &[&bids[..], &[close()]].concat()), [CLOSE_POOLS]);
        let one = [round(&[-9, -9]), bid(0, 0, 1, -1), close()];
        assert_eq!(found([1, 2], 0, &one), [""; 0]);
        assert_eq!(found([2, 2], 0, &one), [OPEN_BESIDE]);
        assert_eq!(found([2, 2], 0, &[&one[..], &[tear(0, -1)]].concat()), [TEAR_BESIDE, OPEN_BESIDE]);
        let placed = [round(&[-9, -9]), close(), allocate(0, -1)];
        assert_eq!(found([2, 2], 1, &placed), [""; 0]);
        assert_eq!(found([3, 2], 1, &placed), [ALLOCATE_LESS, OPEN_BESIDE]);
    }

    #[test]
    fn misses_are_told_by_the_units_whose_price_changes() {
        // In each pool one unit is allocated to each member at −20. The requirement is 90 and prefunded 40, so each contribution is called.
        let given = [round(&[-9, -9]), close(), allocate(0, -20), allocate(1, -20)];
        let after = |rest: &[Vec<u8>]| found([2, 2], 1, &[&given[..], rest].concat());
        assert_eq!(after(&[miss(0, -3)]), [MISS_ALLOCATED, MISS_POOLS]);
        assert_eq!(after(&[miss(0, -20)]), [""; 0]);
        // Member 1's unit of pool 1 passes to member 0.
        let moved = [call(), move_units(0)];
        assert_eq!(after(&moved), [MOVE_OTHER_POOL]);
        assert_eq!(after(&[&moved[..], &[miss(0, -3)]].concat()), [MOVE_OTHER_POOL, MISS_BOTH, MISS_POOLS]);
        assert_eq!(after(&[&moved[..], &[miss(1, -3)]].concat()), [MOVE_OTHER_POOL, MISS_ALLOCATED]);
        // At 0 the moved unit has the price that it had.
        assert_eq!(after(&[&moved[..], &[miss(0, 0)]].concat()), [MOVE_OTHER_POOL, MISS_POOLS]);
    }

    #[test]
    fn moved_units_alone_and_moves_over_two_pools_are_told() {
        // Both units go to member 0. The requirement is 55 and prefunded 40, so 8 and 7 are called; the unit of pool 0 costs more and moves first.
        let given = [round(&[-9, -9]), close(), allocate(0, -30), allocate(1, -15), call()];
        let after = |rest: &[Vec<u8>]| found([1, 1], 1, &[&given[..], rest].concat());
        assert_eq!(after(&[move_units(1), miss(1, -3)]), [MISS_MOVED]);
        assert_eq!(after(&[move_units(1), move_units(0)]), [MOVE_OTHER_POOL]);
        // Each member owes 20, which two units of pool 1 at −9 and one of pool 0 at −8 save.
        let given = [round(&[-9, -9]), close(), allocate(0, -8), allocate(1, -9), tear(1, -40), call(), move_units(0)];
        let wanted = [ALLOCATE_LESS, TEAR_BESIDE, MOVE_OTHER_POOL, MOVE_POOLS, OPEN_BESIDE];
        assert_eq!(found([2, 3], 1, &given), wanted);
    }
}
