//! C-16 of document 02, the requirement after every step, in cases worked by hand, each over both ledgers.

mod common;

use common::{NONE, accepted, both, feed, head_of, setup};
use model::Ledger;
use model::write::*;

/// Takes the call and holds the answer, the sums of pools 0 to 2 and the reading to those written beside it.
fn step(ledger: &mut dyn Ledger, bytes: Vec<u8>, answer: u8, prices: [i64; 3], requirement: u64) {
    let at = format!("after {bytes:02x?}");
    assert_eq!(ledger.call(&bytes), answer, "answer {at}");
    assert_eq!([0, 1, 2].map(|pool| ledger.prices_of(pool)), prices, "sums {at}");
    assert_eq!(ledger.sum_of_prices(), prices.iter().sum::<i64>(), "sum {at}");
    assert_eq!((ledger.reading(), ledger.requirement()), ((0, requirement), Some(requirement)), "reading {at}");
}

/// The losses are 150 in all.
#[test]
fn each_call_adds_what_it_changes() {
    both(|ledger| {
        let h = Head { hedge_loss: 100, other_loss: 50, margin: 40, house: 30, ..head_of(3, 3) };
        let members = [(60, [4, 0, 2, 0]), (30, [3, 0, 0, 0]), (10, [2, 0, 1, 0])];
        accepted(ledger, &setup(&h, &[(10, 0), (2, 0), (6, 0)], &members));
        let mut step = |bytes, answer, prices, requirement| step(ledger, bytes, answer, prices, requirement);
        // 2 units at 100: the sum passes the losses by 50, and the reading is 0.
        step(sale(1, 2, 100), 0, [0, 200, 0], 0);
        // 150 − 200 + 400 = 350 passes margin and fund, 40, so nothing is sold.
        step(sale(0, 0, -40), 17, [0, 200, 0], 0);
        step(round(&[-30, 0, -20]), 0, [0, 200, 0], 0);
        for bytes in [bid(0, 0, 4, -10), bid(0, 1, 3, -20), bid(2, 2, 2, -15), bid(2, 0, 1, 5), bid(0, 2, 5, -31)] {
            step(bytes, 0, [0, 200, 0], 0);
        }
        step(withdraw(1, 1), 0, [0, 200, 0], 0);
        // 4 at −10 in pool 0; 2 at −15 and 1 at 5 in pool 2; nothing at −20, withdrawn, nor at −31, below the reserve: 150 − 135.
        step(close(), 0, [-40, 200, -25], 15);
        step(call(), 11, [-40, 200, -25], 15);
        // Members 1 and 2 are short of 3 and 2, and one of the 6 open units stays: 5 at −12.
        step(allocate(0, -12), 0, [-100, 200, -25], 75);
        step(tear(0, -30), 0, [-130, 200, -25], 105);
        // The 2 units allocated to member 2 cost 24 and now 50.
        step(miss(2, -25), 0, [-156, 200, -25], 131);
        step(round(&[-30, 0, -40]), 0, [-156, 200, -25], 131);
        step(bid(2, 1, 2, -40), 0, [-156, 200, -25], 131);
        step(close(), 0, [-156, 200, -105], 211);
        step(finish(), 11, [-156, 200, -105], 211);
        // The last open unit, at a price that the house gets.
        step(tear(2, 3), 0, [-156, 200, -102], 208);
        // Prefunded is 170: the 38 are called as 23, 11 and 4.
        step(call(), 0, [-156, 200, -102], 208);
        step(pay(0, 3), 0, [-156, 200, -102], 208);
        // Member 1 owes 11: one unit at −12, its own.
        step(move_units(1), 0, [-144, 200, -102], 196);
        // Of its 3 units, 2 allocated at −12 and 1 moved at 0, each now costs 9.
        step(miss(1, -9), 0, [-147, 200, -102], 199);
        // Member 0 still owes 20, and nothing is allocated: one of the two units sold at −40, in pool 2; then the other for member 2, who owes 4.
        step(move_units(0), 0, [-147, 200, -62], 159);
        step(move_units(0), 14, [-147, 200, -62], 159);
        step(move_units(2), 0, [-147, 200, -22], 119);
        step(miss(2, -5), 0, [-147, 200, -27], 124);
        step(finish(), 0, [-147, 200, -27], 124);
        step(miss(1, 5), 2, [-147, 200, -27], 124);
        assert_eq!(ledger.result().map(|result| result.loss), Some(124));
    });
}

#[test]
fn with_no_case_the_reading_is_declined_by_2() {
    both(|ledger| {
        assert_eq!((ledger.reading(), ledger.prices_of(0), ledger.sum_of_prices()), ((2, 0), 0, 0));
        let empty_set = Head { hedge_loss: 9, ..head_of(1, 0) };
        assert_eq!(feed(ledger, &[head(&empty_set), close(), vec![]]), [5, 2, 1]);
        assert_eq!(ledger.reading(), (2, 0));
        accepted(ledger, &[head(&Head { hedge_loss: 9, other_loss: 8, ..head_of(1, 1) })]);
        assert_eq!(ledger.reading(), (0, 17));
    });
}

#[test]
fn the_reading_is_held_at_0_and_the_sum_is_not() {
    both(|ledger| {
        let h = Head { hedge_loss: 10, ..head_of(1, 1) };
        accepted(ledger, &setup(&h, &[(9, 0)], &[(0, [3, 0, 0, 0])]));
        accepted(ledger, &[round(&[0]), bid(0, 0, 2, 6), close()]);
        assert_eq!((ledger.prices_of(0), ledger.reading()), (12, (0, 0)));
        // 12 − 6 is below the losses of 10; from a sum held at 10 the requirement would be 6.
        accepted(ledger, &[allocate(0, -6)]);
        assert_eq!((ledger.prices_of(0), ledger.reading()), (6, (0, 4)));
    });
}

#[test]
fn the_sums_of_pools_stand_beside_each_other() {
    both(|ledger| {
        accepted(ledger, &setup(&head_of(4, 1), &[(2, 0), (3, 1), (1, 0), (5, 0)], &[(0, NONE)]));
        accepted(ledger, &[round(&[0; 4]), close(), tear(0, 3), tear(1, -2), tear(3, -1)]);
        assert_eq!([0, 1, 2, 3, 4, 255].map(|pool| ledger.prices_of(pool)), [6, -6, 0, -5, 0, 0]);
        assert_eq!((ledger.sum_of_prices(), ledger.reading()), (-5, (0, 5)));
    });
}

#[test]
fn the_sum_is_right_at_the_ends_of_all_ranges() {
    for (price, sum, requirement) in [(-1_000_000, -1_000_000_000, 8_000_000_000), (1_000_000, 1_000_000_000, 0)] {
        both(|ledger| {
            let h = Head { hedge_loss: 2_000_000_000, other_loss: 2_000_000_000, ..head_of(4, 1) };
            accepted(ledger, &setup(&h, &[(1000, 0); 4], &[(0, NONE)]));
            accepted(ledger, &[round(&[0; 4]), close()]);
            accepted(ledger, &[0, 1, 2, 3].map(|pool| tear(pool, price)));
            assert_eq!([0, 1, 2, 3].map(|pool| ledger.prices_of(pool)), [sum; 4]);
            assert_eq!((ledger.sum_of_prices(), ledger.reading()), (4 * sum, (0, requirement)));
        });
    }
}
