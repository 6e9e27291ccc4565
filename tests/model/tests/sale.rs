//! C-12 of document 02, sale by agreement, in small cases worked by hand, each over both ledgers.

mod common;

use common::{NONE, accepted, both, feed, head_of, lines, ranks, setup};
use model::write::*;
use model::{Counts, Roll, Stage, print};

const S: Option<Stage> = Some(Stage::Setup);
const A1: Option<Stage> = Some(Stage::After(1));

#[test]
fn a_sale_sells_the_whole_pool_to_one_member() {
    both(|ledger| {
        let h = Head { hedge_loss: 7, margin: 100, ..head_of(2, 2) };
        accepted(ledger, &setup(&h, &[(5, 0), (3, 0)], &[(0, NONE), (0, NONE)]));
        accepted(ledger, &[sale(0, 1, -12)]);
        assert_eq!((ledger.counts(0), ledger.counts(1)), ([0, 5, 0, 0, 0], [3, 0, 0, 0, 0]));
        assert_eq!((ledger.holdings(0), ledger.holdings(1)), (vec![], vec![(0, -12, 5)]));
        assert_eq!((ledger.holding(1, 0, -12), ledger.holding(1, 0, 0), ledger.holding(1, 1, -12)), (5, 0, 0));
        assert_eq!((ledger.sum_of_prices(), ledger.requirement()), (-60, Some(67)));
        assert_eq!(ledger.stage(), S);
    });
}

#[test]
fn at_margin_and_fund_together_a_sale_is_accepted_and_one_cent_above_it_is_17() {
    // Losses of 30 and 10 and a unit at −20 make 60, which margin 45 and fund 15 meet.
    for (price, answer) in [(-21, 17), (-20, 0), (-19, 0)] {
        both(|ledger| {
            let h = Head { hedge_loss: 30, other_loss: 10, margin: 45, fund: 15, house: 9, ..head_of(2, 1) };
            accepted(ledger, &setup(&h, &[(1, 0), (1, 0)], &[(50, NONE)]));
            assert_eq!(feed(ledger, &[sale(0, 0, price)]), [answer]);
        });
    }
}

#[test]
fn two_sales_that_each_alone_would_pass_are_17_together() {
    both(|ledger| {
        let h = Head { margin: 100, ..head_of(3, 1) };
        accepted(ledger, &setup(&h, &[(2, 0), (2, 0), (1, 0)], &[(0, NONE)]));
        let sales = [sale(0, 0, -30), sale(1, 0, -30), sale(1, 0, -21), sale(1, 0, -20)];
        assert_eq!(feed(ledger, &sales), [0, 17, 17, 0]);
        assert_eq!((ledger.sum_of_prices(), ledger.stage()), (-100, S));
    });
}

#[test]
fn an_earlier_sale_at_a_gain_makes_room_for_a_later_one() {
    both(|ledger| {
        let h = Head { margin: 100, ..head_of(3, 1) };
        accepted(ledger, &setup(&h, &[(1, 0), (1, 0), (1, 0)], &[(0, NONE)]));
        let sales = [sale(0, 0, -101), sale(1, 0, 50), sale(0, 0, -151), sale(0, 0, -150)];
        assert_eq!(feed(ledger, &sales), [17, 0, 17, 0]);
    });
}

#[test]
fn a_sale_at_a_gain_can_still_be_17() {
    both(|ledger| {
        let h = Head { hedge_loss: 200, margin: 60, fund: 40, ..head_of(2, 1) };
        accepted(ledger, &setup(&h, &[(1, 0), (9, 0)], &[(500, NONE)]));
        assert_eq!(feed(ledger, &[sale(0, 0, 99), sale(1, 0, 11), sale(0, 0, 100)]), [17, 17, 0]);
    });
}

#[test]
fn the_limit_of_17_is_asked_with_the_largest_numbers() {
    // 4 × 10^9 and 500 units at −10^6 make 4.5 × 10^9, which is margin and fund at their ends.
    for (units, answer) in [(500, 0), (501, 17)] {
        both(|ledger| {
            let losses = 2_000_000_000;
            let h = Head {
                hedge_loss: losses,
                other_loss: losses,
                margin: 4_000_000_000,
                fund: 500_000_000,
                ..head_of(1, 1)
            };
            accepted(ledger, &setup(&h, &[(units, 0)], &[(0, NONE)]));
            assert_eq!(feed(ledger, &[sale(0, 0, -1_000_000)]), [answer]);
        });
    }
    both(|ledger| {
        accepted(ledger, &setup(&head_of(4, 1), &[(1000, 0); 4], &[(0, NONE)]));
        accepted(ledger, &[0, 1, 2, 3].map(|pool| sale(pool, 0, 1_000_000)));
        assert_eq!((ledger.sum_of_prices(), ledger.requirement()), (4_000_000_000, Some(0)));
    });
}

#[test]
fn the_first_number_of_the_list_answers() {
    const FAR: i32 = 1_000_001;
    both(|ledger| {
        let (short, long) = (vec![14, 0, 5, 0, 0, 0, 0, 0], vec![14, 0, 7, 0, 0, 0, 0, 0, 0, 0]);
        // With no case a wrong length is 1 and the call itself 2; a SALE's value under another tag is no SALE.
        let calls = [short.clone(), long.clone(), sale(9, 99, FAR), field(15, &[0; 6]), field(16, &[0; 6])];
        assert_eq!(feed(ledger, &calls), [1, 1, 2, 1, 1]);
        let h = Head { margin: 10, ..head_of(2, 2) };
        accepted(ledger, &[head(&h), pool(0, 1, 0), member(0, 0, NONE)]);
        // Pool 1 of the case is not given and has no open unit, which comes before all that is missing.
        let calls = [short.clone(), long, sale(2, 99, FAR), sale(1, 99, FAR), sale(1, 1, FAR), sale(1, 1, -99)];
        assert_eq!(feed(ledger, &calls), [1, 1, 3, 4, 5, 8]);
        // Pool 0 is open and too dear, and pool 1 and member 1 are missing; member 1 is in the set, so never 4.
        assert_eq!(feed(ledger, &[sale(0, 1, -99)]), [10]);
        accepted(ledger, &[pool(1, 1, 0)]);
        assert_eq!(feed(ledger, &[sale(0, 1, -99)]), [10]);
        accepted(ledger, &[member(1, 0, NONE)]);
        assert_eq!(feed(ledger, &[sale(0, 1, -99), sale(0, 1, -11), sale(0, 32, -11)]), [17, 17, 4]);
        accepted(ledger, &[sale(0, 1, -10)]);
        // Sold once, the pool has no open unit, before the price is looked at; all else is given.
        let calls = [sale(0, 0, -99), sale(0, 1, 10), pool(0, 1, 0), member(1, 0, NONE), round(&[0, FAR]), round(&[0])];
        assert_eq!(feed(ledger, &calls), [8, 8, 3, 4, 5, 1]);
        accepted(ledger, &[round(&[0, 0])]);
        assert_eq!(
            feed(ledger, &[sale(1, 1, 0), short.clone(), close(), sale(1, 1, 0), tear(1, 0), finish()]),
            [2, 1, 0, 2, 0, 0]
        );
        assert_eq!(feed(ledger, &[sale(1, 1, 0), short]), [2, 1]);
    });
}

#[test]
fn the_mark_and_the_least_bid_do_not_matter() {
    both(|ledger| {
        let h = Head { least_bid: 1000, margin: 100, ..head_of(2, 1) };
        accepted(ledger, &setup(&h, &[(3, 1), (2, 0)], &[(0, NONE)]));
        accepted(ledger, &[sale(0, 0, -5), sale(1, 0, 0)]);
        assert_eq!(ledger.counts(0), [0, 3, 0, 0, 0]);
    });
}

#[test]
fn a_bid_in_a_pool_so_sold_is_8_in_the_first_round_and_256_others_are_kept() {
    both(|ledger| {
        accepted(ledger, &setup(&head_of(2, 1), &[(1, 0), (1, 0)], &[(0, NONE)]));
        accepted(ledger, &[sale(0, 0, 0), round(&[0, 0])]);
        assert_eq!(feed(ledger, &[bid(0, 0, 1, 0)]), [8]);
        accepted(ledger, &vec![bid(1, 0, 1, 0); 256]);
        assert_eq!(feed(ledger, &[bid(0, 0, 1, 0), bid(1, 0, 1, 0), close()]), [7, 7, 0]);
        assert_eq!(feed(ledger, &[allocate(0, 0), tear(0, 0), round(&[0, 0]), finish()]), [8, 8, 8, 0]);
    });
}

#[test]
fn move_passes_over_units_so_sold_though_their_price_is_the_lowest() {
    both(|ledger| {
        // The sale costs 100 and the auction 30; margin 100 and contributions of 20 leave 10 to call, 5 from each.
        let h = Head { margin: 100, ..head_of(2, 2) };
        accepted(ledger, &setup(&h, &[(2, 0), (3, 0)], &[(10, NONE), (10, NONE)]));
        accepted(ledger, &[sale(0, 0, -50), round(&[-50, -10]), bid(1, 1, 3, -10), close(), call()]);
        assert_eq!((ledger.owes(0), ledger.owes(1)), (5, 5));
        accepted(ledger, &[move_units(0)]);
        assert_eq!((ledger.counts(0), ledger.counts(1)), ([0, 2, 0, 0, 0], [0, 2, 0, 1, 0]));
        assert_eq!((ledger.holdings(0), ledger.holdings(1)), (vec![(0, -50, 2), (1, 0, 1)], vec![(1, -10, 2)]));
        assert_eq!(ledger.sum_of_prices(), -120);
    });
}

#[test]
fn move_ends_as_if_units_so_sold_were_not_there() {
    both(|ledger| {
        // The unit of pool 1 is torn at −60, so 30 are called, and only the units so sold have a negative price and an owner.
        let h = Head { margin: 100, ..head_of(2, 1) };
        accepted(ledger, &setup(&h, &[(2, 0), (1, 0)], &[(30, NONE)]));
        accepted(ledger, &[sale(0, 0, -50), round(&[0, 0]), close(), tear(1, -60), call()]);
        assert_eq!(ledger.owes(0), 30);
        assert_eq!(feed(ledger, &[move_units(0), move_units(0), miss(0, 0)]), [0, 14, 16]);
        assert_eq!((ledger.counts(0), ledger.owes(0)), ([0, 2, 0, 0, 0], 0));
        assert_eq!((ledger.holdings(0), ledger.sum_of_prices()), (vec![(0, -50, 2)], -160));
        accepted(ledger, &[finish()]);
        let result = ledger.result().unwrap();
        assert_eq!((result.charges, result.uncovered), ([100, 0, 0, 30, 0, 0], 30));
    });
}

#[test]
fn miss_tears_what_was_allocated_to_the_buyer_and_nothing_so_sold() {
    both(|ledger| {
        let h = Head { margin: 100, ..head_of(2, 2) };
        accepted(ledger, &setup(&h, &[(4, 0), (3, 0)], &[(0, NONE), (0, [9, 3, 0, 0])]));
        accepted(ledger, &[sale(0, 1, -5), round(&[0, 0]), close()]);
        // The buyer has nothing but units so sold, so MISS finds none.
        assert_eq!(feed(ledger, &[miss(1, 7)]), [16]);
        accepted(ledger, &[allocate(1, -2), miss(1, 7)]);
        assert_eq!((ledger.counts(0), ledger.counts(1)), ([0, 4, 0, 0, 0], [0, 0, 0, 0, 3]));
        assert_eq!((ledger.holdings(1), ledger.sum_of_prices()), (vec![(0, -5, 4)], 1));
        assert_eq!(feed(ledger, &[miss(1, 7)]), [16]);
    });
}

#[test]
fn shortfalls_in_other_pools_stay() {
    both(|ledger| {
        // What member 0 buys in pool 0 is not won in pool 1, where both are short by 2.
        let h = Head { margin: 100, ..head_of(2, 2) };
        accepted(ledger, &setup(&h, &[(9, 0), (4, 0)], &[(0, [1, 2, 0, 0]), (0, [1, 2, 0, 0])]));
        accepted(ledger, &[sale(0, 0, 0), round(&[0, 0]), close()]);
        assert_eq!(feed(ledger, &[allocate(0, -1), allocate(1, -1)]), [8, 0]);
        assert_eq!((ledger.holding(0, 1, -1), ledger.holding(1, 1, -1)), (2, 2));
    });
}

#[test]
fn units_so_sold_and_units_expected_in_their_pool_do_not_count_for_rank() {
    both(|ledger| {
        // Member 1 buys 5 units and is still short by 1 in pool 1; member 0's 5 expected units of pool 0 count for nobody.
        let h = Head { margin: 100, ..head_of(2, 2) };
        accepted(ledger, &setup(&h, &[(5, 0), (1, 0)], &[(0, [5, 0, 0, 0]), (0, [0, 1, 0, 0])]));
        accepted(ledger, &[sale(0, 1, -1), round(&[-9, -9]), close(), tear(1, 0), finish()]);
        assert_eq!(ranks(ledger), [1, 2]);
    });
    both(|ledger| {
        // Both won 1 unit at 4 above the reserve. By all pools member 0 would have an excess of −4 and member 1 of 1.
        let h = Head { margin: 100, ..head_of(2, 2) };
        accepted(ledger, &setup(&h, &[(5, 0), (2, 0)], &[(0, [5, 0, 0, 0]), (0, NONE)]));
        accepted(ledger, &[sale(0, 1, -1), round(&[-9, -9]), bid(1, 0, 1, -5), bid(1, 1, 1, -5), close(), finish()]);
        assert_eq!(ranks(ledger), [1, 1]);
    });
}

#[test]
fn the_second_reserve_of_a_pool_so_sold_is_held_to_its_range_and_counts_for_nothing() {
    both(|ledger| {
        let h = Head { margin: 1000, ..head_of(3, 2) };
        accepted(ledger, &setup(&h, &[(1, 0), (2, 0), (2, 0)], &[(0, NONE), (0, NONE)]));
        accepted(ledger, &[sale(0, 0, -5), round(&[-10, -10, -10]), bid(1, 0, 1, -5), bid(2, 1, 1, -4), close()]);
        assert_eq!(feed(ledger, &[round(&[1_000_001, -10, -10])]), [5]);
        accepted(ledger, &[round(&[-1_000_000, -10, -10]), close(), tear(1, 0), tear(2, 0), finish()]);
        assert_eq!(ranks(ledger), [2, 1]);
    });
}

#[test]
fn with_no_unit_open_the_stage_is_a1_without_a_round() {
    both(|ledger| {
        let h = Head { hedge_loss: 40, margin: 50, fund: 10, ..head_of(1, 2) };
        accepted(ledger, &setup(&h, &[(4, 0)], &[(8, [4, 0, 0, 0]), (8, NONE)]));
        accepted(ledger, &[sale(0, 1, -5)]);
        assert_eq!(ledger.stage(), A1);
        // ROUND is checked for its length and its reserve, and is 8 otherwise.
        let rounds = [round(&[0, 0]), round(&[1_000_001]), round(&[0]), round(&[-1_000_000])];
        assert_eq!(feed(ledger, &rounds), [1, 5, 8, 8]);
        let calls = [head(&h), pool(0, 4, 0), member(0, 8, NONE), bid(0, 0, 1, 0), close(), sale(0, 1, -5)];
        assert_eq!(feed(ledger, &calls), [2, 2, 2, 2, 2, 2]);
        let calls =
            [allocate(1, 0), allocate(0, 1_000_001), allocate(0, 0), tear(1, 0), tear(0, 1_000_001), tear(0, 0)];
        assert_eq!(feed(ledger, &calls), [3, 5, 8, 3, 5, 8]);
        let calls = [call(), pay(0, 1), move_units(0), miss(2, 0), miss(1, 1_000_001), miss(1, 0), miss(0, 0)];
        assert_eq!(feed(ledger, &calls), [12, 2, 2, 4, 5, 16, 16]);
        // The requirement is at most margin and fund, so FINISH is free; nobody won or expects anything that counts.
        accepted(ledger, &[finish()]);
        let result = ledger.result().unwrap();
        assert_eq!((result.loss, result.charges, result.uncovered), (60, [50, 10, 0, 0, 0, 0], 0));
        assert_eq!(ranks(ledger), [1, 1]);
    });
}

#[test]
fn the_last_sale_makes_a1_and_the_ones_before_it_do_not() {
    both(|ledger| {
        let h = Head { margin: 20, ..head_of(3, 2) };
        accepted(ledger, &setup(&h, &[(1, 0), (2, 1), (3, 0)], &[(0, NONE), (0, NONE)]));
        let mut stages = Vec::new();
        for (call, answer) in [(sale(1, 0, -5), 0), (sale(2, 1, -4), 17), (sale(2, 1, -3), 0), (sale(0, 0, -1), 0)] {
            assert_eq!(feed(ledger, &[call]), [answer]);
            stages.push(ledger.stage());
        }
        assert_eq!(stages, [S, S, S, A1]);
        assert_eq!(ledger.holdings(0), [(0, -1, 1), (1, -5, 2)]);
        assert_eq!(ledger.holdings(1), [(2, -3, 3)]);
        assert_eq!((ledger.sum_of_prices(), ledger.requirement()), (-20, Some(20)));
    });
}

#[test]
fn the_program_prints_a_sale_like_other_calls() {
    let mut calls = setup(&Head { margin: 5, ..head_of(1, 1) }, &[(2, 0)], &[(0, NONE)]);
    calls.extend([sale(0, 0, -3), sale(0, 0, -2), sale(0, 0, -2), finish(), vec![14, 0]]);
    let expected = "s 14 17\ns 14 0\ns 14 2\ns 13 0\ns 14 1\np 0 0 2 0 0 0\nl 4 4 0 0 0 0 0 0\nm 0 1 0 0\n";
    assert!(lines(print::<Roll>(&calls.concat())).ends_with(expected));
    assert!(lines(print::<Counts>(&calls.concat())).ends_with(expected));
    assert_eq!(sale(1, 2, -12), [14, 0, 6, 1, 2, 0xFF, 0xFF, 0xFF, 0xF4]);
}
