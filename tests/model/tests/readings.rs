//! Small lists for the readings of document 01 that are easy to get wrong, each over both ledgers.

mod common;

use common::{NONE, accepted, both, feed, head_of, lines, ranks, setup};
use model::write::*;
use model::{Counts, Ledger, Roll, print};

#[test]
fn a_sold_out_pool_keeps_its_first_reserve() {
    // Pool 0 is sold out in round 1, so its second reserve of −100 counts for nobody. Excess is 1 for both members, so the price
    // above the worst reserve ranks them: member 0 has 5 above −10, member 1 has 6 above −10.
    both(|ledger| {
        let h = Head { margin: 1000, ..head_of(2, 2) };
        accepted(ledger, &setup(&h, &[(1, 0), (2, 0)], &[(0, NONE), (0, NONE)]));
        accepted(ledger, &[round(&[-10, -10]), bid(0, 0, 1, -5), bid(1, 1, 1, -4), close()]);
        accepted(ledger, &[round(&[-100, -10]), close(), tear(1, 0), finish()]);
        assert_eq!(ranks(ledger), [2, 1]);
    });
}

#[test]
fn a_second_reserve_counts_for_units_won_in_round_1_though_nothing_is_sold_in_round_2() {
    both(|ledger| {
        let h = Head { margin: 1000, ..head_of(2, 2) };
        accepted(ledger, &setup(&h, &[(2, 0), (2, 0)], &[(0, NONE), (0, NONE)]));
        accepted(ledger, &[round(&[-10, -10]), bid(0, 0, 1, -5), bid(1, 1, 1, -4), close()]);
        accepted(ledger, &[round(&[-100, -10]), close(), tear(0, 0), tear(1, 0), finish()]);
        assert_eq!(ranks(ledger), [1, 2]);
    });
}

#[test]
fn a_torn_pool_keeps_its_first_reserve() {
    both(|ledger| {
        let h = Head { margin: 1000, ..head_of(2, 2) };
        accepted(ledger, &setup(&h, &[(2, 0), (2, 0)], &[(0, NONE), (0, NONE)]));
        accepted(ledger, &[round(&[-10, -10]), bid(0, 0, 1, -5), bid(1, 1, 1, -4), close()]);
        accepted(ledger, &[tear(0, 0), round(&[-100, -10]), close(), tear(1, 0), finish()]);
        assert_eq!(ranks(ledger), [2, 1]);
    });
}

#[test]
fn a_losing_bid_of_round_1_is_dead_in_round_2() {
    both(|ledger| {
        accepted(ledger, &setup(&head_of(1, 1), &[(5, 0)], &[(0, NONE)]));
        accepted(ledger, &[round(&[0]), bid(0, 0, 3, -1), close()]);
        accepted(ledger, &[round(&[-1]), close()]);
        assert_eq!(ledger.counts(0), [5, 0, 0, 0, 0]);
    });
}

#[test]
fn the_least_bid_stays_and_a_bid_may_be_larger_than_what_is_open() {
    both(|ledger| {
        let h = Head { least_bid: 4, ..head_of(1, 1) };
        accepted(ledger, &setup(&h, &[(2, 0)], &[(0, NONE)]));
        accepted(ledger, &[round(&[0])]);
        let bids = [bid(0, 0, 0, 0), bid(0, 0, 2, 0), bid(0, 0, 1000, 0), close()];
        assert_eq!(feed(ledger, &bids), [5, 6, 0, 0]);
        assert_eq!(ledger.counts(0), [0, 2, 0, 0, 0]);
    });
}

#[test]
fn units_ever_allocated_still_count_after_a_miss() {
    both(|ledger| {
        accepted(ledger, &setup(&head_of(1, 2), &[(9, 0)], &[(0, [2, 0, 0, 0]), (0, [1, 0, 0, 0])]));
        accepted(ledger, &[round(&[0]), close(), allocate(0, -3), miss(0, 5)]);
        assert_eq!(ledger.counts(0), [6, 0, 1, 0, 2]);
        assert_eq!(ledger.sum_of_prices(), 7);
        // Six units are open and nobody is short any more.
        assert_eq!(feed(ledger, &[allocate(0, -3), miss(0, 5), round(&[0])]), [10, 16, 0]);
    });
}

#[test]
fn allocation_is_by_shortfall_and_largest_remainder() {
    both(|ledger| {
        // Shortfalls 5 and 3 share 6 open units: 4 and 2.
        accepted(ledger, &setup(&head_of(1, 2), &[(6, 0)], &[(0, [5, 0, 0, 0]), (0, [3, 0, 0, 0])]));
        accepted(ledger, &[round(&[0]), close(), allocate(0, -3)]);
        assert_eq!(ledger.holdings(0), [(0, -3, 4)]);
        assert_eq!(ledger.holdings(1), [(0, -3, 2)]);
    });
}

#[test]
fn the_first_number_of_the_list_answers() {
    both(|ledger| {
        // Before any case 1 comes before 2, and 5 is for HEAD alone.
        let empty_set = Head { set: 0, ..head_of(1, 1) };
        let calls = [vec![], vec![4], round(&[0]), round(&[0; 5]), bid(9, 99, 0, 0), head(&empty_set)];
        assert_eq!(feed(ledger, &calls), [1, 1, 2, 1, 2, 5]);
        accepted(ledger, &setup(&head_of(2, 1), &[(1, 1), (2, 1)], &[]));
        let calls = [head(&empty_set), round(&[0]), round(&[0, 2_000_000]), round(&[0, 0]), pool(2, 1, 0)];
        assert_eq!(feed(ledger, &calls), [2, 1, 5, 10, 3]);
        accepted(ledger, &[member(0, 0, NONE), round(&[0, 0]), bid(0, 0, 1, 0), close()]);
        // Pool 0 is sold out, both have mark 1, nobody is short.
        let calls = [allocate(9, 2_000_000), allocate(0, 2_000_000), allocate(0, 0), allocate(1, 0)];
        assert_eq!(feed(ledger, &calls), [3, 5, 8, 9]);
        accepted(ledger, &[round(&[0, 0])]);
        let calls = [bid(0, 32, 0, 0), bid(0, 0, 0, 0), bid(0, 0, 1, 0)];
        assert_eq!(feed(ledger, &calls), [4, 5, 8]);
        accepted(ledger, &[bid(1, 0, 2, 0), close(), finish()]);
        // After FINISH a wrong length still is 1, all else 2.
        let calls = [round(&[0]), round(&[0, 0]), head(&empty_set), finish(), vec![13, 0, 1, 0]];
        assert_eq!(feed(ledger, &calls), [1, 2, 2, 2, 1]);
    });
}

/// Members 0 and 1 with calls of 30 each and negative units in both pools: allocated ones at −2, those sold to member 3 at −5.
fn called_case(ledger: &mut dyn Ledger) {
    let h = Head { hedge_loss: 2_000, ..head_of(2, 4) };
    let members = [(30, [0, 2, 0, 0]), (30, [2, 2, 0, 0]), (0, [2, 0, 0, 0]), (0, NONE)];
    accepted(ledger, &setup(&h, &[(10, 0), (10, 0)], &members));
    accepted(ledger, &[round(&[-9, -9]), bid(0, 3, 6, -5), bid(1, 3, 6, -5), close()]);
    accepted(ledger, &[allocate(0, -2), allocate(1, -2), call()]);
    assert_eq!((ledger.owes(0), ledger.owes(1), ledger.owes(2)), (30, 30, 0));
}

#[test]
fn move_takes_allocated_units_first_from_the_higher_pool_and_member() {
    both(|ledger| {
        called_case(ledger);
        // Pool 1 holds 2 units each of members 0 and 1, pool 0 of members 1 and 2, all at −2.
        accepted(ledger, &[pay(0, 25), move_units(0)]);
        // 5 are owed: 3 units go, member 1's two of pool 1 first, then one of member 0, which is its own.
        assert_eq!(ledger.counts(1), [0, 6, 1, 3, 0]);
        assert_eq!(ledger.holdings(0), [(1, 0, 3), (1, -2, 1)]);
        assert_eq!(ledger.holdings(1), [(0, -2, 2)]);
        // 30 are owed: 1 × 2 and 4 × 2 of the allocated, then 4 × 5 of the later bid, which stands in pool 1.
        accepted(ledger, &[move_units(1)]);
        assert_eq!(ledger.counts(0), [0, 6, 0, 4, 0]);
        assert_eq!(ledger.counts(1), [0, 2, 0, 8, 0]);
    });
}

#[test]
fn an_empty_move_ends_the_debt_and_payments_stay_paid() {
    both(|ledger| {
        let h = Head { hedge_loss: 50, ..head_of(1, 2) };
        accepted(ledger, &setup(&h, &[(1, 0)], &[(20, NONE), (10, NONE)]));
        accepted(ledger, &[round(&[0]), bid(0, 0, 1, 0), close(), call()]);
        assert_eq!((ledger.owes(0), ledger.owes(1)), (13, 7));
        let calls = [pay(0, 14), pay(0, 0), pay(0, 5), move_units(0), move_units(0), pay(0, 1)];
        assert_eq!(feed(ledger, &calls), [14, 5, 0, 0, 14, 14]);
        assert_eq!(feed(ledger, &[finish(), pay(1, 7), finish()]), [15, 0, 0]);
        let result = ledger.result().unwrap();
        // 50 less 30 contributed and 12 paid leaves 8 uncovered, which FINISH in stage C allows.
        assert_eq!((result.charges, result.uncovered), ([0, 0, 0, 30, 0, 12], 8));
    });
}

#[test]
fn call_with_no_contribution_at_all_calls_nothing() {
    both(|ledger| {
        let h = Head { hedge_loss: 50, ..head_of(1, 1) };
        accepted(ledger, &setup(&h, &[(1, 0)], &[(0, NONE)]));
        accepted(ledger, &[round(&[0]), bid(0, 0, 1, 0), close()]);
        assert_eq!(feed(ledger, &[finish(), call(), move_units(0), pay(0, 1), finish()]), [13, 0, 14, 14, 0]);
        assert_eq!(ledger.result().unwrap().uncovered, 50);
    });
}

#[test]
fn units_moved_away_stay_won() {
    both(|ledger| {
        let h = Head { hedge_loss: 100, ..head_of(1, 2) };
        accepted(ledger, &setup(&h, &[(2, 0)], &[(60, NONE), (60, [1, 0, 0, 0])]));
        accepted(ledger, &[round(&[-50]), bid(0, 0, 1, -40), bid(0, 1, 1, -40), close(), call()]);
        // Each owes 30; the unit of the later bid moves, which is member 1's, and member 1 still has what it expects.
        accepted(ledger, &[move_units(0), move_units(1), finish()]);
        assert_eq!(ledger.counts(0), [0, 0, 0, 2, 0]);
        assert_eq!(ranks(ledger), [1, 2]);
    });
}

#[test]
fn miss_tears_allocated_and_moved_units_but_no_sold_one() {
    both(|ledger| {
        called_case(ledger);
        accepted(ledger, &[move_units(0), miss(0, 7)]);
        // MOVE took all 8 allocated units for 16 and 3 sold ones of bid 1 for 15 more; MISS tears those 11.
        assert_eq!(ledger.counts(0), [0, 6, 0, 0, 4]);
        assert_eq!(ledger.counts(1), [0, 3, 0, 0, 7]);
        assert_eq!(ledger.holdings(0), []);
        assert_eq!(ledger.holdings(3), [(0, -5, 6), (1, -5, 3)]);
        assert_eq!(ledger.sum_of_prices(), 11 * 7 - 9 * 5);
        assert_eq!((ledger.owes(0), ledger.owes(1)), (0, 30));
        assert_eq!(feed(ledger, &[miss(0, 7), miss(2, 7)]), [16, 16]);
    });
}

#[test]
fn a_member_who_won_nothing_ranks_with_a_price_of_0_and_equal_ranks_skip() {
    both(|ledger| {
        let h = Head { margin: 1000, ..head_of(1, 5) };
        // Members 0 and 1 won nothing and expected nothing; member 2 won 1 of 1 at a premium, 3 and 4 are short by 1.
        let expected = [0, 0, 1, 1, 1];
        let members: Vec<_> = expected.iter().map(|&e| (0, [e, 0, 0, 0])).collect();
        accepted(ledger, &setup(&h, &[(1, 0)], &members));
        accepted(ledger, &[round(&[-9]), bid(0, 2, 1, -1), close(), finish()]);
        assert_eq!(ranks(ledger), [2, 2, 1, 4, 4]);
    });
}

#[test]
fn an_equal_rank_is_charged_by_contribution() {
    both(|ledger| {
        let h = Head { hedge_loss: 6, ..head_of(1, 3) };
        let members = [(5, [1, 0, 0, 0]), (3, [1, 0, 0, 0]), (9, NONE)];
        accepted(ledger, &setup(&h, &[(1, 0)], &members));
        accepted(ledger, &[round(&[0]), close(), tear(0, 0), finish()]);
        let result = ledger.result().unwrap();
        let charged: Vec<u64> = result.members.iter().map(|m| m.contribution_charge).collect();
        assert_eq!((ranks(ledger), charged), (vec![2, 2, 1], vec![4, 2, 0]));
    });
}

#[test]
fn the_second_tranche_is_charged_before_payments() {
    both(|ledger| {
        let h = Head { hedge_loss: 100, house: 10, ..head_of(1, 1) };
        accepted(ledger, &setup(&h, &[(1, 0)], &[(60, [1, 0, 0, 0])]));
        accepted(ledger, &[round(&[0]), close(), allocate(0, 0), call(), pay(0, 30)]);
        // The torn unit brings 32 in: of the 68 left the contribution bears 60 and the house 8.
        accepted(ledger, &[miss(0, 32), finish()]);
        assert_eq!(ledger.result().unwrap().charges, [0, 0, 6, 60, 2, 0]);
    });
}

#[test]
fn holdings_add_what_stands_at_one_price() {
    both(|ledger| {
        let h = Head { hedge_loss: 1_000, ..head_of(1, 2) };
        accepted(ledger, &setup(&h, &[(4, 0)], &[(2, [3, 0, 0, 0]), (0, NONE)]));
        accepted(ledger, &[round(&[-2]), bid(0, 0, 1, 0), bid(0, 1, 1, -2), close()]);
        accepted(ledger, &[allocate(0, 0), call(), move_units(0)]);
        // Two allocated at 0, one won at 0 and one moved at 0.
        assert_eq!(ledger.holdings(0), [(0, 0, 4)]);
        assert_eq!((ledger.holding(0, 0, 0), ledger.holding(0, 0, -2)), (4, 0));
        assert_eq!(ledger.holdings(1), []);
    });
}

#[test]
fn a_cut_off_field_prints_1_and_the_closing_lines_follow() {
    let start = setup(&head_of(1, 1), &[(7, 0)], &[]).concat();
    let text = |tail: &[u8]| {
        let input = [&start, tail].concat();
        let text = lines(print::<Roll>(&input));
        assert_eq!(text, lines(print::<Counts>(&input)));
        text.strip_prefix("s 1 0\ns 2 0\n").unwrap().to_string()
    };
    assert_eq!(text(&[]), "p 0 7 0 0 0 0\n");
    assert_eq!(text(&[6]), "s 6 1\np 0 7 0 0 0 0\n");
    assert_eq!(text(&[255, 0]), "s 255 1\np 0 7 0 0 0 0\n");
    assert_eq!(text(&[2, 0, 4, 1, 0, 1]), "s 2 1\np 0 7 0 0 0 0\n");
    assert_eq!(text(&[0, 0, 2, 9, 9, 6, 0, 0]), "s 0 1\ns 6 2\np 0 7 0 0 0 0\n");
    assert_eq!(lines(print::<Counts>(&[])), "");
    assert_eq!(lines(print::<Counts>(&[1])), "s 1 1\n");
}

#[test]
fn lines_come_at_the_end_also_where_fields_follow_finish() {
    let mut calls = setup(&head_of(1, 1), &[(1, 0)], &[(0, NONE)]);
    calls.extend([round(&[0]), bid(0, 0, 1, 0), close(), finish(), finish(), vec![13]]);
    let expected = "s 13 0\ns 13 2\ns 13 1\np 0 0 1 0 0 0\nl 0 0 0 0 0 0 0 0\nm 0 1 0 0\n";
    assert!(lines(print::<Roll>(&calls.concat())).ends_with(expected));
    assert!(lines(print::<Counts>(&calls.concat())).ends_with(expected));
}
