//! C-14 of document 02, taking back a bid before the cut-off, in small cases worked by hand, each over both ledgers.

mod common;

use common::{NONE, accepted, both, feed, head_of, lines, ranks, setup};
use model::write::*;
use model::{Counts, Ledger, Roll, Stage, print};

/// One pool of so many units, members 0 and up without money or expectation, margin enough, and a first round with this reserve.
fn bidding(units: u16, members: u32, reserve: i32) -> Vec<Vec<u8>> {
    let h = Head { margin: 1_000_000, ..head_of(1, members) };
    let mut calls = setup(&h, &[(units, 0)], &vec![(0, NONE); members as usize]);
    calls.push(round(&[reserve]));
    calls
}

/// Units that each member holds in a pool, from member 0 on.
fn held(ledger: &dyn Ledger, pool: u8, members: u8) -> Vec<u64> {
    let in_pool = |member| ledger.holdings(member).into_iter().filter(move |holding| holding.0 == pool);
    (0..members).map(|member| in_pool(member).map(|(_, _, units)| units).sum()).collect()
}

#[test]
fn a_withdrawn_bid_wins_nothing_and_leaves_its_units_to_lower_prices() {
    // 10 open. Bid 0 asks for 8 at −1 and bid 1 for 6 at −5: with bid 0 standing, bid 1 would win the last 2 only.
    for (withdrawn, expected, prices) in [(false, [8, 2], -18), (true, [0, 6], -30)] {
        both(|ledger| {
            accepted(ledger, &bidding(10, 2, -9));
            accepted(ledger, &[bid(0, 0, 8, -1), bid(0, 1, 6, -5)]);
            if withdrawn {
                accepted(ledger, &[withdraw(0, 0)]);
            }
            accepted(ledger, &[close()]);
            assert_eq!((held(ledger, 0, 2), ledger.sum_of_prices()), (expected.to_vec(), prices));
        });
    }
}

#[test]
fn a_withdrawn_bid_does_not_count_among_the_valid_units_at_a_price() {
    // At one price 4, 6 and 4 are asked for and 10 are open: without the 6 the other two win all, and 2 stay open.
    both(|ledger| {
        accepted(ledger, &bidding(10, 3, 0));
        accepted(ledger, &[bid(0, 0, 4, 0), bid(0, 1, 6, 0), bid(0, 2, 4, 0), withdraw(1, 1), close()]);
        assert_eq!((held(ledger, 0, 3), ledger.counts(0)), (vec![4, 0, 4], [2, 8, 0, 0, 0]));
    });
    // 5 are open. Above the price 3 are withdrawn, so 5 and not 2 are split by 4, 4 and 2: 2, 2 and 1.
    both(|ledger| {
        accepted(ledger, &bidding(5, 3, -9));
        accepted(ledger, &[bid(0, 0, 4, -2), bid(0, 2, 3, -1), bid(0, 1, 4, -2), bid(0, 2, 2, -2)]);
        accepted(ledger, &[withdraw(2, 1), close()]);
        assert_eq!(held(ledger, 0, 3), [2, 2, 1]);
    });
    // 3 are open, and 3, 3 and 3 asked for at one price; by two weights the odd unit goes to the first.
    both(|ledger| {
        accepted(ledger, &bidding(3, 3, 0));
        accepted(ledger, &[bid(0, 0, 3, 0), bid(0, 1, 3, 0), bid(0, 2, 3, 0), withdraw(0, 0), close()]);
        assert_eq!(held(ledger, 0, 3), [0, 2, 1]);
    });
}

#[test]
fn a_bid_sent_again_stands_behind_the_others_at_its_price() {
    // 3 open, bids of 2 at one price: the odd unit goes to the earlier bid. Member 0 takes its bid back and sends it again.
    for (again, expected) in [(false, [2, 1]), (true, [1, 2])] {
        both(|ledger| {
            accepted(ledger, &bidding(3, 2, -9));
            accepted(ledger, &[bid(0, 0, 2, -5), bid(0, 1, 2, -5)]);
            if again {
                accepted(ledger, &[withdraw(0, 0), bid(0, 0, 2, -5)]);
            }
            accepted(ledger, &[close()]);
            assert_eq!(held(ledger, 0, 2), expected);
        });
    }
}

#[test]
fn a_withdrawn_bid_keeps_its_number_and_so_do_later_ones() {
    both(|ledger| {
        accepted(ledger, &bidding(9, 3, -9));
        // Numbers 0, 1 and 2; after bid 0 is withdrawn, bid 1 is still bid 1, and the next one is bid 3.
        accepted(ledger, &[bid(0, 0, 1, -1), bid(0, 1, 2, -1), bid(0, 2, 4, -1), withdraw(0, 0)]);
        assert_eq!(feed(ledger, &[withdraw(1, 0), withdraw(2, 1), withdraw(0, 3)]), [18, 18, 18]);
        accepted(ledger, &[bid(0, 0, 1, -1)]);
        // The place of the withdrawn bid was not given to the new one.
        assert_eq!(feed(ledger, &[withdraw(0, 0), withdraw(0, 4)]), [18, 18]);
        accepted(ledger, &[withdraw(2, 2), withdraw(0, 3), close()]);
        assert_eq!(held(ledger, 0, 3), [0, 2, 0]);
    });
}

#[test]
fn the_last_bid_withdrawn_keeps_its_number_too() {
    both(|ledger| {
        accepted(ledger, &bidding(9, 1, -9));
        accepted(ledger, &[bid(0, 0, 1, -1), withdraw(0, 0), bid(0, 0, 2, -1)]);
        assert_eq!(feed(ledger, &[withdraw(0, 0), withdraw(0, 2), withdraw(0, 1), close()]), [18, 18, 0, 0]);
        assert_eq!(ledger.counts(0), [9, 0, 0, 0, 0]);
    });
}

#[test]
fn a_declined_bid_takes_no_number_that_could_be_withdrawn() {
    both(|ledger| {
        accepted(ledger, &bidding(9, 1, -9));
        assert_eq!(feed(ledger, &[bid(0, 0, 0, 0), bid(0, 0, 1, -1), bid(1, 0, 1, 0)]), [5, 0, 3]);
        assert_eq!(feed(ledger, &[withdraw(0, 1), withdraw(0, 2), withdraw(0, 0)]), [18, 18, 0]);
    });
}

#[test]
fn a_withdrawn_bid_still_counts_towards_256() {
    both(|ledger| {
        accepted(ledger, &bidding(300, 2, -1));
        accepted(ledger, &vec![bid(0, 0, 1, -1); 255]);
        // Withdrawn before the last place is taken, and after it: neither place comes free.
        accepted(ledger, &[withdraw(0, 7), bid(0, 1, 1, -1)]);
        assert_eq!(feed(ledger, &[bid(0, 1, 1, -1), withdraw(1, 255), bid(0, 1, 1, -1)]), [7, 0, 7]);
        assert_eq!(feed(ledger, &[withdraw(1, 255), withdraw(1, 256), withdraw(0, 254)]), [18, 18, 0]);
        accepted(ledger, &[close()]);
        assert_eq!(ledger.counts(0), [47, 253, 0, 0, 0]);
        // The second round finds 256 kept as well.
        accepted(ledger, &[round(&[-1])]);
        assert_eq!(feed(ledger, &[bid(0, 0, 1, -1), withdraw(0, 0), close()]), [7, 18, 0]);
    });
}

#[test]
fn all_256_withdrawn_leave_no_place() {
    both(|ledger| {
        accepted(ledger, &bidding(300, 1, -1));
        accepted(ledger, &vec![bid(0, 0, 1, -1); 256]);
        accepted(ledger, &(0..256).map(|number| withdraw(0, number)).collect::<Vec<_>>());
        assert_eq!(feed(ledger, &[bid(0, 0, 1, -1), close()]), [7, 0]);
        assert_eq!(ledger.counts(0), [300, 0, 0, 0, 0]);
    });
}

#[test]
fn a_bid_of_the_first_round_is_18_in_the_second() {
    both(|ledger| {
        accepted(ledger, &bidding(9, 2, -5));
        // Bid 0 is sold, bid 1 lies below the reserve, bid 2 is withdrawn.
        accepted(ledger, &[bid(0, 0, 2, -5), bid(0, 0, 2, -6), bid(0, 0, 2, -5), withdraw(0, 2), close()]);
        accepted(ledger, &[round(&[-9])]);
        assert_eq!(feed(ledger, &[withdraw(0, 0), withdraw(0, 1), withdraw(0, 2), withdraw(0, 3)]), [18; 4]);
        // Numbers go on over both rounds, so the first bid of this round is bid 3.
        accepted(ledger, &[bid(0, 0, 3, -7), bid(0, 1, 4, -7)]);
        assert_eq!(feed(ledger, &[withdraw(0, 0), withdraw(1, 1), withdraw(0, 3), withdraw(1, 0)]), [18, 18, 0, 18]);
        accepted(ledger, &[close()]);
        assert_eq!((ledger.counts(0), held(ledger, 0, 2)), ([3, 6, 0, 0, 0], vec![2, 4]));
    });
}

#[test]
fn a_bid_withdrawn_in_the_first_round_does_not_come_back_in_the_second() {
    both(|ledger| {
        accepted(ledger, &bidding(4, 1, -5));
        accepted(ledger, &[bid(0, 0, 2, -5), withdraw(0, 0), close(), round(&[-5]), close()]);
        assert_eq!(ledger.counts(0), [4, 0, 0, 0, 0]);
    });
}

#[test]
fn only_the_member_that_sent_a_bid_can_withdraw_it() {
    both(|ledger| {
        accepted(ledger, &bidding(9, 3, -9));
        accepted(ledger, &[bid(0, 2, 5, -1), bid(0, 0, 3, -1)]);
        assert_eq!(feed(ledger, &[withdraw(0, 0), withdraw(1, 0), withdraw(2, 1), withdraw(1, 1)]), [18; 4]);
        accepted(ledger, &[close()]);
        assert_eq!(held(ledger, 0, 3), [3, 0, 5]);
    });
}

#[test]
fn a_second_withdrawal_is_18() {
    both(|ledger| {
        accepted(ledger, &bidding(9, 1, -9));
        accepted(ledger, &[bid(0, 0, 5, -1), withdraw(0, 0)]);
        // Sending the bid again gives another number and does not bring the old one back.
        assert_eq!(feed(ledger, &[withdraw(0, 0), bid(0, 0, 5, -1), withdraw(0, 0), withdraw(0, 1)]), [18, 0, 18, 0]);
        assert_eq!(feed(ledger, &[withdraw(0, 1), close()]), [18, 0]);
        assert_eq!(ledger.counts(0), [9, 0, 0, 0, 0]);
    });
}

#[test]
fn a_number_that_no_bid_has_is_18() {
    both(|ledger| {
        accepted(ledger, &bidding(9, 1, -9));
        assert_eq!(feed(ledger, &[withdraw(0, 0), withdraw(0, 1)]), [18, 18]);
        accepted(ledger, &[bid(0, 0, 5, -1), bid(0, 0, 4, -2)]);
        // 256 and 257 end in the bytes 0 and 1, and 512 has 2 in front; all of them are read in two bytes.
        let numbers = [2, 3, 255, 256, 257, 512, 32_767, 32_768, 65_280, 65_535];
        assert_eq!(feed(ledger, &numbers.map(|number| withdraw(0, number))), [18; 10]);
        accepted(ledger, &[close()]);
        assert_eq!(ledger.counts(0), [0, 9, 0, 0, 0]);
    });
}

#[test]
fn a_member_outside_the_set_is_4_whatever_the_number() {
    both(|ledger| {
        let h = Head { set: 0b101, margin: 99, ..head_of(1, 1) };
        accepted(ledger, &[head(&h), pool(0, 9, 0), member(0, 0, NONE), member(2, 0, NONE), round(&[-9])]);
        accepted(ledger, &[bid(0, 0, 5, -1)]);
        for number in [0, 1, 256, 65_535] {
            let calls = [1, 3, 31, 32, 34, 128, 255].map(|member| withdraw(member, number));
            assert_eq!(feed(ledger, &calls), [4; 7]);
        }
        assert_eq!(feed(ledger, &[withdraw(2, 0), withdraw(0, 0), withdraw(1, 0)]), [18, 0, 4]);
    });
}

#[test]
fn outside_an_open_round_it_is_2_and_a_wrong_length_is_1_everywhere() {
    let outside = |ledger: &mut dyn Ledger| {
        // A member outside the set and a number that no bid has come after the stage.
        assert_eq!(feed(ledger, &[withdraw(0, 0), withdraw(9, 0), withdraw(0, 256), withdraw(255, 65_535)]), [2; 4]);
        wrong_lengths(ledger);
    };
    fn wrong_lengths(ledger: &mut dyn Ledger) {
        let calls = [0, 1, 2, 4, 6].map(|length| field(WITHDRAW, &vec![0; length]));
        assert_eq!(feed(ledger, &calls), [1; 5]);
        assert_eq!(feed(ledger, &[vec![15], vec![15, 0], vec![15, 0, 3], vec![15, 0, 3, 0, 0]]), [1; 4]);
        assert_eq!(
            feed(ledger, &[[withdraw(0, 0), vec![0]].concat(), [withdraw(0, 0), withdraw(0, 0)].concat()]),
            [1; 2]
        );
    }
    both(|ledger| {
        outside(ledger);
        let h = Head { hedge_loss: 30, ..head_of(1, 1) };
        accepted(ledger, &[head(&h)]);
        outside(ledger);
        accepted(ledger, &[pool(0, 9, 0), member(0, 20, NONE)]);
        outside(ledger);
        accepted(ledger, &[round(&[-1]), bid(0, 0, 2, 0)]);
        wrong_lengths(ledger);
        accepted(ledger, &[close()]);
        outside(ledger);
        accepted(ledger, &[round(&[-1]), bid(0, 0, 2, 0)]);
        wrong_lengths(ledger);
        accepted(ledger, &[close()]);
        outside(ledger);
        accepted(ledger, &[tear(0, 0), call()]);
        outside(ledger);
        accepted(ledger, &[pay(0, 10), finish()]);
        outside(ledger);
    });
    // A1 without a round, by a SALE.
    both(|ledger| {
        accepted(ledger, &setup(&head_of(1, 1), &[(1, 0)], &[(0, NONE)]));
        accepted(ledger, &[sale(0, 0, 0)]);
        assert_eq!(ledger.stage(), Some(Stage::After(1)));
        outside(ledger);
    });
}

#[test]
fn the_unknown_tags_begin_at_16() {
    both(|ledger| {
        accepted(ledger, &bidding(9, 1, -9));
        accepted(ledger, &[bid(0, 0, 1, 0)]);
        assert_eq!(feed(ledger, &[field(16, &[0; 3]), field(17, &[0; 1]), field(15, &[0; 3])]), [1, 1, 0]);
    });
}

#[test]
fn withdrawals_change_no_count_no_price_and_no_stage() {
    both(|ledger| {
        accepted(ledger, &bidding(9, 1, -9));
        accepted(ledger, &[bid(0, 0, 4, -3), withdraw(0, 0)]);
        assert_eq!((ledger.counts(0), ledger.stage()), ([9, 0, 0, 0, 0], Some(Stage::Bidding(1))));
        assert_eq!((ledger.sum_of_prices(), ledger.holdings(0)), (0, vec![]));
    });
}

#[test]
fn withdrawn_bids_of_one_pool_leave_those_of_the_others() {
    both(|ledger| {
        let h = Head { margin: 999, ..head_of(2, 2) };
        accepted(ledger, &setup(&h, &[(4, 0), (4, 0)], &[(0, NONE), (0, NONE)]));
        accepted(ledger, &[round(&[-9, -9]), bid(0, 0, 3, -1), bid(1, 0, 3, -2), bid(0, 1, 2, -1), bid(1, 1, 2, -2)]);
        // Every bid in pool 0 is taken back.
        accepted(ledger, &[withdraw(1, 2), withdraw(0, 0), close()]);
        assert_eq!((ledger.counts(0), ledger.counts(1)), ([4, 0, 0, 0, 0], [0, 4, 0, 0, 0]));
        // 4 by 3 and 2 are 2.4 and 1.6.
        assert_eq!((held(ledger, 1, 2), ledger.sum_of_prices()), (vec![2, 2], -8));
    });
}

#[test]
fn a_withdrawn_bid_is_no_part_of_a_shortfall() {
    both(|ledger| {
        // Both expect 4 of 9. Member 0's bid is withdrawn, so it is short by 4, and member 1, which won 3, by 1.
        let h = Head { margin: 999, ..head_of(1, 2) };
        accepted(ledger, &setup(&h, &[(9, 0)], &[(0, [4, 0, 0, 0]), (0, [4, 0, 0, 0])]));
        accepted(ledger, &[round(&[-9]), bid(0, 0, 4, -1), bid(0, 1, 3, -1), withdraw(0, 0), close(), allocate(0, -2)]);
        assert_eq!((ledger.holding(0, 0, -2), ledger.holding(1, 0, -2), ledger.holding(1, 0, -1)), (4, 1, 3));
        assert_eq!(ledger.counts(0), [1, 3, 5, 0, 0]);
    });
}

#[test]
fn a_withdrawn_bid_counts_for_no_rank() {
    // Each member bids for 2 of 4 units; member 0 pays more above the reserve and ranks first, unless its bid is withdrawn.
    for (withdrawn, expected) in [(false, [1, 2, 3]), (true, [2, 1, 2])] {
        both(|ledger| {
            accepted(ledger, &bidding(4, 3, -9));
            accepted(ledger, &[bid(0, 0, 2, -1), bid(0, 1, 2, -5)]);
            if withdrawn {
                accepted(ledger, &[withdraw(0, 0)]);
            }
            accepted(ledger, &[close()]);
            if withdrawn {
                accepted(ledger, &[tear(0, 0)]);
            }
            accepted(ledger, &[finish()]);
            assert_eq!(ranks(ledger), expected);
        });
    }
}

#[test]
fn move_takes_the_later_bid_by_the_numbers_as_given() {
    both(|ledger| {
        // Bid 0 of pool 0 is taken back and sent again, as bid 2; so its unit is of the later bid and moves before that of bid 1.
        accepted(ledger, &setup(&head_of(2, 2), &[(1, 0), (1, 0)], &[(5, NONE), (5, NONE)]));
        accepted(ledger, &[round(&[-9, -9]), bid(0, 0, 1, -9), bid(1, 1, 1, -9), withdraw(0, 0), bid(0, 0, 1, -9)]);
        accepted(ledger, &[close(), call(), move_units(0)]);
        assert_eq!((ledger.counts(0), ledger.counts(1)), ([0, 0, 0, 1, 0], [0, 1, 0, 0, 0]));
    });
}

#[test]
fn a_round_whose_bids_are_all_withdrawn_still_had_the_pool_open() {
    both(|ledger| {
        // The second reserve of −9 counts for member 0's unit of round 1, though nobody's bid stands in round 2.
        let h = Head { margin: 999, ..head_of(2, 2) };
        accepted(ledger, &setup(&h, &[(2, 0), (1, 0)], &[(0, NONE), (0, NONE)]));
        accepted(ledger, &[round(&[-5, -5]), bid(0, 0, 1, -4), bid(1, 1, 1, -2), close()]);
        accepted(ledger, &[round(&[-9, -9]), bid(0, 1, 1, -3), withdraw(1, 2), close(), tear(0, 0), finish()]);
        // Member 0 stands 5 above its worst reserve, member 1 only 3.
        assert_eq!(ranks(ledger), [1, 2]);
    });
}

#[test]
fn the_program_prints_a_withdrawal_like_other_calls() {
    let mut calls = bidding(4, 1, -9);
    calls.extend([withdraw(0, 0), bid(0, 0, 3, -2), withdraw(1, 0), withdraw(0, 0), withdraw(0, 0), bid(0, 0, 4, -2)]);
    calls.extend([close(), withdraw(0, 1), finish(), vec![15, 0, 3, 0, 0]]);
    let expected = "s 15 18\ns 5 0\ns 15 4\ns 15 0\ns 15 18\ns 5 0\ns 6 0\ns 15 2\ns 13 0\ns 15 1\n\
                    p 0 0 4 0 0 0\nl 8 8 0 0 0 0 0 0\nm 0 1 0 0\n";
    assert!(lines(print::<Roll>(&calls.concat())).ends_with(expected));
    assert!(lines(print::<Counts>(&calls.concat())).ends_with(expected));
    assert_eq!(withdraw(7, 515), [15, 0, 3, 7, 2, 3]);
}
