//! The worked cases of document 01 and annexure 1 of document 000, each over both ledgers.

mod common;

use common::{accepted, both, feed, head_of, lines};
use model::write::*;
use model::{Counts, Roll, allot, print, split};

#[test]
fn k1_k2_k3_splitting() {
    assert_eq!(split(6, &[5, 3]), [4, 2]);
    assert_eq!(split(1, &[1, 1, 1]), [1, 0, 0]);
    assert_eq!(split(2, &[0, 0]), [0, 0]);
}

#[test]
fn k4_a_bid_at_the_reserve_is_valid() {
    assert_eq!(allot(5, -30, &[(2, -30), (2, -31)]), [2, 0]);
    both(|ledger| {
        accepted(ledger, &one_pool(5, &[10], [0, 0, 0]));
        accepted(ledger, &[round(&[-30]), bid(0, 0, 2, -30), bid(0, 0, 2, -31), close()]);
        assert_eq!(ledger.counts(0), [3, 2, 0, 0, 0]);
        assert_eq!(ledger.holdings(0), [(0, -30, 2)]);
    });
}

#[test]
fn k5_bids_that_together_meet_the_open_units_win_all() {
    assert_eq!(allot(10, -30, &[(4, -10), (6, -10)]), [4, 6]);
    both(|ledger| {
        accepted(ledger, &one_pool(10, &[0, 0], [0, 0, 0]));
        accepted(ledger, &[round(&[-30]), bid(0, 0, 4, -10), bid(0, 1, 6, -10), close()]);
        assert_eq!((ledger.holding(0, 0, -10), ledger.holding(1, 0, -10)), (4, 6));
    });
}

#[test]
fn k6_finish_at_the_prefunded_amount_and_call_above_it() {
    // Margin 100, fund 200, house 150 and one contribution of 100 make 550 prefunded.
    for (loss, finish_answer, call_answer) in [(550, 0, 12), (551, 13, 0)] {
        both(|ledger| {
            let h = Head { hedge_loss: loss, margin: 100, fund: 200, house: 150, ..head_of(1, 1) };
            accepted(ledger, &[head(&h), pool(0, 1, 0), member(0, 100, [0; 4])]);
            accepted(ledger, &[round(&[0]), bid(0, 0, 1, 0), close()]);
            assert_eq!(ledger.prefunded(), Some(550));
            assert_eq!(ledger.requirement(), Some(loss.into()));
            if call_answer == 0 {
                assert_eq!(feed(ledger, &[finish(), call()]), [finish_answer, 0]);
            } else {
                assert_eq!(feed(ledger, &[call(), finish()]), [call_answer, finish_answer]);
            }
        });
    }
}

#[test]
fn k7_house_money_of_1_has_tranches_of_0_and_1() {
    both(|ledger| {
        let h = Head { hedge_loss: 1, house: 1, ..head_of(1, 1) };
        accepted(ledger, &[head(&h), pool(0, 1, 0), member(0, 0, [0; 4])]);
        accepted(ledger, &[round(&[0]), bid(0, 0, 1, 0), close(), finish()]);
        assert_eq!(ledger.result().unwrap().charges, [0, 0, 0, 0, 1, 0]);
    });
}

#[test]
fn k8_three_units_at_minus_10_save_30_of_25_owed() {
    both(|ledger| {
        // Prefunded 25 against a requirement of 50 makes a call of 25.
        let h = Head { hedge_loss: 20, ..head_of(1, 1) };
        accepted(ledger, &[head(&h), pool(0, 3, 0), member(0, 25, [0; 4])]);
        accepted(ledger, &[round(&[-10]), bid(0, 0, 3, -10), close(), call()]);
        assert_eq!(ledger.owes(0), 25);
        accepted(ledger, &[move_units(0)]);
        assert_eq!(ledger.counts(0), [0, 0, 0, 3, 0]);
        assert_eq!((ledger.sum_of_prices(), ledger.owes(0)), (0, 0));
        assert_eq!(ledger.holdings(0), [(0, 0, 3)]);
    });
}

#[test]
fn k9_bid_255_is_kept_and_the_next_declined() {
    both(|ledger| {
        accepted(ledger, &one_pool(1, &[0], [0, 0, 0]));
        accepted(ledger, &[round(&[0])]);
        let bids = vec![bid(0, 0, 1, 0); 257];
        let mut answers = vec![0; 256];
        answers.push(7);
        assert_eq!(feed(ledger, &bids), answers);
    });
}

/// The fields of 01's example as bytes, none of them made by the writers of this crate.
const EXAMPLE: &[&str] = &[
    "01 001B 01 0001 00000007 00000000 00000000 00000014 0000000A 00000032",
    "02 0004 00 000A 00",
    "03 000D 00 00000064 0004 0000 0000 0000",
    "03 000D 01 00000064 0003 0000 0000 0000",
    "03 000D 02 0000003C 0003 0000 0000 0000",
    "04 0004 FFFFFFE2",
    "05 0008 00 00 0004 FFFFFFF6",
    "05 0008 00 01 0005 FFFFFFEC",
    "05 0008 00 02 0003 FFFFFFEC",
    "05 0008 00 02 0005 FFFFFFD8",
    "06 0000",
    "0D 0000",
];

const EXAMPLE_TEXT: &str = "\
s 1 0
s 2 0
s 3 0
s 3 0
s 3 0
s 4 0
s 5 0
s 5 0
s 5 0
s 5 0
s 6 0
s 13 0
p 0 0 10 0 0 0
l 160 20 10 30 100 0 0 0
m 0 2 40 0
m 1 1 0 0
m 2 3 60 0
";

fn example_bytes() -> Vec<u8> {
    let digits: Vec<u8> = EXAMPLE.concat().chars().filter_map(|c| c.to_digit(16)).map(|digit| digit as u8).collect();
    digits.chunks(2).map(|pair| pair[0] << 4 | pair[1]).collect()
}

#[test]
fn the_example_of_01_byte_for_byte() {
    assert_eq!(lines(print::<Roll>(&example_bytes())), EXAMPLE_TEXT);
    assert_eq!(lines(print::<Counts>(&example_bytes())), EXAMPLE_TEXT);
}

#[test]
fn the_writers_make_the_example_of_01() {
    assert_eq!(example().concat(), example_bytes());
}

/// Annexure 1 of document 000: seven members P to V, one bucket of 160 units, reserves −11.25 and −15.19, prices in hundredths.
#[test]
fn annexure_1_of_000() {
    let expected = [8, 16, 64, 32, 40, 0, 0];
    let first_auction = [(0, 10, -600), (1, 16, -720), (2, 20, -730), (3, 10, -630), (4, 20, -710), (5, 5, -710)];
    let second_auction = [(2, 45, -1400), (3, 24, -1450), (4, 10, -1200)];
    both(|ledger| {
        let h = Head { margin: 1_000_000, ..head_of(1, 7) };
        accepted(ledger, &[head(&h), pool(0, 160, 0)]);
        for (number, &units) in expected.iter().enumerate() {
            accepted(ledger, &[member(number as u8, 0, [units, 0, 0, 0])]);
        }
        accepted(ledger, &[round(&[-1125])]);
        for (number, units, price) in first_auction {
            accepted(ledger, &[bid(0, number, units, price)]);
        }
        accepted(ledger, &[close()]);
        assert_eq!(ledger.counts(0), [79, 81, 0, 0, 0]);
        accepted(ledger, &[round(&[-1519])]);
        for (number, units, price) in second_auction {
            accepted(ledger, &[bid(0, number, units, price)]);
        }
        accepted(ledger, &[close(), finish()]);
        assert_eq!(ledger.counts(0), [0, 160, 0, 0, 0]);
        let won: Vec<u64> = (0..7).map(|m| ledger.holdings(m).iter().map(|&(.., units)| units).sum()).collect();
        assert_eq!(won, [10, 16, 65, 34, 30, 5, 0]);
        let result = ledger.result().unwrap();
        let ranks: Vec<u64> = result.members.iter().map(|m| m.rank).collect();
        assert_eq!(ranks, [2, 5, 4, 3, 7, 1, 6]);
    });
}

/// HEAD, one POOL of some units and members 0 to 2 with their contributions, all of whom expect nothing.
fn one_pool(units: u16, contributions: &[u32], expected: [u16; 3]) -> Vec<Vec<u8>> {
    let members = contributions.len() as u32;
    let mut fields = vec![head(&head_of(1, members)), pool(0, units, 0)];
    for (number, &contribution) in contributions.iter().enumerate() {
        fields.push(member(number as u8, contribution, [expected[number], 0, 0, 0]));
    }
    fields
}
