//! C-15 of document 02: an exact tie of remainders goes to the larger weight, and only then to the earlier in the list. Worked by hand for every split.

mod common;

use common::{accepted, both, head_of, ranks, setup};
use model::write::*;
use model::{BidRecord, Ring, allot, alone_flat, alone_lent, expected, ranking, split, swept};

#[test]
fn k1_to_k3_keep_their_results() {
    for by in [split, swept] {
        assert_eq!(by(6, &[5, 3]), [4, 2]);
        assert_eq!(by(1, &[1, 1, 1]), [1, 0, 0]);
        assert_eq!(by(2, &[0, 0]), [0, 0]);
    }
}

#[test]
fn a_tie_goes_to_the_larger_weight_and_only_then_to_the_earlier() {
    for by in [split, swept] {
        // The products 2 and 6 by 4 leave 2 and 2; ties to the earlier would give 1 and 1.
        assert_eq!(by(2, &[1, 3]), [0, 2]);
        assert_eq!(by(2, &[3, 1]), [2, 0]);
        // Of equal weights the earlier has it.
        assert_eq!(by(3, &[2, 2]), [2, 1]);
        // The products by 8 are 4, 12, 12 and 4 and all leave 4, and two are left.
        assert_eq!(by(4, &[1, 3, 3, 1]), [0, 2, 2, 0]);
        // Three of 1 and one of 3 tie for two: the 3 has one, and of the others the first.
        assert_eq!(by(3, &[1, 1, 3, 1]), [1, 0, 2, 0]);
        // The larger remainder comes before the larger weight: 5, 10 and 20 by 7 leave 5, 3 and 6.
        assert_eq!(by(5, &[1, 2, 4]), [1, 1, 3]);
        // 2 by 1 and 2 leaves 2 and 1, so the smaller weight has it.
        assert_eq!(by(2, &[1, 2]), [1, 1]);
    }
}

#[test]
fn a_ranking_goes_by_remainder_then_weight_then_place() {
    // The remainders by 12 are 6, 6, 6, 6 and 0, the floors 0, 1, 0, 2 and 1.
    assert_eq!(ranking(6, &[1, 3, 1, 5, 2]), [3, 1, 0, 2, 4]);
    assert_eq!(swept(6, &[1, 3, 1, 5, 2]), [0, 2, 0, 3, 1]);
    // The remainders by 12 are 3, 9, 3, 3 and 6.
    assert_eq!(ranking(3, &[1, 3, 1, 5, 2]), [1, 4, 3, 0, 2]);
    assert_eq!(swept(3, &[1, 3, 1, 5, 2]), [0, 1, 0, 1, 1]);
}

#[test]
fn close_gives_the_odd_unit_to_the_larger_bid() {
    // 2 units by bids of 1 and 3 at one price: 0 and 2, where ties to the earlier would give 1 and 1.
    assert_eq!(allot(2, -9, &[(1, -5), (3, -5)]), [0, 2]);
    both(|ledger| {
        accepted(ledger, &setup(&head_of(1, 2), &[(2, 0)], &[(0, [0; 4]), (0, [0; 4])]));
        accepted(ledger, &[round(&[-9]), bid(0, 0, 1, -5), bid(0, 1, 3, -5), close()]);
        assert_eq!((ledger.holding(0, 0, -5), ledger.holding(1, 0, -5)), (0, 2));
    });
}

#[test]
fn close_counts_the_bids_at_the_price_alone() {
    // 5 units: 1 goes above the price, and 4 by 1, 3, 3 and 1 give 0, 2, 2 and 0; ties to the earlier would give 1, 2, 1 and 0.
    both(|ledger| {
        accepted(ledger, &setup(&head_of(1, 3), &[(5, 0)], &[(0, [0; 4]); 3]));
        let bids = [bid(0, 0, 1, -5), bid(0, 1, 3, -5), bid(0, 0, 1, -4), bid(0, 2, 3, -5), bid(0, 0, 1, -5)];
        accepted(ledger, &[&[round(&[-9])], &bids[..], &[close()]].concat());
        assert_eq!(ledger.holdings(0), [(0, -4, 1)]);
        assert_eq!((ledger.holdings(1), ledger.holdings(2)), (vec![(0, -5, 2)], vec![(0, -5, 2)]));
    });
}

#[test]
fn of_bids_for_as_many_units_the_earlier_has_the_odd_one() {
    // 3 units by 1, 1, 3 and 1: the bid of 3 has 2, and of the others the first has 1.
    both(|ledger| {
        accepted(ledger, &setup(&head_of(1, 4), &[(3, 0)], &[(0, [0; 4]); 4]));
        let bids = [bid(0, 3, 1, -5), bid(0, 1, 1, -5), bid(0, 2, 3, -5), bid(0, 0, 1, -5)];
        accepted(ledger, &[&[round(&[-9])], &bids[..], &[close()]].concat());
        let held: Vec<u64> = (0..4).map(|member| ledger.holding(member, 0, -5)).collect();
        assert_eq!(held, [0, 0, 2, 1]);
    });
}

#[test]
fn the_auction_alone_gives_the_odd_unit_to_the_larger_bid() {
    let record = |units, price| BidRecord { units, price };
    let mut counts = [7, 7];
    assert_eq!(alone_lent(&[record(1, -20), record(3, -20)], 2, -30, &mut counts), 0);
    assert_eq!(counts, [0, 2]);
    let mut counts = [7, 7];
    assert_eq!(alone_flat(2, 0, &[1, 3], &[5, 5], &mut counts), 0);
    assert_eq!(counts, [0, 2]);
}

#[test]
fn allocate_gives_the_odd_unit_to_the_larger_shortfall() {
    // Of 4 units member 1 wins 2 of the 5 it expects, so 2 go by shortfalls of 1 and 3: 0 and 2, where ties to the earlier would give 1 and 1.
    both(|ledger| {
        accepted(ledger, &setup(&head_of(1, 2), &[(4, 0)], &[(0, [1, 0, 0, 0]), (0, [5, 0, 0, 0])]));
        accepted(ledger, &[round(&[-9]), bid(0, 1, 2, -5), close(), allocate(0, -7)]);
        assert_eq!((ledger.holding(0, 0, -7), ledger.holding(1, 0, -7)), (0, 2));
    });
}

#[test]
fn of_like_shortfalls_the_lower_member_has_the_odd_unit() {
    // 3 units by shortfalls of 1, 1, 3 and 1: 1, 0, 2 and 0.
    both(|ledger| {
        let members = [1, 1, 3, 1].map(|units| (0, [units, 0, 0, 0]));
        accepted(ledger, &setup(&head_of(1, 4), &[(3, 0)], &members));
        accepted(ledger, &[round(&[-9]), close(), allocate(0, -7)]);
        let held: Vec<u64> = (0..4).map(|member| ledger.holding(member, 0, -7)).collect();
        assert_eq!(held, [1, 0, 2, 0]);
    });
}

#[test]
fn call_asks_the_odd_cent_of_the_larger_contribution() {
    // Prefunded is 4 and the requirement 6, so 2 are called by 1 and 3: 0 and 2, where ties to the earlier would call 1 and 1.
    both(|ledger| {
        let h = Head { hedge_loss: 6, ..head_of(1, 2) };
        accepted(ledger, &setup(&h, &[(1, 0)], &[(1, [0; 4]), (3, [0; 4])]));
        accepted(ledger, &[round(&[-9]), close(), tear(0, 0), call()]);
        assert_eq!((ledger.owes(0), ledger.owes(1)), (0, 2));
        accepted(ledger, &[pay(1, 2), finish()]);
    });
}

#[test]
fn finish_charges_the_odd_cent_to_the_larger_contribution_of_a_rank() {
    // Member 2 is short of a unit and bears its 5 first; of 7 the other 2 go by 1 and 3 in one rank: 0 and 2, where ties to the earlier would charge 1 and 1.
    both(|ledger| {
        let h = Head { hedge_loss: 7, ..head_of(1, 3) };
        accepted(ledger, &setup(&h, &[(1, 0)], &[(1, [0; 4]), (3, [0; 4]), (5, [1, 0, 0, 0])]));
        accepted(ledger, &[round(&[-9]), close(), tear(0, 0), finish()]);
        assert_eq!(ranks(ledger), [1, 1, 3]);
        let result = ledger.result().unwrap();
        let charged: Vec<u64> = result.members.iter().map(|m| m.contribution_charge).collect();
        assert_eq!((charged, result.charges), (vec![0, 2, 5], [0, 0, 0, 7, 0, 0]));
    });
}

#[test]
fn finish_charges_the_odd_cent_to_the_larger_payment() {
    // The requirement of 8 is 4 above prefunded, so 1 and 3 are called and paid. A MISS at 2 lowers it to 6, and 2 go by payments of 1 and 3: 0 and 2, where
    // ties to the earlier would charge 1 and 1.
    both(|ledger| {
        let h = Head { hedge_loss: 8, ..head_of(1, 2) };
        accepted(ledger, &setup(&h, &[(1, 0)], &[(1, [1, 0, 0, 0]), (3, [0; 4])]));
        accepted(ledger, &[round(&[-9]), close(), allocate(0, 0), call()]);
        accepted(ledger, &[pay(0, 1), pay(1, 3), miss(0, 2), finish()]);
        let result = ledger.result().unwrap();
        let charged: Vec<u64> = result.members.iter().map(|m| m.payment_charge).collect();
        assert_eq!((result.loss, charged, result.charges), (6, vec![0, 2], [0, 0, 0, 4, 0, 2]));
    });
}

#[test]
fn expected_units_give_the_odd_unit_to_the_larger_sum() {
    // The sums of two days are 1 and 3.
    let days: Vec<u8> = [1u32, 1, 0, 2].iter().flat_map(|position| position.to_be_bytes()).collect();
    let set = 1 << 4 | 1 << 9;
    let mut wanted = [0; 32];
    wanted[9] = 2;
    for by in [expected, Ring::run] {
        let mut shares = [7; 32];
        assert_eq!(by(set, 2, &days, &mut shares), 0);
        assert_eq!(shares, wanted);
    }
}
