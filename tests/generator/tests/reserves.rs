//! C-17 of document 02: pairs of lists that are the same but for reserves, worked by hand, the premise part by part, and what the generator promises of its pairs.

use generator::reserves::{Kind, Part, broken, broken_parts, pair, same_but_reserves, text_difference};
use generator::{input, profile_of};
use model::write::*;
use model::{Counts, Ledger, Roll, print};
use std::collections::BTreeSet;

/// The text over both models, which is one and the same.
fn text(list: &[Vec<u8>]) -> String {
    let text = print::<Roll>(&list.concat());
    assert_eq!(print::<Counts>(&list.concat()), text);
    String::from_utf8(text).unwrap()
}

/// The lines behind the s lines.
fn closing_lines(list: &[Vec<u8>]) -> Vec<String> {
    text(list).lines().filter(|line| !line.starts_with("s ")).map(str::to_string).collect()
}

fn answers(list: &[Vec<u8>]) -> Vec<u8> {
    let mut roll = Roll::default();
    list.iter().map(|bytes| roll.call(bytes)).collect()
}

fn is_told_apart(one: &[Vec<u8>], other: &[Vec<u8>]) -> bool {
    text_difference(text(one).as_bytes(), text(other).as_bytes()).is_some()
}

/// One pool of 10 units. Member 0 wins 6 at −10 and expects 4, member 1 wins 4 at −20 and expects 1; each has 100 in the fund.
fn two_members(reserve: i32) -> Vec<Vec<u8>> {
    let h = Head { pools: 1, least_bid: 1, set: 0b11, hedge_loss: 0, other_loss: 0, margin: 0, fund: 0, house: 0 };
    vec![
        head(&h),
        pool(0, 10, 0),
        member(0, 100, [4, 0, 0, 0]),
        member(1, 100, [1, 0, 0, 0]),
        round(&[reserve]),
        bid(0, 0, 6, -10),
        bid(0, 1, 4, -20),
        close(),
        finish(),
    ]
}

#[test]
fn ranks_and_the_parts_of_contributions_differ_and_totals_do_not() {
    // With −20 the factors are 10 × 2 and 0 × 3, so member 1 is the junior; with −60 they are 50 × 2 and 40 × 3, so member 0 is. The loss is 6 × 10 + 4 × 20.
    let (one, other) = (two_members(-20), two_members(-60));
    assert_eq!(closing_lines(&one), ["p 0 0 10 0 0 0", "l 140 0 0 0 140 0 0 0", "m 0 1 40 0", "m 1 2 100 0"]);
    assert_eq!(closing_lines(&other), ["p 0 0 10 0 0 0", "l 140 0 0 0 140 0 0 0", "m 0 2 100 0", "m 1 1 40 0"]);
    assert!(same_but_reserves(&one, &other) && !is_told_apart(&one, &other));
    // With −40 both factors are 60, and the higher excess is senior.
    assert_eq!(closing_lines(&two_members(-40))[2..], ["m 0 2 100 0", "m 1 1 40 0"]);
    assert!(same_but_reserves(&one, &two_members(-1_000_000)));
}

/// Pool 1 is sold to member 1 for 3 × 30, which meets the limit: 100 − 90 is the margin. In pool 0 member 0 wins 2 at −10 and expects 1, member 1 wins 4 at −20 and
/// expects none there; what it expects in pool 1 does not count. Bid 1 is taken back.
fn sale_withdrawal_and_moves(reserves: [i32; 2], withdrawn_price: i32) -> Vec<Vec<u8>> {
    let h = Head { pools: 2, least_bid: 1, set: 0b11, hedge_loss: 100, other_loss: 0, margin: 10, fund: 0, house: 5 };
    vec![
        head(&h),
        pool(0, 6, 0),
        pool(1, 3, 1),
        member(0, 30, [1, 0, 0, 0]),
        member(1, 20, [0, 9, 0, 0]),
        sale(1, 1, 30),
        round(&reserves),
        bid(0, 0, 2, -10),
        bid(0, 0, 5, withdrawn_price),
        bid(0, 1, 4, -20),
        withdraw(0, 1),
        close(),
        call(),
        move_units(0),
        move_units(1),
        finish(),
    ]
}

#[test]
fn a_sale_a_withdrawal_calls_and_moves_are_alike() {
    // The requirement is 100 − 90 + 20 + 80 = 110, prefunded 10 + 5 + 50 = 65, so 45 is called: 27 and 18. Two units at −20 save 40, one saves 20, and 50 is left to
    // bear: margin 10, first tranche 3, contributions 37. With −20 the factors are 10 × 1 and 0 × 4, with −40 they are 30 × 1 and 20 × 4.
    let one = sale_withdrawal_and_moves([-20, 5], -15);
    let other = sale_withdrawal_and_moves([-40, -1_000_000], -15);
    assert_eq!(answers(&one), vec![0; 16]);
    let totals = ["p 0 0 3 0 3 0", "p 1 0 3 0 0 0", "l 50 10 0 3 37 0 0 0"].map(str::to_string).to_vec();
    assert_eq!(closing_lines(&one)[..3], totals);
    assert_eq!(closing_lines(&one)[3..], ["m 0 1 17 0", "m 1 2 20 0"]);
    assert_eq!(closing_lines(&other)[..3], totals);
    assert_eq!(closing_lines(&other)[3..], ["m 0 2 30 0", "m 1 1 7 0"]);
    assert!(same_but_reserves(&one, &other) && !is_told_apart(&one, &other));
}

#[test]
fn a_withdrawn_bid_counts_for_the_premise() {
    // At −30 the withdrawn bid is valid with −40 and not with −20, though no text shows it.
    let (one, other) = (sale_withdrawal_and_moves([-20, 0], -30), sale_withdrawal_and_moves([-40, 0], -30));
    assert_eq!(broken_parts(&one, &other), BTreeSet::from([Part::Validity]));
    assert!(!is_told_apart(&one, &other));
    assert!(same_but_reserves(&one, &sale_withdrawal_and_moves([-29, 0], -30)));
    assert!(!same_but_reserves(&one, &sale_withdrawal_and_moves([-30, 0], -30)));
}

/// Two rounds in one pool of 3 units, with a bid at −30 in each.
fn two_rounds(reserves: [i32; 2]) -> Vec<Vec<u8>> {
    let [first, second] = reserves;
    let mut list = two_members(first);
    list[1] = pool(0, 3, 0);
    list.truncate(5);
    list.extend([bid(0, 0, 1, -30), close(), round(&[second]), bid(0, 1, 1, -30), close()]);
    list
}

#[test]
fn a_bid_is_held_to_the_reserve_of_its_own_round() {
    let one = two_rounds([-20, -40]);
    assert_eq!(closing_lines(&one), ["p 0 2 1 0 0 0"]);
    // Neither bid is on the other side of its own round's reserve, though the first is at or above the second's.
    assert!(same_but_reserves(&one, &two_rounds([-29, -30])));
    assert_eq!(broken_parts(&one, &two_rounds([-30, -40])), BTreeSet::from([Part::Validity]));
    assert_eq!(broken_parts(&one, &two_rounds([-20, -29])), BTreeSet::from([Part::Validity]));
}

#[test]
fn what_breaks_a_part_of_the_premise_is_told_apart() {
    let one = two_members(-20);
    let with = |at: usize, field: Vec<u8>| {
        let mut other = one.clone();
        other[at] = field;
        other
    };
    let others = [
        (Part::Number, one[..8].to_vec()),
        (Part::Number, [one.clone(), vec![finish()]].concat()),
        // A bid that stays valid, at another price.
        (Part::Fields, with(5, bid(0, 0, 6, -11))),
        (Part::Fields, with(8, call())),
        (Part::Fields, with(4, round(&[-1_000_001]))),
        (Part::Fields, with(4, round(&[1_000_001]))),
        (Part::Fields, with(4, round(&[-20, -20]))),
        (Part::Fields, with(4, field(ROUND, &[255; 5]))),
        (Part::Fields, with(4, round(&[]))),
        // The bid at −20 is no longer valid.
        (Part::Validity, with(4, round(&[-19]))),
        (Part::Validity, with(4, round(&[0]))),
    ];
    for (part, other) in others {
        assert_eq!(broken_parts(&one, &other), BTreeSet::from([part]), "{other:?}");
        assert!(is_told_apart(&one, &other), "{other:?}");
    }
}

#[test]
fn the_range_is_not_asked_where_the_length_does_not_fit_the_case() {
    // With no case any of the four lengths is declined by 2; in a case of one pool two reserves are declined by 1.
    let list = |before: &[i32], behind: &[i32]| {
        let mut list = two_members(-20);
        list.insert(0, round(before));
        list.insert(5, round(behind));
        list
    };
    let one = list(&[0], &[1, 2]);
    assert_eq!(answers(&one), [2, 0, 0, 0, 0, 1, 0, 0, 0, 0, 0]);
    for other in [list(&[i32::MIN], &[i32::MAX, 2]), list(&[1_000_001], &[-1_000_001, 1_000_001])] {
        assert_eq!(answers(&other), answers(&one));
        assert!(same_but_reserves(&one, &other) && !is_told_apart(&one, &other));
    }
    // As many reserves are asked for all the same.
    let longer = list(&[0, 0], &[1, 2]);
    assert_eq!(broken_parts(&one, &longer), BTreeSet::from([Part::Fields]));
    assert!(!is_told_apart(&one, &longer));
}

#[test]
fn the_range_is_asked_where_the_length_fits_also_of_a_round_that_is_declined() {
    // Behind FINISH a ROUND is declined by 2, whatever its reserves.
    let list = |reserve: i32| [two_members(-20), vec![round(&[reserve])]].concat();
    let past = list(1_000_001);
    assert_eq!((answers(&past)[9], answers(&list(0))[9]), (2, 2));
    assert!(same_but_reserves(&list(0), &list(-1_000_000)));
    assert_eq!(broken_parts(&list(0), &past), BTreeSet::from([Part::Fields]));
    assert_eq!(broken_parts(&past, &list(1_000_002)), BTreeSet::from([Part::Fields]));
    // The same bytes are the same field.
    assert!(same_but_reserves(&past, &past));
}

#[test]
fn a_round_that_is_cut_off_or_of_a_wrong_form_may_not_differ() {
    let list = |last: Vec<u8>| [two_members(-20), vec![last]].concat();
    let cut_off = |reserve: i32| round(&[reserve])[..6].to_vec();
    assert_eq!(broken_parts(&list(cut_off(0)), &list(cut_off(1_000_000))), BTreeSet::from([Part::Fields]));
    assert!(same_but_reserves(&list(cut_off(0)), &list(cut_off(0))));
    let five = |byte: u8| field(ROUND, &[byte; 20]);
    assert_eq!(broken_parts(&list(five(0)), &list(five(1))), BTreeSet::from([Part::Fields]));
}

#[test]
fn a_line_may_differ_in_the_rank_and_the_charge_on_contribution_alone() {
    let one = "s 13 0\np 0 0 10 0 0 0\nl 160 20 10 30 100 0 0 0\nm 0 2 40 0\nm 11 1 0 7\n";
    let line = |other: &str| text_difference(one.as_bytes(), other.as_bytes()).map(|unlike| unlike.line);
    assert_eq!(line(&one.replace("m 0 2 40 0", "m 0 31 0 0").replace("m 11 1 0 7", "m 11 9 40 7")), None);
    let others = [
        (0, one.replace("s 13 0", "s 13 2")),
        (1, one.replace("p 0 0 10", "p 0 1 9")),
        (2, one.replace("30 100", "31 99")),
        (3, one.replace("m 0 2", "m 1 2")),
        (3, one.replace("40 0\n", "40 1\n")),
        (3, one.replace("m 0 2 40 0", "m 0 2 40")),
        (3, one.replace("m 0 2 40 0", "m 0 2 40 0 0")),
        (3, one.replace("m 0 2 40", "m 0 -2 40")),
        (3, one.replace("m 0 2 40", "m 0 2 x")),
        (3, one.replace("m 0 2 40 0\n", "")),
        (4, one.replace("m 11 1 0 7\n", "")),
        (4, one.replace("0 7\n", "0 7")),
        (5, [one, "m 12 1 0 0\n"].concat()),
    ];
    for (at, other) in others {
        assert_eq!(line(&other), Some(at), "{other}");
    }
}

#[test]
fn the_first_list_of_a_pair_is_the_input_and_the_second_meets_the_premise() {
    let mut moved = 0;
    for seed in 0..150 {
        let pair = pair(seed, profile_of(seed));
        assert_eq!(pair.one.concat(), input(seed, profile_of(seed)), "seed {seed}");
        assert_eq!(broken_parts(&pair.one, &pair.other), BTreeSet::new(), "seed {seed}");
        assert_eq!(pair.moved().next().is_some(), pair.one != pair.other, "seed {seed}");
        moved += usize::from(pair.one != pair.other);
    }
    assert!(moved >= 100, "{moved} of 150");
}

#[test]
fn a_broken_pair_breaks_the_part_that_it_is_meant_to() {
    for kind in Kind::ALL {
        let pairs = (0..40).map(|seed| (seed, pair(seed, profile_of(seed))));
        let lists: Vec<_> =
            pairs.filter_map(|(seed, pair)| broken(seed, &pair, kind).map(|broken| (pair.one, broken.list))).collect();
        assert!(lists.len() >= 20, "{kind:?}: {} of 40", lists.len());
        for (one, list) in lists {
            assert_eq!(broken_parts(&one, &list), BTreeSet::from([kind.part()]), "{kind:?}");
        }
    }
}
