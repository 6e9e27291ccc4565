//! What lists with WITHDRAWs go through, where remainders tie and how the requirement moves, counted so that a run shows whether it compared what matters there.

use crate::{requirement, ties};
use model::field::u16_at;
use model::roll::Bid;
use model::{Ledger, Roll, Stage, write};
use std::collections::BTreeMap;

pub const CLOSE_WITHOUT: &str = "CLOSE of a round with a withdrawn bid";
pub const WOULD_HAVE_WON: &str = "CLOSE where a withdrawn bid would have won units";
pub const OTHERS_WIN_OTHERWISE: &str = "CLOSE where a standing bid wins other units than beside a withdrawn one";
pub const SEVERAL: &str = "CLOSE of a round with three withdrawn bids or more";
pub const NONE_IN_A_POOL: &str = "CLOSE of a round with a pool whose bids are all withdrawn";
pub const SECOND_ROUND: &str = "CLOSE of a second round with a withdrawn bid";
pub const AGAIN_BEHIND: &str = "CLOSE where a bid sent again is split behind another at its price";
pub const PLACE_TAKEN: &str = "BID 7 with a withdrawn bid among the 256";
pub const WITH_256: &str = "WITHDRAW 0 with 256 bids kept";
pub const LAST_NUMBER: &str = "WITHDRAW 0 of bid 255";
pub const NOT_GIVEN: &str = "WITHDRAW 18 of a number not given yet, below 256";
pub const PAST_255: &str = "WITHDRAW 18 of a number past 255";
pub const ONE_BYTE: &str = "WITHDRAW 18 of a number past 255 whose last byte is a standing bid of the member";
pub const ANOTHERS: &str = "WITHDRAW 18 of another member's standing bid";
pub const TWICE: &str = "WITHDRAW 18 of a bid withdrawn before";
pub const OLD_ROUND: &str = "WITHDRAW 18 of the member's standing bid of the first round";

/// All that has to occur with bids taken back.
pub const TAKEN_BACK: [&str; 16] = [
    CLOSE_WITHOUT,
    WOULD_HAVE_WON,
    OTHERS_WIN_OTHERWISE,
    SEVERAL,
    NONE_IN_A_POOL,
    SECOND_ROUND,
    AGAIN_BEHIND,
    PLACE_TAKEN,
    WITH_256,
    LAST_NUMBER,
    NOT_GIVEN,
    PAST_255,
    ONE_BYTE,
    ANOTHERS,
    TWICE,
    OLD_ROUND,
];

pub type Situations = BTreeMap<&'static str, u64>;

/// The situations of a list of calls.
pub fn of(calls: &[Vec<u8>]) -> Situations {
    let mut found = Situations::new();
    let mut roll = Roll::default();
    let mut fields = ties::Fields::default();
    let mut sums = requirement::Sums::default();
    let mut opened = 0;
    for (call, bytes) in calls.iter().enumerate() {
        let splits = matches!(bytes.first(), Some(&(write::CLOSE | write::ALLOCATE | write::CALL | write::FINISH)));
        // Only MISS and the calls that split are looked at from before.
        let before = if splits || bytes.first() == Some(&write::MISS) { roll.clone() } else { Roll::default() };
        let stage = roll.stage();
        let answer = roll.call(bytes);
        if answer == 0 {
            fields.count(bytes, &before, &roll, &mut found);
            sums.count(bytes, &before, &roll, &mut found);
        }
        if answer == 0 && bytes[0] == write::ROUND {
            opened = call;
        }
        let Some(Stage::Bidding(round)) = stage else {
            continue;
        };
        let names = match (bytes.first(), answer) {
            (Some(&write::CLOSE), 0) => at_close(&roll, round, opened, &calls[..=call]),
            (Some(&write::BID), 7) if roll.bids().iter().any(|bid| !bid.stands) => vec![PLACE_TAKEN],
            (Some(&write::WITHDRAW), 0) if u16_at(bytes, 4) == 255 => vec![WITH_256, LAST_NUMBER],
            (Some(&write::WITHDRAW), 0) if roll.bids().len() == 256 => vec![WITH_256],
            (Some(&write::WITHDRAW), 18) => declined(&roll, round, bytes[3], u16_at(bytes, 4)),
            _ => Vec::new(),
        };
        names.into_iter().for_each(|name| *found.entry(name).or_default() += 1);
    }
    found
}

/// The names of what occurred.
pub fn those_of(occurred: &[(&'static str, bool)]) -> Vec<&'static str> {
    occurred.iter().filter(|(_, so)| *so).map(|(name, _)| *name).collect()
}

/// Why no standing bid of the member in the open round has the number.
fn declined(roll: &Roll, round: u8, member: u8, number: u16) -> Vec<&'static str> {
    let bids = roll.bids();
    let of_member = |bid: &&Bid| bid.stands && bid.member == member && bid.round == round;
    if number > 255 {
        let found_by_one_byte = bids.get(usize::from(number % 256)).filter(of_member).is_some();
        return if found_by_one_byte { vec![PAST_255, ONE_BYTE] } else { vec![PAST_255] };
    }
    match bids.get(usize::from(number)) {
        None => vec![NOT_GIVEN],
        Some(bid) if bid.member != member && bid.stands && bid.round == round => vec![ANOTHERS],
        Some(bid) if bid.member == member && !bid.stands && bid.round == round => vec![TWICE],
        Some(bid) if bid.member == member && bid.stands => vec![OLD_ROUND],
        // Several reasons at once.
        Some(_) => Vec::new(),
    }
}

/// What the withdrawals of the round that was closed last have changed.
fn at_close(roll: &Roll, round: u8, opened: usize, calls: &[Vec<u8>]) -> Vec<&'static str> {
    let bids = roll.bids();
    let of_round = |number: &usize| bids[*number].round == round;
    let (standing, withdrawn): (Vec<usize>, Vec<usize>) =
        (0..bids.len()).filter(of_round).partition(|&number| bids[number].stands);
    if withdrawn.is_empty() {
        return Vec::new();
    }
    let all_standing = without_withdrawals_since(opened, calls);
    let beside = all_standing.bids();
    let emptied = |pool: u8| {
        withdrawn.iter().any(|&number| bids[number].pool == pool)
            && !standing.iter().any(|&number| bids[number].pool == pool)
    };
    those_of(&[
        (CLOSE_WITHOUT, true),
        (WOULD_HAVE_WON, withdrawn.iter().any(|&number| beside[number].won > 0)),
        (OTHERS_WIN_OTHERWISE, standing.iter().any(|&number| beside[number].won != bids[number].won)),
        (SEVERAL, withdrawn.len() >= 3),
        (NONE_IN_A_POOL, (0..4).any(emptied)),
        (SECOND_ROUND, round == 2),
        (AGAIN_BEHIND, withdrawn.iter().any(|&number| is_split_behind(bids, number, &standing))),
    ])
}

/// The ledger after the calls, had no bid been withdrawn since the ROUND.
fn without_withdrawals_since(opened: usize, calls: &[Vec<u8>]) -> Roll {
    let mut roll = Roll::default();
    for (call, bytes) in calls.iter().enumerate() {
        if call < opened || bytes.first() != Some(&write::WITHDRAW) {
            roll.call(bytes);
        }
    }
    roll
}

/// Whether a bid like the withdrawn one was sent later, with another standing bid at its price between them, and won part of its units.
fn is_split_behind(bids: &[Bid], withdrawn: usize, standing: &[usize]) -> bool {
    let old = &bids[withdrawn];
    let like_it = |number: &&usize| {
        let bid = &bids[**number];
        **number > withdrawn
            && (bid.pool, bid.member, bid.units, bid.price) == (old.pool, old.member, old.units, old.price)
    };
    let Some(&again) = standing.iter().find(like_it) else {
        return false;
    };
    let between = |number: &usize| {
        (withdrawn..again).contains(number) && (bids[*number].pool, bids[*number].price) == (old.pool, old.price)
    };
    standing.iter().any(between) && bids[again].won > 0 && bids[again].won < bids[again].units
}

#[cfg(test)]
mod tests {
    use super::*;
    use model::write::{Head, bid, close, head, member, pool, round, withdraw};

    fn found(rest: &[Vec<u8>]) -> Vec<&'static str> {
        let h = Head { pools: 1, least_bid: 1, set: 3, hedge_loss: 0, other_loss: 0, margin: 0, fund: 0, house: 0 };
        let given = [head(&h), pool(0, 3, 0), member(0, 0, [0; 4]), member(1, 0, [0; 4]), round(&[-9])];
        let found = of(&[&given, rest].concat()).into_keys();
        found.filter(|name| TAKEN_BACK.contains(name)).collect()
    }

    #[test]
    fn a_withdrawn_bid_that_would_have_changed_the_allotment_is_told() {
        let bids = [bid(0, 0, 2, -5), bid(0, 1, 2, -5)];
        assert_eq!(found(&[&bids[..], &[close()]].concat()), Vec::<&str>::new());
        let mut told = found(&[&bids[..], &[withdraw(0, 0), close()]].concat());
        told.sort_unstable();
        let mut wanted = [CLOSE_WITHOUT, WOULD_HAVE_WON, OTHERS_WIN_OTHERWISE];
        wanted.sort_unstable();
        // The first bid would have won 2 and left 1 to the second.
        assert_eq!(told, wanted);
        // Below the reserve the bid would have won nothing and changed nothing.
        assert_eq!(found(&[bid(0, 0, 2, -10), bid(0, 1, 2, -5), withdraw(0, 0), close()]), [CLOSE_WITHOUT]);
    }

    #[test]
    fn a_bid_sent_again_behind_another_is_told() {
        let bids = [bid(0, 0, 2, -5), bid(0, 1, 2, -5), withdraw(0, 0), bid(0, 0, 2, -5), close()];
        assert!(found(&bids).contains(&AGAIN_BEHIND));
        let bids = [bid(0, 0, 2, -5), withdraw(0, 0), bid(0, 0, 2, -5), bid(0, 1, 2, -5), close()];
        assert!(!found(&bids).contains(&AGAIN_BEHIND));
    }

    #[test]
    fn each_reason_of_18_is_told_by_itself() {
        let first = [bid(0, 0, 1, -5)];
        let reasons = |calls: &[Vec<u8>]| found(&[&first[..], calls].concat());
        assert_eq!(reasons(&[withdraw(0, 1)]), [NOT_GIVEN]);
        assert_eq!(reasons(&[withdraw(0, 511)]), [PAST_255]);
        assert_eq!(reasons(&[withdraw(0, 256)]), [PAST_255, ONE_BYTE]);
        assert_eq!(reasons(&[withdraw(1, 0)]), [ANOTHERS]);
        assert_eq!(reasons(&[withdraw(0, 0), withdraw(0, 0)]), [TWICE]);
        assert_eq!(reasons(&[close(), round(&[-9]), withdraw(0, 0)]), [OLD_ROUND]);
    }
}
