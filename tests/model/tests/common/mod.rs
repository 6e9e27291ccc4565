//! What the tests share: feeding both ledgers one list of calls.

use model::write::{Head, head, member, pool};
use model::{Counts, Ledger, Roll};

/// Runs the test over the roll and over the counts.
pub fn both(test: impl Fn(&mut dyn Ledger)) {
    test(&mut Roll::default());
    test(&mut Counts::default());
}

/// The answers to a list of calls.
pub fn feed(ledger: &mut dyn Ledger, calls: &[Vec<u8>]) -> Vec<u8> {
    calls.iter().map(|bytes| ledger.call(bytes)).collect()
}

/// Feeds calls all of which are to be accepted.
#[track_caller]
pub fn accepted(ledger: &mut dyn Ledger, calls: &[Vec<u8>]) {
    assert_eq!(feed(ledger, calls), vec![0; calls.len()]);
}

/// A HEAD with members 0 and up, a least bid of 1 and no money.
pub fn head_of(pools: u8, members: u32) -> Head {
    Head {
        pools,
        least_bid: 1,
        set: ((1u64 << members) - 1) as u32,
        hedge_loss: 0,
        other_loss: 0,
        margin: 0,
        fund: 0,
        house: 0,
    }
}

#[allow(dead_code)]
pub fn lines(text: Vec<u8>) -> String {
    String::from_utf8(text).unwrap()
}

#[allow(dead_code)]
pub const NONE: [u16; 4] = [0; 4];

/// HEAD and some pools (units, mark); members 0 and up with contribution and expected units follow.
#[allow(dead_code)]
pub fn setup(h: &Head, pools: &[(u16, u8)], members: &[(u32, [u16; 4])]) -> Vec<Vec<u8>> {
    let mut calls = vec![head(h)];
    for (number, &(units, mark)) in pools.iter().enumerate() {
        calls.push(pool(number as u8, units, mark));
    }
    for (number, &(contribution, expected)) in members.iter().enumerate() {
        calls.push(member(number as u8, contribution, expected));
    }
    calls
}

#[allow(dead_code)]
pub fn ranks(ledger: &dyn Ledger) -> Vec<u64> {
    let members = ledger.result().unwrap().members;
    members.iter().map(|m| m.rank).collect()
}
