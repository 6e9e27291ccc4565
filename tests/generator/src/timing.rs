//! One long input of small fields for timing: every field is read, most of them change nothing or one number.

use crate::rng::Rng;
use model::write::{self, Head};

/// Members, each of whom can pay many times.
const MEMBERS: u8 = 8;

/// An input of so many fields: a full case with bids kept and declined, many payments of a cent, and calls after its end.
pub fn timing(fields: usize) -> Vec<u8> {
    let mut rng = Rng::new(fields as u64);
    let mut calls = opening();
    let rest = fields.saturating_sub(calls.len());
    let bids = rest / 3;
    let payments = rest / 3;
    calls.extend((0..bids).map(|_| any_bid(&mut rng)));
    calls.push(write::close());
    calls.extend((0..4).map(|pool| write::tear(pool, -1)));
    calls.push(write::call());
    calls.extend((0..payments).map(|_| write::pay(rng.below(MEMBERS.into()) as u8, 1)));
    calls.extend((0..MEMBERS).map(write::move_units));
    calls.push(write::finish());
    while calls.len() < fields {
        calls.push(any_bid(&mut rng));
    }
    calls.truncate(fields);
    calls.concat()
}

/// An input of so many fields, of which all but the first few are refused: bids for pools and members that are not there, below the least bid or out of
/// range, calls of other stages, wrong lengths and unknown tags.
pub fn refused(fields: usize) -> Vec<u8> {
    let mut rng = Rng::new(fields as u64);
    let mut calls = opening();
    while calls.len() < fields {
        let (pool, member) = (rng.below(4) as u8, rng.below(MEMBERS.into()) as u8);
        calls.push(match rng.below(10) {
            0 => write::bid(4 + pool, member, 5, -10),
            1 => write::bid(pool, MEMBERS + member, 5, -10),
            2 => write::bid(pool, member, 0, -10),
            3 => write::bid(pool, member, 5, 1_000_001),
            4 => write::pool(pool, 10, 0),
            5 => write::pay(member, 1),
            6 => write::tear(pool, -1),
            7 => write::finish(),
            8 => write::field(write::CLOSE, &[0]),
            _ => write::field(16 + member, &[1, 2, 3]),
        });
    }
    calls.truncate(fields);
    calls.concat()
}

/// An input of so many fields that are all accepted: 256 bids, and payments of a cent.
pub fn accepted(fields: usize) -> Vec<u8> {
    let mut rng = Rng::new(fields as u64);
    let mut calls = opening();
    calls.extend((0..256).map(|_| any_bid(&mut rng)));
    calls.push(write::close());
    calls.extend((0..4).map(|pool| write::tear(pool, -1)));
    calls.push(write::call());
    while calls.len() < fields {
        calls.push(write::pay(rng.below(MEMBERS.into()) as u8, 1));
    }
    calls.truncate(fields);
    calls.concat()
}

/// HEAD, POOLs, MEMBERs and ROUND of a case that is called for all contributions.
fn opening() -> Vec<Vec<u8>> {
    let head = Head {
        pools: 4,
        least_bid: 1,
        set: (1 << MEMBERS) - 1,
        hedge_loss: 2_000_000_000,
        other_loss: 2_000_000_000,
        margin: 0,
        fund: 0,
        house: 0,
    };
    let mut calls = vec![write::head(&head)];
    calls.extend((0..4).map(|pool| write::pool(pool, 1000, 0)));
    calls.extend((0..MEMBERS).map(|member| write::member(member, 200_000_000, [100; 4])));
    calls.push(write::round(&[-1000; 4]));
    calls
}

fn any_bid(rng: &mut Rng) -> Vec<u8> {
    let (pool, member) = (rng.below(4) as u8, rng.below(MEMBERS.into()) as u8);
    write::bid(pool, member, 1 + rng.below(20) as u16, rng.between(-1100, 100) as i32)
}
