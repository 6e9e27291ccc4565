//! CLOSE's rule for one pool, and the auction run alone.

use crate::split::split;
use std::cmp::Reverse;

/// The auction alone takes at most this many bids.
pub const BIDS_LIMIT: usize = 256;
/// The flat auction inside a case has two places more.
pub const PLACES_LIMIT: usize = 258;
/// Units of a pool or of a bid at their most.
pub const UNITS_LIMIT: u64 = 1000;
/// A price or a reserve lies between minus and plus this many cents.
pub const PRICE_LIMIT: i64 = 1_000_000;
/// Flat prices are held as cents plus a million, so they run from 0 to this.
pub const HELD_PRICE_LIMIT: u32 = 2_000_000;

/// A bid record of the auction run alone over a lent run.
#[repr(C)]
#[derive(Clone, Copy, Debug, Default, PartialEq, Eq)]
pub struct BidRecord {
    pub units: u16,
    pub price: i32,
}

/// Units won by each bid (units, price) of one pool, the prices taken from high to low until the open units are gone.
pub fn allot(open: u64, reserve: i64, bids: &[(u64, i64)]) -> Vec<u64> {
    let mut valid: Vec<usize> = (0..bids.len()).filter(|&i| bids[i].1 >= reserve).collect();
    // The sort is stable, so bids at one price stay in bid order.
    valid.sort_by_key(|&i| Reverse(bids[i].1));
    let mut won = vec![0; bids.len()];
    let mut left = open;
    for level in valid.chunk_by(|&a, &b| bids[a].1 == bids[b].1) {
        let asked: u128 = level.iter().map(|&i| u128::from(bids[i].0)).sum();
        if asked <= u128::from(left) {
            level.iter().for_each(|&i| won[i] = bids[i].0);
            left -= asked as u64;
        } else {
            let units: Vec<u64> = level.iter().map(|&i| bids[i].0).collect();
            for (&i, share) in level.iter().zip(split(left, &units)) {
                won[i] = share;
            }
            break;
        }
    }
    won
}

/// The auction alone over flat runs, prices held as cents plus a million.
pub fn alone_flat(open_units: u64, reserve: u32, units: &[u64], prices: &[u32], counts: &mut [u64]) -> u8 {
    flat(BIDS_LIMIT, 1, open_units, reserve, units, prices, counts)
}

/// The auction as the case runs it: two places more, and a bid of 0 units is as if it were not there.
pub fn allot_flat(open_units: u64, reserve: u32, units: &[u64], prices: &[u32], won: &mut [u64]) -> u8 {
    flat(PLACES_LIMIT, 0, open_units, reserve, units, prices, won)
}

fn flat(
    places: usize,
    least: u64,
    open_units: u64,
    reserve: u32,
    units: &[u64],
    prices: &[u32],
    counts: &mut [u64],
) -> u8 {
    if units.len() != prices.len() || units.len() != counts.len() || units.len() > places {
        return 1;
    }
    let units_fit = units.iter().all(|&u| (least..=UNITS_LIMIT).contains(&u));
    let prices_fit = prices.iter().all(|&p| p <= HELD_PRICE_LIMIT);
    if open_units > UNITS_LIMIT || reserve > HELD_PRICE_LIMIT || !units_fit || !prices_fit {
        return 5;
    }
    let cents = |held: u32| i64::from(held) - PRICE_LIMIT;
    let bids: Vec<(u64, i64)> = units.iter().zip(prices).map(|(&u, &p)| (u, cents(p))).collect();
    counts.copy_from_slice(&allot(open_units, cents(reserve), &bids));
    0
}

/// "An auction can also be run alone, over a lent run of bid records (units, price), with open units 0 to 1,000, a reserve and a
/// lent run of counts: 1 if the runs differ in length or pass 256, 5 if a number is out of range, counts then untouched."
pub fn alone_lent(bids: &[BidRecord], open_units: u16, reserve: i32, counts: &mut [u64]) -> u8 {
    if bids.len() != counts.len() || bids.len() > BIDS_LIMIT {
        return 1;
    }
    let price_fits = |price: i32| i64::from(price).abs() <= PRICE_LIMIT;
    let bid_fits = |b: &BidRecord| (1..=UNITS_LIMIT).contains(&u64::from(b.units)) && price_fits(b.price);
    if u64::from(open_units) > UNITS_LIMIT || !price_fits(reserve) || !bids.iter().all(bid_fits) {
        return 5;
    }
    let pairs: Vec<(u64, i64)> = bids.iter().map(|b| (u64::from(b.units), i64::from(b.price))).collect();
    counts.copy_from_slice(&allot(u64::from(open_units), i64::from(reserve), &pairs));
    0
}

#[cfg(test)]
mod tests {
    use super::*;

    /// The rule of CLOSE for one bid, by its own words.
    fn wins(open: u64, reserve: i64, bids: &[(u64, i64)], number: usize) -> u64 {
        let (units, price) = bids[number];
        let asked = |least: i64| bids.iter().filter(|b| b.1 >= least).map(|b| b.0).sum::<u64>();
        if price < reserve || asked(price + 1) >= open {
            return 0;
        }
        if asked(price) <= open {
            return units;
        }
        let at_price: Vec<usize> = (0..bids.len()).filter(|&i| bids[i].1 == price).collect();
        let weights: Vec<u64> = at_price.iter().map(|&i| bids[i].0).collect();
        let place = at_price.iter().position(|&i| i == number);
        split(open - asked(price + 1), &weights)[place.expect("the bid stands at its own price")]
    }

    /// All lists of three bids of 0 to 3 units at three prices, against reserves and open units around them.
    #[test]
    fn allotting_level_by_level_is_the_rule_bid_by_bid() {
        for code in 0..12u64.pow(3) {
            let bid = |place: u32| (code / 12u64.pow(place) % 4, (code / 12u64.pow(place) / 4 % 3) as i64 - 1);
            let bids = [bid(0), bid(1), bid(2)];
            for (open, reserve) in (0..10).flat_map(|open| (-2..3).map(move |reserve| (open, reserve))) {
                let each: Vec<u64> = (0..3).map(|number| wins(open, reserve, &bids, number)).collect();
                assert_eq!(allot(open, reserve, &bids), each, "{open} open, reserve {reserve}, bids {bids:?}");
            }
        }
    }
}
