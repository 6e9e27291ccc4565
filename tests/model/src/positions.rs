//! C-11 of document 02: expected units from daily positions. `expected` is the model to believe; `Ring` is a second writing and the speed baseline.

use crate::field::u32_at;
use crate::split::split;

/// "keeps sums over the last 66 days"
pub const WINDOW: usize = 66;
/// "one 4-byte position of 0 to 10,000,000"
pub const POSITION_LIMIT: u32 = 10_000_000;
/// "pool units ... 1 to 1,000" (document 01)
pub const UNITS_LIMIT: u64 = 1_000;

/// "The members of a case are a set of 32 bits: bit i is member i." (document 01) In member order.
fn members(set: u32) -> Vec<usize> {
    (0..32).filter(|member| set >> member & 1 == 1).collect()
}

/// "day records, each with one 4-byte position ... for every member of the set, in member order"
fn positions(record: &[u8]) -> Vec<u32> {
    (0..record.len() / 4).map(|place| u32_at(record, 4 * place)).collect()
}

/// "A record cut short is declined by 1, before its positions are looked at, and a position out of range by 5"
fn judge(members: usize, record: &[u8]) -> u8 {
    if record.len() < 4 * members {
        return 1;
    }
    if positions(record).iter().any(|&position| position > POSITION_LIMIT) {
        return 5;
    }
    0
}

/// "the run ends there": the byte at which the first record that is declined begins, and its answer. The set is not empty.
pub fn first_declined(set: u32, days: &[u8]) -> Option<(usize, u8)> {
    let members = members(set).len();
    for (number, record) in days.chunks(4 * members).enumerate() {
        let answer = judge(members, record);
        if answer != 0 {
            return Some((4 * members * number, answer));
        }
    }
    None
}

/// "The sums equal those added afresh over the same days": by place in member order, 0 behind the last member. Bytes behind the last whole record are
/// no day.
pub fn sums_afresh(set: u32, days: &[u8]) -> [u64; 32] {
    let mut sums = [0; 32];
    let members = members(set).len();
    if members == 0 {
        return sums;
    }
    let records: Vec<&[u8]> = days.chunks_exact(4 * members).collect();
    // "With fewer than 66 days the sums cover the days there are."
    let first = records.len().saturating_sub(WINDOW);
    for record in &records[first..] {
        for (place, position) in positions(record).into_iter().enumerate() {
            sums[place] += u64::from(position);
        }
    }
    sums
}

/// The answer to a whole run and, where it is 0, the shares by member, 0 for whoever is not in the set; else they stay as they were.
pub fn expected(set: u32, units: u64, days: &[u8], shares: &mut [u64; 32]) -> u8 {
    // "An empty set, or pool units out of range, is declined by 5 before the run."
    if set == 0 || units == 0 || units > UNITS_LIMIT {
        return 5;
    }
    // "the run ends there without a result"
    if let Some((_, answer)) = first_declined(set, days) {
        return answer;
    }
    // "When the run ends, a pool's units are split by those sums, in member order."
    let members = members(set);
    let sums = sums_afresh(set, days);
    let parts = split(units, &sums[..members.len()]);
    *shares = [0; 32];
    for (member, part) in members.into_iter().zip(parts) {
        shares[member] = part;
    }
    0
}

/// The last 66 days and their sums, kept as the run goes by.
#[derive(Clone, Debug)]
pub struct Ring {
    set: u32,
    members: usize,
    /// A row a day, the oldest overwritten by the next; all 0 at first, so that a day that never was takes nothing off the sums.
    days: Vec<u32>,
    /// The row that the next day is written to.
    row: usize,
    sums: [u64; 32],
}

impl Ring {
    pub fn new(set: u32) -> Ring {
        let members = set.count_ones() as usize;
        Ring { set, members, days: vec![0; WINDOW * members], row: 0, sums: [0; 32] }
    }

    /// By place in member order. After an answer of 5 to `take` they mean nothing, since the record that is declined may have been added in part.
    pub fn sums(&self) -> &[u64; 32] {
        &self.sums
    }

    /// Takes the whole records at the front: how many bytes that were, and 5 where the set is empty or the next record has a position out of range.
    pub fn take(&mut self, days: &[u8]) -> (usize, u8) {
        if self.members == 0 {
            return (0, 5);
        }
        let mut used = 0;
        for record in days.chunks_exact(4 * self.members) {
            let row = &mut self.days[self.row * self.members..][..self.members];
            for ((bytes, kept), sum) in record.chunks_exact(4).zip(row).zip(&mut self.sums) {
                let position = u32::from_be_bytes(bytes.try_into().unwrap());
                if position > POSITION_LIMIT {
                    return (used, 5);
                }
                *sum = *sum - u64::from(*kept) + u64::from(position);
                *kept = position;
            }
            self.row = (self.row + 1) % WINDOW;
            used += record.len();
        }
        (used, 0)
    }

    /// The end of a run of which `left` bytes were not taken.
    pub fn end(&self, units: u64, left: usize, shares: &mut [u64; 32]) -> u8 {
        if self.set == 0 || !(1..=UNITS_LIMIT).contains(&units) {
            return 5;
        }
        if left != 0 {
            return 1;
        }
        let mut parts = split(units, &self.sums[..self.members]).into_iter();
        for (member, share) in shares.iter_mut().enumerate() {
            *share = if self.set >> member & 1 == 1 { parts.next().unwrap_or(0) } else { 0 };
        }
        0
    }

    /// A whole run at once.
    pub fn run(set: u32, units: u64, days: &[u8], shares: &mut [u64; 32]) -> u8 {
        if set == 0 || !(1..=UNITS_LIMIT).contains(&units) {
            return 5;
        }
        let mut ring = Ring::new(set);
        match ring.take(days) {
            (used, 0) => ring.end(units, days.len() - used, shares),
            (_, answer) => answer,
        }
    }
}
