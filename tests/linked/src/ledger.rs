//! The proved ledger as safe Rust. `include/ledger.h` says what each function does.
use model::field::{exactly_one, price_at};
use model::{Ledger, MemberOutcome, Outcome, Stage, write};
use std::collections::BTreeSet;

/// What is shown of a case; `struct ledger_shown` of the header.
#[repr(C)]
#[derive(Clone, Debug, PartialEq, Eq)]
pub struct Shown {
    pub present: bool,
    pub stage: u8,
    pub round: u8,
    pub pools: u8,
    pub bids: usize,
    pub stands: [bool; 256],
    pub counts: [u64; 20],
    pub prices: i64,
    pub requirement: u64,
    pub prefunded: u64,
    pub owes: [u64; 32],
    pub loss: u64,
    pub charges: [u64; 6],
    pub uncovered: u64,
    pub ranks: [u8; 32],
    pub contributions: [u64; 32],
    pub payments: [u64; 32],
}

/// Whether a whole text was written, and its length; `struct ledger_printed` of the header.
#[repr(C)]
#[derive(Clone, Copy, Debug, PartialEq, Eq)]
pub struct Printed {
    pub whole: bool,
    pub len: usize,
}

/// The answer of a reading and what it reads, in cents; `struct ledger_reading` of the header.
#[repr(C)]
#[derive(Clone, Copy, Debug, PartialEq, Eq)]
pub struct Reading {
    pub answer: u8,
    pub cents: u64,
}

mod c {
    #[link(name = "exports", kind = "static")]
    unsafe extern "C" {
        pub fn ledger_run(input: *const u8, n: usize, answers: *mut u8, a: usize) -> usize;
        pub fn ledger_print(input: *const u8, n: usize, out: *mut u8, o: usize) -> super::Printed;
        pub fn ledger_calls(bytes: *const u8, n: usize, ends: *const usize, e: usize, answers: *mut u8, a: usize) -> super::Shown;
        pub fn ledger_holdings(
            bytes: *const u8,
            n: usize,
            ends: *const usize,
            e: usize,
            members: *const u8,
            m: usize,
            pools: *const u8,
            p: usize,
            prices: *const u32,
            c: usize,
            units: *mut u64,
            u: usize,
        );
        pub fn ledger_requirement(bytes: *const u8, n: usize, ends: *const usize, e: usize) -> super::Reading;
        pub fn ledger_pool_prices(bytes: *const u8, n: usize, ends: *const usize, e: usize, pool: u8) -> i64;
    }
}

/// The fields of a whole input, as many as there is room for answers.
pub fn run(input: &[u8], answers: &mut [u8]) -> usize {
    unsafe { c::ledger_run(input.as_ptr(), input.len(), answers.as_mut_ptr(), answers.len()) }
}

/// The text of a whole input, at the front of the buffer, where that has room for four times the input and 4,096 bytes.
pub fn print(input: &[u8], out: &mut [u8]) -> Printed {
    unsafe { c::ledger_print(input.as_ptr(), input.len(), out.as_mut_ptr(), out.len()) }
}

/// Calls taken in turn, from no case on, and what they lead to.
pub fn calls(bytes: &[u8], ends: &[usize], answers: &mut [u8]) -> Shown {
    unsafe { c::ledger_calls(bytes.as_ptr(), bytes.len(), ends.as_ptr(), ends.len(), answers.as_mut_ptr(), answers.len()) }
}

/// After the same calls, the units that members hold, asked by member, pool and price (cents + 1,000,000).
pub fn holdings(bytes: &[u8], ends: &[usize], members: &[u8], pools: &[u8], prices: &[u32], units: &mut [u64]) {
    unsafe {
        c::ledger_holdings(
            bytes.as_ptr(),
            bytes.len(),
            ends.as_ptr(),
            ends.len(),
            members.as_ptr(),
            members.len(),
            pools.as_ptr(),
            pools.len(),
            prices.as_ptr(),
            prices.len(),
            units.as_mut_ptr(),
            units.len(),
        )
    }
}

/// After the same calls, the requirement; answer 2 where there is no case.
pub fn requirement(bytes: &[u8], ends: &[usize]) -> Reading {
    unsafe { c::ledger_requirement(bytes.as_ptr(), bytes.len(), ends.as_ptr(), ends.len()) }
}

/// After the same calls, the running sum of a pool's prices in cents; 0 where there is no case or the pool is above 3.
pub fn pool_prices(bytes: &[u8], ends: &[usize], pool: u8) -> i64 {
    unsafe { c::ledger_pool_prices(bytes.as_ptr(), bytes.len(), ends.as_ptr(), ends.len(), pool) }
}

/// What is read after some calls: the requirement, and the running sums of pools 0 to 4, of which no case has the last.
#[derive(Clone, Copy, Debug, PartialEq, Eq)]
pub struct Readings {
    pub requirement: Reading,
    pub prices: [i64; 5],
}

impl Readings {
    pub fn after(bytes: &[u8], ends: &[usize]) -> Readings {
        let prices = std::array::from_fn(|pool| pool_prices(bytes, ends, pool as u8));
        Readings { requirement: requirement(bytes, ends), prices }
    }
}

/// A ledger over the proved functions: it keeps the bytes of the calls that were accepted, and what they lead to.
#[derive(Clone, Debug, PartialEq, Eq)]
pub struct Proved {
    bytes: Vec<u8>,
    ends: Vec<usize>,
    set: u32,
    prices: BTreeSet<i64>,
    shown: Shown,
    readings: Readings,
}

impl Default for Proved {
    fn default() -> Proved {
        Proved {
            bytes: Vec::new(),
            ends: Vec::new(),
            set: 0,
            prices: BTreeSet::from([0]),
            shown: calls(&[], &[], &mut []),
            readings: Readings::after(&[], &[]),
        }
    }
}

impl Proved {
    /// The prices that accepted calls have named, and 0.
    pub fn prices(&self) -> &BTreeSet<i64> {
        &self.prices
    }

    /// What is shown, number by number.
    pub fn shown(&self) -> &Shown {
        &self.shown
    }

    /// What is read of the requirement and of its sums.
    pub fn readings(&self) -> &Readings {
        &self.readings
    }

    /// Whether each bid kept stands, by its number.
    pub fn stands(&self) -> &[bool] {
        &self.shown.stands[..self.shown.bids]
    }

    /// The holdings asked for, each by member, pool and price in cents; a price that no unit can have is held by nobody.
    pub fn ask(&self, asked: &[(u8, u8, i64)]) -> Vec<u64> {
        let members: Vec<u8> = asked.iter().map(|a| a.0).collect();
        let pools: Vec<u8> = asked.iter().map(|a| a.1).collect();
        let prices: Vec<u32> = asked.iter().map(|a| u32::try_from(a.2 + 1_000_000).unwrap_or(u32::MAX)).collect();
        let mut units = vec![0; asked.len()];
        holdings(&self.bytes, &self.ends, &members, &pools, &prices, &mut units);
        units
    }

    /// All holdings of the members (member, pool, price, units), each from high prices to low.
    pub fn all_holdings(&self, members: impl Iterator<Item = u8>) -> Vec<(u8, u8, i64, u64)> {
        let mut asked = Vec::new();
        for member in members {
            for pool in 0..4 {
                asked.extend(self.prices.iter().rev().map(|&price| (member, pool, price)));
            }
        }
        let units = self.ask(&asked);
        asked.iter().zip(units).filter(|(_, u)| *u > 0).map(|(a, u)| (a.0, a.1, a.2, u)).collect()
    }
}

/// The price that a call names.
fn price_in(bytes: &[u8]) -> Option<i64> {
    let field = exactly_one(bytes)?;
    match field.tag {
        write::BID => Some(price_at(field.value, 4)),
        write::ALLOCATE | write::TEAR | write::MISS => Some(price_at(field.value, 1)),
        write::SALE => Some(price_at(field.value, 2)),
        _ => None,
    }
}

impl Ledger for Proved {
    fn call(&mut self, bytes: &[u8]) -> u8 {
        let before = self.bytes.len();
        self.bytes.extend_from_slice(bytes);
        self.ends.push(self.bytes.len());
        let mut answers = vec![0xee; self.ends.len()];
        let shown = calls(&self.bytes, &self.ends, &mut answers);
        let readings = Readings::after(&self.bytes, &self.ends);
        let answer = *answers.last().unwrap();
        assert!(answers[..answers.len() - 1].iter().all(|a| *a == 0), "a call that was accepted is declined: {answers:?}");
        if answer == 0 {
            if self.ends.len() == 1 {
                self.set = model::field::u32_at(bytes, 6);
            }
            self.prices.extend(price_in(bytes));
            self.shown = shown;
            self.readings = readings;
        } else {
            assert!(shown == self.shown, "a declined call left something changed");
            assert_eq!(readings, self.readings, "a declined call changed what is read");
            self.bytes.truncate(before);
            self.ends.pop();
        }
        answer
    }

    fn stage(&self) -> Option<Stage> {
        match (self.shown.present, self.shown.stage, self.shown.round) {
            (false, 0, 0) => None,
            (true, 1, 0) => Some(Stage::Setup),
            (true, 2, round) => Some(Stage::Bidding(round)),
            (true, 3, round) => Some(Stage::After(round)),
            (true, 4, 0) => Some(Stage::CallsOut),
            (true, 5, 0) => Some(Stage::Finished),
            other => panic!("no stage: {other:?}"),
        }
    }

    fn pools_given(&self) -> u8 {
        self.shown.pools
    }

    fn counts(&self, pool: u8) -> [u64; 5] {
        let at = usize::from(pool) * 5;
        self.shown.counts.get(at..at + 5).map_or([0; 5], |c| c.try_into().unwrap())
    }

    fn holding(&self, member: u8, pool: u8, price_cents: i64) -> u64 {
        self.ask(&[(member, pool, price_cents)])[0]
    }

    fn holdings(&self, member: u8) -> Vec<(u8, i64, u64)> {
        self.all_holdings([member].into_iter()).into_iter().map(|h| (h.1, h.2, h.3)).collect()
    }

    fn sum_of_prices(&self) -> i64 {
        self.shown.prices
    }

    fn prices_of(&self, pool: u8) -> i64 {
        self.readings.prices.get(usize::from(pool)).copied().unwrap_or_else(|| pool_prices(&self.bytes, &self.ends, pool))
    }

    fn requirement(&self) -> Option<u64> {
        self.shown.present.then_some(self.shown.requirement)
    }

    fn reading(&self) -> (u8, u64) {
        (self.readings.requirement.answer, self.readings.requirement.cents)
    }

    fn prefunded(&self) -> Option<u64> {
        self.shown.present.then_some(self.shown.prefunded)
    }

    fn owes(&self, member: u8) -> u64 {
        self.shown.owes.get(usize::from(member)).copied().unwrap_or(0)
    }

    fn result(&self) -> Option<Outcome> {
        let s = &self.shown;
        let members = (0..32).filter(|m| self.set >> m & 1 == 1);
        (s.stage == 5).then(|| Outcome {
            loss: s.loss,
            charges: s.charges,
            uncovered: s.uncovered,
            members: members
                .map(|m| MemberOutcome {
                    member: m as u8,
                    rank: u64::from(s.ranks[m]),
                    contribution_charge: s.contributions[m],
                    payment_charge: s.payments[m],
                })
                .collect(),
        })
    }
}
