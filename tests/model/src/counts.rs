//! The ledger held as counts only: no list of units, and no call that sweeps over units.
//!
//! It is the speed baseline, and a second writing of document 01 and of C-12 and C-14 to C-16 against which the roll is compared. Refusals are checked call by
//! call in the order of their numbers.

use crate::auction::allot;
use crate::field::{self, price_at, u16_at, u32_at};
use crate::ledger::{Ledger, MemberOutcome, Outcome, Stage};
use crate::split::split;
use std::cmp::{Ordering, Reverse};

const POOLS: usize = 4;
const MEMBERS: usize = 32;
const BIDS_LIMIT: usize = 256;
const UNITS_LIMIT: u64 = 1_000;
const PRICE_LIMIT: i64 = 1_000_000;
const LOSS_LIMIT: u64 = 2_000_000_000;
const MARGIN_LIMIT: u64 = 4_000_000_000;
const HOUSE_LIMIT: u64 = 4_000_000_000;
const FUND_LIMIT: u64 = 500_000_000;
const PAYMENT_LIMIT: u64 = 1_000_000_000;

/// The case in counts; with no stage there is no case.
#[derive(Clone, Debug, Default, PartialEq, Eq)]
pub struct Counts {
    stage: Option<Stage>,
    pools: usize,
    least_bid: u64,
    set: u32,
    losses: i64,
    margin: u64,
    fund: u64,
    house: u64,
    pools_given: usize,
    members_given: u32,
    pool: [Pool; POOLS],
    member: [Member; MEMBERS],
    contributions: u64,
    bids: Vec<Bid>,
    /// The numbers of the bids of the open round that were not withdrawn, in bid order.
    to_allot: Vec<usize>,
    /// Torn units by pool and price, in the order they were torn.
    torn: Vec<Torn>,
    /// Members with a call not yet paid or moved away.
    owing: u32,
    result: Option<Outcome>,
}

#[derive(Clone, Copy, Debug, Default, PartialEq, Eq)]
struct Pool {
    positive_mark: bool,
    reserve: i64,
    worst_reserve: i64,
    open: u64,
    sold: u64,
    allocated: u64,
    moved: u64,
    torn: u64,
    /// C-16: "a running sum of the prices of units that have left the house (all that aren't open)"; it may be below 0.
    prices: i64,
    /// ALLOCATE is accepted at most once in a pool, so all its allocated units have one price.
    allocated_price: i64,
    /// A pool that was sold by agreement was sold whole, to one member.
    agreed: Option<Agreed>,
}

#[derive(Clone, Copy, Debug, PartialEq, Eq)]
struct Agreed {
    member: usize,
    price: i64,
    units: u64,
}

#[derive(Clone, Copy, Debug, Default, PartialEq, Eq)]
struct Member {
    contribution: u64,
    expected: [u64; POOLS],
    won: [u64; POOLS],
    allocated: [u64; POOLS],
    /// Stays when allocated units are moved away or torn.
    ever_allocated: [u64; POOLS],
    moved: [u64; POOLS],
    call: u64,
    paid: u64,
}

#[derive(Clone, Copy, Debug, PartialEq, Eq)]
struct Bid {
    pool: usize,
    member: usize,
    units: u64,
    price: i64,
    won: u64,
    /// Units of those won that no MOVE has taken.
    sold: u64,
}

#[derive(Clone, Copy, Debug, PartialEq, Eq)]
struct Torn {
    pool: usize,
    price: i64,
    units: u64,
}

fn price_fits(price: i64) -> bool {
    (-PRICE_LIMIT..=PRICE_LIMIT).contains(&price)
}

/// How many units of a negative price save what is needed, at most those there are.
fn units_to_move(there: u64, price: i64, needed: u64) -> u64 {
    there.min(needed.div_ceil(price.unsigned_abs()))
}

impl Counts {
    fn length_fits(&self, tag: u8, length: usize) -> bool {
        match tag {
            1 => length == 27,
            2 => length == 4,
            3 => length == 13,
            4 if self.stage.is_none() => matches!(length, 4 | 8 | 12 | 16),
            4 => length == 4 * self.pools,
            5 => length == 8,
            7 | 8 | 10 | 12 => length == 5,
            11 => length == 1,
            6 | 9 | 13 => length == 0,
            14 => length == 6,
            15 => length == 3,
            _ => false,
        }
    }

    fn is_after(&self) -> bool {
        matches!(self.stage, Some(Stage::After(_)))
    }

    fn is_bidding(&self) -> bool {
        matches!(self.stage, Some(Stage::Bidding(_)))
    }

    fn has_member(&self, member: usize) -> bool {
        member < MEMBERS && self.set >> member & 1 == 1
    }

    /// The members of the set in member order.
    fn members(&self) -> impl Iterator<Item = usize> + use<> {
        let mut rest = self.set;
        std::iter::from_fn(move || {
            let next = rest.trailing_zeros() as usize;
            rest &= rest.wrapping_sub(1);
            (next < MEMBERS).then_some(next)
        })
    }

    fn any_open(&self) -> bool {
        self.pool.iter().any(|pool| pool.open > 0)
    }

    /// The running sums of the pools together.
    fn prices(&self) -> i64 {
        self.pool.iter().map(|pool| pool.prices).sum()
    }

    /// C-16: "The requirement is then read from this sum and the two losses alone".
    fn required(&self) -> u64 {
        u64::try_from(self.losses - self.prices()).unwrap_or(0)
    }

    fn held_ready(&self) -> u64 {
        self.margin + self.fund + self.house + self.contributions
    }

    fn owed(&self, member: usize) -> u64 {
        match self.owing >> member & 1 {
            0 => 0,
            _ => self.member[member].call - self.member[member].paid,
        }
    }

    fn head(&mut self, value: &[u8]) -> u8 {
        if self.stage.is_some() {
            return 2;
        }
        let number = |at| u64::from(u32_at(value, at));
        let (pools, least_bid, set) = (value[0], u64::from(u16_at(value, 1)), u32_at(value, 3));
        let (hedge, other) = (number(7), number(11));
        let (margin, fund, house) = (number(15), number(19), number(23));
        let fits = (1..=POOLS).contains(&usize::from(pools))
            && (1..=UNITS_LIMIT).contains(&least_bid)
            && set != 0
            && hedge.max(other) <= LOSS_LIMIT
            && margin <= MARGIN_LIMIT
            && fund <= FUND_LIMIT
            && house <= HOUSE_LIMIT;
        if !fits {
            return 5;
        }
        self.stage = Some(Stage::Setup);
        self.pools = pools.into();
        self.least_bid = least_bid;
        self.set = set;
        self.losses = (hedge + other) as i64;
        self.margin = margin;
        self.fund = fund;
        self.house = house;
        0
    }

    fn put_up(&mut self, value: &[u8]) -> u8 {
        if self.stage != Some(Stage::Setup) {
            return 2;
        }
        let number = usize::from(value[0]);
        if number >= self.pools || number != self.pools_given {
            return 3;
        }
        let units = u64::from(u16_at(value, 1));
        if units == 0 || units > UNITS_LIMIT || value[3] > 1 {
            return 5;
        }
        self.pool[number].open = units;
        self.pool[number].positive_mark = value[3] == 1;
        self.pools_given += 1;
        0
    }

    fn enrol(&mut self, value: &[u8]) -> u8 {
        if self.stage != Some(Stage::Setup) {
            return 2;
        }
        let number = usize::from(value[0]);
        if !self.has_member(number) || self.members_given >> number & 1 == 1 {
            return 4;
        }
        let contribution = u64::from(u32_at(value, 1));
        let expected: [u64; POOLS] = std::array::from_fn(|p| u16_at(value, 5 + 2 * p).into());
        let (of_case, of_none) = expected.split_at(self.pools);
        if contribution > FUND_LIMIT
            || of_case.iter().any(|&units| units > UNITS_LIMIT)
            || of_none.iter().any(|&units| units != 0)
        {
            return 5;
        }
        self.member[number].contribution = contribution;
        self.member[number].expected = expected;
        self.contributions += contribution;
        self.members_given |= 1 << number;
        0
    }

    fn open_round(&mut self, value: &[u8]) -> u8 {
        let round = match self.stage {
            Some(Stage::Setup) => 1,
            Some(Stage::After(1)) => 2,
            _ => return 2,
        };
        let reserve = |pool: usize| price_at(value, 4 * pool);
        if !(0..self.pools).all(|pool| price_fits(reserve(pool))) {
            return 5;
        }
        if round == 2 && !self.any_open() {
            return 8;
        }
        if self.pools_given < self.pools || self.members_given != self.set {
            return 10;
        }
        for (number, pool) in self.pool[..self.pools].iter_mut().enumerate() {
            pool.reserve = reserve(number);
            if round == 1 {
                pool.worst_reserve = pool.reserve;
            } else if pool.open > 0 {
                pool.worst_reserve = pool.worst_reserve.min(pool.reserve);
            }
        }
        self.stage = Some(Stage::Bidding(round));
        0
    }

    fn sell_by_agreement(&mut self, value: &[u8]) -> u8 {
        if self.stage != Some(Stage::Setup) {
            return 2;
        }
        let (number, member, price) = (usize::from(value[0]), usize::from(value[1]), price_at(value, 2));
        if number >= self.pools {
            return 3;
        }
        if !self.has_member(member) {
            return 4;
        }
        if !price_fits(price) {
            return 5;
        }
        let units = self.pool[number].open;
        if units == 0 {
            return 8;
        }
        if self.pools_given < self.pools || self.members_given != self.set {
            return 10;
        }
        // In stage S no unit has left but by agreement.
        let prices = self.prices() + units as i64 * price;
        if self.losses - prices > (self.margin + self.fund) as i64 {
            return 17;
        }
        let pool = &mut self.pool[number];
        pool.open = 0;
        pool.sold = units;
        pool.prices += units as i64 * price;
        pool.agreed = Some(Agreed { member, price, units });
        if !self.any_open() {
            self.stage = Some(Stage::After(1));
        }
        0
    }

    fn bid(&mut self, value: &[u8]) -> u8 {
        if !self.is_bidding() {
            return 2;
        }
        let (pool, member) = (usize::from(value[0]), usize::from(value[1]));
        let (units, price) = (u64::from(u16_at(value, 2)), price_at(value, 4));
        if pool >= self.pools {
            return 3;
        }
        if !self.has_member(member) {
            return 4;
        }
        if units == 0 || units > UNITS_LIMIT || !price_fits(price) {
            return 5;
        }
        if units < self.least_bid {
            return 6;
        }
        if self.bids.len() >= BIDS_LIMIT {
            return 7;
        }
        if self.pool[pool].open == 0 {
            return 8;
        }
        self.bids.push(Bid { pool, member, units, price, won: 0, sold: 0 });
        self.to_allot.push(self.bids.len() - 1);
        0
    }

    /// Takes the bid from those that are allotted; its record stays among the bids and keeps its place.
    fn withdraw(&mut self, value: &[u8]) -> u8 {
        if !self.is_bidding() {
            return 2;
        }
        let (member, number) = (usize::from(value[0]), usize::from(u16_at(value, 1)));
        if !self.has_member(member) {
            return 4;
        }
        let Ok(place) = self.to_allot.binary_search(&number) else {
            return 18;
        };
        if self.bids[number].member != member {
            return 18;
        }
        self.to_allot.remove(place);
        0
    }

    fn close(&mut self) -> u8 {
        let Some(Stage::Bidding(round)) = self.stage else {
            return 2;
        };
        let to_allot = std::mem::take(&mut self.to_allot);
        for pool in 0..self.pools {
            let numbers: Vec<usize> =
                to_allot.iter().copied().filter(|&number| self.bids[number].pool == pool).collect();
            let offers: Vec<(u64, i64)> =
                numbers.iter().map(|&number| (self.bids[number].units, self.bids[number].price)).collect();
            let won = allot(self.pool[pool].open, self.pool[pool].reserve, &offers);
            for (&number, &units) in numbers.iter().zip(&won) {
                self.sell(number, units);
            }
        }
        self.stage = Some(Stage::After(round));
        0
    }

    fn sell(&mut self, number: usize, units: u64) {
        let bid = &mut self.bids[number];
        bid.won = units;
        bid.sold = units;
        self.member[bid.member].won[bid.pool] += units;
        self.pool[bid.pool].open -= units;
        self.pool[bid.pool].sold += units;
        self.pool[bid.pool].prices += units as i64 * bid.price;
    }

    /// What each member of the set is short of in the pool, in member order.
    fn shortfalls(&self, pool: usize) -> Vec<u64> {
        let short = |m: usize| {
            let member = &self.member[m];
            let has = member.won[pool] + member.ever_allocated[pool];
            member.expected[pool].saturating_sub(has)
        };
        self.members().map(short).collect()
    }

    fn allocate(&mut self, value: &[u8]) -> u8 {
        if !self.is_after() {
            return 2;
        }
        let (number, price) = (usize::from(value[0]), price_at(value, 1));
        if number >= self.pools {
            return 3;
        }
        if !price_fits(price) {
            return 5;
        }
        if self.pool[number].open == 0 {
            return 8;
        }
        if self.pool[number].positive_mark {
            return 9;
        }
        let shortfalls = self.shortfalls(number);
        let short: u64 = shortfalls.iter().sum();
        if short == 0 {
            return 10;
        }
        let placed = short.min(self.pool[number].open);
        for (m, units) in self.members().zip(split(placed, &shortfalls)) {
            self.member[m].allocated[number] += units;
            self.member[m].ever_allocated[number] += units;
        }
        let pool = &mut self.pool[number];
        pool.open -= placed;
        pool.allocated += placed;
        pool.allocated_price = price;
        pool.prices += placed as i64 * price;
        0
    }

    fn tear(&mut self, value: &[u8]) -> u8 {
        if !self.is_after() {
            return 2;
        }
        let (pool, price) = (usize::from(value[0]), price_at(value, 1));
        if pool >= self.pools {
            return 3;
        }
        if !price_fits(price) {
            return 5;
        }
        if self.pool[pool].open == 0 {
            return 8;
        }
        let units = std::mem::take(&mut self.pool[pool].open);
        self.tear_units(pool, price, units);
        0
    }

    /// Enters units as torn, once they are taken from where they stood.
    fn tear_units(&mut self, pool: usize, price: i64, units: u64) {
        self.pool[pool].torn += units;
        self.pool[pool].prices += units as i64 * price;
        self.torn.push(Torn { pool, price, units });
    }

    fn call_members(&mut self) -> u8 {
        if !self.is_after() {
            return 2;
        }
        if self.any_open() {
            return 11;
        }
        let (required, ready) = (self.required(), self.held_ready());
        if ready >= required {
            return 12;
        }
        let weights: Vec<u64> = self.members().map(|m| self.member[m].contribution).collect();
        let called = (required - ready).min(self.contributions);
        for (m, share) in self.members().zip(split(called, &weights)) {
            self.member[m].call = share;
            self.owing |= u32::from(share > 0) << m;
        }
        self.stage = Some(Stage::CallsOut);
        0
    }

    fn pay(&mut self, value: &[u8]) -> u8 {
        if self.stage != Some(Stage::CallsOut) {
            return 2;
        }
        let (member, amount) = (usize::from(value[0]), u64::from(u32_at(value, 1)));
        if !self.has_member(member) {
            return 4;
        }
        if amount == 0 || amount > PAYMENT_LIMIT {
            return 5;
        }
        let owed = self.owed(member);
        if amount > owed {
            return 14;
        }
        self.member[member].paid += amount;
        if amount == owed {
            self.owing &= !(1 << member);
        }
        0
    }

    fn move_units(&mut self, value: &[u8]) -> u8 {
        if self.stage != Some(Stage::CallsOut) {
            return 2;
        }
        let member = usize::from(value[0]);
        if !self.has_member(member) {
            return 4;
        }
        let owed = self.owed(member);
        if owed == 0 {
            return 14;
        }
        let still_owed = self.move_allocated(member, owed);
        self.move_sold(member, still_owed);
        self.owing &= !(1 << member);
        0
    }

    /// Moves allocated units, from the lowest price, the higher pool and the higher holder on; gives what is not saved yet.
    fn move_allocated(&mut self, to: usize, mut needed: u64) -> u64 {
        let mut pools: Vec<usize> =
            (0..self.pools).filter(|&p| self.pool[p].allocated > 0 && self.pool[p].allocated_price < 0).collect();
        pools.sort_by_key(|&p| (self.pool[p].allocated_price, Reverse(p)));
        for pool in pools {
            let price = self.pool[pool].allocated_price;
            for holder in (0..MEMBERS).rev() {
                let units = units_to_move(self.member[holder].allocated[pool], price, needed);
                self.member[holder].allocated[pool] -= units;
                self.pool[pool].allocated -= units;
                needed = self.take_over(to, pool, price, units, needed);
            }
        }
        needed
    }

    /// Moves sold units, from the lowest price and the later bid on.
    fn move_sold(&mut self, to: usize, mut needed: u64) {
        let mut numbers: Vec<usize> =
            (0..self.bids.len()).filter(|&b| self.bids[b].sold > 0 && self.bids[b].price < 0).collect();
        numbers.sort_by_key(|&b| (self.bids[b].price, Reverse(b)));
        for number in numbers {
            let Bid { pool, price, sold, .. } = self.bids[number];
            let units = units_to_move(sold, price, needed);
            self.bids[number].sold -= units;
            self.pool[pool].sold -= units;
            needed = self.take_over(to, pool, price, units, needed);
        }
    }

    /// Enters units as moved to the member, once they are taken from where they stood; gives what is still needed.
    fn take_over(&mut self, to: usize, pool: usize, price: i64, units: u64, needed: u64) -> u64 {
        let saved = units * price.unsigned_abs();
        self.member[to].moved[pool] += units;
        self.pool[pool].moved += units;
        self.pool[pool].prices += saved as i64;
        needed.saturating_sub(saved)
    }

    fn miss(&mut self, value: &[u8]) -> u8 {
        if !self.is_after() && self.stage != Some(Stage::CallsOut) {
            return 2;
        }
        let (number, price) = (usize::from(value[0]), price_at(value, 1));
        if !self.has_member(number) {
            return 4;
        }
        if !price_fits(price) {
            return 5;
        }
        let Member { allocated, moved, .. } = self.member[number];
        if allocated == [0; POOLS] && moved == [0; POOLS] {
            return 16;
        }
        for p in 0..self.pools {
            let pool = &mut self.pool[p];
            pool.allocated -= allocated[p];
            pool.moved -= moved[p];
            pool.prices -= allocated[p] as i64 * pool.allocated_price;
            if allocated[p] + moved[p] > 0 {
                self.tear_units(p, price, allocated[p] + moved[p]);
            }
        }
        self.member[number].allocated = [0; POOLS];
        self.member[number].moved = [0; POOLS];
        0
    }

    fn finish(&mut self) -> u8 {
        match self.stage {
            Some(Stage::After(_)) if self.any_open() => return 11,
            Some(Stage::After(_)) if self.held_ready() < self.required() => return 13,
            Some(Stage::CallsOut) if self.owing != 0 => return 15,
            Some(Stage::After(_) | Stage::CallsOut) => {}
            _ => return 2,
        }
        self.result = Some(self.charge_layers());
        self.stage = Some(Stage::Finished);
        0
    }

    fn standing(&self, member: usize) -> Standing {
        let own = self.bids.iter().filter(|bid| bid.member == member);
        let premium = |bid: &Bid| {
            let above_worst = bid.price - self.pool[bid.pool].worst_reserve;
            // A bid that won nothing may stand below the reserve.
            bid.won * u64::try_from(above_worst).unwrap_or(0)
        };
        let counted = (0..POOLS).filter(|&p| self.pool[p].agreed.is_none());
        Standing {
            premium: own.map(premium).sum(),
            won: self.member[member].won.iter().sum(),
            expected: counted.map(|p| self.member[member].expected[p]).sum(),
        }
    }

    /// Charges the requirement to the layers in turn.
    fn charge_layers(&self) -> Outcome {
        let members: Vec<usize> = self.members().collect();
        let standings: Vec<Standing> = members.iter().map(|&m| self.standing(m)).collect();
        let mut by_seniority: Vec<usize> = (0..members.len()).collect();
        by_seniority.sort_by(|&a, &b| standings[b].seniority(&standings[a]));

        let loss = self.required();
        let mut layers = Layers { rest: loss };
        let first_tranche = self.house * 3 / 5;
        let mut outcome = Outcome { loss, charges: [0; 6], uncovered: 0, members: Vec::new() };
        outcome.charges[0] = layers.charge(self.margin);
        outcome.charges[1] = layers.charge(self.fund);
        outcome.charges[2] = layers.charge(first_tranche);

        let mut ranks = vec![0; members.len()];
        let mut on_contribution = vec![0; members.len()];
        let equal = |a: &usize, b: &usize| standings[*a].seniority(&standings[*b]).is_eq();
        let mut seniors = members.len();
        for group in by_seniority.chunk_by(equal).rev() {
            seniors -= group.len();
            let weights: Vec<u64> = group.iter().map(|&i| self.member[members[i]].contribution).collect();
            let charged = layers.charge(weights.iter().sum());
            outcome.charges[3] += charged;
            for (&i, share) in group.iter().zip(split(charged, &weights)) {
                ranks[i] = seniors as u64 + 1;
                on_contribution[i] = share;
            }
        }

        outcome.charges[4] = layers.charge(self.house - first_tranche);
        let payments: Vec<u64> = members.iter().map(|&m| self.member[m].paid).collect();
        outcome.charges[5] = layers.charge(payments.iter().sum());
        outcome.uncovered = layers.rest;
        let on_payments = split(outcome.charges[5], &payments);
        for (i, &member) in members.iter().enumerate() {
            outcome.members.push(MemberOutcome {
                member: member as u8,
                rank: ranks[i],
                contribution_charge: on_contribution[i],
                payment_charge: on_payments[i],
            });
        }
        outcome
    }

    /// The sum of a pool's prices counted anew, to hold the running one against.
    pub fn prices_recounted(&self, number: u8) -> i64 {
        let number = usize::from(number);
        let Some(pool) = self.pool.get(number) else {
            return 0;
        };
        let bids = self.bids.iter().filter(|b| b.pool == number);
        let sold: i64 = bids.map(|b| b.sold as i64 * b.price).sum();
        let allocated = pool.allocated as i64 * pool.allocated_price;
        let lots = self.torn.iter().filter(|t| t.pool == number);
        let torn: i64 = lots.map(|t| t.units as i64 * t.price).sum();
        let agreed = pool.agreed.map_or(0, |a| a.units as i64 * a.price);
        sold + allocated + torn + agreed
    }
}

/// What is left of the loss as layer after layer is charged.
struct Layers {
    rest: u64,
}

impl Layers {
    fn charge(&mut self, limit: u64) -> u64 {
        let charged = limit.min(self.rest);
        self.rest -= charged;
        charged
    }
}

/// How a member did in the auctions; every product below stays under 1.3 × 10^17.
struct Standing {
    premium: u64,
    won: u64,
    expected: u64,
}

impl Standing {
    /// Greater is senior.
    fn seniority(&self, other: &Standing) -> Ordering {
        let (a, b) = (self, other);
        // With nothing won the premium is 0, so any divisor will do.
        let (a_won, b_won) = (a.won.max(1), b.won.max(1));
        let average = (a.premium * b_won).cmp(&(b.premium * a_won));
        match (a.won.checked_sub(a.expected), b.won.checked_sub(b.expected)) {
            (Some(_), None) => Ordering::Greater,
            (None, Some(_)) => Ordering::Less,
            (Some(a_excess), Some(b_excess)) => {
                let left = a.premium * a_excess * b_won;
                let right = b.premium * b_excess * a_won;
                left.cmp(&right).then(a_excess.cmp(&b_excess)).then(average)
            }
            (None, None) => {
                let (a_deficit, b_deficit) = (a.expected - a.won, b.expected - b.won);
                let left = a.premium * b_won * b_deficit;
                let right = b.premium * a_won * a_deficit;
                left.cmp(&right).then(b_deficit.cmp(&a_deficit)).then(average)
            }
        }
    }
}

impl Ledger for Counts {
    fn call(&mut self, bytes: &[u8]) -> u8 {
        let Some(field::Field { tag, value }) = field::exactly_one(bytes) else {
            return 1;
        };
        if !self.length_fits(tag, value.len()) {
            return 1;
        }
        match tag {
            1 => self.head(value),
            2 => self.put_up(value),
            3 => self.enrol(value),
            4 => self.open_round(value),
            5 => self.bid(value),
            6 => self.close(),
            7 => self.allocate(value),
            8 => self.tear(value),
            9 => self.call_members(),
            10 => self.pay(value),
            11 => self.move_units(value),
            12 => self.miss(value),
            13 => self.finish(),
            14 => self.sell_by_agreement(value),
            _ => self.withdraw(value),
        }
    }

    fn stage(&self) -> Option<Stage> {
        self.stage
    }

    fn pools_given(&self) -> u8 {
        self.pools_given as u8
    }

    fn counts(&self, pool: u8) -> [u64; 5] {
        let Some(pool) = self.pool.get(usize::from(pool)) else {
            return [0; 5];
        };
        [pool.open, pool.sold, pool.allocated, pool.moved, pool.torn]
    }

    fn holding(&self, member: u8, pool: u8, price_cents: i64) -> u64 {
        let (m, p) = (usize::from(member), usize::from(pool));
        if m >= MEMBERS || p >= POOLS {
            return 0;
        }
        let own = self.bids.iter().filter(|b| (b.member, b.pool) == (m, p));
        let sold: u64 = own.filter(|b| b.price == price_cents).map(|b| b.sold).sum();
        let at_price = self.pool[p].allocated_price == price_cents;
        let allocated = u64::from(at_price) * self.member[m].allocated[p];
        let moved = u64::from(price_cents == 0) * self.member[m].moved[p];
        let agreed = self.pool[p].agreed.filter(|a| (a.member, a.price) == (m, price_cents)).map_or(0, |a| a.units);
        sold + allocated + moved + agreed
    }

    fn holdings(&self, member: u8) -> Vec<(u8, i64, u64)> {
        let m = usize::from(member);
        if m >= MEMBERS {
            return Vec::new();
        }
        let own = self.bids.iter().filter(|bid| bid.member == m);
        let mut lots: Vec<(u8, i64, u64)> = own.map(|b| (b.pool as u8, b.price, b.sold)).collect();
        for p in 0..POOLS {
            let price = self.pool[p].allocated_price;
            lots.push((p as u8, price, self.member[m].allocated[p]));
            lots.push((p as u8, 0, self.member[m].moved[p]));
            let agreed = self.pool[p].agreed.filter(|a| a.member == m);
            lots.extend(agreed.map(|a| (p as u8, a.price, a.units)));
        }
        lots.retain(|&(.., units)| units > 0);
        lots.sort_by_key(|&(pool, price, _)| (pool, Reverse(price)));
        lots.dedup_by(|next, kept| {
            let same = (next.0, next.1) == (kept.0, kept.1);
            kept.2 += u64::from(same) * next.2;
            same
        });
        lots
    }

    fn sum_of_prices(&self) -> i64 {
        self.prices()
    }

    fn prices_of(&self, pool: u8) -> i64 {
        self.pool.get(usize::from(pool)).map_or(0, |pool| pool.prices)
    }

    fn requirement(&self) -> Option<u64> {
        self.stage.map(|_| self.required())
    }

    /// C-16: "with no case the reading is declined by 2".
    fn reading(&self) -> (u8, u64) {
        match self.stage {
            None => (2, 0),
            Some(_) => (0, self.required()),
        }
    }

    fn prefunded(&self) -> Option<u64> {
        self.stage.map(|_| self.held_ready())
    }

    fn owes(&self, member: u8) -> u64 {
        let member = usize::from(member);
        if member < MEMBERS { self.owed(member) } else { 0 }
    }

    fn result(&self) -> Option<Outcome> {
        self.result.clone()
    }
}
