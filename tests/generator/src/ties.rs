//! Exact ties of remainders (C-15): an amount that is a simple part of what it is split by, so that many weights leave one remainder. With half of W every odd
//! weight leaves W / 2, with a third of W all weights leave one remainder that leave one by 3.

use crate::plan::{Plan, Target, draw_set};
use crate::profile::Profile;
use crate::rng::Rng;
use crate::writer::Writer;
use model::write;
use model::{Ledger, field};

/// A part k / d of an amount that d divides, mostly a half; none where nothing small divides it.
pub fn simple_part(rng: &mut Rng, amount: u64) -> Option<u64> {
    let divisors: Vec<u64> = (2..=6).filter(|divisor| amount > 0 && amount.is_multiple_of(*divisor)).collect();
    let first = *divisors.first()?;
    let divisor = if rng.chance(60) { first } else { rng.pick(&divisors) };
    Some(amount / divisor * rng.between(1, divisor as i64 - 1) as u64)
}

/// Weights that add up to the sum, each of the least or more and none above 1,000; often each of them twice.
fn weights_of(rng: &mut Rng, sum: u64, least: u64) -> Option<Vec<u64>> {
    let twice = sum.is_multiple_of(2) && rng.chance(30);
    let mut left = if twice { sum / 2 } else { sum };
    let mut weights = Vec::new();
    for _ in 0..rng.between(1, 5) {
        let weight = least.max(1 + rng.below(left));
        if weight + least > left {
            break;
        }
        weights.push(weight);
        left -= weight;
    }
    weights.push(left);
    if twice {
        weights.extend(weights.clone());
    }
    let fit = weights.len() > 1 && weights.iter().all(|weight| (least..=1000).contains(weight));
    fit.then_some(weights)
}

impl Plan {
    /// A list in which remainders are to tie. Profiles that need numbers of their own keep them.
    pub fn suit_ties_of_remainders(&mut self, rng: &mut Rng, profile: Profile) {
        // A split among one member's bids at one price shows nowhere.
        if profile == Profile::Single {
            return;
        }
        self.has_ties = true;
        let bids_matter = profile == Profile::ManyBids || self.send_again == 95;
        self.tied_bids = if bids_matter { 0 } else { rng.pick(&[30, 70, 90]) };
        if matches!(profile, Profile::Edges | Profile::ManyBids | Profile::Wide) {
            return;
        }
        if matches!(profile, Profile::Moves | Profile::EmptyMoves | Profile::Misses) {
            return self.make_contributions_even(rng);
        }
        if self.head.set.count_ones() < 3 {
            let members = rng.pick(&[2, 3, 4, 5, 6]);
            self.head.set = draw_set(rng, members);
        }
        self.suit_tied_contributions(rng);
        let keeps_target = profile == Profile::Layers;
        let keeps_demand = matches!(profile, Profile::Ties | Profile::Rounds | Profile::Ranks);
        match rng.below(10) {
            0 => {}
            1 | 2 if !keeps_demand => self.suit_tied_shortfalls(rng),
            1..=5 => {
                if !keeps_target {
                    self.target = rng.pick(&[Target::Called, Target::Called, Target::Uncovered]);
                    (self.moves, self.miss) = (rng.pick(&[0, 20]), 3);
                }
                if !keeps_demand {
                    self.suit_a_unit_to_miss(rng);
                }
            }
            _ => {
                if !keeps_target {
                    (self.target, self.miss) = (Target::Prefunded, 3);
                }
                self.suit_equal_ranks(rng, !keeps_demand);
            }
        }
    }

    /// Contributions with an even sum, often small ones, so that some are alike, and often the larger behind the smaller.
    fn suit_tied_contributions(&mut self, rng: &mut Rng) {
        if rng.chance(60) {
            self.contributions = std::array::from_fn(|_| rng.pick(&[1, 1, 2, 3, 3, 5, 6, 7, 9]));
        }
        self.make_contributions_even(rng);
        if rng.chance(50) {
            let members = self.members();
            let mut ascending: Vec<u32> =
                members.iter().map(|&member| self.contributions[usize::from(member)]).collect();
            ascending.sort_unstable();
            for (&member, contribution) in members.iter().zip(ascending) {
                self.contributions[usize::from(member)] = contribution;
            }
        }
    }

    /// One cent more or less where all contributions are an odd sum.
    fn make_contributions_even(&mut self, rng: &mut Rng) {
        let members = self.members();
        let sum: u64 = members.iter().map(|&member| u64::from(self.contributions[usize::from(member)])).sum();
        if !sum.is_multiple_of(2) {
            let one = &mut self.contributions[usize::from(rng.pick(&members))];
            *one = if *one == 500_000_000 { 499_999_999 } else { *one + 1 };
        }
    }

    /// Pools without a bid, whose units are a simple part of the units expected there.
    fn suit_tied_shortfalls(&mut self, rng: &mut Rng) {
        let members = self.members();
        for pool in 0..4 {
            if !rng.chance(70) {
                continue;
            }
            let most = rng.pick(&[3, 5, 9]);
            for &member in &members {
                self.expected[usize::from(member)][pool] = rng.between(0, most) as u16;
            }
            let sum = |plan: &Plan| -> u64 {
                members.iter().map(|&member| u64::from(plan.expected[usize::from(member)][pool])).sum()
            };
            if !sum(self).is_multiple_of(2) {
                self.expected[usize::from(rng.pick(&members))][pool] += 1;
            }
            let sum = sum(self);
            if let Some(units) = simple_part(rng, sum) {
                self.units[pool] = units as u16;
                self.marks[pool] = 0;
                self.without_bids |= 1 << pool;
            }
        }
        self.allocate = 90;
        self.tear = 3;
    }

    /// A pool of few units that are allocated, so that a MISS can bring the requirement anywhere.
    fn suit_a_unit_to_miss(&mut self, rng: &mut Rng) {
        let pool = rng.below(self.head.pools.clamp(1, 4).into()) as usize;
        self.units[pool] = rng.pick(&[1, 1, 2, 3]);
        self.marks[pool] = 0;
        self.without_bids |= 1 << pool;
        self.to_sell &= !self.without_bids;
        let members = self.members();
        let one = usize::from(rng.pick(&members));
        self.expected[one][pool] = self.expected[one][pool].max(1);
        self.allocate = 90;
        self.tear = 3;
    }

    /// Whoever wins nothing ranks like the others that do so.
    fn suit_equal_ranks(&mut self, rng: &mut Rng, also_without_bids: bool) {
        let expected = std::array::from_fn(|_| rng.pick(&[0, 0, 1, 2]));
        self.expected = [expected; 32];
        if also_without_bids && rng.chance(85) {
            self.without_bids = if rng.chance(75) { 0b1111 } else { rng.below(16) as u8 };
        }
    }
}

impl Writer {
    /// Bids at one price, of whose units the balance there is a simple part; now and then one above that price takes the rest. False where none fit.
    pub fn draw_tied_bids(&mut self, pool: u8, round: usize, open: u64, bids: &mut Vec<Vec<u8>>) -> bool {
        let reserve = self.plan.reserves[round][usize::from(pool)];
        let price = self.rng.pick(&self.plan.prices).max(reserve);
        let least = u64::from(self.plan.head.least_bid);
        let above = if open > least && price < 1_000_000 && self.rng.chance(25) { least } else { 0 };
        let balance = open - above;
        let parts = self.rng.pick(&[2, 2, 2, 3, 4]);
        // One part of so many, or all but one.
        let of = if balance.is_multiple_of(parts - 1) && self.rng.chance(50) { parts - 1 } else { 1 };
        let Some(weights) = weights_of(&mut self.rng, balance / of * parts, least) else {
            return false;
        };
        for units in weights {
            let member = self.any_member();
            bids.push(write::bid(pool, member, units as u16, price));
        }
        if above > 0 {
            let member = self.any_member();
            bids.push(write::bid(pool, member, above as u16, price + 1));
        }
        true
    }

    /// A MISS after which payments bear a simple part of what was paid, where a price brings that about.
    pub fn miss_for_a_tie(&mut self) {
        let required = self.model.requirement().unwrap_or(0) as i64;
        let prefunded = self.model.prefunded().unwrap_or(0) as i64;
        // A requirement held at 0 does not tell by how much it would change.
        if required == 0 {
            return;
        }
        let paid = self.paid();
        let mut misses = Vec::new();
        for (member, units, prices) in self.holders() {
            for part in (0..4).filter_map(|_| simple_part(&mut self.rng, paid)) {
                let needed = required + prices - prefunded - part as i64;
                let price = needed / units;
                if needed % units == 0 && (-1_000_000..=1_000_000).contains(&price) {
                    misses.push((member, price as i32));
                }
            }
        }
        if !misses.is_empty() {
            let (member, price) = self.rng.pick(&misses);
            self.put(write::miss(member, price));
        }
    }

    /// An amount within the contributions of a rank of several members that is a simple part of them, above all before it; none where no rank has one.
    pub fn part_of_a_rank(&mut self, before: i64) -> Option<i64> {
        let mut start = before;
        let mut amounts = Vec::new();
        for (sum, members) in self.ranks_from_the_most_junior() {
            if members > 1
                && let Some(part) = simple_part(&mut self.rng, sum as u64)
            {
                amounts.push(start + part as i64);
            }
            start += sum;
        }
        if amounts.is_empty() { None } else { Some(self.rng.pick(&amounts)) }
    }

    /// All payments that were accepted.
    pub fn paid(&self) -> u64 {
        let accepted = self.accepted().filter(|bytes| bytes[0] == write::PAY);
        accepted.map(|bytes| u64::from(field::u32_at(bytes, 4))).sum()
    }
}
