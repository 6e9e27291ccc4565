//! WITHDRAWs: bids taken back before the cut-off, some of them sent again, and numbers that no standing bid of the member has.

use crate::writer::Writer;
use model::roll::Bid;
use model::{Ledger, Stage, write};

impl Writer {
    /// A WITHDRAW before the next bid or CLOSE; false where the plan wants none now.
    pub fn take_back(&mut self) -> bool {
        if !self.plan.has_withdrawals {
            return false;
        }
        if self.withdrawals_left > 0 && self.rng.chance(self.withdrawing()) {
            self.withdrawals_left -= 1;
            self.withdraw();
            return true;
        }
        self.bids.is_empty() && self.empty_a_pool()
    }

    /// Percent of the steps that are a WITHDRAW. Half of them wait until the round's last bid is sent or 256 are kept.
    fn withdrawing(&self) -> u64 {
        if self.bids.is_empty() || self.model.bids().len() == 256 {
            70
        } else if 2 * self.withdrawals_left > self.plan.withdrawals {
            self.plan.withdraw
        } else {
            0
        }
    }

    /// Mostly of a standing bid, which is often sent again.
    fn withdraw(&mut self) {
        let standing = self.standing();
        if standing.is_empty() || self.rng.chance(25) {
            let odd = self.odd_withdrawal();
            self.put(odd);
            return;
        }
        let number = self.pick_to_withdraw(&standing);
        let bid = self.model.bids()[number].clone();
        self.put(write::withdraw(bid.member, number as u16));
        if self.rng.chance(self.plan.send_again) {
            self.send_again(&bid);
        }
    }

    /// Mostly one with a later bid for as many units at its price, so that, sent again, it stands behind that where remainders tie.
    fn pick_to_withdraw(&mut self, standing: &[usize]) -> usize {
        // The last number that a bid can have.
        if standing.last() == Some(&255) && self.rng.chance(20) {
            return 255;
        }
        let bids = self.model.bids();
        let at = |number: usize| (bids[number].pool, bids[number].price, bids[number].units);
        let is_tied = |number: usize| standing.iter().any(|&later| later > number && at(later) == at(number));
        let tied: Vec<usize> = standing.iter().copied().filter(|&number| is_tied(number)).collect();
        if tied.is_empty() || self.rng.chance(30) { self.rng.pick(standing) } else { self.rng.pick(&tied) }
    }

    /// The numbers of the open round's standing bids.
    fn standing(&self) -> Vec<usize> {
        let Some(Stage::Bidding(round)) = self.model.stage() else {
            return Vec::new();
        };
        let bids = self.model.bids();
        (0..bids.len()).filter(|&number| bids[number].stands && bids[number].round == round).collect()
    }

    /// The same bid once more, or as it was meant: with a unit more, at another price or in another pool; next or later.
    fn send_again(&mut self, bid: &Bid) {
        let (mut pool, mut units, mut price) = (bid.pool, bid.units as u16, bid.price as i32);
        match self.rng.below(8) {
            0 => units = (units + 1).min(1000),
            1 => price = self.rng.pick(&self.plan.prices),
            2 => pool = self.any_pool(),
            _ => {}
        }
        let next = self.bids.len();
        let place = if self.rng.chance(50) { next } else { self.rng.below(next as u64 + 1) as usize };
        self.bids.insert(place, write::bid(pool, bid.member, units, price));
    }

    /// Takes back one more bid in a pool that is to have none at CLOSE; false where none stands there.
    fn empty_a_pool(&mut self) -> bool {
        if self.rounds < self.plan.emptied_from {
            return false;
        }
        let mut standing = self.standing();
        standing.retain(|&number| self.plan.emptied >> self.model.bids()[number].pool & 1 == 1);
        if standing.is_empty() {
            return false;
        }
        let number = self.rng.pick(&standing);
        let member = self.model.bids()[number].member;
        self.put(write::withdraw(member, number as u16));
        true
    }

    /// A WITHDRAW of any bid kept, of an old round or withdrawn among them, or with a number or a member beside it.
    pub fn odd_withdrawal(&mut self) -> Vec<u8> {
        let number = self.odd_number();
        // The bid that has the number's last byte, so that a number read in one byte would find it.
        let owner = self.model.bids().get(usize::from(number % 256)).map(|bid| bid.member);
        let member = match self.rng.below(10) {
            0..=2 => self.any_member(),
            3 | 4 => self.odd_member(),
            _ => owner.unwrap_or_else(|| self.any_member()),
        };
        write::withdraw(member, number)
    }

    fn odd_number(&mut self) -> u16 {
        let bids = self.model.bids();
        let kept = bids.len() as u16;
        if kept == 0 {
            return self.rng.pick(&[0, 0, 1, 255, 256, 65_535]);
        }
        let withdrawn: Vec<u16> = (0..kept).filter(|&number| !bids[usize::from(number)].stands).collect();
        let old: Vec<u16> =
            (0..kept).filter(|&number| usize::from(bids[usize::from(number)].round) < self.rounds).collect();
        let any = self.rng.below(kept.into()) as u16;
        match self.rng.below(12) {
            0 => kept,
            1 => kept + self.rng.below(3) as u16,
            2 => any + 256,
            // The two bytes exchanged.
            3 => any.swap_bytes(),
            4 => self.rng.pick(&[255, 256, 511, 65_535]),
            5 | 6 if !withdrawn.is_empty() => self.rng.pick(&withdrawn),
            7 | 8 if !old.is_empty() => self.rng.pick(&old),
            _ => any,
        }
    }
}
