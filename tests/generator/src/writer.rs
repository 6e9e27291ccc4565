//! Writes a list of calls and watches the roll while it does.

use crate::Requests;
use crate::plan::{Demand, Plan, Target, members_of};
use crate::profile::Profile;
use crate::rng::Rng;
use crate::ties::simple_part;
use model::roll::Entry;
use model::write::{self, Head};
use model::{Ledger, Roll, Stage, field, split};

pub struct Writer {
    pub rng: Rng,
    pub plan: Plan,
    pub model: Roll,
    /// Byte strings that are not exactly one field may be written.
    pub loose: bool,
    calls: Vec<Vec<u8>>,
    answers: Vec<u8>,
    head_at: Option<usize>,
    members_given: u32,
    /// The bids still to write in this round, the next one last.
    pub bids: Vec<Vec<u8>>,
    /// How many ROUNDs were accepted.
    pub rounds: usize,
    /// The WITHDRAWs still to write in this round.
    pub withdrawals_left: usize,
    aimed: bool,
}

impl Writer {
    pub fn new(seed: u64, profile: Profile, loose: bool, requests: Requests) -> Writer {
        let mut rng = Rng::new(seed);
        let mut plan = Plan::draw(&mut rng, profile);
        if requests.sales {
            plan.suit_sales(&mut rng, profile);
        }
        if requests.withdrawals {
            plan.suit_withdrawals(&mut rng, profile);
        }
        if requests.ties {
            plan.suit_ties_of_remainders(&mut rng, profile);
        }
        plan.misses_of_both = requests.misses_of_both;
        Writer {
            plan,
            rng,
            model: Roll::default(),
            loose,
            calls: Vec::new(),
            answers: Vec::new(),
            head_at: None,
            members_given: 0,
            bids: Vec::new(),
            rounds: 0,
            withdrawals_left: 0,
            aimed: false,
        }
    }

    pub fn write(mut self) -> Vec<Vec<u8>> {
        while self.calls.len() < self.plan.limit && self.step() {}
        if self.plan.cut {
            let kept = self.rng.below(self.calls.len() as u64 + 1);
            self.calls.truncate(kept as usize);
        }
        self.calls
    }

    /// The last call written, if there is one.
    pub fn last(&self) -> Option<&Vec<u8>> {
        self.calls.last()
    }

    /// Writes one call and gives the model's answer to it.
    pub fn put(&mut self, bytes: Vec<u8>) -> u8 {
        let answer = self.model.call(&bytes);
        if answer == 0 {
            self.note_accepted(&bytes);
        }
        self.calls.push(bytes);
        self.answers.push(answer);
        answer
    }

    /// Follows what was accepted, as an odd call may have been.
    fn note_accepted(&mut self, bytes: &[u8]) {
        match bytes[0] {
            write::HEAD => {
                self.plan.head = head_of(bytes);
                self.head_at = Some(self.calls.len());
            }
            write::MEMBER => self.members_given |= 1 << bytes[3],
            write::ROUND => {
                self.rounds += 1;
                self.bids = self.draw_bids();
                self.withdrawals_left = self.plan.withdrawals;
            }
            _ => {}
        }
    }

    /// The answer that a call would get now.
    fn would(&self, bytes: &[u8]) -> u8 {
        self.model.clone().call(bytes)
    }

    /// One step on; false where the list is at its end.
    fn step(&mut self) -> bool {
        let stage = self.model.stage();
        if matches!(stage, Some(Stage::After(_))) && !self.any_open() && !self.aimed {
            self.aim();
        }
        if stage == Some(Stage::Finished) {
            let goes_on = self.plan.tail > 0;
            if goes_on {
                self.plan.tail -= 1;
                self.odd_call();
            }
            return goes_on;
        }
        if stage == Some(Stage::After(1)) && self.rounds == 0 && self.plan.linger > 0 {
            self.plan.linger -= 1;
            self.odd_call();
            return true;
        }
        if self.rng.chance(self.noise_in(stage)) {
            self.odd_call();
            return true;
        }
        match stage {
            None => {
                self.put(write::head(&self.plan.head.clone()));
            }
            Some(Stage::Setup) => self.set_up(),
            Some(Stage::Bidding(_)) => {
                if !self.take_back() {
                    let next = self.bids.pop().unwrap_or_else(write::close);
                    self.put(next);
                }
            }
            Some(Stage::After(round)) if self.any_open() => self.place(round),
            Some(Stage::After(_)) => self.settle(),
            Some(Stage::CallsOut) => self.collect(),
            Some(Stage::Finished) => unreachable!("handled above"),
        }
        true
    }

    /// Stages of few steps have more noise, so that each gets its share of odd calls.
    fn noise_in(&self, stage: Option<Stage>) -> u64 {
        match stage {
            Some(Stage::Setup | Stage::Bidding(_)) => self.plan.noise,
            _ => (self.plan.noise * 3).min(self.plan.noise.max(60)),
        }
    }

    fn any_open(&self) -> bool {
        (0..4).any(|pool| self.model.counts(pool)[0] > 0)
    }

    fn open_pools(&self) -> Vec<u8> {
        (0..4).filter(|&pool| self.model.counts(pool)[0] > 0).collect()
    }

    // Stage S

    /// POOLs and MEMBERs in any mix, then SALEs, then the first ROUND.
    fn set_up(&mut self) {
        if self.plan.has_sales && self.plan.noise > 0 && self.rng.chance(8) {
            // Often before all is given.
            let early = self.odd_field(write::SALE);
            self.put(early);
            return;
        }
        let pool = self.model.pools_given();
        let pool_left = pool < self.plan.head.pools;
        let members = members_of(self.plan.head.set & !self.members_given);
        if pool_left && (members.is_empty() || self.rng.chance(50)) {
            let place = usize::from(pool);
            self.put(write::pool(pool, self.plan.units[place], self.plan.marks[place]));
        } else if !members.is_empty() {
            let member = self.rng.pick(&members);
            self.put(self.member_field(member));
        } else if !self.sell() {
            self.put(write::round(&self.reserves(1)));
        }
    }

    /// One more SALE that the plan wants; false where there is none. Not all of them are meant to be accepted.
    fn sell(&mut self) -> bool {
        let mut pools = self.open_pools();
        pools.retain(|pool| self.plan.to_sell >> pool & 1 == 1);
        if pools.is_empty() || self.plan.sales == 0 {
            return false;
        }
        self.plan.sales -= 1;
        let pool = self.rng.pick(&pools);
        let price = self.rng.pick(&self.plan.prices);
        let price = if self.plan.sales < pools.len() {
            // The last tries are to be accepted.
            self.least_sale_price(pool).clamp(price.into(), 1_000_000) as i32
        } else if self.rng.chance(65) && self.bring_the_limit_to(pool, price) {
            price
        } else {
            self.sale_price(pool)
        };
        let member = self.any_member();
        self.put(write::sale(pool, member, price));
        true
    }

    /// The lowest price at which the pool can be sold by agreement; it may lie outside of the range of prices.
    fn least_sale_price(&self, pool: u8) -> i64 {
        let units = (self.model.counts(pool)[0] as i64).max(1);
        let needed = above_margin_and_fund(&self.plan.head) - self.model.sum_of_prices();
        needed.div_euclid(units) + i64::from(needed.rem_euclid(units) > 0)
    }

    /// A price at the limit of 17 or beside it, or one that bids take.
    pub fn sale_price(&mut self, pool: u8) -> i32 {
        let least = self.least_sale_price(pool);
        let price = match self.rng.below(8) {
            0..=2 => least,
            3 | 4 => least - 1,
            5 => least + self.rng.between(1, 20),
            _ => self.rng.pick(&self.plan.prices).into(),
        };
        price.clamp(-1_000_000, 1_000_000) as i32
    }

    /// Changes HEAD so that a SALE of the pool at this price meets the limit of 17 exactly, stays below it or passes it; false
    /// where an answer so far would change by that.
    fn bring_the_limit_to(&mut self, pool: u8, price: i32) -> bool {
        let Some(at) = self.head_at else {
            return false;
        };
        let of_pool = self.model.counts(pool)[0] as i64 * i64::from(price);
        let left = match self.rng.below(10) {
            0..=5 => 0,
            6 => -1,
            7 => -self.rng.between(1, of_pool.abs() + 5),
            8 => self.rng.between(1, 3),
            _ => self.rng.between(0, of_pool.abs() + 50),
        };
        let above = self.model.sum_of_prices() + of_pool - left;
        let mut head = self.plan.head;
        let losses = i64::from(head.margin) + i64::from(head.fund) + above;
        let losses = if losses < 0 { self.rng.between(0, 50) } else { losses.min(4_000_000_000) };
        let ready = losses - above;
        if !(0..=4_000_000_000).contains(&ready) {
            return false;
        }
        self.give_losses(&mut head, losses);
        head.fund = i64::from(head.fund).min(ready) as u32;
        head.margin = (ready - i64::from(head.fund)) as u32;
        let mut calls = self.calls.clone();
        calls[at] = write::head(&head);
        let same = self.rewrite(calls);
        if same {
            self.plan.head = head;
        }
        same
    }

    pub fn member_field(&self, member: u8) -> Vec<u8> {
        let place = usize::from(member) % 32;
        let mut expected = self.plan.expected[place];
        expected[usize::from(self.plan.head.pools).min(4)..].fill(0);
        write::member(member, self.plan.contributions[place], expected)
    }

    pub fn reserves(&self, round: usize) -> Vec<i32> {
        self.plan.reserves[round - 1][..usize::from(self.plan.head.pools).min(4)].to_vec()
    }

    // Stage B

    fn draw_bids(&mut self) -> Vec<Vec<u8>> {
        let Some(Stage::Bidding(round)) = self.model.stage() else {
            return Vec::new();
        };
        let round = usize::from(round) - 1;
        let mut bids = Vec::new();
        for pool in 0..self.plan.head.pools {
            let open = self.model.counts(pool)[0];
            if open > 0 {
                self.draw_pool_bids(pool, round, open, &mut bids);
            } else {
                for _ in 0..self.rng.below(4) {
                    bids.push(self.draw_bid(pool, round, 1).0);
                }
            }
        }
        for _ in 0..self.plan.losing_bids {
            bids.push(self.draw_losing_bid(round));
        }
        self.rng.shuffle(&mut bids);
        bids
    }

    fn draw_pool_bids(&mut self, pool: u8, round: usize, open: u64, bids: &mut Vec<Vec<u8>>) {
        if self.plan.without_bids >> pool & 1 == 1 {
            return;
        }
        let tied = self.plan.tied_bids > 0 && self.rng.chance(self.plan.tied_bids);
        if tied && self.draw_tied_bids(pool, round, open, bids) {
            return;
        }
        let demand = self.plan.demand[round][usize::from(pool)];
        let wanted = match demand {
            Demand::Nothing => self.rng.below(2),
            Demand::Part => 1 + self.rng.below(open),
            Demand::Exact => open,
            Demand::Over => open + 1 + self.rng.below(open),
            Demand::FarOver => 3 * open + 2,
            Demand::Past16Bits => 65_536 + self.rng.below(open + 1),
        };
        let mut asked = 0;
        for _ in 0..self.plan.bids {
            if asked >= wanted {
                break;
            }
            let exact = matches!(demand, Demand::Exact | Demand::Past16Bits);
            let most = if exact { wanted - asked } else { 1000 };
            let (bid, units) = self.draw_bid(pool, round, most);
            bids.push(bid);
            asked += units;
        }
    }

    /// A bid and the units that it asks for with effect.
    fn draw_bid(&mut self, pool: u8, round: usize, most: u64) -> (Vec<u8>, u64) {
        let reserve = self.plan.reserves[round][usize::from(pool)];
        let price = match self.rng.below(20) {
            _ if self.plan.demand[round][usize::from(pool)] == Demand::Past16Bits => reserve,
            0 | 1 => reserve,
            2 => reserve - 1,
            3 => reserve + 1,
            _ => self.rng.pick(&self.plan.prices),
        };
        let price = price.clamp(-1_000_000, 1_000_000);
        let units = 1 + self.rng.below(self.plan.bid_units.clamp(1, 1000).into());
        let units = units.min(most).max(self.plan.head.least_bid.into());
        let bid = write::bid(pool, self.any_member(), units as u16, price);
        (bid, if price < reserve { 0 } else { units })
    }

    /// A bid that fills a place and wins nothing, where the reserve leaves room below it.
    fn draw_losing_bid(&mut self, round: usize) -> Vec<u8> {
        let pool = self.any_pool();
        let reserve = self.plan.reserves[round][usize::from(pool)];
        let units = self.plan.head.least_bid - u16::from(self.rng.chance(15));
        write::bid(pool, self.any_member(), units, (reserve - 1).max(-1_000_000))
    }

    pub fn any_member(&mut self) -> u8 {
        let members = self.plan.members();
        self.rng.pick(&members)
    }

    pub fn any_pool(&mut self) -> u8 {
        self.rng.below(self.plan.head.pools.clamp(1, 4).into()) as u8
    }

    // Stage A

    /// After a round with units still open: place them, tear them, miss some, or open the second round.
    fn place(&mut self, round: u8) {
        if self.rng.chance(self.plan.allocate) && self.allocate() {
            return;
        }
        if self.rng.chance(self.plan.miss) && self.miss() {
            return;
        }
        if self.rng.chance(self.plan.tear) {
            return self.tear();
        }
        if round == 1 && self.plan.second_round {
            let reserves = self.reserves(2);
            self.put(write::round(&reserves));
        } else if !(self.rng.chance(50) && self.allocate()) {
            self.tear();
        }
    }

    /// False where no pool takes an ALLOCATE.
    fn allocate(&mut self) -> bool {
        let price = self.placing_price();
        let mut pools = self.open_pools();
        // Now and then one where nobody is short any more, or with mark 1.
        if !self.rng.chance(20) {
            pools.retain(|&pool| self.would(&write::allocate(pool, price)) == 0);
        }
        if pools.is_empty() {
            return false;
        }
        let pool = self.rng.pick(&pools);
        self.put(write::allocate(pool, price));
        true
    }

    /// Mostly one price in all pools, so that moves tie across pools.
    fn placing_price(&mut self) -> i32 {
        if self.rng.chance(50) { self.plan.placing_price } else { self.rng.pick(&self.plan.prices) }
    }

    fn tear(&mut self) {
        let pools = self.open_pools();
        let pool = self.rng.pick(&pools);
        let price = self.rng.pick(&self.plan.prices);
        self.put(write::tear(pool, price));
    }

    /// Members to whom units are allocated or moved, with how many and their sum of prices.
    pub fn holders(&self) -> Vec<(u8, i64, i64)> {
        let mut holders = vec![(0, 0); 32];
        for entry in (0..4).flat_map(|pool| self.model.entries(pool)) {
            match *entry {
                Entry::Allocated { member, price } => {
                    let (units, prices) = holders[usize::from(member)];
                    holders[usize::from(member)] = (units + 1, prices + price);
                }
                Entry::Moved { member } => holders[usize::from(member)].0 += 1,
                _ => {}
            }
        }
        let all = holders.into_iter().enumerate();
        all.filter(|(_, (units, _))| *units > 0).map(|(m, (units, prices))| (m as u8, units, prices)).collect()
    }

    /// False where no member holds a unit that MISS would tear.
    fn miss(&mut self) -> bool {
        let holders = self.holders();
        self.miss_one_of(&holders)
    }

    /// False where no member has both allocated and moved units; else such a one is mostly missed.
    fn miss_of_both(&mut self) -> bool {
        let entries: Vec<Entry> = (0..4).flat_map(|pool| self.model.entries(pool)).copied().collect();
        let is_allocated = |entry: &Entry, to: u8| matches!(entry, Entry::Allocated { member, .. } if *member == to);
        let has_both = |of: u8| {
            entries.contains(&Entry::Moved { member: of }) && entries.iter().any(|entry| is_allocated(entry, of))
        };
        let mut holders = self.holders();
        holders.retain(|&(member, ..)| has_both(member));
        !holders.is_empty() && self.rng.chance(80) && self.miss_one_of(&holders)
    }

    fn miss_one_of(&mut self, holders: &[(u8, i64, i64)]) -> bool {
        if holders.is_empty() {
            return false;
        }
        let (member, units, prices) = self.rng.pick(holders);
        let price = if self.rng.chance(50) {
            self.rng.pick(&self.plan.prices)
        } else {
            self.miss_price_into_the_layers(units, prices)
        };
        self.put(write::miss(member, price));
        true
    }

    /// A price that brings the requirement to some amount within the layers.
    fn miss_price_into_the_layers(&mut self, units: i64, prices: i64) -> i32 {
        let required = self.model.requirement().unwrap_or(0) as i64;
        let paid = self.paid() as i64;
        let prefunded = self.model.prefunded().unwrap_or(0) as i64;
        let low = if self.rng.chance(60) { prefunded - i64::from(self.plan.head.house) / 2 } else { 0 };
        let goal = self.rng.between(low.max(0), prefunded + paid + 5);
        let price = (required + prices - goal) / units;
        price.clamp(-1_000_000, 1_000_000) as i32
    }

    /// The calls that were accepted.
    pub fn accepted(&self) -> impl Iterator<Item = &Vec<u8>> {
        let answered = self.calls.iter().zip(&self.answers);
        answered.filter(|(_, answer)| **answer == 0).map(|(bytes, _)| bytes)
    }

    /// After a round with no unit open: on to FINISH or CALL, now and then the wrong one first.
    fn settle(&mut self) {
        if self.rng.chance(self.plan.miss) && self.miss() {
            return;
        }
        let enough = self.model.prefunded() >= self.model.requirement();
        if enough != self.rng.chance(15) {
            self.put(write::finish());
        } else {
            self.put(write::call());
        }
    }

    // Stage C

    /// Debts are paid in full, in part or too much, or end by a MOVE; then FINISH.
    fn collect(&mut self) {
        let mut owing = self.plan.members();
        owing.retain(|&member| self.model.owes(member) > 0);
        if self.plan.misses_of_both && self.miss_of_both() {
            return;
        }
        if self.rng.chance(if owing.is_empty() { self.plan.miss } else { self.plan.miss / 3 }) && self.miss() {
            return;
        }
        if owing.is_empty() && self.plan.has_ties && self.rng.chance(90) {
            self.miss_for_a_tie();
            self.put(write::finish());
            return;
        }
        if owing.is_empty() || self.rng.chance(4) {
            self.put(write::finish());
            return;
        }
        let member = self.rng.pick(&owing);
        let owes = self.model.owes(member);
        if self.rng.chance(self.plan.moves) {
            self.move_units(member, owes);
        } else {
            let amount = match self.rng.below(10) {
                0 => owes + 1,
                1 => 1,
                2..=4 => 1 + self.rng.below(owes),
                _ => owes,
            };
            self.put(write::pay(member, amount.min(1_000_000_000) as u32));
        }
    }

    /// Pays down to where the next units save exactly what is owed, one less or one more, then moves.
    fn move_units(&mut self, member: u8, owes: u64) {
        let savings = self.savings();
        if !savings.is_empty() && self.rng.chance(70) {
            let units = 1 + self.rng.below(savings.len() as u64) as usize;
            let saved: u64 = savings[..units].iter().sum();
            let goal = (saved + self.rng.below(3)).saturating_sub(1);
            if goal > 0 && goal < owes {
                self.put(write::pay(member, (owes - goal) as u32));
            }
        }
        self.put(write::move_units(member));
    }

    /// What each unit that may move would save, allocated ones first, from the lowest price on.
    fn savings(&self) -> Vec<u64> {
        let mut allocated = Vec::new();
        let mut sold = Vec::new();
        for entry in (0..4).flat_map(|pool| self.model.entries(pool)) {
            match *entry {
                Entry::Allocated { price, .. } if price < 0 => allocated.push(price),
                Entry::Sold { bid } if self.model.bids()[bid].price < 0 => sold.push(self.model.bids()[bid].price),
                _ => {}
            }
        }
        allocated.sort_unstable();
        sold.sort_unstable();
        allocated.iter().chain(&sold).map(|price| price.unsigned_abs()).collect()
    }

    // Where the requirement is to stand

    /// Changes HEAD's losses so that the requirement stands where the plan wants it; no answer so far changes by that.
    fn aim(&mut self) {
        self.aimed = true;
        let Some(at) = self.head_at else {
            return;
        };
        if self.answers_depend_on_losses() {
            return self.aim_beside_sales(at);
        }
        let mut head = self.plan.head;
        let Some(mut losses) = self.wanted_losses(&head) else {
            return;
        };
        if losses > 4_000_000_000 {
            // Less money held ready brings the requirement within reach.
            (head.margin, head.fund, head.house) = (0, 0, 0);
            losses = self.wanted_losses(&head).unwrap_or(0);
        }
        if losses < 0 && self.plan.has_ties && self.plan.target != Target::Zero {
            // As much more margin bears what the units cost, so that the layers behind it are charged as wanted.
            head.margin = (i64::from(head.margin) - losses).min(4_000_000_000) as u32;
        }
        self.give_losses(&mut head, losses.clamp(0, 4_000_000_000));
        let mut calls = self.calls.clone();
        calls[at] = write::head(&head);
        if self.rewrite(calls) {
            self.plan.head = head;
        }
    }

    /// Sets both losses so that together they are this much.
    fn give_losses(&mut self, head: &mut Head, losses: i64) {
        let low = (losses - 2_000_000_000).max(0);
        head.hedge_loss = self.rng.between(low, losses.min(2_000_000_000)) as u32;
        head.other_loss = (losses - i64::from(head.hedge_loss)) as u32;
    }

    /// Puts other calls in place of those written so far; false, and nothing changed, where an answer would be another.
    fn rewrite(&mut self, calls: Vec<Vec<u8>>) -> bool {
        let mut model = Roll::default();
        let answers: Vec<u8> = calls.iter().map(|bytes| model.call(bytes)).collect();
        let same = answers == self.answers;
        if same {
            self.calls = calls;
            self.model = model;
        }
        same
    }

    /// Whether a SALE came as far as the limit of 17.
    fn answers_depend_on_losses(&self) -> bool {
        let mut answered = self.calls.iter().zip(&self.answers);
        answered.any(|(bytes, answer)| bytes.first() == Some(&write::SALE) && matches!(answer, 0 | 17))
    }

    /// The same after SALEs, whose answers depend on losses, margin and fund: house money and contributions change instead, on
    /// which no answer so far depends.
    fn aim_beside_sales(&mut self, at: usize) {
        // What margin and fund leave of the requirement.
        let left = above_margin_and_fund(&self.plan.head) - self.model.sum_of_prices();
        if left <= 1 || self.plan.target == Target::Free {
            return;
        }
        let mut house = self.rng.between(0, left / 2);
        let mut contributions = match self.plan.target {
            Target::Free => return,
            Target::Prefunded if self.plan.has_ties && self.rng.chance(60) => {
                // Contributions bear all that margin and fund leave, which is half of them.
                house = 0;
                2 * left
            }
            Target::Zero | Target::Prefunded => {
                house = self.rng.between(0, 2 * left);
                self.rng.between(0, 2 * left)
            }
            Target::Verge => left - house + self.rng.between(-1, 1),
            Target::Called if self.plan.has_ties && left >= 3 => {
                // What is called is then half of the contributions.
                house -= (house - left).rem_euclid(3).min(house);
                (left - house) / 3 * 2
            }
            Target::Called => self.rng.between((left - house) / 2, left - house - 1),
            Target::Uncovered => self.rng.between(0, (left - house) / 2),
        };
        let mut calls = self.calls.clone();
        let given =
            (0..calls.len()).filter(|&call| calls[call].first() == Some(&write::MEMBER) && self.answers[call] == 0);
        let given: Vec<usize> = given.collect();
        let old: Vec<u64> = given.iter().map(|&call| field::u32_at(&calls[call], 4).into()).collect();
        let shares = split(contributions as u64, &old);
        for (&call, &share) in given.iter().zip(&shares) {
            let share = share.min(500_000_000) as u32;
            contributions -= i64::from(share);
            calls[call][4..8].copy_from_slice(&share.to_be_bytes());
            self.plan.contributions[usize::from(calls[call][3])] = share;
        }
        // What no member can carry goes to the house.
        house = (house + contributions).min(4_000_000_000);
        let head = Head { house: house as u32, ..self.plan.head };
        calls[at] = write::head(&head);
        if self.rewrite(calls) {
            self.plan.head = head;
        }
    }

    /// Losses less than 0 cannot be given; the nearest is then 0.
    fn wanted_losses(&mut self, head: &Head) -> Option<i64> {
        let ready = i64::from(head.margin) + i64::from(head.fund) + i64::from(head.house);
        let held = &self.plan.head;
        let other = i64::from(held.margin) + i64::from(held.fund) + i64::from(held.house);
        let contributions = self.model.prefunded().unwrap_or(0) as i64 - other;
        let prefunded = ready + contributions;
        let wanted = match self.plan.target {
            Target::Free => return None,
            Target::Zero => -self.rng.between(0, 50),
            Target::Prefunded => self.within_a_layer(head),
            Target::Verge => prefunded + self.rng.between(-1, 1),
            Target::Called if self.plan.has_ties && self.rng.chance(70) => {
                prefunded + simple_part(&mut self.rng, contributions as u64).unwrap_or(1) as i64
            }
            Target::Called if self.rng.chance(10) => prefunded + contributions,
            Target::Called => prefunded + self.rng.between(1, contributions.max(1)),
            Target::Uncovered => prefunded + contributions + self.rng.between(0, contributions + 20),
        };
        Some(wanted + self.model.sum_of_prices())
    }

    /// An amount within a prefunded layer or rank, or at its end, or one beside it.
    fn within_a_layer(&mut self, head: &Head) -> i64 {
        let first_tranche = i64::from(head.house) * 3 / 5;
        let mut limits = vec![head.margin.into(), head.fund.into(), first_tranche];
        if self.plan.has_ties
            && self.rng.chance(85)
            && let Some(amount) = self.part_of_a_rank(limits.iter().sum())
        {
            return amount;
        }
        limits.extend(self.ranks_from_the_most_junior().iter().map(|(sum, _)| sum));
        limits.push(i64::from(head.house) - first_tranche);
        let layer = self.rng.below(limits.len() as u64) as usize;
        let before: i64 = limits[..layer].iter().sum();
        match self.rng.below(4) {
            0 => before + limits[layer],
            1 => (before + limits[layer] + self.rng.between(-1, 1)).max(0),
            _ => before + self.rng.between(0, limits[layer]),
        }
    }

    /// The contributions of each rank together and how many members have it, the most junior rank first; without those that have nothing.
    pub fn ranks_from_the_most_junior(&self) -> Vec<(i64, usize)> {
        let mut calls = self.calls.clone();
        if let Some(at) = self.head_at {
            let rich = Head { margin: 4_000_000_000, hedge_loss: 0, other_loss: 0, ..self.plan.head };
            calls[at] = write::head(&rich);
        }
        calls.push(write::finish());
        let mut model = Roll::default();
        calls.iter().for_each(|bytes| {
            model.call(bytes);
        });
        let Some(outcome) = model.result() else {
            return Vec::new();
        };
        let mut by_rank = vec![(0, 0); 33];
        for m in outcome.members {
            let (sum, members) = &mut by_rank[m.rank as usize];
            *sum += i64::from(self.plan.contributions[usize::from(m.member)]);
            *members += 1;
        }
        by_rank.into_iter().rev().filter(|&(sum, _)| sum > 0).collect()
    }
}

/// Both losses less margin and defaulter's fund.
fn above_margin_and_fund(head: &Head) -> i64 {
    let losses = i64::from(head.hedge_loss) + i64::from(head.other_loss);
    losses - i64::from(head.margin) - i64::from(head.fund)
}

/// The numbers of an accepted HEAD.
pub fn head_of(bytes: &[u8]) -> Head {
    let value = &bytes[3..];
    Head {
        pools: value[0],
        least_bid: field::u16_at(value, 1),
        set: field::u32_at(value, 3),
        hedge_loss: field::u32_at(value, 7),
        other_loss: field::u32_at(value, 11),
        margin: field::u32_at(value, 15),
        fund: field::u32_at(value, 19),
        house: field::u32_at(value, 23),
    }
}
