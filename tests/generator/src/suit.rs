//! What each profile asks for on top of the general draw of a plan.

use crate::plan::{Demand, Plan, Target, draw_reserves, draw_set};
use crate::profile::Profile;
use crate::rng::Rng;

/// One of these for each pool.
fn demand_among(rng: &mut Rng, demands: &[Demand]) -> [Demand; 4] {
    std::array::from_fn(|_| rng.pick(demands))
}

impl Plan {
    pub fn suit(&mut self, rng: &mut Rng, profile: Profile) {
        match profile {
            Profile::Mixed | Profile::Single => {}
            Profile::Plain => self.noise = 0,
            Profile::Rounds => self.suit_rounds(rng),
            Profile::Ties => self.suit_ties(rng),
            Profile::Allocations => self.suit_allocations(rng),
            Profile::Moves => self.suit_moves(rng),
            Profile::EmptyMoves => self.suit_empty_moves(rng),
            Profile::Misses => self.suit_misses(rng),
            Profile::Layers => self.suit_layers(rng),
            Profile::Ranks => self.suit_ranks(rng),
            Profile::Wide => self.suit_wide(rng),
            Profile::Edges => self.suit_edges(rng),
            Profile::ManyBids => self.suit_many_bids(rng),
            Profile::Refusals => self.suit_refusals(rng),
            Profile::Damage => self.noise = rng.pick(&[10, 30]),
            Profile::Short => self.limit = rng.below(20) as usize,
            Profile::Long => self.suit_long(rng),
        }
    }

    /// A list with SALEs: mostly one pool is sold and the rest goes to auction, or all are sold, or SALE is only an odd call.
    pub fn suit_sales(&mut self, rng: &mut Rng, profile: Profile) {
        self.has_sales = true;
        let kind = rng.below(8);
        if kind >= 3 && self.head.pools == 1 && profile != Profile::Single {
            self.head.pools = rng.pick(&[2, 2, 3]);
        }
        let pools = u64::from(self.head.pools.clamp(1, 4));
        self.to_sell = match kind {
            0 => 0,
            1 | 2 => (1 << pools) - 1,
            3 => rng.below(1 << pools) as u8,
            _ => 1 << rng.below(pools),
        };
        self.sales = 2 + 2 * self.to_sell.count_ones() as usize;
        self.linger = if rng.chance(50) { rng.between(1, 25) as usize } else { 0 };
        let costly = !matches!(profile, Profile::EmptyMoves | Profile::Edges);
        if costly && rng.chance(60) {
            // Margin and fund bear what is sold by agreement, so CALL needs a loss on the rest.
            self.prices.iter_mut().for_each(|price| *price = -price.abs().max(1));
            self.placing_price = rng.pick(&self.prices);
            self.reserves = draw_reserves(rng, &self.prices);
        }
        if profile == Profile::Edges && rng.chance(40) {
            self.suit_largest_sales(rng);
        }
    }

    /// Losses, margin and fund at their ends, so that the limit of 17 lies past 32 bits.
    fn suit_largest_sales(&mut self, rng: &mut Rng) {
        let h = &mut self.head;
        (h.hedge_loss, h.other_loss) = (2_000_000_000, 2_000_000_000);
        (h.margin, h.fund) = (4_000_000_000, 500_000_000);
        self.units = std::array::from_fn(|_| rng.pick(&[250, 400, 500, 1000]));
        self.prices = vec![-1_000_000, -999_999, rng.pick(&[-500_000, 1_000_000])];
    }

    /// A list with WITHDRAWs: some in each round, while bids come in and before CLOSE; now and then no bid of a pool is left.
    pub fn suit_withdrawals(&mut self, rng: &mut Rng, profile: Profile) {
        self.has_withdrawals = true;
        self.withdrawals = rng.pick(&[1, 3, 6, 12]);
        self.withdraw = rng.pick(&[10, 25, 50]);
        self.send_again = rng.pick(&[0, 50, 90]);
        // These profiles want units that no bid takes, so that there are some to allocate, move and miss.
        let wants_open_units = matches!(profile, Profile::Allocations | Profile::Moves | Profile::Misses);
        if wants_open_units {
            // A withdrawn bid leaves fewer units that MOVE could take, so more of the debts are to end by one.
            self.moves = self.moves.max(80);
        }
        if profile == Profile::ManyBids {
            // Most of them come when 256 are kept.
            (self.withdrawals, self.withdraw) = (rng.pick(&[6, 12, 24]), 3);
        } else if rng.chance(25) {
            self.suit_emptied_pools(rng, !wants_open_units);
        }
        if profile != Profile::Edges && rng.chance(if wants_open_units { 30 } else { 60 }) {
            self.suit_bids_to_take_back(rng);
        }
        if !wants_open_units && !matches!(profile, Profile::Edges | Profile::ManyBids) && rng.chance(25) {
            self.suit_bids_sent_again(rng);
        }
    }

    /// Pools in which no bid is left: in each round, or also in a second one alone, with a lower reserve, after a first that sold some units.
    fn suit_emptied_pools(&mut self, rng: &mut Rng, also_second_alone: bool) {
        let one = 1 << rng.below(self.head.pools.clamp(1, 4).into());
        self.emptied = if rng.chance(40) { 0b1111 } else { one };
        if also_second_alone && rng.chance(50) {
            self.emptied_from = 2;
            self.second_round = true;
            self.demand = [[Demand::Part; 4], [Demand::Over; 4]];
            let lower = |reserve: i32, less: i64| (reserve - less as i32).max(-1_000_000);
            self.reserves[1] = self.reserves[0].map(|reserve| lower(reserve, rng.between(0, 10)));
        }
    }

    /// Bids for as many units at one price, and more than are open, so that the odd unit goes by the order in which they stand.
    fn suit_bids_sent_again(&mut self, rng: &mut Rng) {
        let units = rng.pick(&[2, 3, 3, 4]);
        (self.head.least_bid, self.bid_units) = (units, units);
        self.prices.truncate(1);
        self.reserves = draw_reserves(rng, &self.prices);
        self.demand[0] = [Demand::Over; 4];
        self.withdrawals = rng.pick(&[1, 2, 4]);
        self.send_again = 95;
        self.emptied = 0;
    }

    /// A round without a bid has nothing to take back.
    fn suit_bids_to_take_back(&mut self, rng: &mut Rng) {
        for demand in self.demand.iter_mut().flatten().filter(|demand| **demand == Demand::Nothing) {
            *demand = rng.pick(&[Demand::Part, Demand::Over]);
        }
    }

    fn suit_ties(&mut self, rng: &mut Rng) {
        self.demand[0] = [Demand::Over; 4];
        self.demand[1] = demand_among(rng, &[Demand::Over, Demand::FarOver]);
        self.second_round = rng.chance(30);
    }

    fn suit_allocations(&mut self, rng: &mut Rng) {
        self.marks = std::array::from_fn(|_| u8::from(rng.chance(10)));
        self.demand[0] = demand_among(rng, &[Demand::Nothing, Demand::Part]);
        self.allocate = 70;
    }

    fn suit_moves(&mut self, rng: &mut Rng) {
        self.suit_calls(rng);
        self.moves = 85;
        self.miss = rng.pick(&[20, 50]);
        self.marks = std::array::from_fn(|_| u8::from(rng.chance(15)));
        self.demand[0] = demand_among(rng, &[Demand::Nothing, Demand::Part, Demand::Over]);
        self.second_round = rng.chance(30);
        self.contributions.iter_mut().for_each(|c| *c = (*c).max(rng.below(40) as u32));
        if rng.chance(40) {
            self.suit_placing(rng);
        }
    }

    fn suit_empty_moves(&mut self, rng: &mut Rng) {
        self.suit_calls(rng);
        self.moves = 60;
        self.reserves = std::array::from_fn(|_| std::array::from_fn(|_| rng.between(-5, 10) as i32));
    }

    fn suit_misses(&mut self, rng: &mut Rng) {
        self.suit_calls(rng);
        self.target = rng.pick(&[Target::Called, Target::Verge, Target::Prefunded, Target::Uncovered]);
        self.miss = 60;
        self.demand[0] = demand_among(rng, &[Demand::Nothing, Demand::Part, Demand::Over]);
    }

    fn suit_ranks(&mut self, rng: &mut Rng) {
        self.noise = rng.pick(&[0, 3]);
        self.bids = rng.between(4, 30) as usize;
        self.demand = std::array::from_fn(|_| demand_among(rng, &[Demand::Exact, Demand::Over, Demand::Part]));
    }

    fn suit_wide(&mut self, rng: &mut Rng) {
        self.noise = 3;
        self.bids = rng.between(5, 60) as usize;
    }

    fn suit_many_bids(&mut self, rng: &mut Rng) {
        self.bids = 100;
        self.losing_bids = rng.between(150, 300) as usize;
        self.second_round = rng.chance(80);
        // Pool 0 keeps open units for the second round, the others are sold out.
        self.demand[0] = [Demand::Part, Demand::Over, Demand::Over, Demand::Over];
        (self.allocate, self.tear) = (5, 5);
        if self.bid_units == 1000 {
            (self.bids, self.losing_bids) = (256, 0);
            self.prices.truncate(1);
            self.reserves = [[self.prices[0]; 4]; 2];
            self.demand = [[Demand::Past16Bits; 4]; 2];
        }
        self.noise = rng.pick(&[0, 3, 8]);
        self.limit = 1000;
    }

    fn suit_refusals(&mut self, rng: &mut Rng) {
        self.noise = rng.pick(&[40, 60]);
        self.tail = rng.between(5, 30) as usize;
    }

    fn suit_long(&mut self, rng: &mut Rng) {
        self.noise = rng.pick(&[80, 97]);
        self.limit = rng.between(1500, 4000) as usize;
        self.tail = 4000;
    }

    fn suit_rounds(&mut self, rng: &mut Rng) {
        self.second_round = true;
        self.demand[0] = demand_among(rng, &[Demand::Exact, Demand::Over, Demand::Part, Demand::Nothing]);
        if rng.chance(25) {
            self.demand[1] = [Demand::Nothing; 4];
        }
        self.allocate = rng.pick(&[5, 15]);
        self.tear = rng.pick(&[10, 30]);
    }

    fn suit_calls(&mut self, rng: &mut Rng) {
        self.target = if rng.chance(75) { Target::Called } else { Target::Uncovered };
        self.allocate = rng.pick(&[40, 80]);
        self.tear = rng.pick(&[3, 10]);
        self.noise = rng.pick(&[0, 4, 10]);
    }

    /// Several pools with units placed at different prices.
    fn suit_placing(&mut self, rng: &mut Rng) {
        self.head.pools = rng.pick(&[2, 3, 4]);
        self.marks = [0; 4];
        self.demand = [[Demand::Nothing; 4]; 2];
        self.expected = std::array::from_fn(|_| std::array::from_fn(|_| rng.between(0, 6) as u16));
        self.allocate = 95;
    }

    fn suit_layers(&mut self, rng: &mut Rng) {
        self.target = rng.pick(&[
            Target::Prefunded,
            Target::Prefunded,
            Target::Verge,
            Target::Called,
            Target::Uncovered,
            Target::Zero,
        ]);
        self.noise = rng.pick(&[0, 4]);
        if rng.chance(15) {
            self.contributions = [0; 32];
        }
        if rng.chance(20) {
            self.head.house = rng.below(7) as u32;
        }
    }

    /// Ends of ranges for every number of the case.
    fn suit_edges(&mut self, rng: &mut Rng) {
        let h = &mut self.head;
        h.hedge_loss = rng.pick(&[0, 2_000_000_000]);
        h.other_loss = rng.pick(&[0, 2_000_000_000]);
        h.margin = rng.pick(&[0, 0, 4_000_000_000]);
        h.fund = rng.pick(&[0, 500_000_000]);
        h.house = rng.pick(&[0, 0, 1, 4_000_000_000]);
        h.least_bid = rng.pick(&[1, 1, 1, 1000]);
        let contributions = rng.pick(&[&[0, 500_000_000], &[0, 1], &[1, 500_000_000]]);
        self.contributions = std::array::from_fn(|_| rng.pick(contributions));
        self.expected = std::array::from_fn(|_| std::array::from_fn(|_| rng.pick(&[0, 0, 1, 999, 1000])));
        self.bid_units = 1000;
        if rng.chance(40) {
            self.target = Target::Free;
        }
        match rng.below(4) {
            0 => self.suit_largest_loss(rng),
            1 => self.suit_largest_premium(rng),
            _ => {}
        }
    }

    /// The largest loss, borne by equal ranks with the largest contributions.
    fn suit_largest_loss(&mut self, rng: &mut Rng) {
        let members = rng.pick(&[7, 9, 16, 31, 32]);
        self.suit_largest_pools(rng);
        let h = &mut self.head;
        (h.hedge_loss, h.other_loss) = (2_000_000_000, 2_000_000_000);
        (h.margin, h.fund, h.house) = (0, rng.pick(&[0, 500_000_000]), rng.pick(&[0, 4_000_000_000]));
        h.set = draw_set(rng, members);
        self.contributions = std::array::from_fn(|_| rng.pick(&[500_000_000, 499_999_999]));
        self.expected = [[0; 4]; 32];
        self.prices = vec![-1_000_000];
        self.demand = [[Demand::Nothing; 4]; 2];
        self.target = Target::Free;
    }

    /// Few members win thousands of units at the highest price above the lowest reserve.
    fn suit_largest_premium(&mut self, rng: &mut Rng) {
        let members = rng.pick(&[1, 2, 2, 2, 3]);
        self.suit_largest_pools(rng);
        self.head.set = draw_set(rng, members);
        self.head.least_bid = rng.pick(&[1, 100, 1000]);
        self.expected = std::array::from_fn(|_| rng.pick(&[[0; 4], [0; 4], [1; 4], [999; 4], [1000; 4]]));
        self.prices = vec![1_000_000, 999_999];
        self.reserves = [[-1_000_000; 4]; 2];
        self.demand = [[Demand::Over; 4]; 2];
        self.noise = 0;
    }

    fn suit_largest_pools(&mut self, rng: &mut Rng) {
        self.head.pools = rng.pick(&[3, 4, 4]);
        self.units = [1000; 4];
        self.marks = [rng.pick(&[0, 1]); 4];
    }
}
