//! Calls that are likely to be declined, several reasons often applying at once.

use crate::damage;
use crate::writer::Writer;
use model::write::{self, Head};
use model::{Ledger, Stage};

impl Writer {
    /// Writes one odd call: a repeated one, a damaged one, or one whose numbers lie at or past the ends of their ranges.
    pub fn odd_call(&mut self) {
        let bytes = match self.rng.below(20) {
            0 | 1 => self.last().cloned().unwrap_or_default(),
            2 if self.plan.has_sales && self.rng.chance(50) => {
                let tag = self.odd_tag();
                let field = self.odd_field(tag);
                damage::under_an_unknown_tag(&mut self.rng, field)
            }
            2 => damage::unknown_tag(&mut self.rng),
            3..=5 => {
                let tag = self.odd_tag();
                let field = self.odd_field(tag);
                damage::wrong_length(&mut self.rng, field)
            }
            6 if self.loose => {
                let tag = self.odd_tag();
                let field = self.odd_field(tag);
                damage::not_one_field(&mut self.rng, field)
            }
            _ => {
                let tag = self.odd_tag();
                self.odd_field(tag)
            }
        };
        // A loose byte string may be repeated only where loose ones are written, so that an input keeps its fields.
        if !bytes.is_empty() || self.loose {
            self.put(bytes);
        }
    }

    /// Mostly a call that the stage allows, so that the later reasons are reached too.
    fn odd_tag(&mut self) -> u8 {
        let allowed: &[u8] = match self.model.stage() {
            None => &[write::HEAD, write::HEAD, write::ROUND],
            Some(Stage::Setup) if self.plan.has_sales => {
                &[write::POOL, write::MEMBER, write::ROUND, write::SALE, write::SALE]
            }
            Some(Stage::Setup) => &[write::POOL, write::MEMBER, write::ROUND],
            Some(Stage::Bidding(_)) if self.plan.has_withdrawals => &[write::BID, write::WITHDRAW],
            Some(Stage::Bidding(_)) => &[write::BID],
            Some(Stage::After(_)) => {
                &[write::ROUND, write::ALLOCATE, write::ALLOCATE, write::TEAR, write::CALL, write::MISS, write::FINISH]
            }
            Some(Stage::CallsOut) => &[write::PAY, write::MOVE, write::MISS, write::FINISH],
            Some(Stage::Finished) => &[],
        };
        if allowed.is_empty() || self.rng.chance(40) { self.any_tag() } else { self.rng.pick(allowed) }
    }

    /// Any of the calls that the list has.
    fn any_tag(&mut self) -> u8 {
        let mut tags: Vec<u8> = (1..=write::FINISH).collect();
        tags.extend(self.plan.has_sales.then_some(write::SALE));
        if self.plan.has_withdrawals {
            // More often than the others, since outside of B it comes by this alone.
            tags.extend([write::WITHDRAW; 3]);
        }
        self.rng.pick(&tags)
    }

    /// A field of the right length whose numbers are each valid, at an end or past it.
    pub fn odd_field(&mut self, tag: u8) -> Vec<u8> {
        match tag {
            write::HEAD => self.odd_head(),
            write::POOL => {
                let pool = if self.rng.chance(70) { self.model.pools_given() } else { self.odd_pool() };
                let mark = self.odd([0, 1], [2, 255]);
                write::pool(pool, self.odd_units(), mark)
            }
            write::MEMBER => self.odd_member_field(),
            write::ROUND => self.odd_round(),
            write::BID => write::bid(self.odd_pool(), self.odd_member(), self.odd_units(), self.odd_price()),
            write::ALLOCATE => write::allocate(self.odd_pool(), self.odd_price()),
            write::TEAR => write::tear(self.odd_pool(), self.odd_price()),
            write::PAY => {
                let member = self.odd_member();
                write::pay(member, self.odd_amount(member))
            }
            write::MOVE => write::move_units(self.odd_member()),
            write::MISS => write::miss(self.odd_member(), self.odd_price()),
            write::SALE => {
                let pool = self.odd_pool();
                let price = if self.rng.chance(40) { self.sale_price(pool) } else { self.odd_price() };
                write::sale(pool, self.odd_member(), price)
            }
            write::WITHDRAW => self.odd_withdrawal(),
            _ => write::field(tag, &[]),
        }
    }

    /// Mostly one of the first, else one of the others.
    fn odd<T: Copy, const N: usize, const M: usize>(&mut self, good: [T; N], bad: [T; M]) -> T {
        if self.rng.chance(80) { self.rng.pick(&good) } else { self.rng.pick(&bad) }
    }

    fn odd_pool(&mut self) -> u8 {
        let good = self.any_pool();
        let pools = self.plan.head.pools;
        self.odd([good], [pools, pools, 4, 255])
    }

    pub fn odd_member(&mut self) -> u8 {
        let good = self.any_member();
        let outside = self.rng.below(32) as u8;
        self.odd([good], [outside, outside, good + 32, good + 128, 32, 255])
    }

    fn odd_units(&mut self) -> u16 {
        let least = self.plan.head.least_bid;
        let some = 1 + self.rng.below(10) as u16;
        self.odd([some, some, least, least.saturating_sub(1), 1, 1000], [0, 1001, 65_535])
    }

    fn odd_price(&mut self) -> i32 {
        let some = self.rng.pick(&self.plan.prices);
        self.odd([some, some, some, 0, -1_000_000, 1_000_000], [-1_000_001, 1_000_001, i32::MIN, i32::MAX])
    }

    fn odd_amount(&mut self, member: u8) -> u32 {
        let owes = self.model.owes(member) as u32;
        self.odd([owes, owes / 2, owes + 1, 1, 1_000_000_000], [0, 0, 1_000_000_001, u32::MAX])
    }

    /// A HEAD with some numbers at an end of their range and perhaps one past it.
    fn odd_head(&mut self) -> Vec<u8> {
        let mut h = self.plan.head;
        for _ in 0..self.rng.below(4) {
            self.set_an_end(&mut h);
        }
        if self.rng.chance(70) {
            match self.rng.below(8) {
                0 => h.pools = self.rng.pick(&[0, 5, 255]),
                1 => h.least_bid = self.rng.pick(&[0, 1001, 65_535]),
                2 => h.set = 0,
                3 => h.hedge_loss = self.rng.pick(&[2_000_000_001, u32::MAX]),
                4 => h.other_loss = self.rng.pick(&[2_000_000_001, u32::MAX]),
                5 => h.margin = self.rng.pick(&[4_000_000_001, u32::MAX]),
                6 => h.fund = self.rng.pick(&[500_000_001, u32::MAX]),
                _ => h.house = self.rng.pick(&[4_000_000_001, u32::MAX]),
            }
        }
        write::head(&h)
    }

    fn set_an_end(&mut self, h: &mut Head) {
        match self.rng.below(8) {
            0 => h.pools = self.rng.pick(&[1, 4]),
            1 => h.least_bid = self.rng.pick(&[1, 1000]),
            2 => h.set = self.rng.pick(&[1, 1 << 31, u32::MAX]),
            3 => h.hedge_loss = self.rng.pick(&[0, 2_000_000_000]),
            4 => h.other_loss = self.rng.pick(&[0, 2_000_000_000]),
            5 => h.margin = self.rng.pick(&[0, 4_000_000_000]),
            6 => h.fund = self.rng.pick(&[0, 500_000_000]),
            _ => h.house = self.rng.pick(&[0, 4_000_000_000]),
        }
    }

    fn odd_member_field(&mut self) -> Vec<u8> {
        let member = self.odd_member();
        if self.rng.chance(30) {
            return self.member_field(member);
        }
        let some = self.plan.contributions[usize::from(member) % 32];
        let contribution = self.odd([some, 0, 500_000_000], [500_000_001, u32::MAX]);
        let pools = usize::from(self.plan.head.pools);
        let lacking = self.rng.pick(&[0, 0, 0, 1]);
        let expected =
            std::array::from_fn(
                |pool| {
                    if pool < pools { self.odd([0, 1, 2, 5, 1000], [1001, 65_535]) } else { lacking }
                },
            );
        write::member(member, contribution, expected)
    }

    fn odd_round(&mut self) -> Vec<u8> {
        let pools = usize::from(self.plan.head.pools);
        let right = if self.model.stage().is_none() { 40 } else { 80 };
        let count = if self.rng.chance(right) { pools } else { self.rng.below(6) as usize };
        let reserves: Vec<i32> = (0..count).map(|_| self.odd_price()).collect();
        write::round(&reserves)
    }
}
