//! The ledger as an explicit unit roll, one entry a unit, by the letter of document 01 and C-12 and C-14 to C-16 of document 02, and as plain as it can be.
//!
//! This is the model to believe: above each function stands the sentence that it follows. It uses no code of `split`, `auction`
//! or `counts`.

use crate::field::{self, Field};
use crate::ledger::{Ledger, MemberOutcome, Outcome, Stage};
use crate::write::Head;
use std::cmp::Reverse;
use std::collections::{BTreeMap, BTreeSet};

/// "A pool of N units has N entries, each open, sold (bid), allocated (member, price), moved (member) or torn (price)."
///
/// C-12: "The roll gains the entry sold by agreement"; its member and price are those of SALE.
#[derive(Clone, Copy, Debug, PartialEq, Eq)]
pub enum Entry {
    Open,
    Sold { bid: usize },
    SoldByAgreement { member: u8, price: i64 },
    Allocated { member: u8, price: i64 },
    Moved { member: u8 },
    Torn { price: i64 },
}

/// "The roll's machine is fed the calls' bytes and nothing else, and begins with no case and no entry."
#[derive(Clone, Debug, Default, PartialEq, Eq)]
pub struct Roll {
    case: Option<Case>,
}

/// "Beside the roll it keeps the stage, the accepted fields, the pools with open units at each ROUND, each bid's units won, and
/// each member's units ever allocated by pool, its call, its payments and whether it had a MOVE."
#[derive(Clone, Debug, PartialEq, Eq)]
struct Case {
    roll: Vec<Vec<Entry>>,
    stage: Stage,
    head: Head,
    pools: Vec<Pool>,
    members: BTreeMap<u8, Member>,
    rounds: Vec<Round>,
    bids: Vec<Bid>,
    ever_allocated: BTreeMap<(u8, u8), u64>,
    calls: BTreeMap<u8, u64>,
    payments: BTreeMap<u8, u64>,
    had_move: BTreeSet<u8>,
}

#[derive(Clone, Debug, PartialEq, Eq)]
struct Pool {
    number: u8,
    units: u64,
    mark: u8,
}

#[derive(Clone, Debug, PartialEq, Eq)]
struct Member {
    number: u8,
    contribution: u64,
    expected: Vec<u64>,
}

#[derive(Clone, Debug, PartialEq, Eq)]
struct Round {
    reserves: Vec<i64>,
    had_open_units: Vec<bool>,
}

/// An accepted BID, the round it belongs to, and its units won. C-14: "A bid record in the case now says whether it stands".
#[derive(Clone, Debug, PartialEq, Eq)]
pub struct Bid {
    pub round: u8,
    pub pool: u8,
    pub member: u8,
    pub units: u64,
    pub price: i64,
    pub won: u64,
    pub stands: bool,
}

/// "A call is a tagged field: tag (1 byte), length (2), value."
// One of the fifteen calls is itself named CALL.
#[allow(clippy::enum_variant_names)]
#[derive(Clone, Debug, PartialEq, Eq)]
enum Call {
    Head(Head),
    Pool(Pool),
    Member(Member),
    Round { reserves: Vec<i64> },
    Bid(Bid),
    Close,
    Allocate { pool: u8, price: i64 },
    Tear { pool: u8, price: i64 },
    Call,
    Pay { member: u8, amount: u64 },
    Move { member: u8 },
    Miss { member: u8, price: i64 },
    Finish,
    Sale { pool: u8, member: u8, price: i64 },
    Withdraw { member: u8, number: u16 },
}

/// "1. Unknown tag, bytes that aren't exactly one field, or a wrong length (ROUND: 4 × pools; with no case 4, 8, 12 or 16)."
fn read(bytes: &[u8], pools: Option<u8>) -> Option<Call> {
    let Field { tag, value } = field::exactly_one(bytes)?;
    let round_length_is_right = match pools {
        Some(pools) => value.len() == 4 * usize::from(pools),
        None => [4, 8, 12, 16].contains(&value.len()),
    };
    let call = match (tag, value.len()) {
        (1, 27) => Call::Head(read_head(value)),
        (2, 4) => Call::Pool(Pool { number: value[0], units: field::u16_at(value, 1).into(), mark: value[3] }),
        (3, 13) => Call::Member(Member {
            number: value[0],
            contribution: field::u32_at(value, 1).into(),
            expected: (0..4).map(|pool| field::u16_at(value, 5 + 2 * pool).into()).collect(),
        }),
        (4, length) if round_length_is_right => {
            Call::Round { reserves: (0..length / 4).map(|pool| field::price_at(value, 4 * pool)).collect() }
        }
        (5, 8) => Call::Bid(Bid {
            round: 0,
            pool: value[0],
            member: value[1],
            units: field::u16_at(value, 2).into(),
            price: field::price_at(value, 4),
            won: 0,
            stands: true,
        }),
        (6, 0) => Call::Close,
        (7, 5) => Call::Allocate { pool: value[0], price: field::price_at(value, 1) },
        (8, 5) => Call::Tear { pool: value[0], price: field::price_at(value, 1) },
        (9, 0) => Call::Call,
        (10, 5) => Call::Pay { member: value[0], amount: field::u32_at(value, 1).into() },
        (11, 1) => Call::Move { member: value[0] },
        (12, 5) => Call::Miss { member: value[0], price: field::price_at(value, 1) },
        (13, 0) => Call::Finish,
        // "SALE (tag 14: pool 1, member 1, price 4)"
        (14, 6) => Call::Sale { pool: value[0], member: value[1], price: field::price_at(value, 2) },
        // "WITHDRAW (tag 15: member 1, bid number 2)"
        (15, 3) => Call::Withdraw { member: value[0], number: field::u16_at(value, 1) },
        _ => return None,
    };
    Some(call)
}

/// "HEAD: pools 1, least bid 2, member set 4, hedge loss 4, other loss 4, defaulter's margin 4, defaulter's fund 4, house money 4"
fn read_head(value: &[u8]) -> Head {
    Head {
        pools: value[0],
        least_bid: field::u16_at(value, 1),
        set: field::u32_at(value, 3),
        hedge_loss: field::u32_at(value, 7),
        other_loss: field::u32_at(value, 11),
        margin: field::u32_at(value, 15),
        fund: field::u32_at(value, 19),
        house: field::u32_at(value, 23),
    }
}

/// "Ranges: pools 1 to 4; least bid, pool units and bid units 1 to 1,000; member set not empty; ... hedge and other loss to
/// 2×10^9; margin and house money to 4×10^9; a fund or contribution to 5×10^8"
fn head_is_out_of_range(head: &Head) -> bool {
    !(1..=4).contains(&head.pools)
        || !(1..=1_000).contains(&head.least_bid)
        || head.set == 0
        || head.hedge_loss > 2_000_000_000
        || head.other_loss > 2_000_000_000
        || head.margin > 4_000_000_000
        || head.house > 4_000_000_000
        || head.fund > 500_000_000
}

/// "prices and reserves −10^6 to 10^6"
fn price_is_out_of_range(price: i64) -> bool {
    !(-1_000_000..=1_000_000).contains(&price)
}

/// "5. A number is out of range."
fn is_out_of_range(call: &Call, pools: u8) -> bool {
    match call {
        Call::Head(head) => head_is_out_of_range(head),
        // "pool units ... 1 to 1,000; mark 0 or 1"
        Call::Pool(pool) => !(1..=1_000).contains(&pool.units) || pool.mark > 1,
        // "a fund or contribution to 5×10^8; expected units to 1,000, and 0 for a pool the case lacks"
        Call::Member(member) => {
            let limit = |pool: usize| if pool < pools.into() { 1_000 } else { 0 };
            member.contribution > 500_000_000 || (0..4).any(|pool| member.expected[pool] > limit(pool))
        }
        Call::Round { reserves } => reserves.iter().any(|&r| price_is_out_of_range(r)),
        // "bid units 1 to 1,000"
        Call::Bid(bid) => !(1..=1_000).contains(&bid.units) || price_is_out_of_range(bid.price),
        Call::Allocate { price, .. }
        | Call::Tear { price, .. }
        | Call::Miss { price, .. }
        | Call::Sale { price, .. } => price_is_out_of_range(*price),
        // "a payment 1 to 10^9"
        Call::Pay { amount, .. } => !(1..=1_000_000_000).contains(amount),
        // A bid number has no range of its own: one that no bid can have is 18.
        Call::Close | Call::Call | Call::Move { .. } | Call::Finish | Call::Withdraw { .. } => false,
    }
}

/// "To split q by a list of weights w with sum W: each share is floor(q × w / W). What is left goes one each to the largest
/// remainders of q × w by W, ties to the earlier in the list. If W = 0 every share is 0." C-15: "From now on such a tie goes to
/// the larger weight, and only then to the earlier in the list. This holds for allotments, allocations, calls and charges alike."
fn split(q: u64, weights: &[u64]) -> Vec<u64> {
    let q = u128::from(q);
    let w: Vec<u128> = weights.iter().map(|&w| w.into()).collect();
    let sum: u128 = w.iter().sum();
    if sum == 0 {
        return vec![0; w.len()];
    }
    let mut shares: Vec<u128> = w.iter().map(|w| q * w / sum).collect();
    let mut remainders: Vec<Option<u128>> = w.iter().map(|w| Some(q * w % sum)).collect();
    let left = q - shares.iter().sum::<u128>();
    for _ in 0..left {
        let largest = remainders.iter().flatten().max().expect("less is left than there are weights");
        let tied: Vec<usize> = (0..w.len()).filter(|&i| remainders[i] == Some(*largest)).collect();
        let heaviest = tied.iter().map(|&i| w[i]).max();
        let first = tied.into_iter().find(|&i| Some(w[i]) == heaviest).expect("one of those tied is the heaviest");
        shares[first] += 1;
        remainders[first] = None;
    }
    shares.iter().map(|&share| share as u64).collect()
}

impl Roll {
    /// The entries of a pool, none where it is not given.
    pub fn entries(&self, pool: u8) -> &[Entry] {
        let roll = self.case.as_ref().and_then(|c| c.roll.get(usize::from(pool)));
        roll.map_or(&[], |entries| entries)
    }

    /// The bids kept, in their order.
    pub fn bids(&self) -> &[Bid] {
        self.case.as_ref().map_or(&[], |case| &case.bids)
    }

    /// "Each gives its number and the unchanged case (none where there was none); 0 is accepted."
    ///
    /// The answer is the first number of the list that applies.
    fn answer(&self, call: &Call) -> u8 {
        let declines = |&number: &u8| match &self.case {
            None => declines_without_a_case(number, call),
            Some(case) => case.declines(number, call),
        };
        (2..=18).find(declines).unwrap_or(0)
    }

    fn take(&mut self, call: Call) {
        match (&mut self.case, call) {
            (Some(case), call) => case.take(call),
            (none, Call::Head(head)) => *none = Some(Case::new(head)),
            (None, _) => unreachable!("only HEAD is accepted with no case"),
        }
    }
}

/// "HEAD ... no case yet; makes S"
fn declines_without_a_case(number: u8, call: &Call) -> bool {
    match (number, call) {
        (2, call) => !matches!(call, Call::Head(_)),
        (5, Call::Head(head)) => head_is_out_of_range(head),
        _ => false,
    }
}

impl Case {
    fn new(head: Head) -> Case {
        Case {
            roll: Vec::new(),
            stage: Stage::Setup,
            head,
            pools: Vec::new(),
            members: BTreeMap::new(),
            rounds: Vec::new(),
            bids: Vec::new(),
            ever_allocated: BTreeMap::new(),
            calls: BTreeMap::new(),
            payments: BTreeMap::new(),
            had_move: BTreeSet::new(),
        }
    }

    // Why a call is declined

    /// The list of numbers, each asked only where none before it applies.
    fn declines(&self, number: u8, call: &Call) -> bool {
        match number {
            2 => !self.stage_allows(call),
            3 => self.pool_is_wrong(call),
            4 => self.member_is_wrong(call),
            5 => is_out_of_range(call, self.head.pools),
            6 => self.bid_is_below_the_least(call),
            7 => matches!(call, Call::Bid(_)) && self.bids.len() == 256,
            8 => self.finds_no_open_unit(call),
            9 => self.allocates_a_mark_of_1(call),
            10 => self.finds_no_shortfall_or_one_not_given(call),
            11 => matches!(call, Call::Call | Call::Finish) && self.open_units_anywhere(),
            12 => matches!(call, Call::Call) && self.prefunded() >= self.requirement(),
            13 => self.finishes_below_the_requirement(call),
            14 => self.pays_too_much_or_owes_nothing(call),
            15 => matches!(call, Call::Finish) && self.set().iter().any(|&m| self.owes(m) > 0),
            16 => matches!(call, Call::Miss { member, .. } if !self.was_given_units(*member)),
            17 => matches!(call, Call::Sale { pool, price, .. } if self.sale_passes_the_limit(*pool, *price)),
            18 => matches!(call, Call::Withdraw { member, number } if !self.has_standing_bid(*member, *number)),
            _ => false,
        }
    }

    /// "2. The stage doesn't allow the call."
    fn stage_allows(&self, call: &Call) -> bool {
        use Stage::*;
        match call {
            Call::Head(_) => false,
            // "SALE ... in stage S"
            Call::Pool(_) | Call::Member(_) | Call::Sale { .. } => self.stage == Setup,
            Call::Round { .. } => self.stage == Setup || self.stage == After(1),
            // "WITHDRAW ... is allowed while a round is open."
            Call::Bid(_) | Call::Close | Call::Withdraw { .. } => matches!(self.stage, Bidding(_)),
            Call::Allocate { .. } | Call::Tear { .. } | Call::Call => {
                matches!(self.stage, After(_))
            }
            Call::Pay { .. } | Call::Move { .. } => self.stage == CallsOut,
            Call::Miss { .. } | Call::Finish => matches!(self.stage, After(_) | CallsOut),
        }
    }

    /// "3. The pool isn't in the case (its number isn't below HEAD's pools), or POOL isn't the next in turn from 0."
    fn pool_is_wrong(&self, call: &Call) -> bool {
        let not_in_the_case = |pool: u8| pool >= self.head.pools;
        match call {
            Call::Pool(pool) => not_in_the_case(pool.number) || usize::from(pool.number) != self.pools.len(),
            Call::Bid(bid) => not_in_the_case(bid.pool),
            Call::Allocate { pool, .. } | Call::Tear { pool, .. } | Call::Sale { pool, .. } => not_in_the_case(*pool),
            _ => false,
        }
    }

    /// "4. The member isn't in the set, or MEMBER names one already given."
    fn member_is_wrong(&self, call: &Call) -> bool {
        let not_in_the_set = |member: u8| !self.set().contains(&member);
        match call {
            Call::Member(m) => not_in_the_set(m.number) || self.members.contains_key(&m.number),
            Call::Bid(bid) => not_in_the_set(bid.member),
            Call::Pay { member, .. }
            | Call::Move { member }
            | Call::Miss { member, .. }
            | Call::Sale { member, .. }
            | Call::Withdraw { member, .. } => not_in_the_set(*member),
            _ => false,
        }
    }

    /// "6. BID is below the least bid."
    fn bid_is_below_the_least(&self, call: &Call) -> bool {
        matches!(call, Call::Bid(bid) if bid.units < self.head.least_bid.into())
    }

    /// "8. BID, ALLOCATE or TEAR finds no open unit in the pool, or the second ROUND none anywhere." C-12: "Pool, member, range, open
    /// unit and missing setup are checked as for other calls, with their old numbers", and "the stage becomes A1, where a ROUND is
    /// declined by 8".
    ///
    /// A pool of the case that is not given yet has no entry, so no open unit.
    fn finds_no_open_unit(&self, call: &Call) -> bool {
        match call {
            Call::Bid(bid) => self.open_units(bid.pool) == 0,
            Call::Allocate { pool, .. } | Call::Tear { pool, .. } | Call::Sale { pool, .. } => {
                self.open_units(*pool) == 0
            }
            Call::Round { .. } => self.stage == Stage::After(1) && !self.open_units_anywhere(),
            _ => false,
        }
    }

    /// "9. ALLOCATE names a pool with mark 1."
    fn allocates_a_mark_of_1(&self, call: &Call) -> bool {
        matches!(call, Call::Allocate { pool, .. } if self.pools[usize::from(*pool)].mark == 1)
    }

    /// "10. ALLOCATE finds no shortfall, or ROUND a pool or member not given." C-12: "when all pools and members are given".
    fn finds_no_shortfall_or_one_not_given(&self, call: &Call) -> bool {
        match call {
            Call::Allocate { pool, .. } => self.shortfalls(*pool).iter().all(|&s| s == 0),
            Call::Round { .. } | Call::Sale { .. } => {
                self.pools.len() < self.head.pools.into() || self.set().iter().any(|m| !self.members.contains_key(m))
            }
            _ => false,
        }
    }

    /// "13. FINISH in stage A finds prefunded below it."
    fn finishes_below_the_requirement(&self, call: &Call) -> bool {
        matches!(call, Call::Finish) && matches!(self.stage, Stage::After(_)) && self.prefunded() < self.requirement()
    }

    /// "14. PAY exceeds what the member owes, or MOVE finds nothing owed."
    fn pays_too_much_or_owes_nothing(&self, call: &Call) -> bool {
        match call {
            Call::Pay { member, amount } => *amount > self.owes(*member),
            Call::Move { member } => self.owes(*member) == 0,
            _ => false,
        }
    }

    /// "16. MISS finds no unit allocated or moved to the member."
    fn was_given_units(&self, member: u8) -> bool {
        let all = self.roll.iter().flatten();
        all.copied().any(|entry| is_given_to(entry, member))
    }

    /// "17, last of all, where hedge loss + other loss − the prices of all units so sold, this pool's included, passes margin and
    /// defaulter's fund together."
    fn sale_passes_the_limit(&self, pool: u8, price: i64) -> bool {
        let losses = i64::from(self.head.hedge_loss) + i64::from(self.head.other_loss);
        let limit = i64::from(self.head.margin) + i64::from(self.head.fund);
        let so_sold = self.roll.iter().flatten().filter(|entry| is_sold_by_agreement(**entry));
        let so_far: i64 = so_sold.map(|&entry| price_of(entry, &self.bids)).sum();
        let this_pool = self.open_units(pool) as i64 * price;
        losses - (so_far + this_pool) > limit
    }

    /// "18, after the member check, where no standing bid of that member in the open round has the number."
    fn has_standing_bid(&self, member: u8, number: u16) -> bool {
        let open_round = self.rounds.len() as u8;
        let bid = self.bids.get(usize::from(number));
        bid.is_some_and(|bid| bid.stands && bid.member == member && bid.round == open_round)
    }

    // The calls

    fn take(&mut self, call: Call) {
        match call {
            Call::Head(_) => unreachable!("HEAD is declined where there is a case"),
            Call::Pool(pool) => self.pool(pool),
            Call::Member(member) => {
                self.members.insert(member.number, member);
            }
            Call::Round { reserves } => self.round(reserves),
            Call::Bid(bid) => self.bid(bid),
            Call::Close => self.close(),
            Call::Allocate { pool, price } => self.allocate(pool, price),
            Call::Tear { pool, price } => self.tear(pool, price),
            Call::Call => self.call(),
            Call::Pay { member, amount } => *self.payments.entry(member).or_default() += amount,
            Call::Move { member } => self.move_units(member),
            Call::Miss { member, price } => self.miss(member, price),
            Call::Finish => self.stage = Stage::Finished,
            Call::Sale { pool, member, price } => self.sale(pool, member, price),
            // "the bid keeps its number and still counts towards 256", so its record stays.
            Call::Withdraw { number, .. } => self.bids[usize::from(number)].stands = false,
        }
    }

    /// "POOL, accepted, makes N open: the units put up."
    fn pool(&mut self, pool: Pool) {
        self.roll.push(vec![Entry::Open; pool.units as usize]);
        self.pools.push(pool);
    }

    /// "ROUND: one reserve of 4 for each pool; S, A1; makes B"
    ///
    /// Kept beside the roll: "the pools with open units at each ROUND".
    fn round(&mut self, reserves: Vec<i64>) {
        let had_open_units = (0..self.head.pools).map(|p| self.open_units(p) > 0).collect();
        self.rounds.push(Round { reserves, had_open_units });
        self.stage = Stage::Bidding(self.rounds.len() as u8);
    }

    /// "A case keeps at most 256 bids, numbered from 0 as accepted."
    fn bid(&mut self, bid: Bid) {
        let round = self.rounds.len() as u8;
        self.bids.push(Bid { round, ..bid });
    }

    /// "CLOSE gives each bid in order the lowest open entries"
    fn close(&mut self) {
        let won: Vec<u64> = (0..self.bids.len()).map(|bid| self.wins(bid)).collect();
        for (bid, &units) in won.iter().enumerate() {
            if self.bids[bid].round == self.rounds.len() as u8 {
                self.bids[bid].won = units;
                self.give_lowest_open(self.bids[bid].pool, units, Entry::Sold { bid });
            }
        }
        self.stage = Stage::After(self.rounds.len() as u8);
    }

    /// "a bid of this round is valid if its price is at or above its pool's reserve." C-14: "CLOSE allots as though a withdrawn bid
    /// had not been sent".
    fn is_valid(&self, bid: &Bid) -> bool {
        let round = &self.rounds[self.rounds.len() - 1];
        bid.stands && usize::from(bid.round) == self.rounds.len() && bid.price >= round.reserves[usize::from(bid.pool)]
    }

    /// "With n units open in its pool, and only that pool's bids counted, a valid bid wins all its units if the valid units at its
    /// price or above are at most n. If those above its price are already n or more it wins none. Otherwise the balance is split
    /// among the bids at its price, by units, in bid order."
    fn wins(&self, number: usize) -> u64 {
        let bid = &self.bids[number];
        if !self.is_valid(bid) {
            return 0;
        }
        let n = self.open_units(bid.pool);
        let valid = |b: &&Bid| b.pool == bid.pool && self.is_valid(b);
        let units = |least: i64| -> u64 {
            let counted = self.bids.iter().filter(valid);
            counted.filter(|b| b.price >= least).map(|b| b.units).sum()
        };
        let above = units(bid.price + 1);
        if units(bid.price) <= n {
            return bid.units;
        }
        if above >= n {
            return 0;
        }
        let at_its_price: Vec<usize> =
            (0..self.bids.len()).filter(|&i| valid(&&self.bids[i]) && self.bids[i].price == bid.price).collect();
        let weights: Vec<u64> = at_its_price.iter().map(|&i| self.bids[i].units).collect();
        let place = at_its_price.iter().position(|&i| i == number);
        split(n - above, &weights)[place.expect("the bid stands at its own price")]
    }

    /// "CLOSE gives each bid in order the lowest open entries, ALLOCATE each member likewise"
    fn give_lowest_open(&mut self, pool: u8, units: u64, given: Entry) {
        let entries = self.roll[usize::from(pool)].iter_mut();
        let open = entries.filter(|entry| **entry == Entry::Open);
        open.take(units as usize).for_each(|entry| *entry = given);
    }

    /// "a member's shortfall is expected units less units won less units ever allocated to it by this call, all in that pool, at
    /// least 0."
    fn shortfalls(&self, pool: u8) -> Vec<u64> {
        let shortfall = |member: &u8| {
            let expected = self.members[member].expected[usize::from(pool)];
            let of_member = self.bids.iter().filter(|b| b.member == *member);
            let won: u64 = of_member.filter(|b| b.pool == pool).map(|b| b.won).sum();
            let allocated = self.ever_allocated.get(&(*member, pool)).copied().unwrap_or(0);
            expected.saturating_sub(won + allocated)
        };
        self.set().iter().map(shortfall).collect()
    }

    /// "The smaller of open units and total shortfall is split by shortfall, in member order, at the given price."
    fn allocate(&mut self, pool: u8, price: i64) {
        let shortfalls = self.shortfalls(pool);
        let total: u64 = shortfalls.iter().sum();
        let shares = split(self.open_units(pool).min(total), &shortfalls);
        for (member, units) in self.set().into_iter().zip(shares) {
            *self.ever_allocated.entry((member, pool)).or_default() += units;
            self.give_lowest_open(pool, units, Entry::Allocated { member, price });
        }
    }

    /// "TEAR: every open unit of the pool goes at the given price."
    fn tear(&mut self, pool: u8, price: i64) {
        for entry in &mut self.roll[usize::from(pool)] {
            if *entry == Entry::Open {
                *entry = Entry::Torn { price };
            }
        }
    }

    /// "CALL: the smaller of (requirement − prefunded) and all contributions is split by contribution, in member order."
    fn call(&mut self) {
        let contributions = self.contributions();
        let all: u64 = contributions.iter().sum();
        let called = (self.requirement() - self.prefunded()).min(all);
        self.calls = self.set().into_iter().zip(split(called, &contributions)).collect();
        self.stage = Stage::CallsOut;
    }

    /// "It owes its call less payments, and 0 after MOVE."
    fn owes(&self, member: u8) -> u64 {
        if self.had_move.contains(&member) {
            return 0;
        }
        self.calls.get(&member).copied().unwrap_or(0) - self.paid(member)
    }

    /// "PAY adds to what a member paid."
    fn paid(&self, member: u8) -> u64 {
        self.payments.get(&member).copied().unwrap_or(0)
    }

    /// "MOVE: units pass to the member at price 0, one by one, until their old prices together have saved what it owes, or no
    /// allocated or sold unit with a negative price is left"
    fn move_units(&mut self, member: u8) {
        let owes = self.owes(member);
        let mut saved = 0;
        while saved < owes {
            let Some((pool, entry)) = self.next_to_move() else {
                break;
            };
            let unit = &mut self.roll[pool][entry];
            saved += price_of(*unit, &self.bids).unsigned_abs();
            *unit = Entry::Moved { member };
        }
        self.had_move.insert(member);
    }

    /// "only such units move, in pools of either mark. Allocated units go first: lowest price, then higher pool, then higher
    /// member. Sold units follow: lowest price, then later bid. The member's own units count." and "within one bid or member the
    /// highest first". C-12: "MOVE passes over it and ends as if it weren't there."
    fn next_to_move(&self) -> Option<(usize, usize)> {
        let mut allocated = Vec::new();
        let mut sold = Vec::new();
        for (pool, entries) in self.roll.iter().enumerate() {
            for (place, &entry) in entries.iter().enumerate() {
                let price = price_of(entry, &self.bids);
                match entry {
                    Entry::Allocated { member, .. } if price < 0 => {
                        allocated.push((price, Reverse(pool), Reverse(member), Reverse(place)));
                    }
                    Entry::Sold { bid } if price < 0 => {
                        sold.push((price, Reverse(bid), Reverse(place), pool));
                    }
                    _ => {}
                }
            }
        }
        let first_allocated = allocated.iter().min();
        let first_sold = sold.iter().min();
        first_allocated
            .map(|&(_, Reverse(pool), _, Reverse(place))| (pool, place))
            .or(first_sold.map(|&(_, _, Reverse(place), pool)| (pool, place)))
    }

    /// "MISS: all units allocated or moved to the member become torn at the given price."
    fn miss(&mut self, member: u8, price: i64) {
        for entry in self.roll.iter_mut().flatten() {
            if is_given_to(*entry, member) {
                *entry = Entry::Torn { price };
            }
        }
    }

    /// "sells the whole pool to one member", and "If no unit is open afterwards the stage becomes A1"
    fn sale(&mut self, pool: u8, member: u8, price: i64) {
        for entry in &mut self.roll[usize::from(pool)] {
            *entry = Entry::SoldByAgreement { member, price };
        }
        if !self.open_units_anywhere() {
            self.stage = Stage::After(1);
        }
    }

    // What the roll shows

    /// "The members of a case are a set of 32 bits: bit i is member i."
    fn set(&self) -> Vec<u8> {
        (0..32).filter(|i| self.head.set >> i & 1 == 1).collect()
    }

    fn open_units(&self, pool: u8) -> u64 {
        self.count(pool, |entry| entry == Entry::Open)
    }

    fn open_units_anywhere(&self) -> bool {
        (0..self.head.pools).any(|pool| self.open_units(pool) > 0)
    }

    fn count(&self, pool: u8, counted: impl Fn(Entry) -> bool) -> u64 {
        let Some(entries) = self.roll.get(usize::from(pool)) else {
            return 0;
        };
        entries.iter().filter(|entry| counted(**entry)).count() as u64
    }

    /// "the prices of all units not open"
    fn sum_of_prices(&self) -> i64 {
        let all = self.roll.iter().flatten();
        all.map(|&entry| price_of(entry, &self.bids)).sum()
    }

    /// C-16: "the prices of units that have left the house (all that aren't open)", of one pool.
    fn prices_of(&self, pool: u8) -> i64 {
        let entries = self.roll.get(usize::from(pool)).into_iter().flatten();
        let left = entries.filter(|entry| **entry != Entry::Open);
        left.map(|&entry| price_of(entry, &self.bids)).sum()
    }

    /// "Requirement: hedge loss + other loss − the prices of all units not open, at least 0."
    fn requirement(&self) -> u64 {
        let losses = i64::from(self.head.hedge_loss) + i64::from(self.head.other_loss);
        (losses - self.sum_of_prices()).max(0) as u64
    }

    /// The contributions of the set in member order, 0 for a member not given yet.
    fn contributions(&self) -> Vec<u64> {
        let contribution = |m: &u8| self.members.get(m).map_or(0, |m| m.contribution);
        self.set().iter().map(contribution).collect()
    }

    /// "Prefunded = margin, defaulter's fund, house money and all contributions added."
    fn prefunded(&self) -> u64 {
        u64::from(self.head.margin)
            + u64::from(self.head.fund)
            + u64::from(self.head.house)
            + self.contributions().iter().sum::<u64>()
    }

    /// "holdings (units sold to its bids, allocated or moved to it, by pool and price)"; C-12: "among its member's holdings"
    fn is_held_by(&self, entry: Entry, member: u8) -> bool {
        match entry {
            Entry::Sold { bid } => self.bids[bid].member == member,
            Entry::SoldByAgreement { member: buyer, .. } => buyer == member,
            _ => is_given_to(entry, member),
        }
    }

    // Rank and layers

    /// "A pool's worst reserve is the lower of those of the rounds in which it had open units."
    fn worst_reserve(&self, pool: u8) -> i64 {
        let pool = usize::from(pool);
        let rounds = self.rounds.iter().filter(|r| r.had_open_units[pool]);
        let worst = rounds.map(|round| round.reserves[pool]).min();
        worst.expect("a pool that took a bid had open units at its ROUND")
    }

    /// "Units won are those given at CLOSE; later moves don't lower them. ... D sums units won × (price − worst reserve) over all
    /// pools, W is units won, excess is W less expected units over all pools." C-12: "Such units, and the units expected in a pool
    /// so sold, don't count for rank."
    fn performance(&self, member: u8) -> Performance {
        let bids = self.bids.iter().filter(|b| b.member == member);
        let premium = |b: &Bid| b.won as i128 * i128::from(b.price - self.worst_reserve(b.pool));
        let won: u64 = bids.clone().map(|b| b.won).sum();
        let counted = (0..self.head.pools).filter(|&pool| self.count(pool, is_sold_by_agreement) == 0);
        let expected: u64 = counted.map(|pool| self.members[&member].expected[usize::from(pool)]).sum();
        Performance { d: bids.map(premium).sum(), w: won.into(), excess: i128::from(won) - i128::from(expected) }
    }

    /// "Others rank equal. Rank = 1 + the number strictly senior."
    fn ranks(&self) -> Vec<u64> {
        let all: Vec<Performance> = self.set().iter().map(|&m| self.performance(m)).collect();
        let rank = |of: &Performance| 1 + all.iter().filter(|p| p.is_senior_to(of)).count() as u64;
        all.iter().map(rank).collect()
    }

    /// "FINISH charges the requirement in turn, each layer and each rank up to its limit, the amount it holds (for payments, what
    /// was paid), to: margin; defaulter's fund; first tranche; contributions, most junior rank first, an equal rank split by
    /// contribution in member order; second tranche; payments, split by payment. The rest is uncovered."
    fn outcome(&self) -> Outcome {
        let set = self.set();
        let ranks = self.ranks();
        let contributions = self.contributions();
        let payments: Vec<u64> = set.iter().map(|&m| self.paid(m)).collect();
        // "First tranche = floor(3 × house money / 5), the second the rest."
        let house = u64::from(self.head.house);
        let first_tranche = 3 * house / 5;
        let second_tranche = house - first_tranche;

        let loss = self.requirement();
        let mut rest = loss;
        let mut charge = |limit: u64| {
            let charged = rest.min(limit);
            rest -= charged;
            charged
        };
        let margin = charge(self.head.margin.into());
        let fund = charge(self.head.fund.into());
        let first = charge(first_tranche);
        let mut contribution_charges = vec![0; set.len()];
        for rank in (1..=set.len() as u64).rev() {
            let of_rank: Vec<usize> = (0..set.len()).filter(|&i| ranks[i] == rank).collect();
            let weights: Vec<u64> = of_rank.iter().map(|&i| contributions[i]).collect();
            let charged = charge(weights.iter().sum());
            for (&i, share) in of_rank.iter().zip(split(charged, &weights)) {
                contribution_charges[i] = share;
            }
        }
        let second = charge(second_tranche);
        let paid = charge(payments.iter().sum());
        let payment_charges = split(paid, &payments);
        Outcome {
            loss,
            charges: [margin, fund, first, contribution_charges.iter().sum(), second, paid],
            uncovered: rest,
            members: (0..set.len())
                .map(|i| MemberOutcome {
                    member: set[i],
                    rank: ranks[i],
                    contribution_charge: contribution_charges[i],
                    payment_charge: payment_charges[i],
                })
                .collect(),
        }
    }
}

/// "A sold entry has its bid's price, a moved one 0."
///
/// An open entry has no price and adds nothing to a sum.
fn price_of(entry: Entry, bids: &[Bid]) -> i64 {
    match entry {
        Entry::Open | Entry::Moved { .. } => 0,
        Entry::Sold { bid } => bids[bid].price,
        Entry::SoldByAgreement { price, .. } | Entry::Allocated { price, .. } | Entry::Torn { price } => price,
    }
}

/// "all units so sold"
fn is_sold_by_agreement(entry: Entry) -> bool {
    matches!(entry, Entry::SoldByAgreement { .. })
}

/// "units allocated or moved to the member"
fn is_given_to(entry: Entry, to: u8) -> bool {
    matches!(entry, Entry::Allocated { member, .. } | Entry::Moved { member } if member == to)
}

/// D, W and excess of a member.
#[derive(Clone, Copy, Debug)]
struct Performance {
    d: i128,
    w: i128,
    excess: i128,
}

impl Performance {
    /// "ΔP = D / W (0 if W = 0)", as a fraction with a denominator above 0.
    fn delta_p(&self) -> Fraction {
        match self.w {
            0 => Fraction(0, 1),
            w => Fraction(self.d, w),
        }
    }

    /// "Category A (excess 0 or more) stands above B. Within A: higher ΔP × excess, then higher excess, then higher ΔP. Within B:
    /// higher ΔP / deficit (deficit = −excess), then lower deficit, then higher ΔP."
    fn is_senior_to(&self, other: &Performance) -> bool {
        let (a, b) = (self, other);
        match (a.excess >= 0, b.excess >= 0) {
            (true, false) => true,
            (false, true) => false,
            (true, true) => {
                let factor = |p: &Performance| p.delta_p().times(p.excess);
                leads_where_first_differing([
                    factor(a).against(factor(b)),
                    a.excess - b.excess,
                    a.delta_p().against(b.delta_p()),
                ])
            }
            (false, false) => {
                let factor = |p: &Performance| p.delta_p().over(-p.excess);
                leads_where_first_differing([
                    factor(a).against(factor(b)),
                    b.excess.abs() - a.excess.abs(),
                    a.delta_p().against(b.delta_p()),
                ])
            }
        }
    }
}

/// Whether the first difference that is not 0 is above 0.
fn leads_where_first_differing(differences: [i128; 3]) -> bool {
    differences.into_iter().find(|&d| d != 0).is_some_and(|d| d > 0)
}

/// A fraction with a denominator above 0.
#[derive(Clone, Copy, Debug)]
struct Fraction(i128, i128);

impl Fraction {
    fn times(self, factor: i128) -> Fraction {
        Fraction(self.0 * factor, self.1)
    }

    fn over(self, divisor: i128) -> Fraction {
        Fraction(self.0, self.1 * divisor)
    }

    /// "Compare as whole-number products." Above 0 where self is the higher.
    fn against(self, other: Fraction) -> i128 {
        self.0 * other.1 - other.0 * self.1
    }
}

impl Ledger for Roll {
    /// "It takes each call on these by the rules above and refuses by the list below; a refused call leaves all as it was."
    fn call(&mut self, bytes: &[u8]) -> u8 {
        let pools = self.case.as_ref().map(|case| case.head.pools);
        let Some(call) = read(bytes, pools) else {
            return 1;
        };
        let answer = self.answer(&call);
        if answer == 0 {
            self.take(call);
        }
        answer
    }

    fn stage(&self) -> Option<Stage> {
        self.case.as_ref().map(|case| case.stage)
    }

    fn pools_given(&self) -> u8 {
        self.case.as_ref().map_or(0, |case| case.pools.len() as u8)
    }

    /// "per pool the five counts"; C-12: "counted as sold"
    fn counts(&self, pool: u8) -> [u64; 5] {
        let Some(case) = &self.case else {
            return [0; 5];
        };
        [
            case.count(pool, |e| e == Entry::Open),
            case.count(pool, |e| matches!(e, Entry::Sold { .. } | Entry::SoldByAgreement { .. })),
            case.count(pool, |e| matches!(e, Entry::Allocated { .. })),
            case.count(pool, |e| matches!(e, Entry::Moved { .. })),
            case.count(pool, |e| matches!(e, Entry::Torn { .. })),
        ]
    }

    fn holding(&self, member: u8, pool: u8, price_cents: i64) -> u64 {
        let Some(case) = &self.case else {
            return 0;
        };
        case.count(pool, |entry| case.is_held_by(entry, member) && price_of(entry, &case.bids) == price_cents)
    }

    fn holdings(&self, member: u8) -> Vec<(u8, i64, u64)> {
        let Some(case) = &self.case else {
            return Vec::new();
        };
        let mut by_pool_and_price: BTreeMap<(u8, Reverse<i64>), u64> = BTreeMap::new();
        for (pool, entries) in case.roll.iter().enumerate() {
            for &entry in entries.iter().filter(|e| case.is_held_by(**e, member)) {
                let price = price_of(entry, &case.bids);
                *by_pool_and_price.entry((pool as u8, Reverse(price))).or_default() += 1;
            }
        }
        by_pool_and_price.into_iter().map(|((pool, Reverse(price)), units)| (pool, price, units)).collect()
    }

    fn sum_of_prices(&self) -> i64 {
        self.case.as_ref().map_or(0, Case::sum_of_prices)
    }

    fn prices_of(&self, pool: u8) -> i64 {
        self.case.as_ref().map_or(0, |case| case.prices_of(pool))
    }

    fn requirement(&self) -> Option<u64> {
        self.case.as_ref().map(Case::requirement)
    }

    /// C-16: "with no case the reading is declined by 2. After any list of calls that begins with no case and makes one, the reading
    /// equals the full addition over the roll."
    fn reading(&self) -> (u8, u64) {
        self.case.as_ref().map_or((2, 0), |case| (0, case.requirement()))
    }

    fn prefunded(&self) -> Option<u64> {
        self.case.as_ref().map(Case::prefunded)
    }

    fn owes(&self, member: u8) -> u64 {
        self.case.as_ref().map_or(0, |case| case.owes(member))
    }

    /// "After an accepted FINISH also the loss, the six charges, the uncovered rest and each member's rank and charges, as "Rank and
    /// layers" gives them from the roll and what is kept beside it."
    fn result(&self) -> Option<Outcome> {
        let case = self.case.as_ref()?;
        (case.stage == Stage::Finished).then(|| case.outcome())
    }
}

#[cfg(test)]
mod tests {
    /// Both ways of splitting, by picking and by sorting, over small weights and many amounts.
    #[test]
    fn picking_the_largest_remainders_is_sorting_them() {
        for code in 0..6u64.pow(4) {
            let weights: Vec<u64> = (0..4).map(|place| code / 6u64.pow(place) % 6).collect();
            for q in [0, 1, 2, 3, 5, 7, 11, 16_000_000_000, u64::MAX] {
                assert_eq!(super::split(q, &weights), crate::split::split(q, &weights), "{q} by {weights:?}");
            }
        }
    }
}
