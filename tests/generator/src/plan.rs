//! The numbers of a case, drawn before its first call is written.

use crate::profile::Profile;
use crate::rng::Rng;
use model::write::Head;

/// How much is asked in a pool in a round, held against the units open there.
#[derive(Clone, Copy, Debug, PartialEq, Eq)]
pub enum Demand {
    Nothing,
    Part,
    Exact,
    Over,
    FarOver,
    /// So much that the units asked just pass 16 bits.
    Past16Bits,
}

/// Where the requirement is to stand once no unit is open.
#[derive(Clone, Copy, Debug, PartialEq, Eq)]
pub enum Target {
    /// Wherever the drawn losses put it.
    Free,
    /// Losses below what the units bring in, so that it is held at 0.
    Zero,
    /// Within or at the end of a layer that is prefunded.
    Prefunded,
    /// At prefunded, one less or one more.
    Verge,
    /// Above prefunded by part of the contributions.
    Called,
    /// Above prefunded by more than all contributions.
    Uncovered,
}

pub struct Plan {
    pub head: Head,
    pub units: [u16; 4],
    pub marks: [u8; 4],
    pub contributions: [u32; 32],
    pub expected: [[u16; 4]; 32],
    /// Prices to draw from; few of them make ties.
    pub prices: Vec<i32>,
    /// The price of most ALLOCATEs.
    pub placing_price: i32,
    /// By round and pool.
    pub reserves: [[i32; 4]; 2],
    pub demand: [[Demand; 4]; 2],
    pub bid_units: u16,
    /// At most this many bids are meant in a round.
    pub bids: usize,
    /// Further bids in each round that are meant to win nothing.
    pub losing_bids: usize,
    pub second_round: bool,
    pub target: Target,
    /// Percent of the steps that are an odd call instead of the next valid one.
    pub noise: u64,
    /// Percent of the steps after a round that are ALLOCATE, TEAR and MISS, while a valid one is there.
    pub allocate: u64,
    pub tear: u64,
    pub miss: u64,
    /// Percent of the debts that end by a MOVE.
    pub moves: u64,
    /// Whether a member that has both allocated and moved units is mostly missed at once.
    pub misses_of_both: bool,
    /// Whether SALE is among the calls of the list.
    pub has_sales: bool,
    /// The pools that are meant to be sold by agreement, as a set.
    pub to_sell: u8,
    /// SALEs that are tried at most, some of them to be declined.
    pub sales: usize,
    /// Odd calls written in A1 where no round was opened.
    pub linger: usize,
    /// Whether WITHDRAW is among the calls of the list.
    pub has_withdrawals: bool,
    /// WITHDRAWs that are written at most in a round, some of them to be declined.
    pub withdrawals: usize,
    /// Percent of the steps that are one of the first half of them.
    pub withdraw: u64,
    /// Percent of the withdrawn bids that are sent again.
    pub send_again: u64,
    /// The pools in which every bid is withdrawn before CLOSE, as a set.
    pub emptied: u8,
    /// The first round in which they are.
    pub emptied_from: usize,
    /// Whether remainders are to tie in the list.
    pub has_ties: bool,
    /// Percent of the pools whose bids in a round are drawn so.
    pub tied_bids: u64,
    /// The pools that get no bid, as a set.
    pub without_bids: u8,
    /// The list ends with this many calls at the latest.
    pub limit: usize,
    /// Calls written after FINISH.
    pub tail: usize,
    /// Whether the list breaks off anywhere, so that the counts on the way show.
    pub cut: bool,
}

impl Plan {
    pub fn draw(rng: &mut Rng, profile: Profile) -> Plan {
        let sizes = Sizes::draw(rng, profile);
        let prices = draw_prices(rng, profile);
        let scale = prices.iter().map(|p| p.unsigned_abs()).max().unwrap_or(0).clamp(1, 1_000_000);
        // A member's contribution of about this much is comparable with what the units cost.
        let money = u64::from(scale) * u64::from(sizes.units) * rng.pick(&[1, 1, 4, 20]) / 4 + 2;
        let money = money.min(500_000_000) as i64;
        let mut plan = Plan {
            head: draw_head(rng, profile, &sizes, money),
            units: std::array::from_fn(|_| draw_units(rng, sizes.units)),
            marks: std::array::from_fn(|_| u8::from(rng.chance(25))),
            contributions: draw_contributions(rng, money),
            expected: draw_expected(rng, &sizes),
            placing_price: rng.pick(&prices),
            reserves: draw_reserves(rng, &prices),
            prices,
            demand: std::array::from_fn(|_| std::array::from_fn(|_| draw_demand(rng))),
            bid_units: sizes.bid_units,
            bids: rng.between(1, 14) as usize,
            losing_bids: 0,
            second_round: rng.chance(60),
            target: draw_target(rng),
            noise: rng.pick(&[0, 4, 10, 20]),
            allocate: rng.pick(&[10, 40]),
            tear: rng.pick(&[5, 20]),
            miss: rng.pick(&[5, 20]),
            moves: rng.pick(&[20, 50, 80]),
            misses_of_both: false,
            has_sales: false,
            to_sell: 0,
            sales: 0,
            linger: 0,
            has_withdrawals: false,
            withdrawals: 0,
            withdraw: 0,
            send_again: 0,
            emptied: 0,
            emptied_from: 1,
            has_ties: false,
            tied_bids: 0,
            without_bids: 0,
            limit: 600,
            tail: if rng.chance(20) { rng.between(1, 15) as usize } else { 0 },
            cut: rng.chance(15),
        };
        plan.suit(rng, profile);
        plan
    }

    /// The members of the set in member order.
    pub fn members(&self) -> Vec<u8> {
        members_of(self.head.set)
    }
}

/// The members of a set in member order.
pub fn members_of(set: u32) -> Vec<u8> {
    (0..32).filter(|member| set >> member & 1 == 1).collect()
}

/// How large the case is.
struct Sizes {
    pools: u8,
    members: u32,
    units: u16,
    bid_units: u16,
    expected: u16,
}

impl Sizes {
    fn draw(rng: &mut Rng, profile: Profile) -> Sizes {
        let units = rng.pick(&[3, 10, 10, 20, 40]);
        let mut sizes = Sizes {
            pools: rng.pick(&[1, 1, 2, 2, 3, 4]),
            members: rng.pick(&[1, 2, 3, 3, 4, 5, 6]),
            units,
            bid_units: rng.pick(&[2, 4, units, units]),
            expected: rng.pick(&[2, units / 2 + 1, units]),
        };
        match profile {
            Profile::Rounds => sizes.pools = rng.pick(&[2, 3, 4]),
            Profile::Ranks => {
                sizes.members = rng.pick(&[4, 6, 8, 12, 20]);
                sizes.units = rng.pick(&[4, 8, 20]);
                sizes.bid_units = rng.pick(&[1, 2, 3]);
                sizes.expected = rng.pick(&[1, 2, 3]);
            }
            Profile::Single => {
                sizes.pools = 1;
                sizes.members = 1;
                sizes.units = rng.pick(&[1, 1, 2, 3]);
                sizes.bid_units = 2;
            }
            Profile::Wide => {
                sizes.pools = rng.pick(&[3, 4]);
                sizes.members = rng.pick(&[20, 31, 32, 32]);
                sizes.units = rng.pick(&[50, 200, 1000]);
                sizes.bid_units = sizes.units;
                sizes.expected = sizes.units / 16;
            }
            Profile::Edges => {
                sizes.units = rng.pick(&[1, 30, 1000]);
                sizes.members = rng.pick(&[1, 2, 4, 32]);
            }
            Profile::ManyBids => {
                sizes.units = rng.pick(&[10, 60, 300]);
                sizes.bid_units = rng.pick(&[1, 3, 1000]);
                sizes.pools = if sizes.bid_units == 1000 { 1 } else { sizes.pools };
            }
            Profile::Moves | Profile::Misses => {
                sizes.members = rng.pick(&[2, 3, 4, 5]);
                sizes.pools = rng.pick(&[1, 2, 2, 3, 4]);
            }
            Profile::Long => sizes.units = 5,
            _ => {}
        }
        sizes
    }
}

/// Mostly near the size, now and then its most or a single unit.
fn draw_units(rng: &mut Rng, most: u16) -> u16 {
    match rng.below(6) {
        0 => most,
        1 => 1,
        _ => rng.between(1, most.into()) as u16,
    }
}

fn draw_head(rng: &mut Rng, profile: Profile, sizes: &Sizes, money: i64) -> Head {
    let mut layer = |most: i64| match rng.below(4) {
        0 => 0,
        1 => rng.below(6) as u32,
        _ => rng.between(0, most) as u32,
    };
    let (margin, fund, house) = (layer(money), layer(money), layer(money));
    let (hedge_loss, other_loss) = (layer(3 * money), layer(3 * money));
    let least_bid = match profile {
        Profile::ManyBids => rng.pick(&[1, 2, 3]),
        Profile::Ranks => 1,
        _ => rng.pick(&[1, 1, 1, 2, 3]),
    };
    Head {
        pools: sizes.pools,
        least_bid,
        set: draw_set(rng, sizes.members),
        hedge_loss: hedge_loss.min(2_000_000_000),
        other_loss: other_loss.min(2_000_000_000),
        margin,
        fund: fund.min(500_000_000),
        house,
    }
}

/// A set of that many members, often with gaps, often with member 31.
pub fn draw_set(rng: &mut Rng, members: u32) -> u32 {
    if members == 32 {
        return u32::MAX;
    }
    if rng.chance(40) {
        return (1 << members) - 1;
    }
    let mut set = if rng.chance(50) { 1 << 31 } else { 0u32 };
    while set.count_ones() < members {
        set |= 1 << rng.below(32);
    }
    set
}

fn draw_contributions(rng: &mut Rng, money: i64) -> [u32; 32] {
    match rng.below(8) {
        0 => [0; 32],
        1 => [rng.between(1, money) as u32; 32],
        2 => std::array::from_fn(|_| rng.below(4) as u32),
        3 => std::array::from_fn(|_| if rng.chance(40) { 0 } else { rng.between(1, money) as u32 }),
        _ => std::array::from_fn(|_| rng.between(1, money) as u32),
    }
}

fn draw_expected(rng: &mut Rng, sizes: &Sizes) -> [[u16; 4]; 32] {
    let none = rng.pick(&[0, 30, 60]);
    std::array::from_fn(|_| {
        std::array::from_fn(|_| if rng.chance(none) { 0 } else { rng.between(0, sizes.expected.into()) as u16 })
    })
}

fn draw_prices(rng: &mut Rng, profile: Profile) -> Vec<i32> {
    match profile {
        Profile::EmptyMoves => some_prices(rng, 4, 0, 30),
        Profile::Moves => [some_prices(rng, 4, -30, -1), some_prices(rng, 2, -5, 5)].concat(),
        Profile::Edges => vec![-1_000_000, -999_999, -1, 0, 1, 999_999, 1_000_000],
        Profile::Ties => some_prices(rng, 2, -20, 10),
        Profile::Ranks => some_prices(rng, 4, -8, 0),
        _ => match rng.below(8) {
            0 => vec![-10, -20],
            1 | 2 => some_prices(rng, 4, -40, -1),
            3 => some_prices(rng, 5, -20, 20),
            4 => some_prices(rng, 4, 0, 50),
            5 => some_prices(rng, 8, -1000, 1000),
            6 => some_prices(rng, 6, -1_000_000, 1_000_000),
            _ => some_prices(rng, 5, -100, 0),
        },
    }
}

/// One price or more, at most so many.
fn some_prices(rng: &mut Rng, most: i64, low: i64, high: i64) -> Vec<i32> {
    let count = rng.between(1, most);
    (0..count).map(|_| rng.between(low, high) as i32).collect()
}

/// Mostly at or just beside a price that bids take.
pub fn draw_reserves(rng: &mut Rng, prices: &[i32]) -> [[i32; 4]; 2] {
    let lowest = *prices.iter().min().expect("some price is drawn");
    let mut reserve = || {
        let reserve = match rng.below(8) {
            0..=3 => lowest,
            4 => lowest - rng.between(0, 30) as i32,
            5 => -1_000_000,
            _ => rng.pick(prices) + rng.between(-1, 1) as i32,
        };
        reserve.clamp(-1_000_000, 1_000_000)
    };
    std::array::from_fn(|_| std::array::from_fn(|_| reserve()))
}

fn draw_demand(rng: &mut Rng) -> Demand {
    rng.pick(&[Demand::Nothing, Demand::Part, Demand::Part, Demand::Exact, Demand::Over, Demand::FarOver])
}

fn draw_target(rng: &mut Rng) -> Target {
    rng.pick(&[
        Target::Free,
        Target::Zero,
        Target::Prefunded,
        Target::Verge,
        Target::Verge,
        Target::Called,
        Target::Called,
        Target::Uncovered,
    ])
}
