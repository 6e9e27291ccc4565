//! What a list is meant to reach.

use crate::rng::Rng;

#[derive(Clone, Copy, Debug, PartialEq, Eq, PartialOrd, Ord, Hash)]
pub enum Profile {
    /// A bit of everything.
    Mixed,
    /// Every step valid, so that the last stage is reached.
    Plain,
    /// Two rounds: sold-out and torn pools at the second, different reserves, a second round that sells nothing.
    Rounds,
    /// Many bids at one price, more asked than open, odd remainders.
    Ties,
    /// ALLOCATE in both rounds, shortfalls above and below what is open.
    Allocations,
    /// Calls out and negative prices: MOVE that saves exactly, one less or one more, or runs out of units.
    Moves,
    /// Calls out and no negative price, so that MOVE moves nothing.
    EmptyMoves,
    /// MISS before and after MOVE, in A and C, with prices that land in chosen layers.
    Misses,
    /// Losses at and beside the bounds of every layer.
    Layers,
    /// Many members and tiny numbers, so that rank factors tie.
    Ranks,
    /// One member, one pool, few units.
    Single,
    /// All 32 members, four pools, up to 1,000 units.
    Wide,
    /// Numbers at the ends of their ranges.
    Edges,
    /// 256 bids and more.
    ManyBids,
    /// Half of the calls are meant to be declined.
    Refusals,
    /// Wrong lengths, unknown tags, bytes changed anywhere.
    Damage,
    /// The list breaks off early, perhaps before the first call.
    Short,
    /// Thousands of calls.
    Long,
}

impl Profile {
    pub const ALL: [Profile; 18] = [
        Profile::Mixed,
        Profile::Plain,
        Profile::Rounds,
        Profile::Ties,
        Profile::Allocations,
        Profile::Moves,
        Profile::EmptyMoves,
        Profile::Misses,
        Profile::Layers,
        Profile::Ranks,
        Profile::Single,
        Profile::Wide,
        Profile::Edges,
        Profile::ManyBids,
        Profile::Refusals,
        Profile::Damage,
        Profile::Short,
        Profile::Long,
    ];

    /// How often each is drawn, in the order of `ALL`.
    const WEIGHTS: [u64; 18] = [16, 8, 14, 10, 14, 22, 6, 16, 16, 16, 8, 4, 12, 7, 20, 8, 8, 1];

    pub fn draw(rng: &mut Rng) -> Profile {
        Profile::ALL[rng.weighted(&Profile::WEIGHTS)]
    }

    pub fn name(self) -> String {
        format!("{self:?}").to_lowercase()
    }

    pub fn named(name: &str) -> Option<Profile> {
        Profile::ALL.into_iter().find(|profile| profile.name() == name)
    }
}
