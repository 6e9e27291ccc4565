//! What both ledgers can be asked, and the plain types of the answers.

/// "S setup, B bidding, A after a round (B and A in round 1 or 2), C calls out, F finished."
#[derive(Clone, Copy, Debug, PartialEq, Eq, PartialOrd, Ord, Hash)]
pub enum Stage {
    Setup,
    Bidding(u8),
    After(u8),
    CallsOut,
    Finished,
}

/// What an accepted FINISH gives.
#[derive(Clone, Debug, PartialEq, Eq)]
pub struct Outcome {
    /// The requirement at FINISH.
    pub loss: u64,
    /// Margin, defaulter's fund, first tranche, contributions, second tranche, payments.
    pub charges: [u64; 6],
    pub uncovered: u64,
    /// One for each member of the set, in member order.
    pub members: Vec<MemberOutcome>,
}

#[derive(Clone, Debug, PartialEq, Eq)]
pub struct MemberOutcome {
    pub member: u8,
    pub rank: u64,
    pub contribution_charge: u64,
    pub payment_charge: u64,
}

/// A ledger is fed the calls' bytes and nothing else, and begins with no case.
pub trait Ledger {
    /// The answer's number; 0 is accepted, any other leaves all as it was.
    fn call(&mut self, bytes: &[u8]) -> u8;

    /// None before HEAD.
    fn stage(&self) -> Option<Stage>;

    /// How many POOLs were accepted.
    fn pools_given(&self) -> u8;

    /// Open, sold, allocated, moved, torn; all 0 for a pool not given.
    fn counts(&self, pool: u8) -> [u64; 5];

    /// Units sold to the member's bids or to it by agreement, allocated or moved to it, in one pool at one price.
    fn holding(&self, member: u8, pool: u8, price_cents: i64) -> u64;

    /// All its holdings (pool, price, units), by pool, then by price from high to low, each price once.
    fn holdings(&self, member: u8) -> Vec<(u8, i64, u64)>;

    /// "the sum of prices of the units not open"
    fn sum_of_prices(&self) -> i64;

    /// The same of one pool, 0 for a pool not given; C-16: "the prices of units that have left the house (all that aren't open)".
    fn prices_of(&self, pool: u8) -> i64;

    /// None before HEAD.
    fn requirement(&self) -> Option<u64>;

    /// The answer and the requirement; C-16: "with no case the reading is declined by 2", and it then reads 0.
    fn reading(&self) -> (u8, u64);

    /// None before HEAD; a member not given yet adds nothing.
    fn prefunded(&self) -> Option<u64>;

    /// 0 for whoever has no call out.
    fn owes(&self, member: u8) -> u64;

    /// None before an accepted FINISH.
    fn result(&self) -> Option<Outcome>;
}
