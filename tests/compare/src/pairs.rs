//! Which answers a call can get at all, and in which stages; worked out from document 01 and C-12 and C-14 of document 02.

use model::Stage;

/// A stage, or that there is no case. A1 without a round, after a sale of the last open unit, stands apart as A of round 0.
pub type Place = Option<Stage>;

/// The place that a call finds, by whether a ROUND was accepted before it.
pub fn place(stage: Option<Stage>, had_round: bool) -> Place {
    match stage {
        Some(Stage::After(1)) if !had_round => A0,
        stage => stage,
    }
}

const NONE: Place = None;
const S: Place = Some(Stage::Setup);
const B1: Place = Some(Stage::Bidding(1));
const A0: Place = Some(Stage::After(0));
const A1: Place = Some(Stage::After(1));
const B2: Place = Some(Stage::Bidding(2));
const A2: Place = Some(Stage::After(2));
const C: Place = Some(Stage::CallsOut);
const F: Place = Some(Stage::Finished);

pub const PLACES: [Place; 9] = [NONE, S, A0, B1, A1, B2, A2, C, F];

/// Stands for every tag that no call has.
pub const UNKNOWN: u8 = 0;

pub struct Pair {
    pub tag: u8,
    pub answer: u8,
    pub places: &'static [Place],
    pub why: &'static str,
}

const fn pair(tag: u8, answer: u8, places: &'static [Place], why: &'static str) -> Pair {
    Pair { tag, answer, places, why }
}

/// Every pair that some list of calls reaches, with the stages in which it does.
pub const REACHABLE: &[Pair] = &[
    pair(UNKNOWN, 1, &PLACES, "unknown tag"),
    // HEAD
    pair(1, 0, &[NONE], "first HEAD"),
    pair(1, 1, &PLACES, "wrong length"),
    pair(1, 2, &[S, A0, B1, A1, B2, A2, C, F], "a case is there"),
    pair(1, 5, &[NONE], "number out of range"),
    // POOL
    pair(2, 0, &[S], "next pool"),
    pair(2, 1, &PLACES, "wrong length"),
    pair(2, 2, &[NONE, A0, B1, A1, B2, A2, C, F], "not in S"),
    pair(2, 3, &[S], "not next, or past HEAD's pools"),
    pair(2, 5, &[S], "units or mark"),
    // MEMBER
    pair(3, 0, &[S], "a member of the set"),
    pair(3, 1, &PLACES, "wrong length"),
    pair(3, 2, &[NONE, A0, B1, A1, B2, A2, C, F], "not in S"),
    pair(3, 4, &[S], "outside the set, or given"),
    pair(3, 5, &[S], "contribution or expected units"),
    // ROUND
    pair(4, 0, &[S, A1], "all given, or units open"),
    pair(4, 1, &PLACES, "not 4 × pools"),
    pair(4, 2, &[NONE, B1, B2, A2, C, F], "not in S or A1"),
    pair(4, 5, &[S, A0, A1], "reserve out of range"),
    pair(4, 8, &[A0, A1], "nothing open anywhere"),
    pair(4, 10, &[S], "a pool or member missing"),
    // BID
    pair(5, 0, &[B1, B2], "kept"),
    pair(5, 1, &PLACES, "wrong length"),
    pair(5, 2, &[NONE, S, A0, A1, A2, C, F], "not in B"),
    pair(5, 3, &[B1, B2], "no such pool"),
    pair(5, 4, &[B1, B2], "no such member"),
    pair(5, 5, &[B1, B2], "units or price"),
    pair(5, 6, &[B1, B2], "below the least bid"),
    pair(5, 7, &[B1, B2], "256 kept"),
    pair(5, 8, &[B1, B2], "pool sold by agreement, or sold out, placed or torn in round 1"),
    // CLOSE
    pair(6, 0, &[B1, B2], "always in B"),
    pair(6, 1, &PLACES, "wrong length"),
    pair(6, 2, &[NONE, S, A0, A1, A2, C, F], "not in B"),
    // ALLOCATE
    pair(7, 0, &[A1, A2], "open units and shortfall"),
    pair(7, 1, &PLACES, "wrong length"),
    pair(7, 2, &[NONE, S, B1, B2, C, F], "not in A"),
    pair(7, 3, &[A0, A1, A2], "no such pool"),
    pair(7, 5, &[A0, A1, A2], "price out of range"),
    pair(7, 8, &[A0, A1, A2], "nothing open in the pool"),
    pair(7, 9, &[A1, A2], "mark 1"),
    pair(7, 10, &[A1, A2], "nobody is short"),
    // TEAR
    pair(8, 0, &[A1, A2], "open units"),
    pair(8, 1, &PLACES, "wrong length"),
    pair(8, 2, &[NONE, S, B1, B2, C, F], "not in A"),
    pair(8, 3, &[A0, A1, A2], "no such pool"),
    pair(8, 5, &[A0, A1, A2], "price out of range"),
    pair(8, 8, &[A0, A1, A2], "nothing open in the pool"),
    // CALL
    pair(9, 0, &[A1, A2], "requirement above prefunded"),
    pair(9, 1, &PLACES, "wrong length"),
    pair(9, 2, &[NONE, S, B1, B2, C, F], "not in A"),
    pair(9, 11, &[A1, A2], "a unit is open"),
    pair(9, 12, &[A0, A1, A2], "prefunded suffices"),
    // PAY
    pair(10, 0, &[C], "at most what is owed"),
    pair(10, 1, &PLACES, "wrong length"),
    pair(10, 2, &[NONE, S, A0, B1, A1, B2, A2, F], "not in C"),
    pair(10, 4, &[C], "no such member"),
    pair(10, 5, &[C], "0 or above 10^9"),
    pair(10, 14, &[C], "more than is owed"),
    // MOVE
    pair(11, 0, &[C], "something is owed"),
    pair(11, 1, &PLACES, "wrong length"),
    pair(11, 2, &[NONE, S, A0, B1, A1, B2, A2, F], "not in C"),
    pair(11, 4, &[C], "no such member"),
    pair(11, 14, &[C], "nothing owed"),
    // MISS
    pair(12, 0, &[A1, A2, C], "units allocated or moved to it"),
    pair(12, 1, &PLACES, "wrong length"),
    pair(12, 2, &[NONE, S, B1, B2, F], "not in A or C"),
    pair(12, 4, &[A0, A1, A2, C], "no such member"),
    pair(12, 5, &[A0, A1, A2, C], "price out of range"),
    pair(12, 16, &[A0, A1, A2, C], "no such unit"),
    // FINISH
    pair(13, 0, &[A0, A1, A2, C], "prefunded suffices, or nobody owes"),
    pair(13, 1, &PLACES, "wrong length"),
    pair(13, 2, &[NONE, S, B1, B2, F], "not in A or C"),
    pair(13, 11, &[A1, A2], "a unit is open"),
    pair(13, 13, &[A1, A2], "prefunded is below"),
    pair(13, 15, &[C], "a member owes"),
    // SALE
    pair(14, 0, &[S], "an open pool, within margin and fund"),
    pair(14, 1, &PLACES, "wrong length"),
    pair(14, 2, &[NONE, A0, B1, A1, B2, A2, C, F], "not in S"),
    pair(14, 3, &[S], "no such pool"),
    pair(14, 4, &[S], "no such member"),
    pair(14, 5, &[S], "price out of range"),
    pair(14, 8, &[S], "pool not given yet, or sold by agreement"),
    pair(14, 10, &[S], "another pool or a member missing"),
    pair(14, 17, &[S], "above margin and fund"),
    // WITHDRAW
    pair(15, 0, &[B1, B2], "a standing bid of the member in the open round"),
    pair(15, 1, &PLACES, "wrong length"),
    pair(15, 2, &[NONE, S, A0, A1, A2, C, F], "not in B"),
    pair(15, 4, &[B1, B2], "no such member"),
    pair(15, 18, &[B1, B2], "no standing bid of the member in the open round has the number"),
];

/// Pairs that look possible and are not: tag, answer, reason.
pub const UNREACHABLE: &[(u8, u8, &str)] = &[
    (1, 3, "pools past 4 are a number out of range, 5"),
    (1, 4, "an empty set is a number out of range, 5"),
    (2, 8, "every accepted pool has a unit, all open"),
    (3, 3, "expected units for a pool the case lacks are out of range, 5"),
    (4, 3, "a reserve too many or too few is a wrong length, 1"),
    (5, 9, "a bid may name a pool of either mark"),
    (5, 10, "no ROUND is accepted before all are given"),
    (6, 8, "CLOSE has no reason but 1 and 2; a round without a bid may close"),
    (7, 4, "ALLOCATE names no member"),
    (8, 9, "a pool of either mark may be torn"),
    (8, 10, "tearing asks for no shortfall"),
    (9, 8, "CALL wants no open unit, 11"),
    (9, 13, "CALL with too little prefunded is what it is for"),
    (10, 12, "calls once out stay out, whatever is prefunded"),
    (10, 15, "only FINISH looks at other debts"),
    (11, 5, "a member byte past 31 is not in the set, 4"),
    (11, 8, "with nothing to move MOVE is accepted"),
    (11, 16, "with nothing to move MOVE is accepted"),
    (12, 3, "MISS names no pool"),
    (12, 14, "MISS does not look at debts"),
    (13, 10, "nobody's shortfall holds FINISH up"),
    (13, 12, "only CALL is declined for money enough"),
    (13, 14, "a debt gives 15"),
    (14, 6, "the least bid holds for bids alone"),
    (14, 7, "a sale takes no place among the 256 bids"),
    (14, 9, "a pool of either mark may be sold by agreement"),
    (14, 11, "only CALL and FINISH want no open unit"),
    (14, 13, "what margin and fund cannot bear is 17, whatever else is prefunded"),
    (15, 3, "WITHDRAW names no pool"),
    (15, 5, "a number that no bid can have is 18"),
    (15, 6, "only BID is held to the least bid"),
    (15, 7, "a withdrawal takes no place among the 256 bids"),
    (15, 8, "a bid may be withdrawn whatever is open"),
];

/// Pairs that other stages reach and these do not: tag, answer, stage, reason.
pub const UNREACHABLE_IN: &[(u8, u8, &str, &str)] = &[
    (4, 8, "S", "the first ROUND with no pool given is 10"),
    (4, 0, "A0", "no unit is open, 8"),
    (4, 2, "A0", "the stage is A1, which allows a ROUND"),
    (4, 10, "A0", "all were given before the first sale"),
    (4, 10, "A1", "all were given before the first ROUND"),
    (7, 0, "A0", "no unit is open, 8"),
    (7, 9, "A0", "no unit is open, 8 comes first"),
    (7, 10, "A0", "no unit is open, 8 comes first"),
    (8, 0, "A0", "no unit is open, 8"),
    (9, 0, "A0", "17 held the requirement to margin and fund, so 12"),
    (9, 11, "A0", "the last open unit was sold"),
    (12, 0, "A0", "no unit is allocated or moved, 16"),
    (13, 11, "A0", "the last open unit was sold"),
    (13, 13, "A0", "17 held the requirement to margin and fund"),
    (13, 11, "C", "CALL leaves no unit open and none opens again"),
    (13, 13, "C", "the bound holds in stage A alone"),
    (13, 15, "A", "no call is out"),
];

pub fn place_name(place: Place) -> &'static str {
    match place {
        None => "none",
        Some(Stage::Setup) => "S",
        Some(Stage::Bidding(1)) => "B1",
        Some(Stage::Bidding(_)) => "B2",
        Some(Stage::After(0)) => "A0",
        Some(Stage::After(1)) => "A1",
        Some(Stage::After(_)) => "A2",
        Some(Stage::CallsOut) => "C",
        Some(Stage::Finished) => "F",
    }
}

pub fn tag_name(tag: u8) -> &'static str {
    const NAMES: [&str; 16] = [
        "unknown", "HEAD", "POOL", "MEMBER", "ROUND", "BID", "CLOSE", "ALLOCATE", "TEAR", "CALL", "PAY", "MOVE",
        "MISS", "FINISH", "SALE", "WITHDRAW",
    ];
    NAMES.get(usize::from(tag)).unwrap_or(&NAMES[0])
}
