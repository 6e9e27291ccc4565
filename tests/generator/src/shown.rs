//! What two ledgers show, side by side.

use model::Ledger;
use std::fmt::Debug;

/// Where the ledgers, named so in what is told, do not show the same: all but single holdings and what FINISH gives. What a member is called for is what it owes
/// after CALL.
pub fn shown_difference(one: &impl Ledger, other: &impl Ledger, names: [&str; 2]) -> Option<String> {
    macro_rules! compare {
        ($what:expr, $asked:ident($($of:expr),*)) => {
            if one.$asked($($of),*) != other.$asked($($of),*) {
                return unlike($what, [one.$asked($($of),*), other.$asked($($of),*)], names);
            }
        };
    }
    compare!("stage", stage());
    compare!("pools given", pools_given());
    compare!("sum of prices", sum_of_prices());
    compare!("requirement", requirement());
    compare!("reading", reading());
    compare!("prefunded", prefunded());
    for pool in 0..5 {
        compare!(&format!("counts of pool {pool}"), counts(pool));
        compare!(&format!("sum of prices of pool {pool}"), prices_of(pool));
    }
    for member in 0..33 {
        compare!(&format!("what member {member} owes"), owes(member));
        compare!(&format!("holdings of member {member}"), holdings(member));
    }
    None
}

/// Both, where they are not the same.
pub fn unlike<T: PartialEq + Debug>(what: &str, [one, other]: [T; 2], names: [&str; 2]) -> Option<String> {
    (one != other).then(|| format!("{what}: {} {one:?}, {} {other:?}", names[0], names[1]))
}
