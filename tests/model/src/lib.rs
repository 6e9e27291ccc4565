//! A model of document 01, written from the paper alone: splitting, the auction, the ledger twice, and the program's text; and of C-11 to C-16 of document 02.

pub mod auction;
pub mod counts;
pub mod field;
pub mod ledger;
pub mod positions;
pub mod roll;
pub mod split;
pub mod text;
pub mod write;

pub use auction::{BidRecord, allot, allot_flat, alone_flat, alone_lent};
pub use counts::Counts;
pub use ledger::{Ledger, MemberOutcome, Outcome, Stage};
pub use positions::{Ring, expected, first_declined, sums_afresh};
pub use roll::Roll;
pub use split::{ranking, ranking_alone, split, split_alone, swept};
pub use text::{print, stream};
