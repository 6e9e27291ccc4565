//! The proved functions of splitting, the auction, the ledger and the daily positions, as safe Rust, and random numbers and inputs for the tests.
pub use model::BidRecord;

pub mod inputs;
pub mod ledger;
pub mod positions;
pub mod tally;

/// What a ranking led to; `struct ledger_ranked` of the header.
#[repr(C)]
#[derive(Clone, Copy, Debug, PartialEq, Eq)]
pub struct Ranked {
    pub answer: u8,
    pub named: usize,
}

mod c {
    use model::BidRecord;

    #[link(name = "splitting", kind = "static")]
    unsafe extern "C" {
        pub fn ledger_split(q: u64, weights: *const u64, n: usize, shares: *mut u64, m: usize) -> u8;
        pub fn ledger_ranking(q: u64, weights: *const u64, n: usize, places: *mut usize, m: usize) -> super::Ranked;
    }

    #[link(name = "auction", kind = "static")]
    unsafe extern "C" {
        pub fn ledger_auction(
            open_units: u64,
            reserve: u32,
            units: *const u64,
            n: usize,
            prices: *const u32,
            p: usize,
            counts: *mut u64,
            c: usize,
        ) -> u8;
        pub fn ledger_auction_records(
            bids: *const BidRecord,
            n: usize,
            open_units: u16,
            reserve: i32,
            counts: *mut u64,
            c: usize,
        ) -> u8;
    }
}

/// `ledger_split` of `splitting`.
pub fn split(q: u64, weights: &[u64], shares: &mut [u64]) -> u8 {
    unsafe { c::ledger_split(q, weights.as_ptr(), weights.len(), shares.as_mut_ptr(), shares.len()) }
}

/// `ledger_ranking` of `splitting`.
pub fn ranking(q: u64, weights: &[u64], places: &mut [usize]) -> Ranked {
    unsafe { c::ledger_ranking(q, weights.as_ptr(), weights.len(), places.as_mut_ptr(), places.len()) }
}

/// `ledger_auction` of `auction`.
pub fn alone(open_units: u64, reserve: u32, units: &[u64], prices: &[u32], counts: &mut [u64]) -> u8 {
    unsafe {
        c::ledger_auction(
            open_units,
            reserve,
            units.as_ptr(),
            units.len(),
            prices.as_ptr(),
            prices.len(),
            counts.as_mut_ptr(),
            counts.len(),
        )
    }
}

/// `ledger_auction_records` of `auction`.
pub fn alone_lent(bids: &[BidRecord], open_units: u16, reserve: i32, counts: &mut [u64]) -> u8 {
    unsafe { c::ledger_auction_records(bids.as_ptr(), bids.len(), open_units, reserve, counts.as_mut_ptr(), counts.len()) }
}

/// Random numbers from a seed (splitmix64).
pub struct Random(pub u64);

impl Random {
    pub fn next(&mut self) -> u64 {
        self.0 = self.0.wrapping_add(0x9e37_79b9_7f4a_7c15);
        let mut z = self.0;
        z = (z ^ (z >> 30)).wrapping_mul(0xbf58_476d_1ce4_e5b9);
        z = (z ^ (z >> 27)).wrapping_mul(0x94d0_49bb_1331_11eb);
        z ^ (z >> 31)
    }

    /// A number below n.
    pub fn below(&mut self, n: u64) -> u64 {
        self.next() % n
    }

    /// True once in n times.
    pub fn once_in(&mut self, n: u64) -> bool {
        self.below(n) == 0
    }
}
