//! The proved part for daily positions (C-11 of document 02) as safe Rust. `include/ledger.h` says what each function does.

/// What became of a part of a run; `struct ledger_days` of the header.
#[repr(C)]
#[derive(Clone, Copy, Debug, PartialEq, Eq)]
pub struct Days {
    pub row: usize,
    pub used: usize,
    pub answer: u8,
}

mod c {
    #[link(name = "positions", kind = "static")]
    unsafe extern "C" {
        pub fn ledger_expected(set: u32, units: u64, days: *const u8, n: usize, shares: *mut u64) -> u8;
        pub fn ledger_take_days(
            ring: *mut u32,
            sums: *mut u64,
            row: usize,
            set: u32,
            days: *const u8,
            n: usize,
        ) -> super::Days;
        pub fn ledger_end_days(sums: *const u64, set: u32, units: u64, left: usize, shares: *mut u64) -> u8;
    }
}

/// A whole run at once.
pub fn expected(set: u32, units: u64, days: &[u8], shares: &mut [u64; 32]) -> u8 {
    unsafe { c::ledger_expected(set, units, days.as_ptr(), days.len(), shares.as_mut_ptr()) }
}

/// What a caller keeps of a run that it hands over in parts. The row is out of a caller's reach, since only one that a part answered means anything.
#[derive(Clone, Debug)]
pub struct Kept {
    set: u32,
    ring: [u32; 2112],
    sums: [u64; 32],
    row: usize,
}

impl Kept {
    pub fn new(set: u32) -> Kept {
        Kept { set, ring: [0; 2112], sums: [0; 32], row: 0 }
    }

    /// By place in member order.
    pub fn sums(&self) -> &[u64; 32] {
        &self.sums
    }

    /// The next part: how many bytes of whole records were taken, and the answer. The other bytes go in front of the part that follows.
    pub fn take(&mut self, days: &[u8]) -> (usize, u8) {
        let (ring, sums) = (self.ring.as_mut_ptr(), self.sums.as_mut_ptr());
        let part = unsafe { c::ledger_take_days(ring, sums, self.row, self.set, days.as_ptr(), days.len()) };
        self.row = part.row;
        (part.used, part.answer)
    }

    /// The end of the run, where `left` bytes of a record are left.
    pub fn end(&self, units: u64, left: usize, shares: &mut [u64; 32]) -> u8 {
        unsafe { c::ledger_end_days(self.sums.as_ptr(), self.set, units, left, shares.as_mut_ptr()) }
    }
}
