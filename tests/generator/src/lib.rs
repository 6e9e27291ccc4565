//! Lists of calls, drawn from a seed, that reach deep stages because the writer watches a model while it writes.

mod damage;
mod describe;
mod lines;
mod odd;
mod plan;
mod profile;
pub mod reserves;
mod rng;
mod run;
mod shown;
mod suit;
pub mod tally;
mod tie;
mod ties;
mod timing;
mod withdraw;
mod writer;

pub use describe::{describe, fields, in_words, is_cut_off};
pub use lines::{Unlike, first_unlike};
pub use profile::Profile;
pub use rng::Rng;
pub use run::{run, start};
pub use shown::{shown_difference, unlike};
pub use tie::Tie;
pub use ties::simple_part;
pub use timing::{accepted, refused, timing};

use writer::Writer;

/// The profile a seed stands for where none is named.
pub fn profile_of(seed: u64) -> Profile {
    Profile::draw(&mut Rng::new(seed ^ 0x70726F66696C65))
}

/// Which calls of document 02 a list has among its own, whether remainders are to tie in it, and whether members are missed who have
/// both allocated and moved units.
#[derive(Clone, Copy, Default)]
struct Requests {
    sales: bool,
    withdrawals: bool,
    ties: bool,
    misses_of_both: bool,
}

impl Requests {
    /// Percent of the seeds whose lists have SALEs among their calls.
    const WITH_SALES: u64 = 45;
    /// Percent of the seeds whose lists have WITHDRAWs among their calls.
    const WITH_WITHDRAWALS: u64 = 40;
    /// Percent of the seeds in whose lists remainders are to tie.
    const WITH_TIES: u64 = 50;
    /// Percent of the seeds in whose lists members are missed who have both allocated and moved units.
    const WITH_MISSES_OF_BOTH: u64 = 50;

    /// Each is drawn by itself, so that the lists without what a request brings stay as they were.
    fn of(seed: u64) -> Requests {
        Requests {
            sales: Rng::new(seed ^ 0x73616C6573).chance(Requests::WITH_SALES),
            withdrawals: Rng::new(seed ^ 0x7769746864726177).chance(Requests::WITH_WITHDRAWALS),
            ties: Rng::new(seed ^ 0x74696573).chance(Requests::WITH_TIES),
            misses_of_both: Rng::new(seed ^ 0x6D6973736573).chance(Requests::WITH_MISSES_OF_BOTH),
        }
    }
}

/// A list of calls; some of them may be byte strings that are not exactly one field.
pub fn calls(seed: u64, profile: Profile) -> Vec<Vec<u8>> {
    Writer::new(seed, profile, true, Requests::of(seed)).write()
}

/// A list of the calls of document 01 only. It stays the same for a seed when requests bring calls, so that what was made from
/// it stands.
pub fn calls_of_01(seed: u64, profile: Profile) -> Vec<Vec<u8>> {
    Writer::new(seed, profile, true, Requests::default()).write()
}

/// The bytes of an input: whole fields, then perhaps one that the input's end cuts off.
pub fn input(seed: u64, profile: Profile) -> Vec<u8> {
    let mut rng = Rng::new(seed ^ 0x656E64696E67);
    let requests = Requests::of(seed);
    let mut bytes = Writer::new(seed, profile, false, requests).write().concat();
    if profile == Profile::Damage {
        damage::edit(&mut rng, &mut bytes);
    }
    if rng.chance(25) {
        bytes.extend(damage::cut_off_field(&mut rng, requests.withdrawals));
    }
    bytes
}
