//! Daily positions (C-11 of document 02) against the model's ring, in one run: nanoseconds a day and their ratio; then whole runs of 66 days with their
//! split, nanoseconds a run. Where a run is handed over in parts, the ring and the sums go on from one run to the next.
use linked::Random;
use linked::positions::{Kept, expected};
use model::Ring;
use std::hint::black_box;
use std::time::Instant;

const DAYS: usize = 10_000;

/// The least time of one call, over rounds of the two in turn.
fn both(calls: usize, mut mine: impl FnMut(), mut theirs: impl FnMut()) -> (f64, f64) {
    let (mut a, mut b) = (f64::MAX, f64::MAX);
    for _ in 0..15 {
        for (best, f) in [(&mut a, &mut mine as &mut dyn FnMut()), (&mut b, &mut theirs as &mut dyn FnMut())] {
            let start = Instant::now();
            for _ in 0..calls {
                f();
            }
            *best = best.min(start.elapsed().as_secs_f64() * 1e9 / calls as f64);
        }
    }
    (a, b)
}

fn line(name: &str, per: usize, (mine, theirs): (f64, f64)) {
    let (mine, theirs) = (mine / per as f64, theirs / per as f64);
    println!("{name:<44} {mine:>9.1} ns {theirs:>9.1} ns   ratio {:.2}", mine / theirs);
}

fn days_of(r: &mut Random, members: usize, days: usize) -> Vec<u8> {
    (0..members * days).flat_map(|_| (r.below(10_000_001) as u32).to_be_bytes()).collect()
}

/// Sets of so many members, spread over the 32.
fn set_of(members: usize) -> u32 {
    (0..members).map(|k| 1 << (k * 32 / members)).sum()
}

/// Whole runs at once, from an empty ring to the shares.
fn at_once(members: usize, days: &[u8], calls: usize) -> (f64, f64) {
    let set = set_of(members);
    let (mut mine, mut theirs) = ([0; 32], [0; 32]);
    let times = both(
        calls,
        || assert_eq!(expected(black_box(set), black_box(1_000), black_box(days), &mut mine), 0),
        || assert_eq!(Ring::run(black_box(set), black_box(1_000), black_box(days), &mut theirs), 0),
    );
    assert_eq!(mine, theirs, "the shares of {members} members");
    times
}

/// The same days in parts of so many bytes, each of whole days.
fn in_parts(members: usize, days: &[u8], part: usize) -> (f64, f64) {
    let set = set_of(members);
    let (mut kept, mut ring) = (Kept::new(set), Ring::new(set));
    let times = both(
        10,
        || {
            for some in black_box(days).chunks(part) {
                assert_eq!(kept.take(some), (some.len(), 0));
            }
        },
        || {
            for some in black_box(days).chunks(part) {
                assert_eq!(ring.take(some), (some.len(), 0));
            }
        },
    );
    assert_eq!(kept.sums(), ring.sums(), "the sums of {members} members");
    times
}

fn main() {
    let mut r = Random(7);
    println!("{:<44} {:>12} {:>12}", "", "proved", "ring");
    for members in [3, 8, 32] {
        let days = days_of(&mut r, members, DAYS);
        line(&format!("a day of 10,000 at once, {members} members"), DAYS, at_once(members, &days, 10));
    }
    let days = days_of(&mut r, 32, DAYS);
    line("a day of 10,000 in one part, 32 members", DAYS, in_parts(32, &days, days.len()));
    line("a day of 10,000, one a part, 32 members", DAYS, in_parts(32, &days, 4 * 32));
    for members in [3, 8, 32] {
        let days = days_of(&mut r, members, 66);
        line(&format!("66 days and their split, {members} members"), 1, at_once(members, &days, 1_000));
    }
}
