//! How often each situation came, for programs that fail where one never did.

use std::collections::BTreeMap;
use std::sync::Mutex;
use std::sync::atomic::{AtomicU64, Ordering};
use std::thread;

pub type Tally = BTreeMap<&'static str, u64>;

pub fn times(tally: &Tally, name: &str) -> u64 {
    tally.get(name).copied().unwrap_or(0)
}

/// The situations with how often each came, in their order.
pub fn counted(tally: &Tally, situations: &[&str]) -> String {
    let counted: Vec<String> = situations.iter().map(|name| format!("{name}: {}", times(tally, name))).collect();
    counted.join(", ")
}

/// Names those that never came, if there is one.
pub fn all_came(tally: &Tally, situations: &[&str]) -> Result<(), String> {
    let missed: Vec<&str> = situations.iter().copied().filter(|name| times(tally, name) == 0).collect();
    if missed.is_empty() { Ok(()) } else { Err(format!("never came: {}", missed.join("; "))) }
}

const JOBS: usize = 2;

/// Does this for so many consecutive seeds, by two threads: the tally, or what differs at the lowest seed.
pub fn over_seeds<D: Send>(
    first: u64,
    count: u64,
    of: impl Fn(u64, &mut Tally) -> Result<(), D> + Sync,
) -> Result<Tally, (u64, D)> {
    let next = AtomicU64::new(0);
    let found: Mutex<Option<(u64, D)>> = Mutex::new(None);
    let tally = Mutex::new(Tally::new());
    thread::scope(|scope| {
        for _ in 0..JOBS {
            scope.spawn(|| {
                let mut own = Tally::new();
                loop {
                    let run = next.fetch_add(1, Ordering::Relaxed);
                    if run >= count {
                        break;
                    }
                    if let Err(difference) = of(first.wrapping_add(run), &mut own) {
                        // No run above this one is begun any more.
                        next.fetch_max(count, Ordering::Relaxed);
                        let mut found = found.lock().expect("no thread fails");
                        if found.as_ref().is_none_or(|(other, _)| run < *other) {
                            *found = Some((run, difference));
                        }
                    }
                }
                let mut tally = tally.lock().expect("no thread fails");
                for (name, count) in own {
                    *tally.entry(name).or_default() += count;
                }
            });
        }
    });
    match found.into_inner().expect("no thread fails") {
        Some((run, difference)) => Err((first.wrapping_add(run), difference)),
        None => Ok(tally.into_inner().expect("no thread fails")),
    }
}
