//! The program `ledger` against the model's program `ledger-model`, in turn on the same inputs: nanoseconds a field and their ratio. Standard output goes
//! nowhere.
use std::fs::{File, write};
use std::path::{Path, PathBuf};
use std::process::{Command, Stdio};
use std::time::Instant;

/// Rounds of the two programs in turn; the least time counts.
const ROUNDS: usize = 9;

fn seconds(program: &Path, input: &Path) -> f64 {
    let file = File::open(input).expect("the input was written");
    let start = Instant::now();
    let status = Command::new(program).stdin(file).stdout(Stdio::null()).status().expect("the program is built");
    assert!(status.success(), "{} failed", program.display());
    start.elapsed().as_secs_f64()
}

fn main() {
    let root = PathBuf::from(env!("CARGO_MANIFEST_DIR")).join("..");
    let ours = root.join("target/bin/ledger");
    let theirs = root.join("tests/target/release/ledger-model");
    let kinds: [(&str, fn(usize) -> Vec<u8>, usize); 3] = [
        ("refused calls", generator::refused, 1_000_000),
        ("accepted BIDs and PAYs", generator::accepted, 200_000),
        ("bids, payments and calls after the end", generator::timing, 1_000_000),
    ];
    for (name, make, fields) in kinds {
        let path = std::env::temp_dir().join(format!("ledger-bench-{}", std::process::id()));
        write(&path, make(fields)).expect("the temporary folder takes files");
        let (mut a, mut b) = (f64::MAX, f64::MAX);
        for _ in 0..ROUNDS {
            a = a.min(seconds(&ours, &path));
            b = b.min(seconds(&theirs, &path));
        }
        std::fs::remove_file(&path).expect("it was written");
        let each = |t: f64| t * 1e9 / fields as f64;
        println!("{fields:>9} {name:<40} {:>8.0} ns {:>8.0} ns   ratio {:.2}", each(a), each(b), a / b);
    }
}
