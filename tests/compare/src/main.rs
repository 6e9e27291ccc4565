//! Compares a program with the model on generated inputs, or the two models with each other.

mod itself;
mod options;
mod pairs;
mod program;
mod requirement;
mod shrink;
mod situations;
mod tally;
mod ties;

use generator::{Profile, calls, describe, fields, in_words, input, profile_of};
use model::{Counts, Ledger, Roll};
use options::{Options, Subject};
use program::{LineDifference, Program};
use std::process::ExitCode;
use std::sync::Mutex;
use std::sync::atomic::{AtomicBool, AtomicU64, Ordering};
use std::thread;
use std::time::Duration;
use tally::Tally;

/// Shrinking stops after so long.
const SHRINKING: Duration = Duration::from_secs(60);

fn main() -> ExitCode {
    let options = match Options::read(std::env::args().skip(1)) {
        Ok(options) => options,
        Err(wrong) => {
            eprintln!("{wrong}\n{}", options::USAGE);
            return ExitCode::from(2);
        }
    };
    if options.list_pairs {
        print!("{}", tally::pairs_text());
        return ExitCode::SUCCESS;
    }
    if let Subject::Program(program) = &options.subject
        && let Err(wrong) = program.try_start()
    {
        eprintln!("{wrong}");
        return ExitCode::from(2);
    }
    let (tally, difference) = run(&options);
    if let Some((_, report)) = difference {
        println!("{report}");
        return ExitCode::FAILURE;
    }
    let missed = tally.report();
    if options.cover && missed.pairs > 0 || options.cover_stages && missed.in_stages > 0 {
        println!("FAILED: a reachable pair was not hit");
        return ExitCode::FAILURE;
    }
    if options.cover && missed.situations > 0 {
        println!("FAILED: a situation with a withdrawn bid, a tie of remainders or the requirement never came");
        return ExitCode::FAILURE;
    }
    println!("no difference");
    ExitCode::SUCCESS
}

/// Compares seed after seed, and gives the count and the report on the first seed found that differs.
fn run(options: &Options) -> (Tally, Option<(u64, String)>) {
    let next = AtomicU64::new(0);
    let stop = AtomicBool::new(false);
    let total = Mutex::new(Tally::default());
    let found: Mutex<Option<(u64, String)>> = Mutex::new(None);
    thread::scope(|scope| {
        for _ in 0..options.jobs {
            scope.spawn(|| {
                let mut tally = Tally::default();
                while !stop.load(Ordering::Relaxed) {
                    let number = next.fetch_add(1, Ordering::Relaxed);
                    if number >= options.inputs {
                        break;
                    }
                    let seed = options.seed.wrapping_add(number);
                    if let Some(report) = compare(options, seed, &mut tally) {
                        stop.store(true, Ordering::Relaxed);
                        let mut found = found.lock().expect("no thread panicked");
                        if found.as_ref().is_none_or(|(first, _)| seed < *first) {
                            *found = Some((seed, report));
                        }
                    }
                }
                total.lock().expect("no thread panicked").add(tally);
            });
        }
    });
    let found = found.into_inner().expect("no thread panicked");
    (total.into_inner().expect("no thread panicked"), found)
}

/// The report on a difference at this seed, if there is one.
fn compare(options: &Options, seed: u64, tally: &mut Tally) -> Option<String> {
    let profile = options.profile.unwrap_or_else(|| profile_of(seed));
    match &options.subject {
        Subject::Itself => compare_models(seed, profile, tally),
        Subject::Program(program) if options.over_roll => compare_program::<Roll>(program, seed, profile, tally),
        Subject::Program(program) => compare_program::<Counts>(program, seed, profile, tally),
    }
}

fn compare_program<L: Ledger + Default>(
    program: &Program,
    seed: u64,
    profile: Profile,
    tally: &mut Tally,
) -> Option<String> {
    let bytes = input(seed, profile);
    program::tally::<L>(&bytes, tally);
    let found = program.difference::<L>(&bytes)?;
    let list = fields(&bytes);
    let call = match found.line {
        Some(line) if line < list.len() => format!("call {line}: {}", describe(&list[line])),
        Some(_) => "after the last call".to_string(),
        None => "in the run".to_string(),
    };
    let mut report = format!("DIFFERENCE at seed {seed}, profile {}, {call}\n{}", profile.name(), both_lines(&found));
    report += &in_words("calls", &list);
    let shrunk = shrink::shrink(list, SHRINKING, |list| program.difference::<L>(&list.concat()).is_some());
    report += &in_words("shrunk to", &shrunk);
    if let Some(found) = program.difference::<L>(&shrunk.concat()) {
        report += &both_lines(&found);
    }
    report += &format!("bytes: {}", hex(&shrunk.concat()));
    Some(report)
}

fn both_lines(found: &LineDifference) -> String {
    let line = found.line.map_or(String::new(), |line| format!("line {line} of the text\n"));
    format!("{line}  program: {}\n  model:   {}\n", found.program, found.model)
}

fn compare_models(seed: u64, profile: Profile, tally: &mut Tally) -> Option<String> {
    let list = calls(seed, profile);
    let differs = |list: &[Vec<u8>]| itself::difference(list, &mut Tally::default());
    if let Some(found) = itself::difference(&list, tally) {
        let mut report = format!(
            "DIFFERENCE at seed {seed}, profile {}\nafter call {}: {}\n{}\n",
            profile.name(),
            found.call,
            describe(&list[found.call]),
            found.what
        );
        report += &in_words("calls", &list);
        let shrunk = shrink::shrink(list, SHRINKING, |list| differs(list).is_some());
        report += &in_words("shrunk to", &shrunk);
        report += &differs(&shrunk).map_or(String::new(), |found| found.what);
        return Some(report);
    }
    let what = itself::text_difference(&input(seed, profile))?;
    Some(format!("DIFFERENCE at seed {seed}, profile {}\n{what}", profile.name()))
}

fn hex(bytes: &[u8]) -> String {
    bytes.iter().map(|byte| format!("{byte:02x}")).collect()
}
