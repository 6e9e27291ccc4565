//! How often each kind of input came.
use std::fmt::Display;
use std::process::ExitCode;

/// Prints the counts behind `before`; fails where over 1,000 inputs or more one of the kinds never came.
pub fn tell(before: &str, inputs: u64, counted: &[(impl Display, u64)]) -> ExitCode {
    let words: Vec<String> = counted.iter().map(|(what, count)| format!("{what}: {count}")).collect();
    println!("{before}{}", words.join(", "));
    match counted.iter().find(|(_, count)| inputs >= 1_000 && *count == 0) {
        Some((what, _)) => {
            println!("never came: {what}");
            ExitCode::FAILURE
        }
        None => ExitCode::SUCCESS,
    }
}
