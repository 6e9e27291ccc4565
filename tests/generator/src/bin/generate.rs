//! Writes the input of a seed to standard output, or its calls in words, or one long input for timing.

use generator::{Profile, accepted, describe, fields, input, profile_of, refused, timing};
use std::io::{self, Write};
use std::process::ExitCode;

const USAGE: &str = "usage: generate SEED [PROFILE] [--text] | generate --timing|--refused|--accepted FIELDS";

fn main() -> ExitCode {
    let arguments: Vec<String> = std::env::args().skip(1).collect();
    let Some(output) = output_for(&arguments) else {
        eprintln!("{USAGE}");
        return ExitCode::FAILURE;
    };
    match io::stdout().write_all(&output) {
        Ok(()) => ExitCode::SUCCESS,
        Err(error) => {
            eprintln!("generate: {error}");
            ExitCode::FAILURE
        }
    }
}

/// None where the arguments make no sense.
fn output_for(arguments: &[String]) -> Option<Vec<u8>> {
    if let [option, fields] = arguments
        && let Some(long) = long(option)
    {
        return Some(long(fields.parse().ok()?));
    }
    let text = arguments.iter().any(|argument| argument == "--text");
    let mut rest = arguments.iter().filter(|argument| *argument != "--text");
    let seed = rest.next()?.parse().ok()?;
    let profile = match rest.next() {
        Some(name) => Profile::named(name)?,
        None => profile_of(seed),
    };
    let bytes = input(seed, profile);
    Some(if text { in_words(&bytes) } else { bytes })
}

/// The long input that an option names.
fn long(option: &str) -> Option<fn(usize) -> Vec<u8>> {
    match option {
        "--timing" => Some(timing),
        "--refused" => Some(refused),
        "--accepted" => Some(accepted),
        _ => None,
    }
}

fn in_words(bytes: &[u8]) -> Vec<u8> {
    fields(bytes).iter().flat_map(|field| format!("{}\n", describe(field)).into_bytes()).collect()
}
