//! The program `ledger` of document 01 over the counts model: fields from standard input, lines to standard output.

use model::{Counts, stream};
use std::io;
use std::process::ExitCode;

fn main() -> ExitCode {
    match stream::<Counts>(&mut io::stdin().lock(), &mut io::stdout().lock()) {
        Ok(()) => ExitCode::SUCCESS,
        Err(error) => {
            eprintln!("ledger-model: {error}");
            ExitCode::FAILURE
        }
    }
}
