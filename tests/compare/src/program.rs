//! Runs the program on an input and holds its text against the model's.

use crate::pairs::place;
use crate::tally::Tally;
use generator::{Unlike, fields, first_unlike};
use model::{Ledger, print, write};
use std::io::{Read, Write};
use std::path::{Path, PathBuf};
use std::process::{Child, Command, Stdio};
use std::sync::mpsc;
use std::thread;
use std::time::Duration;

/// The program and how long it may take over one input.
#[derive(Clone)]
pub struct Program {
    pub path: PathBuf,
    pub timeout: Duration,
    /// Whether an exit status other than 0 counts as a difference.
    pub status_counts: bool,
}

/// The first line in which the two texts differ, or what is wrong with the run.
pub struct LineDifference {
    pub line: Option<usize>,
    pub program: String,
    pub model: String,
}

/// A text that runs on for so many bytes past the model's is not read to its end.
const PAST_THE_MODEL: usize = 1 << 16;

impl Program {
    /// Whether the program can be started at all.
    pub fn try_start(&self) -> Result<(), String> {
        let mut child = start(&self.path)?;
        let _ = child.kill();
        child.wait().map(|_| ()).map_err(|error| error.to_string())
    }

    /// The program's text as far as it is of interest, or what went wrong.
    fn run(&self, input: &[u8], most: usize) -> Result<Vec<u8>, String> {
        let mut child = start(&self.path)?;
        let mut stdin = child.stdin.take().expect("standard input is piped");
        let stdout = child.stdout.take().expect("standard output is piped");
        let (sender, receiver) = mpsc::channel();
        let input = input.to_vec();
        // Neither thread is waited for, as a pipe may stay open for longer than the program runs.
        thread::spawn(move || {
            // A program that stops reading is seen by its text, so a broken pipe is let pass.
            let _ = stdin.write_all(&input);
        });
        thread::spawn(move || {
            let mut text = Vec::new();
            let read = stdout.take(most as u64).read_to_end(&mut text);
            let _ = sender.send(read.map(|_| text));
        });
        let text = receiver.recv_timeout(self.timeout);
        if text.as_ref().map_or(true, |text| text.as_ref().map_or(true, |text| text.len() == most)) {
            let _ = child.kill();
        }
        let status = child.wait().map_err(|error| error.to_string())?;
        let text = text.map_err(|_| format!("no end after {} seconds", self.timeout.as_secs()))?;
        let text = text.map_err(|error| error.to_string())?;
        let ended_badly = self.status_counts && !status.success() && text.len() < most;
        if ended_badly { Err(format!("ended with {status}")) } else { Ok(text) }
    }

    /// None where the program's text is the model's.
    pub fn difference<L: Ledger + Default>(&self, input: &[u8]) -> Option<LineDifference> {
        let model = print::<L>(input);
        match self.run(input, model.len() + PAST_THE_MODEL) {
            Ok(text) if text == model => None,
            Ok(text) => Some(first_difference(&text, &model)),
            Err(wrong) => Some(LineDifference { line: None, program: wrong, model: "a text and an end".into() }),
        }
    }
}

fn start(path: &Path) -> Result<Child, String> {
    Command::new(path)
        .stdin(Stdio::piped())
        .stdout(Stdio::piped())
        .stderr(Stdio::null())
        .spawn()
        .map_err(|error| format!("{}: {error}", path.display()))
}

fn first_difference(program: &[u8], model: &[u8]) -> LineDifference {
    let Unlike { line, one, other } = first_unlike(program, model, str::to_string).expect("the texts differ");
    LineDifference { line: Some(line), program: one, model: other }
}

/// Counts the answers that the model gives to the fields of an input.
pub fn tally<L: Ledger + Default>(input: &[u8], tally: &mut Tally) {
    let mut ledger = L::default();
    let mut had_round = false;
    let list = fields(input);
    tally.count_situations(&list);
    for field in list {
        let place = place(ledger.stage(), had_round);
        let answer = ledger.call(&field);
        had_round |= (field[0], answer) == (write::ROUND, 0);
        tally.count(field[0], answer, place);
    }
    tally.inputs += 1;
    tally.bytes += input.len() as u64;
}
