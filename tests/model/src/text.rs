//! The program's text: fields from the input, lines to the output.

use crate::field;
use crate::ledger::Ledger;
use std::io::{self, ErrorKind, Read, Write};

/// More than the longest field, so that a field always fits.
const BUFFER: usize = 1 << 18;

/// The whole output for a whole input.
pub fn print<L: Ledger + Default>(input: &[u8]) -> Vec<u8> {
    let mut ledger = L::default();
    let mut lines = Vec::new();
    let mut rest = input;
    while let Some(size) = field::size(rest) {
        let (bytes, after) = rest.split_at(size);
        answer_line(bytes[0], ledger.call(bytes), &mut lines);
        rest = after;
    }
    if let Some(&tag) = rest.first() {
        answer_line(tag, 1, &mut lines);
    }
    closing_lines(&ledger, &mut lines);
    lines
}

/// The same for an input of any length, read and written piece by piece.
pub fn stream<L: Ledger + Default>(input: &mut impl Read, output: &mut impl Write) -> io::Result<()> {
    let mut ledger = L::default();
    let mut lines = Vec::with_capacity(BUFFER + 64);
    let mut held = vec![0; BUFFER];
    let mut end = 0;
    loop {
        let mut start = 0;
        while let Some(size) = field::size(&held[start..end]) {
            let bytes = &held[start..start + size];
            answer_line(bytes[0], ledger.call(bytes), &mut lines);
            start += size;
            if lines.len() >= BUFFER {
                output.write_all(&lines)?;
                lines.clear();
            }
        }
        held.copy_within(start..end, 0);
        end -= start;
        match input.read(&mut held[end..]) {
            Ok(0) => break,
            Ok(read) => end += read,
            Err(error) if error.kind() == ErrorKind::Interrupted => {}
            Err(error) => return Err(error),
        }
    }
    // "A field cut off by the input's end prints its s line with 1 and reading stops; a lone tag counts as cut off."
    if end > 0 {
        answer_line(held[0], 1, &mut lines);
    }
    closing_lines(&ledger, &mut lines);
    output.write_all(&lines)?;
    output.flush()
}

/// "s: tag, answer, in decimal throughout."
fn answer_line(tag: u8, answer: u8, lines: &mut Vec<u8>) {
    lines.extend(b"s ");
    small_number(tag, lines);
    lines.push(b' ');
    small_number(answer, lines);
    lines.push(b'\n');
}

fn small_number(number: u8, lines: &mut Vec<u8>) {
    if number >= 100 {
        lines.push(b'0' + number / 100);
    }
    if number >= 10 {
        lines.push(b'0' + number / 10 % 10);
    }
    lines.push(b'0' + number % 10);
}

/// "At the input's end p, per pool given: pool, open, sold, allocated, moved, torn. After FINISH, l: loss, six charges, uncovered;
/// m: member, rank, charge on contribution, on payments."
fn closing_lines(ledger: &impl Ledger, lines: &mut Vec<u8>) {
    for pool in 0..ledger.pools_given() {
        line("p", u64::from(pool), &ledger.counts(pool), lines);
    }
    let Some(outcome) = ledger.result() else {
        return;
    };
    let [margin, fund, first, contributions, second, payments] = outcome.charges;
    let charges = [margin, fund, first, contributions, second, payments, outcome.uncovered];
    line("l", outcome.loss, &charges, lines);
    for m in outcome.members {
        let rest = [m.rank, m.contribution_charge, m.payment_charge];
        line("m", u64::from(m.member), &rest, lines);
    }
}

fn line(letter: &str, first: u64, rest: &[u64], lines: &mut Vec<u8>) {
    lines.extend(format!("{letter} {first}").bytes());
    rest.iter().for_each(|number| lines.extend(format!(" {number}").bytes()));
    lines.push(b'\n');
}
