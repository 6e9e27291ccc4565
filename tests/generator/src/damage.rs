//! Bytes that are not what a field should be.

use crate::rng::Rng;
use model::write;

/// A whole field with a tag that no call has.
pub fn unknown_tag(rng: &mut Rng) -> Vec<u8> {
    // Drawn from 14 on, so that the lists of document 01 stay as they were; 14 is SALE and 15 WITHDRAW.
    let tag = if rng.chance(15) { 0 } else { rng.between(14, 255).max(16) as u8 };
    let length = rng.pick(&[0, 1, 4, 5, 8, 27]);
    write::field(tag, &random_bytes(rng, length))
}

/// The field under a tag that no call has, often the next one that a request may bring.
pub fn under_an_unknown_tag(rng: &mut Rng, mut field: Vec<u8>) -> Vec<u8> {
    // Drawn from 15 on, so that the lists with SALEs alone stay as they were.
    let other = rng.between(15, 255).max(16) as u8;
    field[0] = rng.pick(&[16, 16, 16, 17, 0, other]);
    field
}

/// The field with its value made shorter or longer, its length telling so.
pub fn wrong_length(rng: &mut Rng, field: Vec<u8>) -> Vec<u8> {
    let mut value = field[3..].to_vec();
    match rng.below(40) {
        0..=11 => value.truncate(value.len().saturating_sub(1)),
        12..=23 => value.push(0),
        24..=29 => value.clear(),
        30 => value.resize(65_535, 0),
        31 => value.resize(65_534, 1),
        32..=35 => value.resize(value.len() + 4, 0),
        _ => {
            let length = rng.below(40) as usize;
            value.resize(length, 7);
        }
    }
    write::field(field[0], &value)
}

/// A byte string that is not exactly one field, though the field within it may be good.
pub fn not_one_field(rng: &mut Rng, mut field: Vec<u8>) -> Vec<u8> {
    match rng.below(7) {
        0 => Vec::new(),
        1 => field[..1].to_vec(),
        2 => field[..2].to_vec(),
        3 => {
            let short = rng.below(field.len() as u64) as usize;
            field.truncate(short);
            field
        }
        4 => {
            field.push(rng.below(256) as u8);
            field
        }
        5 => [field.clone(), field].concat(),
        _ => {
            // The length tells of more or of less than there is.
            field[2] = field[2].wrapping_add(rng.pick(&[1, 255]));
            field
        }
    }
}

/// The beginning of a field that the input's end cuts off: a lone tag, half a length, or part of a value.
pub fn cut_off_field(rng: &mut Rng, has_withdrawals: bool) -> Vec<u8> {
    let last = if has_withdrawals { write::WITHDRAW } else { write::SALE };
    let tag = if rng.chance(80) { rng.between(1, last.into()) as u8 } else { rng.below(256) as u8 };
    let lengths = [0, 27, 4, 13, 4, 8, 0, 5, 5, 0, 5, 1, 5, 0, 6, 3];
    let right = lengths.get(usize::from(tag)).copied().unwrap_or(3);
    let length = if right == 0 || rng.chance(20) { rng.pick(&[1, 300, 65_535]) } else { right };
    let mut field = write::field(tag, &random_bytes(rng, length));
    let kept = match rng.below(5) {
        0 => 1,
        1 => 2,
        2 => 3,
        3 => field.len() - 1,
        _ => 1 + rng.below(field.len() as u64 - 1) as usize,
    };
    field.truncate(kept);
    field
}

/// Changes, inserts, takes out or doubles a few bytes anywhere, so that all fields after them may be read amiss.
pub fn edit(rng: &mut Rng, bytes: &mut Vec<u8>) {
    for _ in 0..rng.below(4) {
        if bytes.is_empty() {
            return;
        }
        let at = rng.below(bytes.len() as u64) as usize;
        match rng.below(5) {
            0 => bytes[at] ^= 1 << rng.below(8),
            1 => bytes[at] = rng.below(256) as u8,
            2 => bytes.insert(at, rng.below(256) as u8),
            3 => {
                bytes.remove(at);
            }
            _ => {
                let end = (at + rng.below(30) as usize).min(bytes.len());
                let again = bytes[at..end].to_vec();
                bytes.splice(at..at, again);
            }
        }
    }
}

fn random_bytes(rng: &mut Rng, length: usize) -> Vec<u8> {
    (0..length).map(|_| rng.below(256) as u8).collect()
}
