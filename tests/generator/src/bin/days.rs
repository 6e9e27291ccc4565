//! The program `expected` against the model, as docs/POSITIONS.md tells it: `days PROGRAM [RUNS [SEED]]` starts it as a process for each of so many
//! runs (2,000, from seed 1) of day records, then for the same days as text, then for a bad text, each with one damage whose line and column are known;
//! and for words that are no call of it, and for long runs. It ends with 1 at the first difference, and where over 1,000 runs or more one of the
//! situations that it counts never came. Run R of seed S is the first run of seed S + R.

use generator::tally::{Tally, all_came, over_seeds, times};
use generator::{Rng, Tie, simple_part, start};
use model::positions::{POSITION_LIMIT, UNITS_LIMIT, WINDOW};
use model::{Ring, expected, first_declined, sums_afresh};
use std::io::Write;
use std::process::{ChildStdin, ExitCode};
use std::thread;

const USAGE: &str = "usage: expected members 0,1,2 units 40 [--text] < FILE\n";
const LINE_LIMIT: usize = 65_536;

/// Must come in 1,000 runs.
const SITUATIONS: [&str; 37] = [
    "bytes: shares",
    "bytes: shares, all 0",
    "bytes: a tie goes to a larger sum behind a smaller",
    "bytes: a tie of like sums goes to the earlier",
    "bytes: units out of range",
    "bytes: declined by 1",
    "bytes: declined by 5",
    "bytes: declined by 5, has left the window",
    "bytes: a position above the limit in a record that is cut",
    "bytes: 32 members",
    "bytes: no day",
    "bytes: more than 66 days",
    "bytes: a member twice",
    "bytes: spaces in the list",
    "bytes: written in pieces",
    "text: shares",
    "text: units out of range",
    "text: a position above the limit",
    "text: more than 66 days",
    "text: no line end at the end",
    "text: --text before",
    "text: --text behind",
    "text: a line of 65536 bytes",
    "bad: no digit",
    "bad: minus sign",
    "bad: no number between commas",
    "bad: no comma",
    "bad: too large",
    "bad: a number too many",
    "bad: a comma at the end",
    "bad: a number too few",
    "bad: a carriage return in a day",
    "bad: a carriage return in no day",
    "bad: a line too long",
    "bad: behind more than 70 days",
    "bad: a later line bad too",
    "bad: units out of range",
];

/// What a process is started with and what it must say.
struct Case {
    words: Vec<String>,
    input: Vec<u8>,
    /// The input is written in pieces of at most so many bytes.
    piece: Option<usize>,
    out: String,
    err: String,
}

fn words_of(words: &[&str]) -> Vec<String> {
    words.iter().map(|word| word.to_string()).collect()
}

fn feed(mut to: ChildStdin, input: &[u8], piece: Option<usize>) {
    // A program that has seen enough may have ended: that is no failure of the writer's.
    for part in input.chunks(piece.unwrap_or(usize::MAX)) {
        if to.write_all(part).is_err() {
            return;
        }
    }
}

fn shown(bytes: &[u8]) -> String {
    if bytes.len() <= 6_000 {
        return bytes.escape_ascii().to_string();
    }
    let end = bytes.len() - 1_000;
    format!("{} .. {} ({} bytes)", bytes[..1_000].escape_ascii(), bytes[end..].escape_ascii(), bytes.len())
}

/// A difference in words, if there is one.
fn check(program: &str, case: &Case) -> Result<(), String> {
    let (child, to) = start(program, &case.words);
    let output = thread::scope(|scope| {
        scope.spawn(|| feed(to, &case.input, case.piece));
        child.wait_with_output().expect("it ends")
    });
    if output.stdout == case.out.as_bytes() && output.stderr == case.err.as_bytes() && output.status.code().is_some() {
        return Ok(());
    }
    Err(format!(
        "words {:?}\ninput {}\nwritten in pieces of {:?}\nwanted on standard output {:?}\n                   found {:?}\nwanted on standard error {:?}\n                  found {:?}\n{}",
        case.words,
        shown(&case.input),
        case.piece,
        case.out,
        String::from_utf8_lossy(&output.stdout),
        case.err,
        String::from_utf8_lossy(&output.stderr),
        output.status
    ))
}

struct Run {
    set: u32,
    list: String,
    units: u64,
    days: Vec<u8>,
    /// What of it is counted.
    marks: Vec<&'static str>,
}

impl Run {
    fn members(&self) -> usize {
        self.set.count_ones() as usize
    }

    fn units_in_range(&self) -> bool {
        (1..=UNITS_LIMIT).contains(&self.units)
    }

    fn words(&self) -> Vec<String> {
        words_of(&["members", &self.list, "units", &self.units.to_string()])
    }
}

/// The lines for these shares.
fn lines_of(set: u32, shares: &[u64; 32]) -> String {
    let mut lines = String::new();
    for (member, share) in shares.iter().enumerate() {
        if set >> member & 1 == 1 {
            lines += &format!("member {member} expected {share}\n");
        }
    }
    lines + &format!("total {}\n", shares.iter().sum::<u64>())
}

/// What is to stand on standard output and standard error for these days as bytes.
fn wanted(set: u32, units: u64, days: &[u8]) -> (String, String) {
    let mut shares = [0; 32];
    if expected(set, units, days, &mut shares) == 0 {
        return (lines_of(set, &shares), String::new());
    }
    if !(1..=UNITS_LIMIT).contains(&units) {
        return (String::new(), "declined by 5, units are 1 to 1000\n".into());
    }
    let (at, answer) = first_declined(set, days).expect("units are in range and the set is not empty");
    let day = at / (4 * set.count_ones() as usize) + 1;
    let told = match answer {
        1 => "declined by 1, the record is cut short",
        _ => "declined by 5, a position is above 10000000",
    };
    (String::new(), format!("day {day}: {told}\n"))
}

fn set_of(rng: &mut Rng) -> Vec<u32> {
    let count = match rng.below(8) {
        0 => 1,
        1 => 32,
        2 => 2,
        3 | 4 => 1 + rng.below(5),
        _ => 1 + rng.below(32),
    };
    let mut members: Vec<u32> = (0..32).collect();
    rng.shuffle(&mut members);
    members.truncate(count as usize);
    members
}

/// The list as it is written; some members twice, spaces behind commas, and no more than 32 numbers.
fn list_of(rng: &mut Rng, members: &[u32], marks: &mut Vec<&'static str>) -> String {
    let mut named = members.to_vec();
    match rng.below(4) {
        0 => named.sort_unstable(),
        1 if members.len() < 32 => {
            for _ in 0..(1 + rng.below(3)).min(32 - members.len() as u64) {
                let again = rng.pick(members);
                let place = rng.below(named.len() as u64 + 1) as usize;
                named.insert(place, again);
            }
            marks.push("bytes: a member twice");
        }
        _ => {}
    }
    let spaces = rng.chance(30) && named.len() > 1;
    if spaces {
        marks.push("bytes: spaces in the list");
    }
    let mut list = named[0].to_string();
    for (place, member) in named.iter().enumerate().skip(1) {
        let blank = if spaces && (place == 1 || rng.chance(60)) { 1 + rng.below(3) as usize } else { 0 };
        list += &format!(",{}{member}", " ".repeat(blank));
    }
    list
}

fn units_of(rng: &mut Rng) -> u64 {
    match rng.below(24) {
        0 => rng.pick(&[0, 1_001, 4_294_967_295]),
        1 => 1,
        2 => 1_000,
        3..9 => 1 + rng.below(10),
        _ => 1 + rng.below(1_000),
    }
}

fn count_of(rng: &mut Rng) -> usize {
    let count = match rng.below(8) {
        0 => 0,
        1..4 => 1 + rng.below(8),
        4 => 65 + rng.below(4),
        5 => rng.pick(&[131, 132, 133, 198, 199]),
        _ => rng.below(301),
    };
    count as usize
}

/// Positions in range, a day after the other.
fn positions_of(rng: &mut Rng, members: usize, count: usize) -> Vec<u32> {
    let limit = u64::from(POSITION_LIMIT);
    let kind = rng.below(8);
    let one = rng.below(limit + 1);
    let of_member: Vec<u64> = (0..members).map(|_| if rng.chance(30) { 0 } else { rng.below(limit + 1) }).collect();
    let position = |place: usize, rng: &mut Rng| match kind {
        0 => 0,
        1 => rng.below(3),
        2 => one,
        3 => limit,
        4 => of_member[place % members],
        5 => rng.below(4) / 3 * rng.below(50),
        6 => rng.pick(&[0, 1, limit - 1, limit]),
        _ => rng.below(limit + 1),
    };
    (0..members * count).map(|place| position(place, rng) as u32).collect()
}

fn above_limit(rng: &mut Rng) -> u32 {
    match rng.below(5) {
        0 | 1 => POSITION_LIMIT + 1,
        2 => u32::MAX,
        3 => 1 << 31,
        _ => POSITION_LIMIT + 1 + rng.below(u64::from(u32::MAX - POSITION_LIMIT)) as u32,
    }
}

fn spoil(rng: &mut Rng, members: usize, day: usize, days: &mut [u8]) {
    let at = 4 * (members * day + rng.below(members as u64) as usize);
    days[at..at + 4].copy_from_slice(&above_limit(rng).to_be_bytes());
}

/// What can be wrong with the bytes.
fn damage(rng: &mut Rng, members: usize, days: &mut Vec<u8>, marks: &mut Vec<&'static str>) {
    let size = 4 * members;
    let count = days.len() / size;
    if count == 0 {
        // The first record is cut at once.
        days.extend((0..1 + rng.below(size as u64 - 1)).map(|_| rng.draw() as u8));
        return;
    }
    let any = rng.below(count as u64) as usize;
    let left = 1 + rng.below(size as u64 - 1) as usize;
    match rng.below(7) {
        0 => days.truncate(rng.below(days.len() as u64 + 1) as usize),
        1 => days.truncate(days.len() - size + left),
        2 => spoil(rng, members, any, days),
        3 => spoil(rng, members, 0, days),
        4 => spoil(rng, members, count - 1, days),
        // In the record that is cut, whole where there is room for it.
        5 => {
            let last = size * (count - 1);
            days[last..last + 4].copy_from_slice(&above_limit(rng).to_be_bytes());
            days.truncate(last + left);
            if left >= 4 {
                marks.push("bytes: a position above the limit in a record that is cut");
            }
        }
        // In a record before the one that is cut.
        _ => {
            spoil(rng, members, any, days);
            days.truncate(days.len() - size + left);
        }
    }
}

/// The run that a seed stands for.
fn run_of(seed: u64) -> Run {
    let rng = &mut Rng::new(seed ^ 0x64617973);
    let mut marks = Vec::new();
    let members = set_of(rng);
    let list = list_of(rng, &members, &mut marks);
    let set = members.iter().fold(0, |set, member| set | 1 << member);
    let (units, count) = (units_of(rng), count_of(rng));
    let mut days: Vec<u8> = Vec::new();
    for position in positions_of(rng, members.len(), count) {
        days.extend(position.to_be_bytes());
    }
    if rng.chance(35) {
        damage(rng, members.len(), &mut days, &mut marks);
    }
    let sums = sums_afresh(set, &days);
    let sum: u64 = sums.iter().sum();
    // A simple part of small sums, so that remainders tie.
    let units = if sum <= 1_000 && rng.chance(60) { simple_part(rng, sum).unwrap_or(units) } else { units };
    if (1..=UNITS_LIMIT).contains(&units) && first_declined(set, &days).is_none() {
        let tie = Tie::of(units, &sums[..members.len()]);
        marks.extend(tie.to_the_larger.then_some("bytes: a tie goes to a larger sum behind a smaller"));
        marks.extend(tie.to_the_earlier.then_some("bytes: a tie of like sums goes to the earlier"));
    }
    Run { set, list, units, days, marks }
}

fn bytes_case(seed: u64, tally: &mut Tally) -> Case {
    let run = run_of(seed);
    let rng = &mut Rng::new(seed ^ 0x6279746573);
    let (out, err) = wanted(run.set, run.units, &run.days);
    let piece = rng.chance(25).then(|| 1 + rng.pick(&[1, 7, 130, 5_000]) as usize);
    let size = 4 * run.members();
    let mut count = |name| *tally.entry(name).or_default() += 1;
    for &mark in &run.marks {
        count(mark);
    }
    if !run.units_in_range() {
        count("bytes: units out of range");
    } else if let Some((at, answer)) = first_declined(run.set, &run.days) {
        count(if answer == 1 { "bytes: declined by 1" } else { "bytes: declined by 5" });
        if answer == 5 && at / size + WINDOW < run.days.len() / size {
            count("bytes: declined by 5, has left the window");
        }
    } else {
        count(if out.ends_with("\ntotal 0\n") { "bytes: shares, all 0" } else { "bytes: shares" });
    }
    if run.members() == 32 {
        count("bytes: 32 members");
    }
    if run.days.is_empty() {
        count("bytes: no day");
    }
    if run.days.len() > size * WINDOW {
        count("bytes: more than 66 days");
    }
    if piece.is_some() && !run.days.is_empty() {
        count("bytes: written in pieces");
    }
    Case { words: run.words(), input: run.days, piece, out, err }
}

/// A day as a line without its end, and where what is in it stands.
struct Line {
    bytes: Vec<u8>,
    /// The first digit of each number, and the byte behind its last one.
    numbers: Vec<(usize, usize)>,
    commas: Vec<usize>,
}

/// How a text is written.
struct Text {
    bytes: Vec<u8>,
    lines: usize,
    /// How often of 100 there is a blank, a line that is no day, a carriage return, a zero before a number.
    blank: u64,
    idle: u64,
    carriage: u64,
    zero: u64,
}

impl Text {
    fn draw(rng: &mut Rng) -> Text {
        Text {
            bytes: Vec::new(),
            lines: 0,
            blank: rng.pick(&[0, 0, 10, 70]),
            idle: rng.pick(&[0, 5, 30]),
            carriage: rng.pick(&[0, 0, 50, 100]),
            zero: rng.pick(&[0, 0, 0, 10]),
        }
    }

    fn blanks(&self, rng: &mut Rng) -> Vec<u8> {
        if !rng.chance(self.blank) {
            return Vec::new();
        }
        let most = if rng.chance(2) { 300 } else { 4 };
        (0..1 + rng.below(most)).map(|_| rng.pick(b"   \t")).collect()
    }

    fn number(&self, rng: &mut Rng, position: u32) -> Vec<u8> {
        let mut zeros = 0;
        if rng.chance(self.zero) {
            zeros = if rng.chance(10) { 40 } else { 1 + rng.below(9) as usize };
        }
        [b"0".repeat(zeros), position.to_string().into_bytes()].concat()
    }

    fn day(&self, rng: &mut Rng, positions: &[u32]) -> Line {
        let mut line = Line { bytes: self.blanks(rng), numbers: Vec::new(), commas: Vec::new() };
        for (place, &position) in positions.iter().enumerate() {
            if place != 0 {
                line.commas.push(line.bytes.len());
                line.bytes.push(b',');
                line.bytes.extend(self.blanks(rng));
            }
            let first = line.bytes.len();
            line.bytes.extend(self.number(rng, position));
            line.numbers.push((first, line.bytes.len()));
            line.bytes.extend(self.blanks(rng));
        }
        line
    }

    fn comment(&self, rng: &mut Rng) -> Vec<u8> {
        let any = rng.chance(50);
        let byte = |rng: &mut Rng| if any { rng.below(256) as u8 } else { rng.pick(b"0123456789,,# -xyz") };
        let rest: Vec<u8> = (0..rng.below(40)).map(|_| byte(rng)).filter(|byte| !b"\r\n".contains(byte)).collect();
        [&self.blanks(rng)[..], b"#", &rest].concat()
    }

    /// The line with an end behind it.
    fn put(&mut self, rng: &mut Rng, line: &[u8]) {
        self.bytes.extend(line);
        self.bytes.extend(if rng.chance(self.carriage) { &b"\r\n"[..] } else { b"\n" });
        self.lines += 1;
    }

    /// Lines that are no day.
    fn rest(&mut self, rng: &mut Rng) {
        while rng.chance(self.idle) {
            let line = match rng.below(3) {
                0 => Vec::new(),
                1 => self.blanks(rng),
                _ => self.comment(rng),
            };
            self.put(rng, &line);
        }
    }

    /// Takes the last line's end off.
    fn open_end(&mut self) {
        if self.bytes.pop_if(|byte| *byte == b'\n').is_some() {
            self.bytes.pop_if(|byte| *byte == b'\r');
        }
    }
}

fn told(line: usize, column: usize, reason: &str) -> String {
    format!("line {line} column {column}: {reason}\n")
}

fn too_large() -> String {
    format!("the position is too large, at most {POSITION_LIMIT}")
}

fn with_text(rng: &mut Rng, mut words: Vec<String>) -> (Vec<String>, bool) {
    let before = rng.chance(50);
    words.insert(if before { 0 } else { words.len() }, "--text".into());
    (words, before)
}

/// The whole days of the run as text: up to the one that is cut, and with the one that has a position above the limit, where that is told by its line.
fn text_case(seed: u64, tally: &mut Tally) -> Case {
    let run = run_of(seed);
    let rng = &mut Rng::new(seed ^ 0x74657874);
    let mut count = |name| *tally.entry(name).or_default() += 1;
    let members = run.members();
    let declined = first_declined(run.set, &run.days);
    let whole = run.days.len() / (4 * members) * (4 * members);
    let good = declined.map_or(whole, |(at, _)| at);
    let (mut out, mut err) = wanted(run.set, run.units, &run.days[..good]);
    let mut text = Text::draw(rng);
    let full = rng.chance(4).then(|| rng.below(whole as u64 / (4 * members) as u64 + 1) as usize);
    for (day, record) in run.days[..whole].chunks(4 * members).enumerate() {
        text.rest(rng);
        let positions: Vec<u32> =
            record.chunks(4).map(|bytes| u32::from_be_bytes(bytes.try_into().expect("4 bytes"))).collect();
        let mut line = text.day(rng, &positions);
        if day * 4 * members == good && run.units_in_range() {
            let place = positions.iter().position(|&position| position > POSITION_LIMIT).expect("it is declined by 5");
            out = String::new();
            err = told(text.lines + 1, line.numbers[place].0 + 1, &too_large());
            count("text: a position above the limit");
        }
        if full == Some(day) {
            // A carriage return there is counted in.
            let length = LINE_LIMIT - usize::from(text.carriage != 0);
            line.bytes.resize(length, b' ');
            count("text: a line of 65536 bytes");
        }
        text.put(rng, &line.bytes);
    }
    text.rest(rng);
    if full == Some(whole / (4 * members)) {
        let mut line = text.comment(rng);
        line.resize(LINE_LIMIT - usize::from(text.carriage != 0), b'-');
        text.put(rng, &line);
        count("text: a line of 65536 bytes");
    }
    if rng.chance(40) {
        text.open_end();
        count("text: no line end at the end");
    }
    if !run.units_in_range() {
        count("text: units out of range");
    } else if err.is_empty() {
        count("text: shares");
    }
    if good > 4 * members * WINDOW {
        count("text: more than 66 days");
    }
    let (words, before) = with_text(rng, run.words());
    count(if before { "text: --text before" } else { "text: --text behind" });
    let piece = rng.chance(10).then(|| 1 + rng.pick(&[6, 130, 5_000]) as usize);
    Case { words, input: text.bytes, piece, out, err }
}

/// A byte that can stand nowhere in a day, other than `-` and `#`.
fn strange(rng: &mut Rng) -> u8 {
    loop {
        let byte = if rng.chance(50) { rng.below(256) as u8 } else { rng.pick(b"xe.+;/:'\"_\0\x0b\x0c\xa0\xff") };
        if !byte.is_ascii_digit() && !b" \t\r\n,-#".contains(&byte) {
            return byte;
        }
    }
}

/// Such a byte or, one time in four, one of these.
fn strange_or(rng: &mut Rng, others: &[u8]) -> u8 {
    if rng.chance(25) { rng.pick(others) } else { strange(rng) }
}

/// A line that is refused: what is counted, its bytes with their end, the column and the reason.
struct Bad {
    name: &'static str,
    bytes: Vec<u8>,
    end: &'static [u8],
    column: usize,
    reason: String,
}

/// One damage to a good day, or to a line that is no day.
fn bad_line(rng: &mut Rng, text: &Text, members: usize) -> Bad {
    let positions = positions_of(rng, members, 1);
    let mut line = text.day(rng, &positions);
    let any = rng.below(members as u64) as usize;
    let (first, behind) = line.numbers[any];
    let mut end: &'static [u8] = if rng.chance(text.carriage) { b"\r\n" } else { b"\n" };
    let number = "expected a whole number".to_string();
    let comma = "expected a comma".to_string();
    let wanted = if members == 1 {
        "1 member, and so 1 position".to_string()
    } else {
        format!("{members} members, and so {members} positions")
    };
    let complete = format!("the day is complete: {wanted}");
    let ends = format!("the line ends before the day does: {wanted}");
    let returned = "a carriage return stands only at the line's end".to_string();
    let (name, at, reason) = loop {
        match rng.below(11) {
            0 => {
                let byte = if any == 0 { strange(rng) } else { strange_or(rng, b"#") };
                line.bytes.insert(first, byte);
                break ("bad: no digit", first, number);
            }
            1 => {
                line.bytes.insert(first, b'-');
                break ("bad: minus sign", first, number);
            }
            2 if members > 1 => {
                // The comma then stands where the number is to come.
                if any + 1 == members || rng.chance(50) {
                    line.bytes.insert(first, b',');
                    break ("bad: no number between commas", first, number);
                }
                let at = line.commas[any] - (behind - first);
                line.bytes.drain(first..behind);
                break ("bad: no number between commas", at, number);
            }
            3 => {
                let at = match rng.below(4) {
                    // Another byte in place of a comma, or a blank: then the next number is the byte that is no comma.
                    0 if any + 1 < members => {
                        line.bytes[line.commas[any]] = strange(rng);
                        line.commas[any]
                    }
                    1 if any + 1 < members => {
                        line.bytes[line.commas[any]] = b' ';
                        line.numbers[any + 1].0
                    }
                    // Within a number, or a blank there.
                    2 if behind - first > 1 => {
                        let at = first + 1 + rng.below((behind - first) as u64 - 1) as usize;
                        let byte = if rng.chance(30) { b' ' } else { strange_or(rng, b".-#") };
                        line.bytes.insert(at, byte);
                        if byte == b' ' { at + 1 } else { at }
                    }
                    // Behind a number, also the last one.
                    _ => {
                        let at = if rng.chance(50) {
                            behind
                        } else {
                            line.commas.get(any).map_or(line.bytes.len(), |&at| at)
                        };
                        line.bytes.insert(at, strange_or(rng, b"-#"));
                        at
                    }
                };
                break ("bad: no comma", at, comma);
            }
            4 => {
                let mut large = match rng.below(8) {
                    0..3 => b"10000001".to_vec(),
                    3 => (0..30).map(|_| b'1' + rng.below(9) as u8).collect(),
                    // 32 and 64 bits of it are in range.
                    4 => ((1_u64 << 32) + rng.below(10_000_000)).to_string().into_bytes(),
                    5 => ((1_u128 << 64) + u128::from(rng.below(10_000_000))).to_string().into_bytes(),
                    6 => b"100000000".to_vec(),
                    _ => above_limit(rng).to_string().into_bytes(),
                };
                if rng.chance(20) {
                    large.splice(0..0, b"0".repeat(1 + rng.below(30) as usize));
                }
                line.bytes.splice(first..behind, large);
                break ("bad: too large", first, too_large());
            }
            5 => {
                let at = line.bytes.len();
                for _ in 0..1 + rng.below(3) {
                    let more = text.day(rng, &positions[..1]);
                    line.bytes.push(b',');
                    line.bytes.extend(more.bytes);
                }
                break ("bad: a number too many", at, complete);
            }
            6 => {
                let at = line.bytes.len();
                line.bytes.push(b',');
                line.bytes.extend(text.blanks(rng));
                break ("bad: a comma at the end", at, complete);
            }
            7 if members > 1 => {
                // At least one number is left; a comma may stand behind the last one.
                let kept = 1 + rng.below(members as u64 - 1) as usize;
                let cut = line.commas[kept - 1] + usize::from(rng.chance(40));
                line.bytes.truncate(cut);
                line.bytes.extend(text.blanks(rng));
                break ("bad: a number too few", line.bytes.len(), ends);
            }
            8 => {
                let at = rng.below(line.bytes.len() as u64 + 1) as usize;
                if at == line.bytes.len() {
                    // Two at the end: the first is the one that does not stand there.
                    end = b"\r\n";
                }
                line.bytes.insert(at, b'\r');
                // Where some positions stand before it and others are missing, the line ends too early there.
                let before = line.numbers.iter().filter(|number| number.0 < at).count();
                let reason = if before == 0 || before == members { returned } else { ends };
                break ("bad: a carriage return in a day", at, reason);
            }
            9 => {
                line.bytes = if rng.chance(70) { text.comment(rng) } else { b"  \t ".to_vec() };
                line.bytes.push(b' ');
                let at = rng.below(line.bytes.len() as u64) as usize;
                line.bytes.insert(at, b'\r');
                break ("bad: a carriage return in no day", at, returned);
            }
            10 if rng.chance(40) => {
                let length = rng.pick(&[LINE_LIMIT + 1, LINE_LIMIT + 2, 70_000, 2 * LINE_LIMIT, 200_000]);
                match rng.below(5) {
                    0 => line.bytes.resize(length, b' '),
                    1 => {
                        let more = length - line.bytes.len();
                        line.bytes.splice(first..first, vec![rng.pick(b"0 \t"); more]);
                    }
                    2 => {
                        line.bytes = text.comment(rng);
                        line.bytes.resize(length, b'-');
                    }
                    3 => line.bytes = vec![b' '; length],
                    _ => {
                        let more = length - line.bytes.len();
                        line.bytes.splice(0..0, vec![b'\t'; more]);
                    }
                }
                break ("bad: a line too long", LINE_LIMIT, format!("the line is longer than {LINE_LIMIT} bytes"));
            }
            _ => {}
        }
    };
    Bad { name, bytes: line.bytes, end, column: at + 1, reason }
}

fn bad_case(seed: u64, tally: &mut Tally) -> Case {
    let rng = &mut Rng::new(seed ^ 0x626164);
    let mut count = |name| *tally.entry(name).or_default() += 1;
    let named = set_of(rng);
    let members = named.len();
    let list = list_of(rng, &named, &mut Vec::new());
    let units = units_of(rng);
    let days = if rng.chance(25) { 71 + rng.below(100) } else { rng.below(8) } as usize;
    let mut text = Text::draw(rng);
    for positions in positions_of(rng, members, days).chunks(members) {
        text.rest(rng);
        let line = text.day(rng, positions);
        text.put(rng, &line.bytes);
    }
    text.rest(rng);
    let bad = bad_line(rng, &text, members);
    let err = told(text.lines + 1, bad.column, &bad.reason);
    text.bytes.extend(&bad.bytes);
    text.bytes.extend(bad.end);
    text.lines += 1;
    count(bad.name);
    if days > 70 {
        count("bad: behind more than 70 days");
    }
    match rng.below(4) {
        0 => {
            let next = bad_line(rng, &text, members);
            text.bytes.extend(next.bytes);
            text.bytes.extend(next.end);
            count("bad: a later line bad too");
        }
        1 => {
            for positions in positions_of(rng, members, 3).chunks(members) {
                let line = text.day(rng, positions);
                text.put(rng, &line.bytes);
            }
        }
        // What a carriage return at the end of the whole text is, is not told.
        2 if bad.bytes.last() != Some(&b'\r') => text.open_end(),
        _ => {}
    }
    let words = words_of(&["members", &list, "units", &units.to_string()]);
    let (words, _) = with_text(rng, words);
    let piece = rng.chance(10).then(|| 1 + rng.pick(&[6, 130, 5_000]) as usize);
    let in_range = (1..=UNITS_LIMIT).contains(&units);
    if !in_range {
        count("bad: units out of range");
    }
    let err = if in_range { err } else { "declined by 5, units are 1 to 1000\n".into() };
    Case { words, input: text.bytes, piece, out: String::new(), err }
}

/// Words that are no call of the program.
fn bad_words() -> Vec<Vec<String>> {
    let mut all: Vec<Vec<String>> = Vec::new();
    let good = ["members", "0,1,2", "units", "40"];
    // A word missing, one too many anywhere, one that is another.
    for place in 0..4 {
        let mut words = words_of(&good);
        words.remove(place);
        all.push(words);
        let mut words = words_of(&good);
        words[place] = "".into();
        all.push(words);
    }
    for place in 0..=4 {
        for more in ["x", "40", "0,1,2", "units", "members", "text", "--texts", ""] {
            let mut words = words_of(&good);
            words.insert(place, more.into());
            all.push(words);
        }
    }
    for list in
        ["32", "0,32", "1,", ",1", "1,,2", ",", "x", "1,x", "0x1", "1;2", "-1", "+1", "1.0", "1-3", "256", "4294967296"]
    {
        all.push(words_of(&["members", list, "units", "40"]));
    }
    for units in ["1.5", "x", "-1", "+1", "4x", "0x10", "1,000", "40.", "4 0"] {
        all.push(words_of(&["members", "0,1,2", "units", units]));
    }
    for words in [&["member", "0,1,2", "units", "40"][..], &["members", "0,1,2", "unit", "40"], &["members"], &[]] {
        all.push(words_of(words));
    }
    // The same with `--text`, which is itself bad where it stands twice.
    for words in all.clone() {
        all.push([words, words_of(&["--text"])].concat());
    }
    all.push(words_of(&["--text", "--text", "members", "0,1,2", "units", "40"]));
    all.push(words_of(&["--text", "members", "0,1,2", "units", "40", "--text"]));
    all.push(words_of(&["members", "0,1,2", "units", "40", "--text", "--text"]));
    all
}

/// Days as bytes and, for a run as text, as lines; and the shares that `Ring` gives. All 32 members.
fn long_days(seed: u64, count: usize) -> (Vec<u8>, [u64; 32]) {
    let rng = &mut Rng::new(seed ^ 0x6C6F6E67);
    let days: Vec<u8> = (0..32 * count)
        .flat_map(|place| (rng.below(u64::from(POSITION_LIMIT) + 1) as u32 / (1 + place as u32 % 32)).to_be_bytes())
        .collect();
    let mut shares = [0; 32];
    assert_eq!(Ring::run(u32::MAX, 1_000, &days, &mut shares), 0);
    (days, shares)
}

fn long_words() -> Vec<String> {
    let list: Vec<String> = (0..32).map(|member| member.to_string()).collect();
    words_of(&["members", &list.join(","), "units", "1000"])
}

fn long_bytes(seed: u64) -> Vec<Case> {
    let (days, shares) = long_days(seed, 200_000);
    let case =
        |input: Vec<u8>, out: String, err: &str| Case { words: long_words(), input, piece: None, out, err: err.into() };
    let mut large = days.clone();
    large[128 * 150_000 + 64..][..4].copy_from_slice(&(POSITION_LIMIT + 1).to_be_bytes());
    vec![
        case(days[..days.len() - 1].to_vec(), String::new(), "day 200000: declined by 1, the record is cut short\n"),
        case(large, String::new(), "day 150001: declined by 5, a position is above 10000000\n"),
        case(days, lines_of(u32::MAX, &shares), ""),
    ]
}

fn long_text(seed: u64) -> Vec<Case> {
    let (days, shares) = long_days(seed, 20_000);
    let rng = &mut Rng::new(seed);
    let mut text = Text { bytes: Vec::new(), lines: 0, blank: 5, idle: 5, carriage: 50, zero: 2 };
    for record in days.chunks(128) {
        text.rest(rng);
        let positions: Vec<u32> =
            record.chunks(4).map(|bytes| u32::from_be_bytes(bytes.try_into().expect("4 bytes"))).collect();
        let line = text.day(rng, &positions);
        text.put(rng, &line.bytes);
    }
    let words = [long_words(), words_of(&["--text"])].concat();
    let bad = [&text.bytes[..], b"1,2"].concat();
    let err = told(text.lines + 1, 4, "the line ends before the day does: 32 members, and so 32 positions");
    vec![
        Case { words: words.clone(), input: bad, piece: None, out: String::new(), err },
        Case { words, input: text.bytes, piece: None, out: lines_of(u32::MAX, &shares), err: String::new() },
    ]
}

/// All cases of a kind: the tally, or what differs in the run of the lowest seed.
fn all(
    program: &str,
    seed: u64,
    runs: u64,
    of: impl Fn(u64, &mut Tally) -> Case + Sync,
) -> Result<Tally, (u64, String)> {
    over_seeds(seed, runs, |seed, tally| check(program, &of(seed, tally)))
}

fn each(program: &str, cases: &[Case]) -> Result<(), String> {
    cases.iter().try_for_each(|case| check(program, case))
}

fn compare(program: &str, seed: u64, runs: u64) -> Result<(), String> {
    let again = |kind: &'static str| {
        move |(seed, difference): (u64, String)| {
            format!("{kind}, seed {seed}: days PROGRAM 1 {seed} repeats it\n{difference}")
        }
    };
    let mut tally = all(program, seed, runs, bytes_case).map_err(again("days as bytes"))?;
    println!("{runs} runs of day records: alike");
    let words = bad_words();
    let count = words.len();
    for words in words {
        // What could be read as days of any set.
        let case = Case { words, input: vec![0; 384], piece: None, out: String::new(), err: USAGE.into() };
        check(program, &case).map_err(|difference| format!("bad words\n{difference}"))?;
    }
    println!("{count} calls with bad words: the usage line, and nothing else");
    each(program, &long_bytes(seed)).map_err(|difference| format!("long run, seed {seed}\n{difference}"))?;
    println!(
        "200000 days of 32 members as bytes: alike, also with the last record cut and with a position above the limit"
    );
    tally.extend(all(program, seed, runs, text_case).map_err(again("days as text"))?);
    println!("{runs} runs of days as text: alike");
    tally.extend(all(program, seed, runs, bad_case).map_err(again("bad texts"))?);
    println!("{runs} bad texts: each refused by its line, column and reason");
    each(program, &long_text(seed)).map_err(|difference| format!("long text, seed {seed}\n{difference}"))?;
    println!("20000 days of 32 members as text: alike, also with a bad line behind them");
    for name in SITUATIONS {
        println!("{:8} {name}", times(&tally, name));
    }
    if runs >= 1_000 { all_came(&tally, &SITUATIONS) } else { Ok(()) }
}

fn main() -> ExitCode {
    let arguments: Vec<String> = std::env::args().skip(1).collect();
    let number = |place: usize, usual: u64| arguments.get(place).map_or(Some(usual), |word| word.parse().ok());
    let (Some(program), Some(runs), Some(seed), 1..=3) =
        (arguments.first(), number(1, 2_000), number(2, 1), arguments.len())
    else {
        eprintln!("usage: days PROGRAM [RUNS [SEED]]");
        return ExitCode::from(2);
    };
    match compare(program, seed, runs) {
        Ok(()) => ExitCode::SUCCESS,
        Err(difference) => {
            println!("FAILED: {difference}");
            ExitCode::FAILURE
        }
    }
}

#[cfg(test)]
mod tests {
    use super::*;

    #[test]
    fn what_days_as_bytes_have_to_show_comes_in_1000_runs() {
        let mut tally = Tally::new();
        for seed in 1..=1_000 {
            bytes_case(seed, &mut tally);
        }
        for name in SITUATIONS.into_iter().filter(|name| name.starts_with("bytes: ")) {
            let count = times(&tally, name);
            assert!(count >= 5, "{count} {name}");
        }
    }
}
