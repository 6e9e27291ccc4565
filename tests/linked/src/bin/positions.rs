//! `positions [RUNS [SEED]]`: the proved part for daily positions against the model, on random runs (100,000) from consecutive seeds, damaged ones among
//! them: each at once and in parts, with the kept sums after every part. Ends with 1 at a difference, and where over 1,000 runs or more one of the
//! answers or one of the situations that it counts never came.
use generator::Tie;
use linked::Random;
use linked::inputs::simple_part;
use linked::positions::{Kept, expected};
use linked::tally::tell;
use model::positions::{POSITION_LIMIT, WINDOW};
use model::{first_declined, sums_afresh};
use std::process::ExitCode;

struct Run {
    set: u32,
    units: u64,
    days: Vec<u8>,
}

/// What stands in the shares before a run, another number at each place.
fn old() -> [u64; 32] {
    std::array::from_fn(|member| 0xdead_beef_0000 + member as u64)
}

fn set_of(r: &mut Random) -> u32 {
    match r.below(16) {
        0 => 0,
        1 => u32::MAX,
        2 => 1 << r.below(32),
        3 => 1 | 1 << 31,
        4..6 => u32::MAX >> r.below(32),
        6..8 => u32::MAX << r.below(32),
        8..12 => r.next() as u32 & r.next() as u32,
        _ => r.next() as u32,
    }
}

/// Most within their range; some past it, also by so much that 16 or 32 bits of them are in it.
fn units_of(r: &mut Random) -> u64 {
    match r.below(24) {
        0 => [0, 1_001, 65_536 + 10, (1 << 32) + 10, u64::MAX][r.below(5) as usize],
        1 | 2 => 1,
        3 | 4 => 1_000,
        5..10 => 1 + r.below(10),
        _ => 1 + r.below(1_000),
    }
}

/// One in eight is long, and many of these end at or beside a turn of the ring.
fn count_of(r: &mut Random) -> usize {
    if !r.once_in(8) {
        return if r.once_in(10) { 0 } else { r.below(9) as usize };
    }
    match r.below(8) {
        0 | 1 => 65 + r.below(4) as usize,
        2 => 131 + r.below(3) as usize,
        3 => 197 + r.below(3) as usize,
        4..7 => r.below(150) as usize,
        _ => r.below(301) as usize,
    }
}

/// Positions in range for so many days.
fn days_of(r: &mut Random, members: usize, count: usize) -> Vec<u8> {
    let limit = u64::from(POSITION_LIMIT);
    let kind = r.below(8);
    let one = r.below(limit + 1);
    let of_member: Vec<u64> = (0..members).map(|_| if r.once_in(3) { 0 } else { r.below(limit + 1) }).collect();
    let mut days = Vec::with_capacity(4 * members * count);
    for place in 0..members * count {
        let position = match kind {
            0 => 0,
            1 => r.below(3),
            2 => one,
            3 => limit,
            4 => of_member[place % members],
            5 => r.below(4) / 3 * r.below(50),
            6 => [0, 1, limit - 1, limit][r.below(4) as usize],
            _ => r.below(limit + 1),
        };
        days.extend((position as u32).to_be_bytes());
    }
    days
}

fn above_limit(r: &mut Random) -> u32 {
    match r.below(5) {
        0 | 1 => POSITION_LIMIT + 1,
        2 => u32::MAX,
        3 => 1 << 31,
        _ => POSITION_LIMIT + 1 + r.below(u64::from(u32::MAX - POSITION_LIMIT)) as u32,
    }
}

/// A number above the limit in place of a position of this record.
fn spoil(r: &mut Random, members: usize, record: usize, days: &mut [u8]) {
    let at = 4 * (record * members + r.below(members as u64) as usize);
    days[at..at + 4].copy_from_slice(&above_limit(r).to_be_bytes());
}

fn random_bytes(r: &mut Random, most: u64) -> Vec<u8> {
    (0..r.below(most + 1)).map(|_| r.next() as u8).collect()
}

/// What can be wrong with a run.
fn damage(r: &mut Random, members: usize, count: usize, days: &mut Vec<u8>) {
    let size = 4 * members;
    // Long runs are few, so many of them get a position that leaves the window.
    let kind = if count > WINDOW && r.once_in(3) { 4 } else { r.below(9) };
    if kind == 0 || members == 0 || count == 0 {
        *days = random_bytes(r, 300);
        return;
    }
    let any = r.below(count as u64) as usize;
    // Where the cut lies in the last record: 1 to all but one of its bytes are left.
    let left = 1 + r.below(size as u64 - 1) as usize;
    match kind {
        1 => days.truncate(r.below(days.len() as u64 + 1) as usize),
        2 => days.truncate(days.len() - size + left),
        3 => spoil(r, members, any, days),
        // In the first days, so that it leaves the window of a long run.
        4 => {
            let early = r.below(2.min(count as u64)) as usize;
            spoil(r, members, early, days);
        }
        // In the last days, where a reader that stops early would not look.
        5 => spoil(r, members, count - 1, days),
        // In the record that is cut: at its front, so that the number is often there whole.
        6 => {
            let last = size * (count - 1);
            days[last..last + 4].copy_from_slice(&above_limit(r).to_be_bytes());
            days.truncate(last + left);
        }
        // In a record in front of one that is cut.
        7 => {
            spoil(r, members, any, days);
            days.truncate(days.len() - size + left);
        }
        _ => {
            let at = r.below(days.len() as u64) as usize;
            days[at] = r.next() as u8;
            if r.once_in(2) {
                days.extend(random_bytes(r, 2 * size as u64));
            }
        }
    }
}

fn run_of(r: &mut Random) -> Run {
    let (set, units, count) = (set_of(r), units_of(r), count_of(r));
    let members = set.count_ones() as usize;
    let mut days = days_of(r, members, count);
    let sum: u64 = sums_afresh(set, &days).iter().sum();
    // A simple part of small sums, or the sums and it, so that remainders tie; of large ones no units are.
    let units = if sum > 0 && sum <= 1_000 && r.once_in(2) { simple_part(r, sum).clamp(1, 1_000) } else { units };
    if r.once_in(3) {
        damage(r, members, count, &mut days);
    }
    Run { set, units, days }
}

/// Where the parts of a run end; the last ends with the run. A fifth of the runs are cut into single days.
fn ends_of(r: &mut Random, run: &Run) -> Vec<usize> {
    let size = 4 * run.set.count_ones().max(1) as usize;
    let len = run.days.len();
    let (style, mut at, mut ends) = (r.below(10), 0, Vec::new());
    if style < 2 {
        ends.extend((1..).map(|day| day * size).take_while(|end| *end < len));
    } else if style < 5 {
        // Two cuts at one place make a part of 0 bytes.
        ends.extend((0..r.below(7)).map(|_| r.below(len as u64 + 1) as usize));
        ends.sort_unstable();
    } else {
        // In a long run many parts of a byte would take too long.
        let most = if style < 7 && len <= 1_000 { 1 } else { 3 * size + len / 50 };
        while at < len {
            at += match r.below(8) {
                0 => 0,
                1 => 1,
                2 => size,
                _ => r.below(most as u64 + 1) as usize,
            };
            ends.push(at.min(len));
        }
    }
    // A run of no bytes may come in no part at all.
    if len > 0 || r.once_in(2) {
        ends.push(len);
    }
    ends
}

#[derive(Default)]
struct Tally {
    answers: [u64; 6],
    parts: u64,
    single_days: u64,
    past_window: u64,
    left_window: u64,
    in_cut_record: u64,
    before_cut_record: u64,
    sums_of_0: u64,
    to_the_larger: u64,
    to_the_earlier: u64,
}

/// The whole run at once: its answer and shares, and that the shares are left alone where the answer is not 0.
fn at_once(run: &Run) -> Result<(u8, [u64; 32]), String> {
    let (mut mine, mut theirs) = (old(), old());
    let answer = expected(run.set, run.units, &run.days, &mut mine);
    let said = model::expected(run.set, run.units, &run.days, &mut theirs);
    if answer != said || mine != theirs {
        return Err(format!("at once: {answer} {mine:?}, the model {said} {theirs:?}"));
    }
    if answer != 0 && mine != old() {
        return Err(format!("at once: {answer}, and the shares are {mine:?}"));
    }
    Ok((answer, theirs))
}

/// The run in parts that end at `ends`: after every part what was taken, the answer and the sums; at the end the answer and the shares.
fn in_parts(run: &Run, ends: &[usize], (said, theirs): (u8, [u64; 32])) -> Result<(), String> {
    let size = 4 * run.set.count_ones() as usize;
    // The records in front of `good` are to be taken; the one there is declined, or is where the run ends.
    let (good, declined) = match run.set {
        0 => (0, 5),
        set => first_declined(set, &run.days).unwrap_or((run.days.len(), 0)),
    };
    let mut kept = Kept::new(run.set);
    let (mut taken, mut from, mut answer) = (0, 0, 0);
    let mut afresh = [0; 32];
    let mut pending = Vec::new();
    for (number, &end) in ends.iter().enumerate() {
        let at = || format!("part {number} of parts that end at {ends:?}");
        pending.extend_from_slice(&run.days[from..end]);
        from = end;
        let used;
        (used, answer) = kept.take(&pending);
        let whole = if size == 0 { 0 } else { end / size * size };
        if used > pending.len() || taken + used != good.min(whole) {
            return Err(format!("{used} bytes behind {taken} taken, not up to {}, {}", good.min(whole), at()));
        }
        if answer != if declined == 5 && end >= good + size { 5 } else { 0 } {
            return Err(format!("answer {answer}, {}", at()));
        }
        if used > 0 {
            taken += used;
            afresh = sums_afresh(run.set, &run.days[..taken]);
            pending.drain(..used);
        }
        if kept.sums() != &afresh {
            return Err(format!("sums {:?}, afresh {afresh:?}, {}", kept.sums(), at()));
        }
        if answer != 0 {
            break;
        }
    }
    let mut mine = old();
    if answer == 0 {
        answer = kept.end(run.units, pending.len(), &mut mine);
    }
    if answer != said || mine != theirs {
        return Err(format!("in parts that end at {ends:?}: {answer} {mine:?}, the model {said} {theirs:?}"));
    }
    Ok(())
}

/// Counts what this run is an example of.
fn count(run: &Run, answer: u8, tally: &mut Tally) {
    tally.answers[usize::from(answer)] += 1;
    if run.set == 0 || run.units == 0 || run.units > 1_000 {
        return;
    }
    let size = 4 * run.set.count_ones() as usize;
    let days = run.days.len() / size;
    let cut = days * size;
    let above = |at: usize| at + 4 <= run.days.len() && model::field::u32_at(&run.days, at) > POSITION_LIMIT;
    match first_declined(run.set, &run.days) {
        None => {
            tally.past_window += u64::from(days > WINDOW);
            let sums = sums_afresh(run.set, &run.days);
            tally.sums_of_0 += u64::from(sums == [0; 32]);
            let tie = Tie::of(run.units, &sums[..run.set.count_ones() as usize]);
            tally.to_the_larger += u64::from(tie.to_the_larger);
            tally.to_the_earlier += u64::from(tie.to_the_earlier);
        }
        Some((_, 1)) => tally.in_cut_record += u64::from((cut..run.days.len()).step_by(4).any(above)),
        Some(_) => {
            // No record of the last 66 holds a number above the limit.
            let window = days.saturating_sub(WINDOW) * size;
            tally.left_window += u64::from(!(window..cut).step_by(4).any(above));
            tally.before_cut_record += u64::from(cut < run.days.len());
        }
    }
}

fn compare(seed: u64, tally: &mut Tally) -> Result<(), String> {
    let mut r = Random(seed);
    let run = run_of(&mut r);
    let ends = ends_of(&mut r, &run);
    let size = 4 * run.set.count_ones() as usize;
    let outcome = at_once(&run).and_then(|said| in_parts(&run, &ends, said).map(|()| said));
    let (answer, _) = outcome.map_err(|what| {
        format!("{what}\nset {:#034b}, units {}, {} bytes: {:02x?}", run.set, run.units, run.days.len(), run.days)
    })?;
    tally.parts += ends.len() as u64;
    tally.single_days +=
        u64::from(ends.len() > 1 && ends.iter().enumerate().all(|(day, end)| *end == (day + 1) * size));
    count(&run, answer, tally);
    Ok(())
}

fn main() -> ExitCode {
    let mut given = std::env::args().skip(1).map(|a| a.parse().expect("a number"));
    let n: u64 = given.next().unwrap_or(100_000);
    let first: u64 = given.next().unwrap_or(1);
    let mut tally = Tally::default();
    for number in 0..n {
        let seed = first.wrapping_add(number);
        if let Err(what) = compare(seed, &mut tally) {
            println!("run {number} from seed {first} differs; `positions 1 {seed}` repeats it\n{what}");
            return ExitCode::FAILURE;
        }
    }
    let counted = [
        ("answered 0", tally.answers[0]),
        ("1", tally.answers[1]),
        ("5", tally.answers[5]),
        ("past the window", tally.past_window),
        ("sums of 0", tally.sums_of_0),
        ("5 by a position that left the window", tally.left_window),
        ("5 before a cut record", tally.before_cut_record),
        ("1 with a position out of range in the cut record", tally.in_cut_record),
        ("cut into single days", tally.single_days),
        ("a tie goes to a larger sum behind a smaller", tally.to_the_larger),
        ("a tie of like sums goes to the earlier", tally.to_the_earlier),
    ];
    let before = format!("positions: {n} runs from seed {first} alike, at once and in {} parts; ", tally.parts);
    tell(&before, n, &counted)
}
