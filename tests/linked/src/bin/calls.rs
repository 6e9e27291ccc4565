//! `calls [N [SEED]]`: the proved ledger against the roll's model, call by call, on N generated lists (2,000) from consecutive seeds, among
//! them byte strings that are not one field; then the same lists at once, cut by ends that are out of order, and whole inputs with their text.
//! Over 1,000 lists or more it fails where an answer of SALE or WITHDRAW, a situation after one or a reading of the requirement never came.
use generator::{calls, input, profile_of};
use linked::Random;
use linked::ledger::{self, Proved, Readings};
use linked::tally::tell;
use model::roll::Bid;
use model::{Ledger, Roll, Stage, field, write};
use std::process::ExitCode;

/// Changes to what a list can hold: strings that are no field, cut off, doubled, with a byte changed, or of a wrong length.
fn odd_strings(r: &mut Random, list: Vec<Vec<u8>>) -> Vec<Vec<u8>> {
    let mut out = Vec::new();
    for call in list {
        if r.once_in(12) {
            out.push(odd_string(r, &call));
        }
        out.push(call);
    }
    out
}

fn odd_string(r: &mut Random, call: &[u8]) -> Vec<u8> {
    let mut odd = call.to_vec();
    match r.below(6) {
        0 => (0..r.below(40)).map(|_| r.next() as u8).collect(),
        1 => Vec::new(),
        2 => {
            odd.truncate(r.below(call.len() as u64 + 1) as usize);
            odd
        }
        3 => {
            odd.extend_from_slice(call);
            odd
        }
        4 => {
            odd.push(r.next() as u8);
            odd
        }
        _ => {
            if let Some(last) = odd.len().checked_sub(1) {
                odd[r.below(last as u64 + 1) as usize] = r.next() as u8;
            }
            odd
        }
    }
}

/// Whether a call of this tag can change what members hold.
fn moves_units(tag: u8) -> bool {
    matches!(tag, write::CLOSE | write::ALLOCATE | write::TEAR | write::MOVE | write::MISS | write::SALE)
}

/// All but the holdings.
fn compare(proved: &Proved, roll: &Roll, at: &str) {
    assert_eq!(proved.stage(), roll.stage(), "stage {at}");
    assert_eq!(proved.pools_given(), roll.pools_given(), "pools {at}");
    let stands: Vec<bool> = roll.bids().iter().map(|bid| bid.stands).collect();
    assert_eq!(proved.stands(), stands, "which bids stand {at}");
    assert!(!proved.shown().stands[stands.len()..].contains(&true), "a bid that is not there stands {at}");
    assert_eq!(proved.sum_of_prices(), roll.sum_of_prices(), "sum of prices {at}");
    assert_eq!(proved.requirement(), roll.requirement(), "requirement {at}");
    assert_eq!(proved.prefunded(), roll.prefunded(), "prefunded {at}");
    for pool in 0..5 {
        assert_eq!(proved.counts(pool), roll.counts(pool), "counts of pool {pool} {at}");
    }
    for member in 0..33 {
        assert_eq!(proved.owes(member), roll.owes(member), "what member {member} owes {at}");
    }
    assert_eq!(proved.result(), roll.result(), "result {at}");
}

/// The requirement and its running sums beside the full addition over the roll. A declined call left the same to be read, as `Proved` has seen.
fn compare_readings(proved: &Proved, roll: &Roll, at: &str) {
    assert_eq!(proved.reading(), roll.reading(), "reading {at}");
    for pool in [0, 1, 2, 3, 4] {
        assert_eq!(proved.prices_of(pool), roll.prices_of(pool), "sum of pool {pool} {at}");
    }
}

/// The holdings of every member at every price that has occurred, and some where nothing can be held. Answers how many were asked.
fn compare_holdings(proved: &Proved, roll: &Roll, members: &[u8], at: &str) -> u64 {
    let mut asked = Vec::new();
    for &member in members {
        for pool in 0..roll.pools_given() {
            asked.extend(proved.prices().iter().map(|&price| (member, pool, price)));
        }
    }
    let (one, price) = (members[0], *proved.prices().last().unwrap());
    asked.extend([(one, 4, price), (one, 255, price), (33, 0, price), (255, 0, price), (one, 0, price + 1), (one, 0, 1_000_001)]);
    for (a, units) in asked.iter().zip(proved.ask(&asked)) {
        assert_eq!(units, roll.holding(a.0, a.1, a.2), "holding of {a:?} {at}");
    }
    asked.len() as u64
}

/// The members of HEAD's set, and one that is not in it.
fn members_of(head: &[u8]) -> Vec<u8> {
    let set = field::u32_at(head, 6);
    let mut members: Vec<u8> = (0..32).filter(|m| set >> m & 1 == 1).collect();
    members.extend((0..32).find(|m| set >> m & 1 == 0));
    members
}

#[derive(Default)]
struct Tally {
    calls: u64,
    accepted: u64,
    holdings: u64,
    finished: u64,
    answers: [u64; 32],
    /// Answers to SALE.
    sales: [u64; 32],
    /// Calls in A1 where no round was opened, those answered by 8 (ROUND) and 12 (CALL), and cases finished there.
    without_round: u64,
    rounds_declined: u64,
    calls_declined: u64,
    finished_without_round: u64,
    /// Accepted MOVEs and MISSes where units sold by agreement are held.
    moves_beside_sales: u64,
    misses_beside_sales: u64,
    /// Answers to WITHDRAW.
    withdrawals: [u64; 32],
    /// Accepted CLOSEs of a round with a withdrawn bid, BIDs declined by 7 with one among the 256, and WITHDRAWs of a bid of the first round in the second.
    closed_without: u64,
    places_taken: u64,
    of_old_round: u64,
    read: Read,
}

/// Calls by what was read after them.
#[derive(Default)]
struct Read {
    /// With no case.
    declined: u64,
    /// Held at 0 while the sum of prices is above the losses, and above 0 in a case where it was held.
    at_0: u64,
    above_0_again: u64,
    /// Another than before the call.
    rose: u64,
    fell: u64,
    /// After a call that was declined, with a sum of prices that is not 0.
    unchanged: u64,
    /// A sum that is not 0 of a pool other than pool 0.
    of_other_pools: u64,
}

impl Read {
    /// Counts what is read after a call, with the requirement before it, the losses of HEAD and whether the requirement was held at 0 before.
    fn count(&mut self, answer: u8, roll: &Roll, before: Option<u64>, losses: i64, was_held: bool) {
        let after = roll.requirement();
        let sum = roll.sum_of_prices();
        self.declined += u64::from(after.is_none());
        self.at_0 += u64::from(after.is_some() && sum > losses);
        self.above_0_again += u64::from(was_held && after > Some(0));
        self.rose += u64::from(before.is_some() && after > before);
        self.fell += u64::from(after < before);
        self.unchanged += u64::from(answer != 0 && sum != 0);
        self.of_other_pools += u64::from((1..4).any(|pool| roll.prices_of(pool) != 0));
    }
}

impl Tally {
    /// Counts what a call is an example of, by the stage before it and by whether a round was opened and a pool sold by agreement.
    fn count(&mut self, tag: Option<u8>, answer: u8, before: Option<Stage>, had_round: bool, had_sale: bool) {
        self.calls += 1;
        self.answers[usize::from(answer)] += 1;
        if tag == Some(write::SALE) {
            self.sales[usize::from(answer)] += 1;
        }
        if before == Some(Stage::After(1)) && !had_round {
            self.without_round += 1;
            self.rounds_declined += u64::from((tag, answer) == (Some(write::ROUND), 8));
            self.calls_declined += u64::from((tag, answer) == (Some(write::CALL), 12));
            self.finished_without_round += u64::from((tag, answer) == (Some(write::FINISH), 0));
        }
        self.moves_beside_sales += u64::from(had_sale && (tag, answer) == (Some(write::MOVE), 0));
        self.misses_beside_sales += u64::from(had_sale && (tag, answer) == (Some(write::MISS), 0));
    }

    /// Counts what a call is an example of beside bids taken back, by the stage before it and the bids after it.
    fn count_withdrawals(&mut self, call: &[u8], answer: u8, before: Option<Stage>, bids: &[Bid]) {
        let tag = call.first().copied();
        if tag == Some(write::WITHDRAW) {
            self.withdrawals[usize::from(answer)] += 1;
        }
        let Some(Stage::Bidding(round)) = before else {
            return;
        };
        let withdrawn = |bid: &Bid| !bid.stands && bid.round == round;
        self.closed_without += u64::from((tag, answer) == (Some(write::CLOSE), 0) && bids.iter().any(withdrawn));
        self.places_taken += u64::from((tag, answer) == (Some(write::BID), 7) && bids.iter().any(|bid| !bid.stands));
        if (tag, answer) == (Some(write::WITHDRAW), 18) {
            let bid = bids.get(usize::from(field::u16_at(call, 4)));
            self.of_old_round += u64::from(bid.is_some_and(|bid| bid.stands && bid.member == call[3] && bid.round < round));
        }
    }

    /// What has to occur in 1,000 lists.
    fn occurred(&self) -> Vec<(String, u64)> {
        let sales = [0, 1, 2, 3, 4, 5, 8, 10, 17].map(|answer| (format!("SALE {answer}"), self.sales[answer]));
        let withdrawals = [0, 1, 2, 4, 18].map(|answer| (format!("WITHDRAW {answer}"), self.withdrawals[answer]));
        let mut all = [&sales[..], &withdrawals].concat();
        for (what, count) in [
            ("calls in A1 without a round", self.without_round),
            ("ROUND 8 there", self.rounds_declined),
            ("CALL 12 there", self.calls_declined),
            ("FINISH there", self.finished_without_round),
            ("MOVE beside units sold by agreement", self.moves_beside_sales),
            ("MISS beside units sold by agreement", self.misses_beside_sales),
            ("CLOSE of a round with a withdrawn bid", self.closed_without),
            ("BID 7 with a withdrawn bid among the 256", self.places_taken),
            ("WITHDRAW 18 of a bid of the first round", self.of_old_round),
            ("requirement read with no case", self.read.declined),
            ("requirement held at 0", self.read.at_0),
            ("requirement above 0 after that", self.read.above_0_again),
            ("requirement that rose", self.read.rose),
            ("requirement that fell", self.read.fell),
            ("requirement read after a declined call, units having left", self.read.unchanged),
            ("sum of pools 1 to 3 that is not 0", self.read.of_other_pools),
        ] {
            all.push((what.to_string(), count));
        }
        all
    }
}

/// One list, call by call, then at once.
fn compare_list(seed: u64, list: &[Vec<u8>], tally: &mut Tally) {
    let (mut proved, mut roll) = (Proved::default(), Roll::default());
    let mut members = Vec::new();
    let mut answers = Vec::new();
    let (mut had_round, mut had_sale) = (false, false);
    let (mut losses, mut was_held) = (0, false);
    compare_readings(&proved, &roll, &format!("before the first call of seed {seed}"));
    for (k, call) in list.iter().enumerate() {
        let at = format!("after call {k} of seed {seed}: {call:02x?}");
        let before = roll.stage();
        let required = roll.requirement();
        let answer = roll.call(call);
        assert_eq!(proved.call(call), answer, "answer {at}");
        answers.push(answer);
        compare_readings(&proved, &roll, &at);
        if before.is_none() && answer == 0 {
            losses = i64::from(field::u32_at(call, 10)) + i64::from(field::u32_at(call, 14));
        }
        tally.read.count(answer, &roll, required, losses, was_held);
        was_held |= roll.sum_of_prices() > losses;
        tally.count(call.first().copied(), answer, before, had_round, had_sale);
        tally.count_withdrawals(call, answer, before, roll.bids());
        if answer != 0 {
            continue;
        }
        had_round |= call[0] == write::ROUND;
        had_sale |= call[0] == write::SALE;
        tally.accepted += 1;
        if before.is_none() {
            members = members_of(call);
        }
        compare(&proved, &roll, &at);
        if moves_units(call[0]) {
            tally.holdings += compare_holdings(&proved, &roll, &members, &at);
        }
        if call[0] == write::FINISH {
            tally.finished += 1;
        }
    }
    if !members.is_empty() {
        tally.holdings += compare_holdings(&proved, &roll, &members, &format!("at the end of seed {seed}"));
    }
    at_once(seed, list, &answers, &proved);
}

/// All strings of a list at once, the declined among them, with room for all answers, for some, and for more.
fn at_once(seed: u64, list: &[Vec<u8>], answers: &[u8], proved: &Proved) {
    let bytes = list.concat();
    let ends: Vec<usize> = list
        .iter()
        .scan(0, |at, call| {
            *at += call.len();
            Some(*at)
        })
        .collect();
    for room in [answers.len(), answers.len() / 2, answers.len() + 3, 0] {
        let mut written = vec![0xee; room];
        let shown = ledger::calls(&bytes, &ends, &mut written);
        assert_eq!(&shown, proved.shown(), "what is shown at the end of seed {seed}");
        let both = room.min(answers.len());
        assert_eq!(written[..both], answers[..both], "the answers of seed {seed} at once");
        assert!(written[both..].iter().all(|b| *b == 0xee), "room past the answers of seed {seed}");
    }
    assert_eq!(&Readings::after(&bytes, &ends), proved.readings(), "what is read at the end of seed {seed}");
    for pool in [5, 127, 128, 255] {
        assert_eq!(ledger::pool_prices(&bytes, &ends, pool), 0, "the sum of a pool {pool} at the end of seed {seed}");
    }
}

/// Strings cut by ends that are out of order or past the bytes: each is held to the last end and to the number of bytes.
fn compare_cut(seed: u64, list: &[Vec<u8>]) {
    let mut r = Random(seed);
    let bytes = list.concat();
    let mut ends = Vec::new();
    let mut at = 0;
    for call in list {
        at += call.len();
        ends.push(match r.below(12) {
            0 => r.below(bytes.len() as u64 + 9) as usize,
            1 => usize::MAX,
            2 => at.saturating_sub(1),
            _ => at,
        });
    }
    if r.once_in(2) {
        ends.retain(|e| *e != usize::MAX);
    }
    let mut roll = Roll::default();
    let mut from = 0;
    let expected: Vec<u8> = ends
        .iter()
        .map(|&end| {
            let to = end.max(from).min(bytes.len());
            let answer = roll.call(&bytes[from..to]);
            from = to;
            answer
        })
        .collect();
    let mut written = vec![0xee; ends.len()];
    let shown = ledger::calls(&bytes, &ends, &mut written);
    assert_eq!(written, expected, "strings cut at {ends:?} of seed {seed}");
    assert_eq!((shown.present, shown.prices), (roll.stage().is_some(), roll.sum_of_prices()), "strings cut at {ends:?} of seed {seed}");
    let read = Readings::after(&bytes, &ends);
    let wanted = (roll.reading(), [0, 1, 2, 3, 4].map(|pool| roll.prices_of(pool)));
    assert_eq!(((read.requirement.answer, read.requirement.cents), read.prices), wanted, "strings cut at {ends:?} of seed {seed}");
}

/// A whole input, its fields answered in turn.
fn compare_input(seed: u64) -> u64 {
    let bytes = input(seed, profile_of(seed));
    let mut roll = Roll::default();
    let mut expected = Vec::new();
    let mut rest = &bytes[..];
    while let Some(size) = field::size(rest) {
        expected.push(roll.call(&rest[..size]));
        rest = &rest[size..];
    }
    if !rest.is_empty() {
        expected.push(1);
    }
    for room in [expected.len(), expected.len() / 2, expected.len() + 2] {
        let mut answers = vec![0xee; room];
        let count = ledger::run(&bytes, &mut answers);
        assert_eq!(count, room.min(expected.len()), "fields of the input of seed {seed}");
        assert_eq!(answers[..count], expected[..count], "answers to the input of seed {seed}");
        assert!(answers[count..].iter().all(|b| *b == 0xee), "room past the answers to the input of seed {seed}");
    }
    compare_text(seed, &bytes);
    expected.len() as u64
}

/// The text of an input, and that a buffer too short by one byte is left alone.
fn compare_text(seed: u64, bytes: &[u8]) {
    let text = model::print::<Roll>(bytes);
    let room = 4 * bytes.len() + 4096;
    let mut out = vec![0xee; room];
    let printed = ledger::print(bytes, &mut out);
    assert!(printed.whole && out[..printed.len] == text[..], "the text of the input of seed {seed}");
    let mut short = vec![0xee; room - 1];
    assert!(!ledger::print(bytes, &mut short).whole && short.iter().all(|b| *b == 0xee), "a short buffer, input of seed {seed}");
}

fn main() -> ExitCode {
    let mut given = std::env::args().skip(1).map(|a| a.parse().expect("a number"));
    let n: u64 = given.next().unwrap_or(2_000);
    let first: u64 = given.next().unwrap_or(1);
    let mut tally = Tally::default();
    let mut fields = 0;
    for seed in first..first + n {
        let list = odd_strings(&mut Random(seed), calls(seed, profile_of(seed)));
        compare_list(seed, &list, &mut tally);
        compare_cut(seed, &list);
        fields += compare_input(seed);
    }
    println!(
        "{n} lists from seed {first}: {} calls, {} accepted, {} cases finished, {} holdings; {n} inputs of {fields} fields; no difference",
        tally.calls, tally.accepted, tally.finished, tally.holdings
    );
    let by_answer: Vec<String> = tally.answers.iter().enumerate().filter(|a| *a.1 > 0).map(|a| format!("{}: {}", a.0, a.1)).collect();
    println!("by answer: {}", by_answer.join(", "));
    tell("", n, &tally.occurred())
}
