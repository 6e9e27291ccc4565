//! Reserves stay inside the house (C-17): `reserves LEDGER ASK [PAIRS [SEED]]` draws pairs of inputs that are the same but for reserves, runs the program `ledger` on
//! both and holds the two texts to each other line by line; only ranks and charges on contribution may differ. The program `ask` answers over both, and over
//! fronts of both that end with the same field; `-` stands for no such program. Call by call all that the models show of both is compared. Then it takes pairs that break one part of
//! the premise and counts which of them the texts tell apart. It ends with 1 at a difference, and where over 300 pairs or more something that has to come never did,
//! and with 2 where a pair does not meet the premise.

use generator::reserves::{
    Broken, Kind, Pair, Round, Told, bids_in, broken, broken_parts, neighbours, pair, text_difference,
};
use generator::tally::{Tally, all_came, counted, over_seeds};
use generator::{Rng, Unlike, in_words, is_cut_off, profile_of, run, shown_difference, unlike};
use model::roll::Bid;
use model::{Counts, Ledger, Outcome, Roll, write};
use std::collections::BTreeSet;
use std::process::{ExitCode, Output};

/// The lists of a pair, as they are told of.
const NAMES: [&str; 2] = ["one", "other"];

/// For the program `ask`: none.
const NO_PROGRAM: &str = "-";

const RANKS: &str = "ranks differ";
const CHARGES: &str = "charges on contribution differ";
const FINISHED: &str = "finished";
const WITH_CALL: &str = "with a CALL";
const WITH_SALE: &str = "with a SALE";
const WITH_WITHDRAW: &str = "with a WITHDRAW";
const TWO_ROUNDS: &str = "with two rounds";
const NOTHING_OPEN: &str = "a reserve moved in a pool without open units";
const AT_A_BID: &str = "a reserve at a bid's price in one list alone";
const BESIDE_WITHDRAWN: &str = "a reserve moved up to a price with withdrawn bids alone";
const DECLINED_BY_1: &str = "other reserves in a ROUND declined by 1";
const DECLINED_BY_2: &str = "other reserves in a ROUND declined by 2";
const DECLINED_BY_8: &str = "other reserves in a ROUND declined by 8";
const DECLINED_BY_10: &str = "other reserves in a ROUND declined by 10";
const UNFIT_OUT_OF_RANGE: &str = "a reserve out of range in a ROUND of a length that does not fit";
const ANSWERED: &str = "asked and answered";

/// What the lists of a pair show, apart from any program.
const OF_LISTS: [&str; 13] = [
    FINISHED,
    WITH_CALL,
    WITH_SALE,
    WITH_WITHDRAW,
    TWO_ROUNDS,
    NOTHING_OPEN,
    AT_A_BID,
    BESIDE_WITHDRAWN,
    DECLINED_BY_1,
    DECLINED_BY_2,
    DECLINED_BY_8,
    DECLINED_BY_10,
    UNFIT_OUT_OF_RANGE,
];

/// Must come in 300 pairs.
fn situations(ask: &str) -> Vec<&'static str> {
    let mut situations = vec![RANKS, CHARGES];
    situations.extend(OF_LISTS);
    situations.extend(Kind::ALL.into_iter().flat_map(|kind| [came(kind), told_apart(kind)]));
    situations.extend((ask != NO_PROGRAM).then_some(ANSWERED));
    situations
}

fn came(kind: Kind) -> &'static str {
    match kind {
        Kind::Crossed => "broken by a reserve across a price",
        Kind::OutOfRange => "broken by a reserve out of range",
        Kind::OtherLength => "broken by a ROUND of another length",
        Kind::OtherField => "broken by another field",
        Kind::LeftOut => "broken by a call left out",
    }
}

fn told_apart(kind: Kind) -> &'static str {
    match kind {
        Kind::Crossed => "told apart by a reserve across a price",
        Kind::OutOfRange => "told apart by a reserve out of range",
        Kind::OtherLength => "told apart by a ROUND of another length",
        Kind::OtherField => "told apart by another field",
        Kind::LeftOut => "told apart by a call left out",
    }
}

enum Failure {
    /// A difference that C-17 rules out, or one that has to be there and is not.
    Difference(String),
    /// The pair does not meet the premise.
    NoPair(String),
}

impl Failure {
    fn at(self, seed: u64) -> Failure {
        let told = |what: String| format!("seed {seed}: reserves LEDGER ASK 1 {seed} repeats it\n{what}");
        match self {
            Failure::Difference(what) => Failure::Difference(told(what)),
            Failure::NoPair(what) => Failure::NoPair(told(what)),
        }
    }
}

// The texts

fn line_difference(one: &Output, other: &Output) -> Option<String> {
    let Unlike { line, one, other } = text_difference(&one.stdout, &other.stdout)?;
    Some(format!("line {line} of the text\n  one:   {one}\n  other: {other}"))
}

/// How the programs end, and what they write on standard error.
fn end_difference(one: &Output, other: &Output) -> Option<String> {
    if one.status.code().is_none() {
        return Some(format!("{}", one.status));
    }
    let errors = [one, other].map(|output| String::from_utf8_lossy(&output.stderr).into_owned());
    unlike("status", [one.status, other.status], NAMES).or_else(|| unlike("standard error", errors, NAMES))
}

fn ledger_difference(one: &Output, other: &Output) -> Option<String> {
    let difference = line_difference(one, other).or_else(|| end_difference(one, other))?;
    Some(format!("ledger: {difference}"))
}

/// Ranks and charges on contribution are taken from the texts, so that they are seen to go by the reserves.
fn count_members(one: &Output, other: &Output, tally: &mut Tally) {
    let members = |output: &Output| -> Vec<Vec<String>> {
        let text = String::from_utf8_lossy(&output.stdout).into_owned();
        let lines = text.lines().filter(|line| line.starts_with("m "));
        lines.map(|line| line.split(' ').map(str::to_string).collect()).collect()
    };
    let differ = |place: usize| members(one).iter().zip(&members(other)).any(|(a, b)| a.get(place) != b.get(place));
    *tally.entry(RANKS).or_default() += u64::from(differ(2));
    *tally.entry(CHARGES).or_default() += u64::from(differ(3));
}

// The question

/// The whole, and a front that ends with the same field.
fn asked_difference(ask: &str, seed: u64, pair: &Pair, tally: &mut Tally) -> Option<String> {
    if ask == NO_PROGRAM {
        return None;
    }
    let whole = pair.one.iter().take_while(|field| !is_cut_off(field)).count();
    let front = Rng::new(seed ^ 0x66726F6E74).below(whole as u64 + 1) as usize;
    [pair.one.len(), front].into_iter().find_map(|kept| {
        let [one, other] = [&pair.one, &pair.other].map(|list| run(ask, &["requirement"], list[..kept].concat()));
        *tally.entry(ANSWERED).or_default() += u64::from(!one.stdout.is_empty());
        let answers = [&one, &other].map(|output| String::from_utf8_lossy(&output.stdout).into_owned());
        let difference = unlike("answer", answers, NAMES).or_else(|| end_difference(&one, &other))?;
        Some(format!("ask after {kept} fields: {difference}"))
    })
}

// The models

/// What FINISH gives without ranks and charges on contribution; the layer's total stays.
fn alike(mut outcome: Outcome) -> Outcome {
    outcome.members.iter_mut().for_each(|member| (member.rank, member.contribution_charge) = (0, 0));
    outcome
}

fn model_difference<L: Ledger + Default>(model: &str, lists: [&[Vec<u8>]; 2]) -> Option<String> {
    let (mut one, mut other) = (L::default(), L::default());
    lists[0].iter().zip(lists[1]).enumerate().find_map(|(call, fields)| {
        let answers = [one.call(fields.0), other.call(fields.1)];
        let difference = unlike("answer", answers, NAMES)
            .or_else(|| shown_difference(&one, &other, NAMES))
            .or_else(|| unlike("result", [one.result().map(alike), other.result().map(alike)], NAMES))?;
        Some(format!("{model} after call {call}: {difference}"))
    })
}

// What a pair shows

fn count_situations(pair: &Pair, tally: &mut Tally) {
    let answered = pair.one.iter().zip(&pair.seen.answers);
    let calls = [
        (FINISHED, write::FINISH),
        (WITH_CALL, write::CALL),
        (WITH_SALE, write::SALE),
        (WITH_WITHDRAW, write::WITHDRAW),
    ];
    for (name, tag) in calls {
        let is_accepted = answered.clone().any(|(bytes, &answer)| (bytes[0], answer) == (tag, 0));
        *tally.entry(name).or_default() += u64::from(is_accepted);
    }
    let rounds = answered.filter(|(bytes, answer)| (bytes[0], **answer) == (write::ROUND, 0)).count();
    *tally.entry(TWO_ROUNDS).or_default() += u64::from(rounds == 2);
    for (round, others) in pair.moved() {
        match round.opens {
            Some(number) => count_moved(round, &others, &pair.seen.bids, number, tally),
            None => count_declined(round, &others, tally),
        }
    }
}

/// What an accepted ROUND shows, pool by pool, whose reserve is another in the second list.
fn count_moved(round: &Round, others: &[i64], bids: &[Bid], number: u8, tally: &mut Tally) {
    let mut count = |name, came: bool| *tally.entry(name).or_default() += u64::from(came);
    for (pool, (&one, &other)) in round.reserves.iter().zip(others).enumerate().filter(|(_, (a, b))| a != b) {
        let bids: Vec<&Bid> = bids_in(bids, number, pool).collect();
        let prices: BTreeSet<i64> = bids.iter().map(|bid| bid.price).collect();
        count(NOTHING_OPEN, round.open[pool] == 0);
        count(AT_A_BID, prices.contains(&one) != prices.contains(&other));
        // A reserve that goes as far as the bids let it.
        let (below, above) = neighbours(one, &prices);
        let stops = [below.filter(|price| price + 1 == other), above.filter(|&price| price == other)];
        let is_withdrawn = |price: i64| bids.iter().all(|bid| bid.price != price || !bid.stands);
        count(BESIDE_WITHDRAWN, stops.into_iter().flatten().any(is_withdrawn));
    }
}

fn count_declined(round: &Round, others: &[i64], tally: &mut Tally) {
    let name = match round.answer {
        1 => DECLINED_BY_1,
        2 => DECLINED_BY_2,
        8 => DECLINED_BY_8,
        10 => DECLINED_BY_10,
        answer => unreachable!("reserves stay where a ROUND is declined by {answer}"),
    };
    *tally.entry(name).or_default() += 1;
    let out_of_range = round.reserves.iter().chain(others).any(|reserve| reserve.abs() > 1_000_000);
    *tally.entry(UNFIT_OUT_OF_RANGE).or_default() += u64::from(!round.fits() && out_of_range);
}

// Pairs

fn both_in_words(one: &[Vec<u8>], other: &[Vec<u8>]) -> String {
    in_words("calls of one", one) + &in_words("calls of the other", other)
}

fn compare_pair(ledger: &str, ask: &str, seed: u64, tally: &mut Tally) -> Result<(), Failure> {
    let pair = pair(seed, profile_of(seed));
    let told = |what: String, other: &[Vec<u8>]| format!("{what}\n{}", both_in_words(&pair.one, other));
    let parts = broken_parts(&pair.one, &pair.other);
    if !parts.is_empty() {
        return Err(Failure::NoPair(told(format!("the pair does not meet the premise: {parts:?}"), &pair.other)));
    }
    let [one, other] = [&pair.one, &pair.other].map(|list| run(ledger, &[], list.concat()));
    let difference = ledger_difference(&one, &other)
        .or_else(|| asked_difference(ask, seed, &pair, tally))
        .or_else(|| model_difference::<Roll>("roll", [&pair.one, &pair.other]))
        .or_else(|| model_difference::<Counts>("counts", [&pair.one, &pair.other]));
    if let Some(difference) = difference {
        return Err(Failure::Difference(told(difference, &pair.other)));
    }
    count_members(&one, &other, tally);
    count_situations(&pair, tally);
    for kind in Kind::ALL {
        if let Some(broken) = broken(seed, &pair, kind) {
            compare_broken(ledger, &one, &broken, kind, tally)
                .map_err(|what| Failure::Difference(told(what, &broken.list)))?;
        }
    }
    Ok(())
}

fn compare_broken(ledger: &str, one: &Output, broken: &Broken, kind: Kind, tally: &mut Tally) -> Result<(), String> {
    let other = run(ledger, &[], broken.list.concat());
    let is_told = text_difference(&one.stdout, &other.stdout).is_some();
    *tally.entry(came(kind)).or_default() += 1;
    *tally.entry(told_apart(kind)).or_default() += u64::from(is_told);
    match broken.told {
        Told::Always if !is_told => Err(format!("{}, and not told apart", came(kind))),
        Told::Never if is_told => Err(format!("{}, and told apart", came(kind))),
        _ => Ok(()),
    }
}

fn compare(ledger: &str, ask: &str, pairs: u64, first: u64) -> Result<(), Failure> {
    let compared = over_seeds(first, pairs, |seed, tally| compare_pair(ledger, ask, seed, tally));
    let tally = compared.map_err(|(seed, failure)| failure.at(seed))?;
    let situations = situations(ask);
    println!("{pairs} pairs: {}", counted(&tally, &situations));
    if pairs >= 300 { all_came(&tally, &situations).map_err(Failure::Difference) } else { Ok(()) }
}

fn main() -> ExitCode {
    let arguments: Vec<String> = std::env::args().skip(1).collect();
    let number = |place: usize, usual: u64| arguments.get(place).map_or(Some(usual), |word| word.parse().ok());
    let (Some(ledger), Some(ask), Some(pairs), Some(seed), 2..=4) =
        (arguments.first(), arguments.get(1), number(2, 300), number(3, 1), arguments.len())
    else {
        eprintln!("usage: reserves LEDGER ASK [PAIRS [SEED]], where ASK may be {NO_PROGRAM} for none");
        return ExitCode::from(2);
    };
    let (what, status) = match compare(ledger, ask, pairs, seed) {
        Ok(()) => return ExitCode::SUCCESS,
        Err(Failure::Difference(what)) => (what, 1),
        Err(Failure::NoPair(what)) => (what, 2),
    };
    println!("FAILED: {what}");
    ExitCode::from(status)
}

#[cfg(test)]
mod tests {
    use super::*;
    use generator::tally::times;
    use model::write::{example, round, tear};
    use std::os::unix::process::ExitStatusExt;
    use std::process::ExitStatus;

    fn output(status: i32, out: &str, err: &str) -> Output {
        Output { status: ExitStatus::from_raw(status), stdout: out.into(), stderr: err.into() }
    }

    #[test]
    fn programs_that_end_otherwise_are_found() {
        let text = "s 1 0\nm 0 1 2 3\n";
        let one = output(0, text, "");
        let difference = |other: &Output| ledger_difference(&one, other);
        assert_eq!(difference(&output(0, "s 1 0\nm 0 2 1 3\n", "")), None);
        for other in [
            output(0, "s 1 0\nm 0 1 2 4\n", ""),
            output(0, "s 1 0\n", ""),
            output(1 << 8, text, ""),
            output(0, text, "words"),
            output(9, text, ""),
        ] {
            assert!(difference(&other).is_some(), "{other:?}");
        }
        // A signal is no end, also where both runs get it.
        assert!(ledger_difference(&output(9, text, ""), &output(9, text, "")).is_some());
    }

    /// The example of 01 with this reserve, and its unsold units torn, if there are any.
    fn with_reserve(reserve: i32) -> Vec<Vec<u8>> {
        let mut list = example();
        list[5] = round(&[reserve]);
        list.insert(11, tear(0, -1));
        list
    }

    #[test]
    fn the_models_tell_where_a_bid_is_no_longer_valid() {
        let difference = |reserve: i32| {
            let lists = [&with_reserve(-30)[..], &with_reserve(reserve)];
            let over_roll = model_difference::<Roll>("models", lists);
            assert_eq!(model_difference::<Counts>("models", lists), over_roll);
            over_roll.map(|difference| difference.split([':', ',']).next().unwrap_or_default().to_string())
        };
        // From −39 to −20 the same bids are valid, and the one at −40 would win nothing.
        assert_eq!([-39, -20, -40, -1_000_000].map(difference), [None, None, None, None]);
        // The bids at −20 sell 6 units at CLOSE, the eleventh call.
        assert_eq!(difference(-19), Some("models after call 10".to_string()));
        assert_eq!(difference(1_000_001), Some("models after call 5".to_string()));
    }

    #[test]
    fn what_has_to_come_in_pairs_comes_in_300() {
        let mut tally = Tally::new();
        for seed in 1..=300 {
            count_situations(&pair(seed, profile_of(seed)), &mut tally);
        }
        for name in OF_LISTS {
            assert!(times(&tally, name) >= 5, "{} {name}", times(&tally, name));
        }
    }
}
