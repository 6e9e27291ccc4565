//! The requirement as the programs tell it (C-16): `asks ASK EXPLAIN [INPUTS [SEED]]` has the program `ask` answer the question `requirement` over the whole of a
//! generated input, over fronts of it that end with a field and within one, and over nothing, and the program `explain` tell the whole input call by call. What they write
//! is held to the full addition over the roll. Then `ask` is called by bad words. Over 300 inputs or more it fails where something that has to come never did.

use generator::tally::{Tally, all_came, counted};
use generator::{Rng, describe, fields, input, is_cut_off, profile_of, run};
use model::{Ledger, Roll};
use std::process::{ExitCode, Output};

const USAGE: &str = "usage: ask requirement < FIELDS\n";
const CUT_OFF: &str = "ask: not answered, since the input ends within a field\n";

/// Words that are not one question, or no question that there is.
const BAD_WORDS: [&[&str]; 10] = [
    &[],
    &[""],
    &["requirements"],
    &["requiremen"],
    &["requirement "],
    &["prefunded"],
    &["<"],
    &["requirement", "requirement"],
    &["requirement", ""],
    &["", "requirement"],
];

const ANSWERED: &str = "asked and answered";
const NO_CASE: &str = "asked with no case";
const WITHIN_A_FIELD: &str = "asked within a field";
const ASKED_AT_0: &str = "asked at 0";
const ASKED_ABOVE: &str = "asked above prefunded";
const TOLD: &str = "told behind a call";
const NOT_YET: &str = "not told, since no unit has left";
const REFUSED: &str = "not told, since the call is refused";
const TOLD_AT_0: &str = "told at 0";
const TOLD_ABOVE: &str = "told above prefunded";
const ROSE: &str = "rose";
const FELL: &str = "fell";
const ENDS_CUT_OFF: &str = "explained up to a field that is cut off";

/// Must come in 300 inputs.
const SITUATIONS: [&str; 13] = [
    ANSWERED,
    NO_CASE,
    WITHIN_A_FIELD,
    ASKED_AT_0,
    ASKED_ABOVE,
    TOLD,
    NOT_YET,
    REFUSED,
    TOLD_AT_0,
    TOLD_ABOVE,
    ROSE,
    FELL,
    ENDS_CUT_OFF,
];

fn money(cents: u64) -> String {
    format!("{}.{:02}", cents / 100, cents % 100)
}

// The question

/// What `ask requirement` has to write for an input, on standard output and on standard error.
fn wanted(bytes: &[u8], tally: &mut Tally) -> (String, String) {
    let list = fields(bytes);
    if list.last().is_some_and(|last| is_cut_off(last)) {
        *tally.entry(WITHIN_A_FIELD).or_default() += 1;
        return (String::new(), CUT_OFF.to_string());
    }
    let mut roll = Roll::default();
    for bytes in &list {
        roll.call(bytes);
    }
    match roll.reading() {
        (0, cents) => {
            *tally.entry(ANSWERED).or_default() += 1;
            *tally.entry(ASKED_AT_0).or_default() += u64::from(cents == 0);
            *tally.entry(ASKED_ABOVE).or_default() += u64::from(Some(cents) > roll.prefunded());
            (format!("requirement {}\n", money(cents)), String::new())
        }
        (answer, _) => {
            *tally.entry(NO_CASE).or_default() += 1;
            (String::new(), format!("ask: refused {answer}: there is no case\n"))
        }
    }
}

/// The whole, a front that ends with a field, one that ends within a field where there is a field, and nothing.
fn fronts(seed: u64, whole: &[u8]) -> Vec<Vec<u8>> {
    let mut rng = Rng::new(seed ^ 0x61736B73);
    let list: Vec<Vec<u8>> = fields(whole).into_iter().filter(|field| !is_cut_off(field)).collect();
    let kept = rng.below(list.len() as u64 + 1) as usize;
    let mut all = vec![whole.to_vec(), list[..kept].concat(), Vec::new()];
    if let Some(last) = list.get(kept) {
        let part = 1 + rng.below(last.len() as u64 - 1) as usize;
        all.push([&list[..kept].concat()[..], &last[..part]].concat());
    }
    all
}

/// A difference in words, if there is one.
fn written_difference(output: &Output, out: &str, err: &str) -> Option<String> {
    let told = (String::from_utf8_lossy(&output.stdout), String::from_utf8_lossy(&output.stderr));
    let differs = output.status.code().is_none() || told != (out.into(), err.into());
    differs.then(|| format!("{}, {told:?}, the model {:?}", output.status, (out, err)))
}

fn asked_difference(program: &str, bytes: Vec<u8>, tally: &mut Tally) -> Option<String> {
    let (out, err) = wanted(&bytes, tally);
    let words = format!("asked after {} fields, {} bytes", fields(&bytes).len(), bytes.len());
    let difference = written_difference(&run(program, &["requirement"], bytes), &out, &err)?;
    Some(format!("{words}: {difference}"))
}

// Call by call

/// The line behind an accepted call, from the first unit that has left the house on.
fn line_of_requirement(roll: &Roll) -> Option<String> {
    let has_left = (0..4).any(|pool| roll.counts(pool)[1..].iter().sum::<u64>() > 0);
    let (required, prefunded) = (roll.requirement()?, roll.prefunded()?);
    has_left.then(|| format!("    requirement {}, prefunded {}", money(required), money(prefunded)))
}

/// Counts what an accepted call shows, beside the requirement that was told before it.
fn count_told(roll: &Roll, before: Option<u64>, tally: &mut Tally) {
    let required = roll.requirement();
    *tally.entry(TOLD).or_default() += 1;
    *tally.entry(TOLD_AT_0).or_default() += u64::from(required == Some(0));
    *tally.entry(TOLD_ABOVE).or_default() += u64::from(required > roll.prefunded());
    *tally.entry(ROSE).or_default() += u64::from(before.is_some() && required > before);
    *tally.entry(FELL).or_default() += u64::from(required < before);
}

/// Where the text of `explain` does not tell the requirement as it has to: behind each field's line stands the line of its answer, and behind that of an accepted
/// call the requirement, once a unit has left; nowhere else.
fn explained_difference(bytes: &[u8], text: &str, tally: &mut Tally) -> Option<String> {
    let mut roll = Roll::default();
    let mut told = None;
    let mut lines = text.lines();
    for (number, bytes) in fields(bytes).iter().enumerate() {
        let differs = |line: Option<&str>, wanted: &str| {
            Some(format!("field {number}, {}: {line:?}, the model {wanted:?}", describe(bytes)))
        };
        let answer = roll.call(bytes);
        let line = lines.next();
        if line.is_none_or(|line| line.is_empty() || line.starts_with(' ')) {
            return differs(line, "the line of the field");
        }
        let wanted = if answer == 0 { "    accepted".to_string() } else { format!("    refused {answer}: ") };
        let line = lines.next();
        if line.is_none_or(|line| !line.starts_with(&wanted)) {
            return differs(line, &wanted);
        }
        *tally.entry(ENDS_CUT_OFF).or_default() += u64::from(is_cut_off(bytes));
        if answer != 0 {
            *tally.entry(REFUSED).or_default() += u64::from(told.is_some());
            continue;
        }
        let Some(wanted) = line_of_requirement(&roll) else {
            *tally.entry(NOT_YET).or_default() += 1;
            continue;
        };
        let line = lines.next();
        if line != Some(&wanted) {
            return differs(line, &wanted);
        }
        count_told(&roll, told, tally);
        told = roll.requirement();
    }
    let line = lines.find(|line| line.starts_with("    requirement "))?;
    Some(format!("behind the last call: {line:?}"))
}

fn told_difference(program: &str, bytes: Vec<u8>, tally: &mut Tally) -> Option<String> {
    let output = run(program, &[], bytes.clone());
    if output.status.code().is_none() || !output.stderr.is_empty() {
        return Some(format!("explain: {}, {}", output.status, String::from_utf8_lossy(&output.stderr)));
    }
    let difference = explained_difference(&bytes, &String::from_utf8_lossy(&output.stdout), tally)?;
    Some(format!("explain: {difference}"))
}

fn compare(ask: &str, explain: &str, inputs: u64, first: u64) -> Result<(), String> {
    let mut tally = Tally::new();
    for seed in first..first + inputs {
        let whole = input(seed, profile_of(seed));
        let mut asked = fronts(seed, &whole).into_iter();
        let difference = asked.find_map(|bytes| asked_difference(ask, bytes, &mut tally));
        if let Some(difference) = difference.or_else(|| told_difference(explain, whole, &mut tally)) {
            return Err(format!("seed {seed}: asks ASK EXPLAIN 1 {seed} repeats it\n{difference}"));
        }
    }
    for words in BAD_WORDS {
        let output = run(ask, words, input(first, profile_of(first)));
        if let Some(difference) = written_difference(&output, "", USAGE) {
            return Err(format!("the words {words:?}: {difference}"));
        }
    }
    println!("{inputs} inputs and {} bad words: {}", BAD_WORDS.len(), counted(&tally, &SITUATIONS));
    if inputs >= 300 { all_came(&tally, &SITUATIONS) } else { Ok(()) }
}

fn main() -> ExitCode {
    let arguments: Vec<String> = std::env::args().skip(1).collect();
    let number = |place: usize, usual: u64| arguments.get(place).map_or(Some(usual), |word| word.parse().ok());
    let (Some(ask), Some(explain), Some(inputs), Some(seed), 2..=4) =
        (arguments.first(), arguments.get(1), number(2, 300), number(3, 1), arguments.len())
    else {
        eprintln!("usage: asks ASK EXPLAIN [INPUTS [SEED]]");
        return ExitCode::from(2);
    };
    match compare(ask, explain, inputs, seed) {
        Ok(()) => ExitCode::SUCCESS,
        Err(difference) => {
            println!("FAILED: {difference}");
            ExitCode::FAILURE
        }
    }
}

#[cfg(test)]
mod tests {
    use super::*;
    use generator::tally::times;
    use model::write::{close, example, finish};

    /// The example of 01, whose CLOSE sells all for −160 cents, with a call declined between CLOSE and FINISH.
    fn explained() -> (Vec<u8>, String) {
        let mut list = example();
        list.insert(11, close());
        let set_up = "a call\n    accepted; stage S\n".repeat(10);
        let rest = "CLOSE\n    accepted; stage A\n    requirement 1.60, prefunded 3.40\nCLOSE\n    refused 2: not allowed in stage A\nFINISH\n    accepted; stage F\n    requirement 1.60, prefunded 3.40\n";
        let tables = "\nLoss\n  requirement, at least 0    1.60\n";
        assert_eq!((list.len(), &list[12]), (13, &finish()));
        (list.concat(), [&set_up, rest, tables].concat())
    }

    #[test]
    fn a_text_that_tells_the_requirement_elsewhere_or_otherwise_is_found() {
        let (bytes, text) = explained();
        let difference = |text: &str| explained_difference(&bytes, text, &mut Tally::new());
        assert_eq!(difference(&text), None);
        let line = "    requirement 1.60, prefunded 3.40\n";
        let others = [
            text.replacen(line, "", 1),
            text.replacen(line, &line.repeat(2), 1),
            text.replacen("1.60, p", "1.61, p", 1),
            text.replacen("3.40", "3.4", 1),
            text.replacen("prefunded 3.40\n", "prefunded 3.40 \n", 1),
            text.replacen("not allowed in stage A\n", &format!("not allowed in stage A\n{line}"), 1),
            text.replacen("stage S\n", "stage S\n    requirement 0.00, prefunded 3.40\n", 1),
            text.replacen("\nLoss\n", &format!("{line}\nLoss\n"), 1),
            text.replacen("\nLoss\n", &format!("\nLoss\n{line}"), 1),
            text.replacen("refused 2", "refused 11", 1),
            text.replacen("refused 2: not allowed in stage A", "accepted; stage A", 1),
            text.lines().take(20).map(|line| format!("{line}\n")).collect(),
        ];
        for other in others {
            assert!(other != text && difference(&other).is_some(), "{other}");
        }
    }

    #[test]
    fn what_is_asked_within_a_field_or_with_no_case_is_not_answered() {
        let wanted = |bytes: &[u8]| wanted(bytes, &mut Tally::new());
        let bytes = example().concat();
        assert_eq!(wanted(&bytes), ("requirement 1.60\n".to_string(), String::new()));
        assert_eq!(wanted(&bytes[..bytes.len() - 1]).1, CUT_OFF);
        assert_eq!(wanted(&bytes[..1]).1, CUT_OFF);
        assert_eq!(wanted(&[]), (String::new(), "ask: refused 2: there is no case\n".to_string()));
        assert_eq!(wanted(&close()), (String::new(), "ask: refused 2: there is no case\n".to_string()));
        assert_eq!(wanted(&example()[0]), ("requirement 0.00\n".to_string(), String::new()));
    }

    #[test]
    fn what_has_to_be_asked_comes_in_300_inputs() {
        let mut tally = Tally::new();
        for seed in 1..=300 {
            for bytes in fronts(seed, &input(seed, profile_of(seed))) {
                wanted(&bytes, &mut tally);
            }
        }
        for name in [ANSWERED, NO_CASE, WITHIN_A_FIELD, ASKED_AT_0, ASKED_ABOVE] {
            let count = times(&tally, name);
            assert!(count >= 5, "{count} {name}");
        }
    }
}
