//! What a run has compared: inputs, calls, and how often each answer of each call was given in each stage.

use crate::pairs::{PLACES, Place, REACHABLE, UNKNOWN, UNREACHABLE, UNREACHABLE_IN, place_name, tag_name};
use crate::situations::{self, Situations};
use crate::{requirement, ties};
use std::collections::{BTreeMap, BTreeSet};

#[derive(Default)]
pub struct Tally {
    pub inputs: u64,
    pub calls: u64,
    pub bytes: u64,
    hits: BTreeMap<(u8, u8, Place), u64>,
    unknown_tags: BTreeSet<u8>,
    situations: Situations,
}

/// How many of those that have to come never did.
pub struct Missed {
    pub pairs: usize,
    /// Pairs in some stage that reaches them.
    pub in_stages: usize,
    pub situations: usize,
}

impl Tally {
    /// Counts one call, by the stage it was made in.
    pub fn count(&mut self, tag: u8, answer: u8, place: Place) {
        let known = (1..=15).contains(&tag);
        if !known {
            self.unknown_tags.insert(tag);
        }
        let tag = if known { tag } else { UNKNOWN };
        *self.hits.entry((tag, answer, place)).or_default() += 1;
        self.calls += 1;
    }

    /// Counts what a list goes through with WITHDRAWs, where remainders tie, and how the requirement moves.
    pub fn count_situations(&mut self, calls: &[Vec<u8>]) {
        self.add_situations(situations::of(calls));
    }

    fn add_situations(&mut self, found: Situations) {
        for (name, count) in found {
            *self.situations.entry(name).or_default() += count;
        }
    }

    pub fn add(&mut self, other: Tally) {
        self.inputs += other.inputs;
        self.calls += other.calls;
        self.bytes += other.bytes;
        for (hit, count) in other.hits {
            *self.hits.entry(hit).or_default() += count;
        }
        self.unknown_tags.extend(other.unknown_tags);
        self.add_situations(other.situations);
    }

    fn pair_hits(&self, tag: u8, answer: u8) -> u64 {
        PLACES.iter().map(|&place| self.place_hits(tag, answer, place)).sum()
    }

    fn place_hits(&self, tag: u8, answer: u8, place: Place) -> u64 {
        self.hits.get(&(tag, answer, place)).copied().unwrap_or(0)
    }

    /// Prints the table; gives what was missed.
    pub fn report(&self) -> Missed {
        println!("compared {} lists, {} calls, {} bytes", self.inputs, self.calls, self.bytes);
        println!("answers hit, by call and number (unknown: {} of 241 tags):", self.unknown_tags.len());
        for tag in 0..=15 {
            let of_tag = REACHABLE.iter().filter(|pair| pair.tag == tag);
            let counts = of_tag.map(|pair| format!("{}: {}", pair.answer, self.pair_hits(tag, pair.answer)));
            println!("  {tag:>2} {:<9}{}", tag_name(tag), counts.collect::<Vec<_>>().join("  "));
        }
        self.report_unforeseen();
        Missed {
            situations: self.report_situations(),
            pairs: self.report_missed_pairs(),
            in_stages: self.report_missed_places(),
        }
    }

    fn report_situations(&self) -> usize {
        let count = |name| self.situations.get(name).copied().unwrap_or(0);
        println!("with bids taken back:");
        for name in situations::TAKEN_BACK {
            println!("  {name}: {}", count(name));
        }
        println!("where remainders tie:");
        for name in ties::ALL {
            println!("  {name}: {}", count(name));
        }
        println!("how the requirement moves:");
        for name in requirement::ALL {
            println!("  {name}: {}", count(name));
        }
        let all = situations::TAKEN_BACK.into_iter().chain(ties::ALL).chain(requirement::ALL);
        let missed: Vec<_> = all.filter(|name| count(name) == 0).collect();
        for name in &missed {
            println!("MISSED {name}");
        }
        missed.len()
    }

    /// A pair hit that the list holds for unreachable is a mistake in the list or in the model.
    fn report_unforeseen(&self) {
        for (&(tag, answer, place), count) in &self.hits {
            let foreseen =
                REACHABLE.iter().any(|pair| (pair.tag, pair.answer) == (tag, answer) && pair.places.contains(&place));
            if !foreseen {
                println!("UNFORESEEN {} {answer} in {}: {count}", tag_name(tag), place_name(place));
            }
        }
    }

    fn report_missed_pairs(&self) -> usize {
        let missed = REACHABLE.iter().filter(|pair| self.pair_hits(pair.tag, pair.answer) == 0);
        let missed: Vec<_> = missed.collect();
        for pair in &missed {
            println!("MISSED {} {} ({})", tag_name(pair.tag), pair.answer, pair.why);
        }
        println!("{} of {} reachable pairs hit", REACHABLE.len() - missed.len(), REACHABLE.len());
        missed.len()
    }

    fn report_missed_places(&self) -> usize {
        let mut all = 0;
        let mut missed = 0;
        for pair in REACHABLE {
            for &place in pair.places {
                all += 1;
                if self.place_hits(pair.tag, pair.answer, place) == 0 {
                    missed += 1;
                    println!("MISSED {} {} in {} ({})", tag_name(pair.tag), pair.answer, place_name(place), pair.why);
                }
            }
        }
        println!("{} of {all} reachable pairs hit in each stage", all - missed);
        missed
    }
}

/// The list of reachable pairs and of those that only look so, as PAIRS.md holds it.
pub fn pairs_text() -> String {
    let mut text = "# Answers that calls can get\n\n".to_string();
    text += "Reachable, with the stages (\"none\" is no case, A0 is A1 without a round, by SALE):\n\n";
    text += "| call | answer | why | stages |\n|---|---|---|---|\n";
    for pair in REACHABLE {
        let places: Vec<&str> = pair.places.iter().map(|&place| place_name(place)).collect();
        let places = if places.len() == PLACES.len() { "all".to_string() } else { places.join(" ") };
        text += &format!("| {} | {} | {} | {places} |\n", tag_name(pair.tag), pair.answer, pair.why);
    }
    text += "\nNot reachable, though it may look so:\n\n| call | answer | in | why not |\n|---|---|---|---|\n";
    for (tag, answer, why) in UNREACHABLE {
        text += &format!("| {} | {answer} | any stage | {why} |\n", tag_name(*tag));
    }
    for (tag, answer, stage, why) in UNREACHABLE_IN {
        text += &format!("| {} | {answer} | {stage} | {why} |\n", tag_name(*tag));
    }
    text
}

#[cfg(test)]
mod tests {
    use super::*;

    #[test]
    fn the_written_list_is_the_one_in_use() {
        assert_eq!(include_str!("../../PAIRS.md"), pairs_text());
    }

    #[test]
    fn no_pair_is_both_reachable_and_not_in_a_stage() {
        for (tag, answer, stage, _) in UNREACHABLE_IN {
            let pair = REACHABLE.iter().find(|pair| (pair.tag, pair.answer) == (*tag, *answer));
            let pair = pair.expect("other stages reach it");
            // A stands for both rounds.
            let named =
                |place: &&Place| place_name(**place) == *stage || *stage == "A" && place_name(**place).starts_with('A');
            assert_eq!(pair.places.iter().find(named), None, "{} {answer} in {stage}", tag_name(*tag));
        }
    }

    #[test]
    fn no_pair_is_both_reachable_and_not() {
        for (tag, answer, _) in UNREACHABLE {
            assert!(!REACHABLE.iter().any(|pair| (pair.tag, pair.answer) == (*tag, *answer)));
        }
    }
}
