//! `rankings [N [SEED]]`: the proved ranking (C-13 of document 02) against the model's on N random inputs (100,000), refusals among them, and the proved
//! split against the proved ranking: floors, and one more at as many of its first places as are left. Ends with 1 where over 1,000 inputs or more a
//! kind that it counts never came.
use generator::Tie;
use linked::inputs::{OLD, Splitting};
use linked::tally::tell;
use linked::{Random, Ranked};
use model::split::{AMOUNT_LIMIT, WEIGHT_LIMIT, floors, odd_cents, swept_by};
use std::process::ExitCode;

#[derive(Default)]
struct Tally {
    answers: [u64; 6],
    both_refusals: u64,
    no_weight: u64,
    weight_0: u64,
    none_left: u64,
    above_weights: u64,
    longest: u64,
    ties: u64,
    to_the_larger: u64,
    to_the_earlier: u64,
}

/// The proved ranking of the whole lent run, alike with the model's and untouched where nothing is named.
fn ranking(input: &Splitting) -> (Ranked, Vec<usize>) {
    let Splitting { q, weights, room } = input;
    let old = vec![OLD as usize; *room];
    let (mut mine, mut theirs) = (old.clone(), old.clone());
    let ranked = linked::ranking(*q, weights, &mut mine);
    let (answer, named) = model::ranking_alone(*q, weights, &mut theirs);
    let same = ranked == Ranked { answer, named } && mine == theirs;
    assert!(same, "ranking {q} by {weights:?} into {room}: {ranked:?} {mine:?}, the model {answer} {named} {theirs:?}");
    assert!(named > 0 || mine == old, "ranking {q} by {weights:?} into {room} names nothing and writes {mine:?}");
    (ranked, mine)
}

fn compare(input: &Splitting, tally: &mut Tally) {
    let Splitting { q, weights, room } = input;
    let (Ranked { answer, named }, places) = ranking(input);
    let mut shares = vec![OLD; *room];
    assert_eq!(linked::split(*q, weights, &mut shares), answer, "split {q} by {weights:?} into {room}");
    tally.answers[usize::from(answer)] += 1;
    if answer != 0 {
        let out_of_range = *q > AMOUNT_LIMIT || weights.iter().any(|&weight| weight > WEIGHT_LIMIT);
        tally.both_refusals += u64::from(answer == 1 && out_of_range);
        return;
    }
    assert_eq!(shares, swept_by(*q, weights, &places[..named]), "split {q} by {weights:?}, ranked {places:?}");
    tally.no_weight += u64::from(named < weights.len());
    if named > 0 {
        let left = odd_cents(*q, &floors(*q, weights));
        tally.weight_0 += u64::from(weights.contains(&0));
        tally.none_left += u64::from(left == 0);
        tally.above_weights += u64::from(*q > weights.iter().sum());
        tally.longest += u64::from(named == 512);
        let tie = Tie::of(*q, weights);
        tally.ties += u64::from(tie.decides);
        tally.to_the_larger += u64::from(tie.to_the_larger);
        tally.to_the_earlier += u64::from(tie.to_the_earlier);
    }
}

fn main() -> ExitCode {
    let mut given = std::env::args().skip(1).map(|a| a.parse().expect("a number"));
    let n: u64 = given.next().unwrap_or(100_000);
    let mut r = Random(given.next().unwrap_or(1));
    let mut tally = Tally::default();
    for _ in 0..n {
        compare(&Splitting::draw(&mut r), &mut tally);
    }
    let counted = [
        ("answered 0", tally.answers[0]),
        ("1", tally.answers[1]),
        ("5", tally.answers[5]),
        ("1 with a number out of range", tally.both_refusals),
        ("W = 0 with places", tally.no_weight),
        ("a place of weight 0 named", tally.weight_0),
        ("nothing left", tally.none_left),
        ("q above W", tally.above_weights),
        ("512 places", tally.longest),
        ("a tie decides", tally.ties),
        ("a tie goes to a larger weight behind a smaller", tally.to_the_larger),
        ("a tie of like weights goes to the earlier", tally.to_the_earlier),
    ];
    tell(&format!("ranking: {n} inputs alike, and the split sweeps it; "), n, &counted)
}
