//! `parts [N]`: the proved split and both auctions against the model, on N random inputs each (100,000), refusals among them. Ends with 1 where over 1,000
//! inputs or more a kind that it counts never came.
use generator::Tie;
use linked::inputs::{OLD, Splitting, length, other_length, simple_part};
use linked::tally::tell;
use linked::{BidRecord, Random};
use std::process::ExitCode;

/// How often each answer was given, and how often a tie of remainders decided.
#[derive(Default)]
struct Tally {
    answers: [u64; 6],
    to_the_larger: u64,
    to_the_earlier: u64,
    cut: u64,
}

impl Tally {
    fn count_tie(&mut self, q: u64, weights: &[u64]) {
        let tie = Tie::of(q, weights);
        self.to_the_larger += u64::from(tie.to_the_larger);
        self.to_the_earlier += u64::from(tie.to_the_earlier);
    }

    /// The kinds of which each has to come.
    fn counted(&self) -> Vec<(&'static str, u64)> {
        vec![
            ("answered 0", self.answers[0]),
            ("1", self.answers[1]),
            ("5", self.answers[5]),
            ("a tie goes to a larger weight behind a smaller", self.to_the_larger),
            ("a tie of like weights goes to the earlier", self.to_the_earlier),
        ]
    }
}

fn splits(r: &mut Random, n: u64) -> Tally {
    let mut tally = Tally::default();
    for _ in 0..n {
        let Splitting { q, weights, room } = Splitting::draw(r);
        let mut mine = vec![OLD; room];
        let mut theirs = vec![OLD; room];
        let a = linked::split(q, &weights, &mut mine);
        let b = model::split_alone(q, &weights, &mut theirs);
        assert!(
            a == b && mine == theirs,
            "split {q} by {weights:?} into {room}: {a} {mine:?}, the model {b} {theirs:?}"
        );
        tally.answers[a as usize] += 1;
        if a == 0 {
            tally.count_tie(q, &weights);
        }
    }
    tally
}

/// The units of the bids at the price where the open units run out, and the balance there, by the sentence of CLOSE.
fn balance(records: &[BidRecord], open: u64, reserve: i32) -> Option<(u64, Vec<u64>)> {
    let units = |counts: &dyn Fn(i32) -> bool| -> Vec<u64> {
        records.iter().filter(|bid| bid.price >= reserve && counts(bid.price)).map(|bid| bid.units.into()).collect()
    };
    let prices = records.iter().map(|bid| bid.price).filter(|&price| price >= reserve);
    let runs_out = |&price: &i32| {
        let above: u64 = units(&|other| other > price).iter().sum();
        above < open && above + units(&|other| other == price).iter().sum::<u64>() > open
    };
    let price = prices.clone().find(runs_out)?;
    let above: u64 = units(&|other| other > price).iter().sum();
    Some((open - above, units(&|other| other == price)))
}

fn auctions(r: &mut Random, n: u64) -> Tally {
    let mut tally = Tally::default();
    for _ in 0..n {
        let bids = length(r, 256);
        let spread = [1, 2, 3, 10, 40, 2_000][r.below(6) as usize];
        let base = r.below(2_000_001) as i64 - 1_000_000;
        let most = [1, 3, 20, 1_000][r.below(4) as usize];
        let mut records: Vec<BidRecord> = (0..bids)
            .map(|_| {
                let price = (base + r.below(spread) as i64).clamp(-1_000_000, 1_000_000) as i32;
                BidRecord { units: 1 + r.below(most) as u16, price }
            })
            .collect();
        if bids > 0 && r.once_in(20) {
            let at = r.below(bids as u64) as usize;
            match r.below(6) {
                0 => records[at].units = 0,
                1 => records[at].units = 1_001,
                2 => records[at].price = 1_000_001,
                3 => records[at].price = -1_000_001,
                4 => records[at].price = i32::MIN,
                _ => records[at].price = i32::MAX,
            }
        }
        let reserve = match r.below(12) {
            0 => -1_000_001,
            1 => 1_000_001,
            2 => -1_000_000,
            _ => (base + r.below(spread + 2) as i64 - 1) as i32,
        };
        let whole: u64 = records.iter().map(|bid| u64::from(bid.units)).sum();
        let open = match r.below(20) {
            0 => 1_001,
            1 => 0,
            2 => 1_000,
            // Where all bids stand at one price, remainders tie.
            3..10 => simple_part(r, whole).min(1_000),
            _ => r.below(bids as u64 * most / 2 + 3).min(1_000),
        };
        let room = other_length(r, bids);
        let mut mine = vec![OLD; room];
        let mut theirs = vec![OLD; room];
        let a = linked::alone_lent(&records, open as u16, reserve, &mut mine);
        let b = model::alone_lent(&records, open as u16, reserve, &mut theirs);
        assert!(a == b && mine == theirs, "lent {open} {reserve} {records:?}: {a} {mine:?}, the model {b} {theirs:?}");
        tally.answers[a as usize] += 1;
        if a == 0 {
            let is_cut = |(won, bid): (&u64, &BidRecord)| *won > 0 && *won < bid.units.into();
            tally.cut += u64::from(mine.iter().zip(&records).any(is_cut));
            if let Some((q, weights)) = balance(&records, open, reserve) {
                tally.count_tie(q, &weights);
            }
        }

        let units: Vec<u64> = records.iter().map(|bid| bid.units as u64).collect();
        let prices: Vec<u32> = records.iter().map(|bid| (bid.price as u32).wrapping_add(1_000_000)).collect();
        let prices = if r.once_in(40) { prices[..prices.len() / 2].to_vec() } else { prices };
        let flat = (reserve as u32).wrapping_add(1_000_000);
        let mut mine = vec![OLD; room];
        let mut theirs = vec![OLD; room];
        let a = linked::alone(open, flat, &units, &prices, &mut mine);
        let b = model::alone_flat(open, flat, &units, &prices, &mut theirs);
        assert!(
            a == b && mine == theirs,
            "flat {open} {flat} {units:?} {prices:?}: {a} {mine:?}, the model {b} {theirs:?}"
        );
    }
    tally
}

fn main() -> ExitCode {
    let n: u64 = std::env::args().nth(1).map_or(100_000, |s| s.parse().expect("a number"));
    let mut r = Random(1);
    let split = tell(&format!("split: {n} inputs alike; "), n, &splits(&mut r, n).counted());
    let tally = auctions(&mut r, n);
    let mut counted = tally.counted();
    counted.push(("a bid cut", tally.cut));
    let auction = tell(&format!("auction, lent and flat: {n} inputs alike each; "), n, &counted);
    if split == ExitCode::SUCCESS { auction } else { split }
}
