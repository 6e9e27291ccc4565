//! What the generator promises of its lists.

use generator::{Profile, calls, calls_of_01, fields, input, profile_of, timing};
use model::roll::{Bid, Entry};
use model::{Counts, Ledger, Roll, Stage, write};

fn last_stage(list: &[Vec<u8>]) -> Option<Stage> {
    let mut ledger = Counts::default();
    list.iter().for_each(|bytes| {
        ledger.call(bytes);
    });
    ledger.stage()
}

#[test]
fn a_seed_gives_one_list() {
    for seed in 0..50 {
        let profile = profile_of(seed);
        assert_eq!(calls(seed, profile), calls(seed, profile));
        assert_eq!(input(seed, profile), input(seed, profile));
    }
}

#[test]
fn every_profile_is_drawn_and_has_a_name() {
    for profile in Profile::ALL {
        assert!((0..2000).any(|seed| profile_of(seed) == profile), "{profile:?}");
        assert_eq!(Profile::named(&profile.name()), Some(profile));
    }
}

#[test]
fn most_lists_reach_the_last_stage() {
    for profile in Profile::ALL.into_iter().filter(|&profile| profile != Profile::Short) {
        let finished = (0..40).filter(|&seed| last_stage(&calls(seed, profile)) == Some(Stage::Finished));
        let finished = finished.count();
        assert!(finished >= 20, "{profile:?}: {finished} of 40");
    }
}

/// What a list with an accepted SALE goes through.
#[derive(Default)]
struct Sales {
    lists: usize,
    sold_whole: usize,
    finished_after_a_round: usize,
    declined_by_17: usize,
    /// MOVEs and MISSes with units so sold at a negative price beside them.
    moves: usize,
    misses: usize,
}

impl Sales {
    fn count(&mut self, list: &[Vec<u8>]) {
        let mut ledger = Roll::default();
        let mut had_round = false;
        for bytes in list {
            let answer = ledger.call(bytes);
            let tag = bytes.first().copied().unwrap_or(0);
            self.declined_by_17 += usize::from((tag, answer) == (write::SALE, 17));
            had_round |= (tag, answer) == (write::ROUND, 0);
            let so_sold = |entry: &Entry| matches!(entry, Entry::SoldByAgreement { price, .. } if *price < 0);
            if answer == 0 && (0..4).flat_map(|pool| ledger.entries(pool)).any(so_sold) {
                self.moves += usize::from(tag == write::MOVE);
                self.misses += usize::from(tag == write::MISS);
            }
        }
        let sold = |pool| matches!(ledger.entries(pool).first(), Some(Entry::SoldByAgreement { .. }));
        if (0..4).any(sold) {
            self.lists += 1;
            self.sold_whole += usize::from(!had_round && ledger.stage() != Some(Stage::Setup));
            self.finished_after_a_round += usize::from(had_round && ledger.stage() == Some(Stage::Finished));
        }
    }
}

#[test]
fn a_share_of_the_lists_sells_by_agreement_in_every_profile() {
    for profile in Profile::ALL.into_iter().filter(|&profile| profile != Profile::Short && profile != Profile::Long) {
        let mut sales = Sales::default();
        (0..200).for_each(|seed| sales.count(&calls(seed, profile)));
        let Sales { lists, sold_whole, finished_after_a_round, declined_by_17, .. } = sales;
        assert!(
            lists >= 40 && sold_whole >= 8 && declined_by_17 >= 8,
            "{profile:?}: {lists} {sold_whole} {declined_by_17}"
        );
        assert!(finished_after_a_round >= 15 || profile == Profile::Single, "{profile:?}: {finished_after_a_round}");
        let (moves, misses) = (sales.moves, sales.misses);
        assert!(moves >= 30 || profile != Profile::Moves, "{profile:?}: {moves} {misses}");
        assert!(moves >= 10 && misses >= 10 || profile != Profile::Misses, "{profile:?}: {moves} {misses}");
    }
}

#[test]
fn the_lists_of_01_have_no_call_of_02() {
    for seed in 0..300 {
        let list = calls_of_01(seed, profile_of(seed));
        let of_02 = |bytes: &Vec<u8>| matches!(bytes.first(), Some(&write::SALE | &write::WITHDRAW));
        assert!(!list.iter().any(of_02), "seed {seed}");
    }
}

/// What lists with an accepted WITHDRAW go through.
#[derive(Default)]
struct Withdrawals {
    lists: usize,
    finished: usize,
    /// Rounds in which two bids or more were withdrawn, and in which every bid was.
    several: usize,
    none_left: usize,
    /// Bids that are like one withdrawn before in the round.
    sent_again: usize,
    declined_by_18: usize,
    /// Those that name a bid of the first round in the second.
    of_an_old_round: usize,
    /// Accepted where 256 bids are kept, and BIDs declined by 7 after it.
    with_256_kept: usize,
    declined_by_7: usize,
}

impl Withdrawals {
    fn count(&mut self, list: &[Vec<u8>]) {
        let mut ledger = Roll::default();
        let mut accepted = 0;
        for bytes in list {
            let stage = ledger.stage();
            let answer = ledger.call(bytes);
            let tag = bytes.first().copied().unwrap_or(0);
            accepted += usize::from((tag, answer) == (write::WITHDRAW, 0));
            self.count_call(&ledger, bytes, answer, stage);
        }
        self.lists += usize::from(accepted > 0);
        self.finished += usize::from(accepted > 0 && ledger.stage() == Some(Stage::Finished));
    }

    fn count_call(&mut self, ledger: &Roll, bytes: &[u8], answer: u8, before: Option<Stage>) {
        let Some(Stage::Bidding(round)) = before else {
            return;
        };
        let bids = ledger.bids();
        let of_round: Vec<&Bid> = bids.iter().filter(|bid| bid.round == round).collect();
        let withdrawn = of_round.iter().filter(|bid| !bid.stands).count();
        match (bytes.first().copied().unwrap_or(0), answer) {
            (write::WITHDRAW, 0) => self.with_256_kept += usize::from(bids.len() == 256),
            (write::WITHDRAW, 18) => {
                self.declined_by_18 += 1;
                let bid = bids.get(usize::from(model::field::u16_at(bytes, 4)));
                self.of_an_old_round += usize::from(bid.is_some_and(|bid| bid.stands && bid.round < round));
            }
            (write::BID, 0) => {
                let (last, earlier) = of_round.split_last().expect("a bid was kept");
                self.sent_again += usize::from(earlier.contains(&&Bid { stands: false, ..(*last).clone() }));
            }
            (write::BID, 7) => self.declined_by_7 += usize::from(bids.iter().any(|bid| !bid.stands)),
            (write::CLOSE, 0) => {
                self.several += usize::from(withdrawn >= 2);
                self.none_left += usize::from(withdrawn >= 1 && withdrawn == of_round.len());
            }
            _ => {}
        }
    }
}

#[test]
fn a_share_of_the_lists_takes_bids_back_in_every_profile() {
    for profile in Profile::ALL.into_iter().filter(|&profile| profile != Profile::Short && profile != Profile::Long) {
        let mut all = Withdrawals::default();
        (0..200).for_each(|seed| all.count(&calls(seed, profile)));
        let Withdrawals { lists, finished, several, none_left, sent_again, declined_by_18, .. } = all;
        assert!(
            lists >= 35 && finished >= 25 && declined_by_18 >= 25,
            "{profile:?}: {lists} {finished} {declined_by_18}"
        );
        assert!(several >= 15 && sent_again >= 15, "{profile:?}: {several} {sent_again}");
        assert!(none_left >= 5 || profile == Profile::ManyBids, "{profile:?}: {none_left}");
        let (kept, old) = (all.with_256_kept, all.of_an_old_round);
        assert!(old >= 5 || profile != Profile::Rounds, "{profile:?}: {old}");
        assert!(kept >= 50 && all.declined_by_7 >= 50 || profile != Profile::ManyBids, "{kept} {}", all.declined_by_7);
    }
}

#[test]
fn an_input_without_damage_holds_whole_fields_but_for_its_last() {
    for seed in 0..100 {
        let list = fields(&input(seed, Profile::Mixed));
        assert!(list.iter().rev().skip(1).all(|field| model::field::size(field) == Some(field.len())));
    }
}

#[test]
fn the_input_for_timing_is_a_finished_case_of_the_length_asked_for() {
    let list = fields(&timing(5000));
    assert_eq!(list.len(), 5000);
    assert_eq!(last_stage(&list), Some(Stage::Finished));
}
