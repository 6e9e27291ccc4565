//! The inputs of the program crate `cases`, and what the model prints for them: K9, annexure 1 of document 000, the example of document 01 cut off at
//! every byte, lists that give every answer to every call of document 01 that can get it, lists of sales by agreement, lists of bids taken back and lists in which
//! remainders tie.

use generator::{calls_of_01, fields, profile_of};
use model::write::{
    ALLOCATE, FINISH, Head, SALE, WITHDRAW, allocate, bid, call, close, example, field, finish, head, member, miss,
    move_units, pay, pool, round, sale, tear, withdraw,
};
use model::{Ledger, Roll, print};
use std::collections::BTreeSet;
use std::io::{self, Write};
use std::process::ExitCode;

/// How many pairs of call and answer there are (PAIRS.md) for the calls of document 01, without the unknown tag.
const PAIRS: usize = 74;

/// The answers that SALE can get.
const SALE_ANSWERS: [u8; 9] = [0, 1, 2, 3, 4, 5, 8, 10, 17];

/// The answers that WITHDRAW can get.
const WITHDRAW_ANSWERS: [u8; 5] = [0, 1, 2, 4, 18];

fn main() -> ExitCode {
    let output = match std::env::args().nth(1).as_deref() {
        Some("--input") => {
            inputs().iter().flat_map(|input| [&(input.len() as u32).to_be_bytes()[..], input].concat()).collect()
        }
        Some("--text") => {
            inputs().iter().flat_map(|input| [&print::<Roll>(input)[..], b"--\n"].concat()).collect::<Vec<u8>>()
        }
        _ => {
            eprintln!("usage: checked --input | checked --text");
            return ExitCode::from(2);
        }
    };
    match io::stdout().write_all(&output) {
        Ok(()) => ExitCode::SUCCESS,
        Err(_) => ExitCode::FAILURE,
    }
}

fn inputs() -> Vec<Vec<u8>> {
    let mut all = vec![bids_255_and_256(), annexure_1()];
    let example = example().concat();
    all.extend((0..=example.len()).map(|length| example[..length].to_vec()));
    let seen = all.iter().flat_map(|input| pairs_of(input)).collect();
    all.extend(every_pair(seen));
    all.extend(sales());
    all.extend(withdrawals());
    all.extend(ties());
    all
}

/// Fails where the lists do not give the call each of the answers.
fn assert_all_given(lists: &[Vec<u8>], tag: u8, answers: &[u8]) {
    let seen: BTreeSet<(u8, u8)> = lists.iter().flat_map(|input| pairs_of(input)).collect();
    let missed: Vec<u8> = answers.iter().copied().filter(|&answer| !seen.contains(&(tag, answer))).collect();
    assert!(missed.is_empty(), "tag {tag} never answered {missed:?}");
}

/// Sales by agreement: every answer of SALE, A1 without a round, units so sold that MOVE and MISS pass over, and ranks beside them.
fn sales() -> Vec<Vec<u8>> {
    let lists = [declined_sales(), sold_whole(), passed_over(), nothing_to_move(), ranked_beside_a_sale()]
        .map(|list| list.concat());
    assert_all_given(&lists, SALE, &SALE_ANSWERS);
    lists.to_vec()
}

/// Bids taken back: every answer of WITHDRAW in both rounds, what CLOSE then allots, a bid sent again, and places that stay taken.
fn withdrawals() -> Vec<Vec<u8>> {
    let lists = [declined_withdrawals(), allotted_without(), sent_again(), no_bid_left(), places_stay_taken()]
        .map(|list| list.concat());
    assert_all_given(&lists, WITHDRAW, &WITHDRAW_ANSWERS);
    lists.to_vec()
}

/// Every reason to decline a WITHDRAW, in every stage: another member's bid, a number not given yet or past 255, a bid withdrawn before, a bid of the first
/// round in the second, sold, below the reserve or withdrawn. What stands is sold: 1 unit of bid 1 and 2 of bid 4.
fn declined_withdrawals() -> Vec<Vec<u8>> {
    let h = Head { hedge_loss: 40, margin: 10, ..head_of(1, 2) };
    vec![
        withdraw(0, 0),
        field(WITHDRAW, &[0; 2]),
        head(&h),
        withdraw(0, 0),
        pool(0, 9, 0),
        member(0, 10, [0; 4]),
        member(1, 10, [0; 4]),
        round(&[-5]),
        withdraw(0, 0),
        bid(0, 0, 3, -4),
        bid(0, 1, 1, -4),
        bid(0, 0, 2, -6),
        field(WITHDRAW, &[0; 4]),
        withdraw(2, 0),
        withdraw(32, 65_535),
        withdraw(1, 0),
        withdraw(0, 1),
        withdraw(0, 3),
        withdraw(0, 256),
        withdraw(1, 257),
        withdraw(0, 512),
        withdraw(0, 65_535),
        withdraw(0, 0),
        withdraw(0, 0),
        close(),
        withdraw(1, 1),
        round(&[-9]),
        withdraw(1, 1),
        withdraw(0, 2),
        withdraw(0, 0),
        bid(0, 1, 5, -2),
        bid(0, 0, 2, -9),
        withdraw(1, 0),
        withdraw(0, 3),
        withdraw(1, 3),
        withdraw(1, 3),
        withdraw(255, 4),
        close(),
        withdraw(0, 4),
        tear(0, -1),
        call(),
        withdraw(0, 4),
        pay(0, 10),
        pay(1, 10),
        finish(),
        withdraw(0, 4),
        field(WITHDRAW, &[]),
    ]
}

/// Two pools. In pool 0 the bid above the others is withdrawn, so that 5 and not 2 are split by 4, 4 and 2; in pool 1 the three bids ask for more than is open
/// and the two that stand do not. The prices are −10 and −4, and the ranks 2 3 1.
fn allotted_without() -> Vec<Vec<u8>> {
    let h = Head { margin: 5, house: 4, ..head_of(2, 3) };
    vec![
        head(&h),
        pool(0, 5, 0),
        pool(1, 10, 0),
        member(0, 7, [1, 4, 0, 0]),
        member(1, 7, [4, 0, 0, 0]),
        member(2, 7, [0; 4]),
        round(&[-9, -3]),
        bid(0, 0, 4, -2),
        bid(0, 2, 3, -1),
        bid(1, 0, 4, -1),
        bid(0, 1, 4, -2),
        bid(1, 1, 7, -1),
        bid(0, 2, 2, -2),
        bid(1, 2, 4, 0),
        withdraw(2, 1),
        withdraw(1, 4),
        close(),
        tear(1, 0),
        finish(),
    ]
}

/// Two bids of 2 at one price and 3 units: the odd one goes to the earlier bid, which is member 1's once member 0 has taken its own back and sent it again.
/// The MOVE takes units of the later bid, number 2.
fn sent_again() -> Vec<Vec<u8>> {
    let given = [pool(0, 3, 0), member(0, 10, [1, 0, 0, 0]), member(1, 4, [1, 0, 0, 0]), round(&[-9])];
    let bids = [bid(0, 0, 2, -8), bid(0, 1, 2, -8), withdraw(0, 0), bid(0, 0, 2, -8), close()];
    [vec![head(&head_of(1, 2))], given.to_vec(), bids.to_vec(), vec![call(), move_units(1), pay(0, 7), finish()]]
        .concat()
}

/// Every bid of the first round is withdrawn, so nobody has won and both are short; the second round's reserve still counts for what is sold in it.
fn no_bid_left() -> Vec<Vec<u8>> {
    let h = Head { margin: 100, ..head_of(1, 2) };
    vec![
        head(&h),
        pool(0, 6, 0),
        member(0, 0, [2, 0, 0, 0]),
        member(1, 0, [1, 0, 0, 0]),
        round(&[-3]),
        bid(0, 0, 6, -1),
        bid(0, 1, 2, -2),
        withdraw(1, 1),
        withdraw(0, 0),
        close(),
        allocate(0, -4),
        round(&[-9]),
        bid(0, 1, 2, -7),
        bid(0, 1, 2, -7),
        withdraw(1, 3),
        close(),
        tear(0, -5),
        finish(),
    ]
}

/// 256 bids, of which two are withdrawn: the next is declined by 7 before and after, also in the second round.
fn places_stay_taken() -> Vec<Vec<u8>> {
    let mut all =
        vec![head(&Head { margin: 1_000, ..head_of(1, 1) }), pool(0, 256, 0), member(0, 0, [0; 4]), round(&[-1])];
    all.extend((0..255).map(|_| bid(0, 0, 1, -1)));
    all.extend([withdraw(0, 7), bid(0, 0, 1, -1), bid(0, 0, 1, -1), withdraw(0, 255), bid(0, 0, 1, -1)]);
    all.extend([withdraw(0, 256), withdraw(0, 255), close(), round(&[-1]), bid(0, 0, 1, -1), withdraw(0, 0), close()]);
    all.extend([tear(0, 0), finish()]);
    all
}

/// Exact ties of remainders (C-15) that decide at CLOSE, ALLOCATE, CALL and FINISH; the text of each is another where ties go to the earlier, whatever the weights.
fn ties() -> Vec<Vec<u8>> {
    [tied_bids(), tied_shortfalls(), tied_calls(), tied_charges(), tied_payments()].map(|list| list.concat()).to_vec()
}

/// 2 units by bids of 1 and 3 at one price: 0 and 2. So the ranks are 2 1, where 1 and 1 would make both rank 1.
fn tied_bids() -> Vec<Vec<u8>> {
    let given = [head(&head_of(1, 2)), pool(0, 2, 0), member(0, 9, [0; 4]), member(1, 9, [0; 4]), round(&[-9])];
    [&given[..], &[bid(0, 0, 1, -5), bid(0, 1, 3, -5), close(), finish()]].concat()
}

/// HEAD with a loss, one pool and members 0 to 3 with weights of 1, 1, 3 and 1, by which 3 are split 1, 0, 2 and 0: the 3 has the first that is left and member 0
/// the second.
fn four_members(loss: u32, units: u16, contributions: [u32; 4], expected: [u16; 4]) -> Vec<Vec<u8>> {
    let mut all = vec![head(&Head { hedge_loss: loss, ..head_of(1, 4) }), pool(0, units, 0)];
    all.extend((0..4).map(|m| member(m, contributions[usize::from(m)], [expected[usize::from(m)], 0, 0, 0])));
    all.extend([round(&[-9]), close()]);
    all
}

/// Shortfalls of 1, 1, 3 and 1: a MISS finds units of members 0 and 2 only.
fn tied_shortfalls() -> Vec<Vec<u8>> {
    let misses = [miss(1, 0), miss(3, 0), miss(2, 0), miss(0, 0)];
    [&four_members(0, 3, [0; 4], [1, 1, 3, 1])[..], &[allocate(0, -1)], &misses, &[finish()]].concat()
}

/// Contributions of 1, 1, 3 and 1, and 3 above prefunded: members 0 and 2 owe 1 and 2.
fn tied_calls() -> Vec<Vec<u8>> {
    let payments = [pay(1, 1), pay(3, 1), pay(2, 3), pay(2, 2), pay(0, 1)];
    [&four_members(9, 1, [1, 1, 3, 1], [0; 4])[..], &[tear(0, 0), call()], &payments, &[finish()]].concat()
}

/// One rank with contributions of 1, 1, 3 and 1 bears 3: the charges are 1, 0, 2 and 0.
fn tied_charges() -> Vec<Vec<u8>> {
    [&four_members(3, 1, [1, 1, 3, 1], [0; 4])[..], &[tear(0, 0), finish()]].concat()
}

/// Payments of 1, 1, 3 and 1, of which a MISS at 3 leaves 3 to bear: 1, 0, 2 and 0.
fn tied_payments() -> Vec<Vec<u8>> {
    let payments = [pay(0, 1), pay(1, 1), pay(2, 3), pay(3, 1)];
    let rest = [miss(0, 3), finish()];
    [&four_members(12, 1, [1, 1, 3, 1], [1, 0, 0, 0])[..], &[allocate(0, 0), call()], &payments, &rest].concat()
}

/// Every reason to decline a SALE in turn, and the limit of 17: 30 lost, and 90 for both pools, are margin and fund together. One cent more is declined.
fn declined_sales() -> Vec<Vec<u8>> {
    let h = Head { hedge_loss: 20, other_loss: 10, margin: 80, fund: 40, house: 500, ..head_of(3, 2) };
    vec![
        sale(0, 0, -10),
        field(SALE, &[0; 5]),
        head(&h),
        pool(0, 3, 0),
        pool(1, 1, 1),
        member(1, 100, [0; 4]),
        sale(3, 2, 1_000_001),
        sale(2, 2, 1_000_001),
        sale(2, 0, 1_000_001),
        sale(2, 0, -1_000_000),
        sale(0, 0, -1_000_000),
        pool(2, 5, 0),
        sale(0, 0, -1_000_000),
        member(0, 100, [0; 4]),
        sale(0, 0, -1_000_000),
        sale(0, 32, -10),
        sale(0, 0, -31),
        sale(0, 0, -20),
        sale(0, 1, -20),
        sale(1, 1, -31),
        sale(1, 1, -30),
        pool(2, 5, 0),
        member(0, 100, [0; 4]),
        field(SALE, &[2, 0, 0, 0, 0, 0, 0]),
        round(&[0, 0, 1_000_001]),
        round(&[0, 0, -10]),
        sale(2, 0, 0),
        bid(0, 0, 1, 0),
        bid(2, 0, 5, -9),
        close(),
        sale(2, 0, 0),
        finish(),
        sale(2, 0, 0),
    ]
}

/// Two pools sold one by one: the second sale makes A1, where ROUND is 8, CALL 12 and FINISH free.
fn sold_whole() -> Vec<Vec<u8>> {
    let h = Head { hedge_loss: 10, margin: 40, fund: 20, house: 5, least_bid: 9, ..head_of(2, 2) };
    vec![
        head(&h),
        pool(0, 4, 1),
        pool(1, 2, 0),
        member(0, 7, [4, 0, 0, 0]),
        member(1, 7, [0, 2, 0, 0]),
        sale(1, 0, -5),
        sale(0, 1, -10),
        round(&[0]),
        round(&[0, 1_000_001]),
        round(&[0, 0]),
        pool(0, 4, 1),
        member(0, 7, [0; 4]),
        bid(0, 0, 9, 0),
        close(),
        allocate(2, 0),
        allocate(0, 1_000_001),
        allocate(0, 0),
        field(ALLOCATE, &[]),
        tear(2, 0),
        tear(1, 0),
        call(),
        pay(0, 1),
        move_units(0),
        miss(0, 0),
        sale(0, 1, -10),
        field(FINISH, &[0]),
        finish(),
        round(&[0, 0]),
    ]
}

/// Units so sold have the lowest price; the MOVEs take allocated units and then those of the bid, and a MISS of the buyer tears what it was given.
fn passed_over() -> Vec<Vec<u8>> {
    let h = Head { margin: 100, ..head_of(3, 2) };
    vec![
        head(&h),
        pool(0, 2, 0),
        pool(1, 3, 0),
        pool(2, 2, 0),
        member(0, 12, [9, 0, 2, 0]),
        member(1, 12, [0; 4]),
        sale(0, 0, -50),
        round(&[-50, -10, 0]),
        bid(0, 1, 1, 0),
        bid(1, 1, 3, -10),
        close(),
        miss(0, 1),
        allocate(0, -4),
        allocate(2, -4),
        call(),
        move_units(0),
        move_units(1),
        miss(0, 1),
        miss(0, 1),
        finish(),
    ]
}

/// Only units so sold have a negative price and an owner, so that MOVE moves nothing and ends the debt.
fn nothing_to_move() -> Vec<Vec<u8>> {
    let h = Head { margin: 100, ..head_of(2, 1) };
    let sold =
        [pool(0, 2, 0), pool(1, 1, 0), member(0, 30, [0; 4]), sale(0, 0, -50), round(&[0, 0]), close(), tear(1, -60)];
    [vec![head(&h)], sold.to_vec(), vec![call(), move_units(0), miss(0, 0), finish()]].concat()
}

/// Member 1 buys 5 units and is short in pool 1; what member 0 expects in the pool so sold does not count. The ranks are 1 2.
fn ranked_beside_a_sale() -> Vec<Vec<u8>> {
    let h = Head { margin: 10, house: 3, ..head_of(2, 2) };
    let given = [pool(0, 5, 0), pool(1, 1, 0), member(0, 9, [5, 0, 0, 0]), member(1, 9, [0, 1, 0, 0])];
    let rest = [sale(0, 1, -2), round(&[-9, -9]), close(), tear(1, -15), finish()];
    [vec![head(&h)], given.to_vec(), rest.to_vec()].concat()
}

fn head_of(pools: u8, members: u32) -> Head {
    Head { pools, least_bid: 1, set: (1 << members) - 1, hedge_loss: 0, other_loss: 0, margin: 0, fund: 0, house: 0 }
}

/// K9: bid 255 is kept, the next is declined by 7, and the case goes on.
fn bids_255_and_256() -> Vec<u8> {
    let mut all =
        vec![head(&Head { margin: 1_000, ..head_of(1, 1) }), pool(0, 300, 0), member(0, 0, [0; 4]), round(&[-1])];
    all.extend((0..257).map(|_| bid(0, 0, 1, -1)));
    all.extend([close(), round(&[-1]), bid(0, 0, 1, -1), close(), finish()]);
    all.concat()
}

/// Annexure 1 of document 000: seven members P to V, one bucket of 160 units, prices in hundredths. The ranks are 2 5 4 3 7 1 6.
fn annexure_1() -> Vec<u8> {
    let mut all = vec![head(&Head { margin: 1_000_000, ..head_of(1, 7) }), pool(0, 160, 0)];
    all.extend([8, 16, 64, 32, 40, 0, 0].iter().zip(0..).map(|(&units, number)| member(number, 0, [units, 0, 0, 0])));
    all.push(round(&[-1125]));
    all.extend(
        [(0, 10, -600), (1, 16, -720), (2, 20, -730), (3, 10, -630), (4, 20, -710), (5, 5, -710)]
            .map(|(number, units, price)| bid(0, number, units, price)),
    );
    all.extend([close(), round(&[-1519])]);
    all.extend(
        [(2, 45, -1400), (3, 24, -1450), (4, 10, -1200)].map(|(number, units, price)| bid(0, number, units, price)),
    );
    all.extend([close(), finish()]);
    all.concat()
}

/// The pairs of tag and answer that an input gives, with the tags of calls only.
fn pairs_of(input: &[u8]) -> BTreeSet<(u8, u8)> {
    let mut ledger = Roll::default();
    fields(input)
        .iter()
        .map(|field| (field[0], ledger.call(field)))
        .filter(|&(tag, _)| (1..=WITHDRAW).contains(&tag))
        .collect()
}

/// Short generated inputs that together give every pair of document 01's calls that was not seen before.
fn every_pair(mut seen: BTreeSet<(u8, u8)>) -> Vec<Vec<u8>> {
    let mut kept = Vec::new();
    let mut seed = 0;
    while seen.len() < PAIRS {
        seed += 1;
        assert!(seed < 100_000, "{} pairs of {PAIRS}", seen.len());
        let input = calls_of_01(seed, profile_of(seed))
            .into_iter()
            .filter(|call| fields(call).len() == 1)
            .collect::<Vec<_>>()
            .concat();
        if input.len() > 4_000 {
            continue;
        }
        let pairs: BTreeSet<(u8, u8)> = pairs_of(&input).into_iter().filter(|&(tag, _)| tag <= FINISH).collect();
        if !pairs.is_subset(&seen) {
            seen.extend(pairs);
            kept.push(input);
        }
    }
    kept
}
