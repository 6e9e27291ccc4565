//! Each call of the largest case (4 pools of 1,000 units, 256 bids, 32 members), timed by itself: in the loop of `case::replay`, which takes it again and again from the
//! case that the calls before it lead to, and in the model that holds counts, over ledgers that took the same calls. Then the question for the requirement (C-16) after some of
//! these calls. A word after the program's name picks what has it in its name.
use linked::ledger;
use model::write::{self, Head};
use model::{Counts, Ledger, Roll};
use std::hint::black_box;
use std::time::Instant;

/// Rounds of the two in turn; the least time counts.
const ROUNDS: usize = 25;
/// A call is taken so many times in a round that the calls before it are less than a hundredth of the round, which lasts some milliseconds.
const SHARE: f64 = 100.0;
const SECONDS: f64 = 0.005;
/// The model's ledgers in a round.
const LEDGERS: usize = 32;

/// Of Linux's <time.h>.
const CLOCK_THREAD_CPUTIME_ID: i32 = 3;

mod c {
    unsafe extern "C" {
        pub fn clock_gettime(clock: i32, seconds_and_nanoseconds: *mut i64) -> i32;
    }

    #[link(name = "timing", kind = "static")]
    unsafe extern "C" {
        pub fn ledger_each(
            before: *const u8,
            b: usize,
            cuts: *const usize,
            d: usize,
            bytes: *const u8,
            n: usize,
            ends: *const usize,
            e: usize,
            result: bool,
            numbers: *mut u64,
            m: usize,
        );
    }
}

/// The seconds of processor time that this thread has had: other work on the machine counts less than by the clock.
fn seconds() -> f64 {
    let mut time = [0i64; 2];
    assert_eq!(unsafe { c::clock_gettime(CLOCK_THREAD_CPUTIME_ID, time.as_mut_ptr()) }, 0);
    time[0] as f64 + time[1] as f64 * 1e-9
}

/// Byte strings one behind the other, and where each ends.
#[derive(Clone, Default)]
struct Strings {
    bytes: Vec<u8>,
    ends: Vec<usize>,
}

impl Strings {
    fn add(&mut self, call: Vec<u8>) {
        self.bytes.extend(call);
        self.ends.push(self.bytes.len());
    }

    fn with(&self, calls: impl Iterator<Item = Vec<u8>>) -> Strings {
        let mut more = self.clone();
        calls.for_each(|call| more.add(call));
        more
    }

    fn repeated(call: &[u8], times: usize) -> Strings {
        Strings { bytes: call.repeat(times), ends: (1..=times).map(|k| k * call.len()).collect() }
    }

    fn each(&self) -> impl Iterator<Item = &[u8]> {
        let begins = std::iter::once(0).chain(self.ends.iter().copied());
        begins.zip(&self.ends).map(|(begin, &end)| &self.bytes[begin..end])
    }
}

/// `timing::ledger_each`, and the seconds that it takes.
fn proved(before: &Strings, calls: &Strings, result: bool, numbers: &mut [u64]) -> f64 {
    let start = seconds();
    unsafe {
        c::ledger_each(
            before.bytes.as_ptr(),
            before.bytes.len(),
            before.ends.as_ptr(),
            before.ends.len(),
            calls.bytes.as_ptr(),
            calls.bytes.len(),
            calls.ends.as_ptr(),
            calls.ends.len(),
            result,
            numbers.as_mut_ptr(),
            numbers.len(),
        )
    }
    seconds() - start
}

fn after<L: Ledger + Default>(before: &Strings) -> L {
    let mut ledger = L::default();
    before.each().for_each(|call| assert_eq!(ledger.call(call), 0, "a call before is declined"));
    ledger
}

/// The seconds by the clock that the model takes for the call, once in each of some ledgers: too short for other work to come between, or to be told by processor time.
fn counted(before: &Strings, call: &[u8]) -> f64 {
    let mut ledgers: Vec<Counts> = (0..LEDGERS).map(|_| after(before)).collect();
    let start = Instant::now();
    for ledger in &mut ledgers {
        black_box(ledger.call(black_box(call)));
    }
    start.elapsed().as_secs_f64() / LEDGERS as f64
}

/// What `timing::ledger_each` has to tell of the call: the answer, or else the open units of pool 0 or the smaller charge of member 0.
fn expected(ledger: &mut Counts, call: &[u8], result: bool) -> (u8, u64) {
    let answer = ledger.call(call);
    let number = match (answer, result) {
        (0, false) => ledger.counts(0)[0],
        (0, true) => ledger
            .result()
            .map(|r| r.members[0].contribution_charge.min(r.members[0].payment_charge))
            .expect("finished"),
        _ => u64::from(answer),
    };
    (answer, number)
}

fn is_asked_for(name: &str) -> bool {
    std::env::args().nth(1).is_none_or(|word| name.contains(&word))
}

/// Times a call; `most` is what it may take, in nanoseconds.
fn time(name: &str, before: &Strings, call: &[u8], result: bool, most: f64) {
    if !is_asked_for(name) {
        return;
    }
    let (answer, number) = expected(&mut after(before), call, result);
    let alone = (0..ROUNDS).map(|_| proved(before, &Strings::default(), result, &mut [])).fold(f64::MAX, f64::min);
    let mut times = 64;
    let mut calls = Strings::repeated(call, times);
    while proved(before, &calls, result, &mut []) < SECONDS.max(alone * SHARE) {
        times *= 2;
        calls = Strings::repeated(call, times);
    }
    let mut numbers = vec![u64::MAX; times];
    let (mut ours, mut theirs) = (f64::MAX, f64::MAX);
    for _ in 0..ROUNDS {
        ours = ours.min(proved(before, &calls, result, &mut numbers) * 1e9 / times as f64);
        theirs = theirs.min(counted(before, call) * 1e9);
    }
    assert!(numbers.iter().all(|n| *n == number), "{name}: the model has {number}");
    let mark = if ours <= most { "" } else { "  ABOVE" };
    println!(
        "{name:<34} answer {answer:>2} {times:>8} times {ours:>10.0} ns {theirs:>8.0} ns   at most {most:>7.0}{mark}"
    );
}

/// The least nanoseconds of a question that is asked so many times in a round.
fn least(times: usize, question: impl Fn() -> (u8, u64)) -> f64 {
    let round = || {
        let start = seconds();
        for _ in 0..times {
            black_box(question());
        }
        (seconds() - start) * 1e9 / times as f64
    };
    (0..ROUNDS).map(|_| round()).fold(f64::MAX, f64::min)
}

/// Times the question for the requirement after the calls. The exported function takes all of them again, and so does the model beside it; then come the model's
/// reading by itself, from sums that are kept, and the roll's, which adds up all units.
fn time_reading(name: &str, before: &Strings) {
    if !is_asked_for(name) {
        return;
    }
    let (counts, roll): (Counts, Roll) = (after(before), after(before));
    let proved = || {
        let read = ledger::requirement(black_box(&before.bytes), black_box(&before.ends));
        (read.answer, read.cents)
    };
    assert_eq!((proved(), counts.reading()), (roll.reading(), roll.reading()), "{name}");
    let ours = least(64, proved);
    let theirs = least(64, || after::<Counts>(black_box(before)).reading());
    let kept = least(100_000, || black_box(&counts).reading());
    let added = least(64, || black_box(&roll).reading());
    let mark = if ours <= QUESTION { "" } else { "  ABOVE" };
    println!(
        "{name:<34} {:>17} calls {ours:>10.0} ns {theirs:>8.0} ns   at most {QUESTION:>7.0}{mark}; read alone {kept:.0} ns, added up {added:.0} ns",
        before.ends.len()
    );
}

const DECLINED: f64 = 70.0;
const SMALL: f64 = 300.0;
const MIDDLE: f64 = 3_000.0;
const CLOSE: f64 = 30_000.0;
const MOVE: f64 = 100_000.0;
const MOVE_ALL: f64 = 200_000.0;
const QUESTION: f64 = 1_000_000.0;

/// 128 bids of one unit over four pools and 40 prices below 0.
fn bids() -> impl Iterator<Item = Vec<u8>> {
    (0..128u32).map(|i| write::bid((i % 4) as u8, (i % 32) as u8, 1, -1 - (i % 40) as i32))
}

/// 256 bids of 1 to 30 units: over four pools or one, and over so many prices.
fn many_bids(pools: u32, prices: u32) -> impl Iterator<Item = Vec<u8>> {
    (0..256u32).map(move |i| {
        write::bid((i % pools) as u8, (i % 32) as u8, 1 + (i * 13 % 30) as u16, -1 - (i * 7 % prices) as i32)
    })
}

fn main() {
    let head = Head {
        pools: 4,
        least_bid: 1,
        set: u32::MAX,
        hedge_loss: 2_000_000_000,
        other_loss: 0,
        margin: 0,
        fund: 0,
        house: 0,
    };
    let member = |m: u8| write::member(m, 1_000_000, [1000; 4]);
    let one = |call: Vec<u8>| std::iter::once(call);
    println!("{:<57} {:>13} {:>11}", "", "proved", "counts");

    let none = Strings::default();
    time("HEAD", &none, &write::head(&head), false, MIDDLE);
    let made = none.with(one(write::head(&head)));
    time("unknown tag", &made, &write::field(77, &[1, 2, 3]), false, DECLINED);
    time("TEAR in stage S", &made, &write::tear(0, 0), false, DECLINED);
    time("POOL, 1,000 units", &made, &write::pool(0, 1000, 0), false, MIDDLE);
    let pools = made.with((0..4).map(|pool| write::pool(pool, 1000, 0)));
    time("MEMBER", &pools, &member(0), false, MIDDLE);
    let set_up = pools.with((0..32).map(member));
    time("SALE, passes margin and fund", &set_up, &write::sale(0, 3, -5), false, DECLINED);
    time("ROUND", &set_up, &write::round(&[-1000; 4]), false, MIDDLE);

    let round = set_up.with(one(write::round(&[-1000; 4])));
    time("BID, pool not in the case", &round, &write::bid(7, 1, 1, 0), false, DECLINED);
    time("BID", &round, &write::bid(0, 1, 1, -7), false, SMALL);
    let bidden = round.with(one(write::bid(0, 1, 1, -7)));
    time("WITHDRAW, another's bid", &bidden, &write::withdraw(2, 0), false, DECLINED);
    time("WITHDRAW", &bidden, &write::withdraw(1, 0), false, MIDDLE);
    for (name, pools, prices) in [
        ("4 pools, 40 prices", 4, 40),
        ("1 pool, 40 prices", 1, 40),
        ("4 pools, 1 price", 4, 1),
        ("1 pool, 1 price", 1, 1),
    ] {
        time(&format!("CLOSE, 256 bids, {name}"), &round.with(many_bids(pools, prices)), &write::close(), false, CLOSE);
    }
    let first = round.with(bids());
    time("CLOSE, 128 bids", &first, &write::close(), false, CLOSE);
    let closed = first.with(one(write::close()));
    time("FINISH, units open", &closed, &write::finish(), false, DECLINED);
    let second = closed.with(one(write::round(&[-2000; 4]))).with(bids());
    time("BID, 256 are kept", &second, &write::bid(0, 1, 1, -7), false, DECLINED);
    time("CLOSE, 128 of 256 bids", &second, &write::close(), false, CLOSE);
    let sold = second.with(one(write::close()));
    time("TEAR", &sold, &write::tear(0, -5), false, MIDDLE);
    time("ALLOCATE", &sold, &write::allocate(0, -5), false, MIDDLE);

    let placed = sold.with((0..4).map(|pool| write::allocate(pool, -1)));
    time("ALLOCATE, none open", &placed, &write::allocate(0, -5), false, DECLINED);
    time("FINISH, not covered", &placed, &write::finish(), false, DECLINED);
    time("CALL", &placed, &write::call(), false, MIDDLE);
    let called = placed.with(one(write::call()));
    time("PAY", &called, &write::pay(3, 1), false, SMALL);
    time("PAY, above what is owed", &called, &write::pay(3, 1_000_000_000), false, DECLINED);
    time("FINISH, somebody owes", &called, &write::finish(), false, DECLINED);
    time("MISS", &called, &write::miss(3, 0), false, MIDDLE);
    time("MOVE, 4,000 units of 384 groups", &called, &write::move_units(3), false, MOVE_ALL);
    let paid = called.with((0..32).map(|m| write::pay(m, 1_000_000)));
    time("FINISH", &paid, &write::finish(), false, MIDDLE);
    time("FINISH and its result", &paid, &write::finish(), true, CLOSE);

    let few = round
        .with((0..4).map(|pool| write::bid(pool, pool, 1000, -1)))
        .with(one(write::close()))
        .with(one(write::call()));
    time("MOVE, 4,000 units of 4 groups", &few, &write::move_units(3), false, MOVE);

    let no_loss = none
        .with(one(write::head(&Head { hedge_loss: 0, ..head })))
        .with((0..4).map(|pool| write::pool(pool, 1000, 0)))
        .with((0..32).map(|m| write::member(m, 1_000_000, [0; 4])));
    time("SALE, 1,000 units", &no_loss, &write::sale(0, 3, 5), false, MIDDLE);
    let covered = no_loss.with(one(write::round(&[-1000; 4]))).with(one(write::close()));
    time("ALLOCATE, nobody is short", &covered, &write::allocate(0, -5), false, DECLINED);
    let torn = covered.with((0..4).map(|pool| write::tear(pool, -5)));
    time("CALL, enough is prefunded", &torn, &write::call(), false, DECLINED);

    time_reading("requirement, no case", &none);
    time_reading("requirement, all set up", &set_up);
    time_reading("requirement, 256 bids, all placed", &placed);
    time_reading("requirement, 4,000 units moved", &called.with(one(write::move_units(3))));
}
