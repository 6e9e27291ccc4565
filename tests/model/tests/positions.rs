//! C-11 of document 02: cases worked by hand, each over both writings, and the two against each other on random runs.

#[path = "common/random.rs"]
mod random;

use model::positions::{POSITION_LIMIT, WINDOW};
use model::{Ring, expected, first_declined, sums_afresh};
use random::Random;

/// What stands in the shares before a run.
const OLD: [u64; 32] = [77; 32];

/// Records one behind the other.
fn run_of<const N: usize>(records: &[[u32; N]]) -> Vec<u8> {
    records.iter().flatten().flat_map(|position| position.to_be_bytes()).collect()
}

/// The shares, or the answer where that is not 0.
fn asked(set: u32, units: u64, days: &[u8]) -> Result<[u64; 32], u8> {
    let (mut shares, mut others) = (OLD, OLD);
    let answer = expected(set, units, days, &mut shares);
    assert_eq!(Ring::run(set, units, days, &mut others), answer, "the answer of the ring");
    assert_eq!(others, shares, "the shares of the ring");
    if answer == 0 {
        return Ok(shares);
    }
    assert_eq!(shares, OLD, "a run that is declined has no result");
    Err(answer)
}

/// Shares by member, 0 for all others.
fn given(shares: &[(usize, u64)]) -> Result<[u64; 32], u8> {
    let mut all = [0; 32];
    for &(member, share) in shares {
        all[member] = share;
    }
    Ok(all)
}

#[test]
fn with_fewer_than_66_days_the_sums_cover_the_days_there_are() {
    let days = run_of(&[[1, 2], [3, 0]]);
    assert_eq!(sums_afresh(0b11, &days)[..3], [4, 2, 0]);
    assert_eq!(asked(0b11, 9, &days), given(&[(0, 6), (1, 3)]));
}

#[test]
fn the_first_day_counts_on_day_66_and_not_on_day_67() {
    let mut records = vec![[60, 0]];
    records.extend([[0, 1]; 65]);
    assert_eq!(asked(0b11, 125, &run_of(&records)), given(&[(0, 60), (1, 65)]));
    records.push([0, 1]);
    assert_eq!(asked(0b11, 125, &run_of(&records)), given(&[(1, 125)]));
}

#[test]
fn the_sums_are_those_of_the_last_66_days_at_every_day() {
    // Day d has the position d, so the last 66 days of d add up to 66 × d less 1 + 2 + .. + 65.
    let mut ring = Ring::new(1 << 9);
    let mut days = Vec::new();
    for day in 1..=200_u32 {
        days.extend(day.to_be_bytes());
        assert_eq!(ring.take(&day.to_be_bytes()), (4, 0));
        let d = u64::from(day);
        let sum = if day < 66 { d * (d + 1) / 2 } else { 66 * d - 2_145 };
        assert_eq!(sums_afresh(1 << 9, &days)[0], sum, "day {day}");
        assert_eq!(ring.sums()[0], sum, "day {day} of the ring");
    }
}

#[test]
fn a_position_out_of_range_is_5_though_it_has_left_the_window() {
    let mut records = vec![[POSITION_LIMIT + 1]];
    records.extend([[1]; 100]);
    assert_eq!(asked(1, 10, &run_of(&records)), Err(5));
    records[0] = [POSITION_LIMIT];
    assert_eq!(asked(1, 10, &run_of(&records)), given(&[(0, 10)]));
}

#[test]
fn a_record_cut_short_is_1_whatever_its_positions_are() {
    let mut days = run_of(&[[1, 1], [u32::MAX, u32::MAX]]);
    assert_eq!(asked(0b11, 10, &days), Err(5));
    for _ in 0..7 {
        days.pop();
        assert_eq!(asked(0b11, 10, &days), Err(1), "{} bytes", days.len());
        assert_eq!(first_declined(0b11, &days), Some((8, 1)));
    }
    days.pop();
    assert_eq!(asked(0b11, 10, &days), given(&[(0, 5), (1, 5)]));
}

#[test]
fn a_position_out_of_range_before_a_cut_record_is_5() {
    let days = run_of(&[[1, 1], [0, POSITION_LIMIT + 1], [1, 1]]);
    assert_eq!(asked(0b11, 10, &days[..23]), Err(5));
    assert_eq!(first_declined(0b11, &days[..23]), Some((8, 5)));
    assert_eq!(asked(0b11, 10, &days[..15]), Err(1));
}

#[test]
fn positions_go_from_0_to_10_000_000_at_every_place() {
    for place in 0..3 {
        let mut record = [0; 3];
        record[place] = 10_000_000;
        let member = [1, 4, 30][place];
        assert_eq!(asked(1 << 1 | 1 << 4 | 1 << 30, 7, &run_of(&[record])), given(&[(member, 7)]));
        for above in [10_000_001, 1 << 31, u32::MAX] {
            record[place] = above;
            assert_eq!(asked(1 << 1 | 1 << 4 | 1 << 30, 7, &run_of(&[record])), Err(5), "{above} at {place}");
        }
    }
}

#[test]
fn an_empty_set_is_5_whatever_the_bytes_are() {
    for days in [&[][..], &[0], &[0; 4], &[255; 9]] {
        assert_eq!(asked(0, 10, days), Err(5), "{days:?}");
        assert_eq!(sums_afresh(0, days), [0; 32]);
    }
    assert_eq!(asked(0, 0, &[1]), Err(5));
}

#[test]
fn pool_units_go_from_1_to_1_000_and_are_asked_before_the_run() {
    let days = run_of(&[[3, 2]]);
    assert_eq!(asked(0b11, 1, &days), given(&[(0, 1)]));
    assert_eq!(asked(0b11, 1_000, &days), given(&[(0, 600), (1, 400)]));
    for units in [0, 1_001, 65_537, (1 << 32) + 1, u64::MAX] {
        assert_eq!(asked(0b11, units, &days), Err(5), "{units}");
        // A cut record would be 1.
        assert_eq!(asked(0b11, units, &days[..7]), Err(5), "{units}, a cut record");
        assert_eq!(asked(0b11, units, &[]), Err(5), "{units}, no day");
    }
    assert_eq!(asked(0b11, 1_000, &days[..7]), Err(1));
}

#[test]
fn no_day_or_sums_of_0_give_shares_of_0() {
    assert_eq!(asked(0b101, 1_000, &[]), given(&[]));
    assert_eq!(asked(0b101, 1_000, &run_of(&[[0, 0]; 3])), given(&[]));
    // What was not 0 has left the window.
    let mut records = vec![[5, 5]];
    records.extend([[0, 0]; 66]);
    assert_eq!(asked(0b101, 1_000, &run_of(&records)), given(&[]));
}

#[test]
fn the_weights_are_sums_and_not_averages() {
    // Averages cut to whole numbers would be 0 and 1, rounded up 1 and 1.
    assert_eq!(asked(0b11, 3, &run_of(&[[1, 1], [0, 1]])), given(&[(0, 1), (1, 2)]));
}

#[test]
fn more_units_than_the_sums_add_up_to_are_split_too() {
    assert_eq!(asked(0b11, 100, &run_of(&[[1, 2]])), given(&[(0, 33), (1, 67)]));
}

#[test]
fn thirty_two_members_at_their_most() {
    // 1,000 by 32 is 31, and 8 are left for the first eight of equal remainders.
    let days = run_of(&[[10_000_000; 32]; 70]);
    assert_eq!(sums_afresh(u32::MAX, &days), [660_000_000; 32]);
    let shares: Vec<(usize, u64)> = (0..32).map(|member| (member, if member < 8 { 32 } else { 31 })).collect();
    assert_eq!(asked(u32::MAX, 1_000, &days), given(&shares));
    // 1 + 2 + .. + 32 is 528, so each share is its weight.
    let steps: [u32; 32] = std::array::from_fn(|member| member as u32 + 1);
    let shares: Vec<(usize, u64)> = (0..32).map(|member| (member, member as u64 + 1)).collect();
    assert_eq!(asked(u32::MAX, 528, &run_of(&[steps])), given(&shares));
    assert_eq!(asked(u32::MAX, 528, &run_of(&[steps])[..127]), Err(1));
}

#[test]
fn shares_stand_at_the_members_numbers() {
    // 6 × 5, 3, 1 by 9: 3, 2 and 0, with remainders of 3, 0 and 6, so the odd unit goes to the last.
    let set = 1 << 3 | 1 << 17 | 1 << 31;
    assert_eq!(asked(set, 6, &run_of(&[[5, 3, 1]])), given(&[(3, 3), (17, 2), (31, 1)]));
    // Two equal weights: the odd unit goes to the earlier member.
    assert_eq!(asked(1 << 9 | 1 << 30, 1, &run_of(&[[4, 4]])), given(&[(9, 1)]));
    // The same bytes are one record and a half of two members.
    assert_eq!(asked(0b11, 6, &run_of(&[[5, 3, 1]])), Err(1));
}

#[test]
fn positions_are_big_endian() {
    assert_eq!(asked(0b11, 257, &[0, 0, 1, 0, 0, 0, 0, 1]), given(&[(0, 256), (1, 1)]));
}

#[test]
fn both_writings_agree_on_random_runs() {
    let mut came = [0; 6];
    let mut wrapped = 0;
    for seed in 0..3_000 {
        let mut r = Random(seed);
        let set = (r.below(1 << 32) & r.below(1 << 32)) as u32 >> r.below(32);
        let members = set.count_ones() as usize;
        let count = if r.below(8) == 0 { r.below(3 * WINDOW) } else { r.below(12) };
        let top = [1, 2, 5, 10_000_001][r.below(4)];
        let mut days: Vec<u8> = (0..count * members).flat_map(|_| (r.below(top) as u32).to_be_bytes()).collect();
        if r.below(4) == 0 && !days.is_empty() {
            let at = r.below(days.len()) / 4 * 4;
            days[at..at + 4].copy_from_slice(&(POSITION_LIMIT + 1 + r.below(3) as u32).to_be_bytes());
        }
        if r.below(4) == 0 {
            days.truncate(r.below(days.len() + 1));
        }
        let units = if r.below(12) == 0 { [0, 1_001][r.below(2)] } else { 1 + r.below(1_000) as u64 };
        let whole = asked(set, units, &days);
        came[usize::from(*whole.as_ref().err().unwrap_or(&0))] += 1;
        wrapped += usize::from(whole.is_ok() && count > WINDOW);

        // The same run in parts: what a part does not use goes in front of the next.
        let (mut ring, mut taken, mut at, mut answer) = (Ring::new(set), 0, 0, 0);
        while at < days.len() && answer == 0 {
            at = days.len().min(at + r.below(2 * 4 * members.max(1) + 1));
            let (used, said) = ring.take(&days[taken..at]);
            taken += used;
            answer = said;
            if answer == 0 {
                assert_eq!(ring.sums(), &sums_afresh(set, &days[..taken]), "sums of {taken} bytes of seed {seed}");
            }
        }
        let mut shares = OLD;
        if answer == 0 {
            answer = ring.end(units, days.len() - taken, &mut shares);
        }
        assert_eq!(if answer == 0 { Ok(shares) } else { Err(answer) }, whole, "in parts, seed {seed}");
        assert!(answer == 0 || shares == OLD, "a result of a run that is declined, seed {seed}");
    }
    assert!(came[0] > 0 && came[1] > 0 && came[5] > 0 && wrapped > 0, "{came:?}, {wrapped} past the window");
}
