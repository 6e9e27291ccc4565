//! The public entries with limits: splitting alone and the auction alone.

use model::{BidRecord, allot_flat, alone_flat, alone_lent, split, split_alone};

#[test]
fn splitting_alone_keeps_its_limits() {
    let mut shares = [7, 7];
    assert_eq!(split_alone(6, &[5, 3, 1], &mut shares), 1);
    assert_eq!(split_alone(16_000_000_001, &[5, 3], &mut shares), 5);
    assert_eq!(split_alone(6, &[1_000_000_001, 3], &mut shares), 5);
    assert_eq!(shares, [7, 7]);
    assert_eq!(split_alone(16_000_000_000, &[1_000_000_000, 0], &mut shares), 0);
    assert_eq!(shares, [16_000_000_000, 0]);
    let mut long = vec![9; 513];
    // A length past the limit comes before a number out of range.
    assert_eq!(split_alone(16_000_000_001, &vec![1; 513], &mut long), 1);
    assert_eq!(split_alone(512, &vec![1; 512], &mut long[..512]), 0);
    assert!(long[..512].iter().all(|&share| share == 1));
    assert_eq!(split_alone(3, &[], &mut []), 0);
}

#[test]
fn splitting_holds_for_any_number() {
    assert_eq!(split(u64::MAX, &[u64::MAX, u64::MAX]), [1 << 63, (1 << 63) - 1]);
    // More is split than the weights add up to.
    assert_eq!(split(100, &[1, 2]), [33, 67]);
    assert_eq!(split(5, &[]), []);
}

#[test]
fn the_auction_alone_keeps_its_limits() {
    let record = |units, price| BidRecord { units, price };
    let mut counts = [7, 7];
    assert_eq!(alone_lent(&[record(1, 0)], 1, 0, &mut counts), 1);
    for (bids, open, reserve) in [
        ([record(0, 0), record(1, 0)], 1, 0),
        ([record(1001, 0), record(1, 0)], 1, 0),
        ([record(1, 0), record(1, 1_000_001)], 1, 0),
        ([record(1, 0), record(1, i32::MIN)], 1, 0),
        ([record(1, 0), record(1, 0)], 1001, 0),
        ([record(1, 0), record(1, 0)], 1, -1_000_001),
    ] {
        assert_eq!(alone_lent(&bids, open, reserve, &mut counts), 5);
    }
    assert_eq!(counts, [7, 7]);
    assert_eq!(alone_lent(&[record(5, -20), record(3, -20)], 6, -30, &mut counts), 0);
    assert_eq!(counts, [4, 2]);
    assert_eq!(alone_lent(&[record(5, -20), record(3, -20)], 0, -30, &mut counts), 0);
    assert_eq!(counts, [0, 0]);
    assert_eq!(alone_lent(&[], 10, 0, &mut []), 0);
    let mut long = vec![7; 257];
    assert_eq!(alone_lent(&vec![record(0, 0); 257], 1, 0, &mut long), 1);
    assert_eq!(alone_lent(&vec![record(1, 0); 256], 1, 0, &mut long[..256]), 0);
    assert_eq!((long[0], long[1], long[256]), (1, 0, 7));
}

#[test]
fn the_flat_auction_keeps_its_limits() {
    let mut counts = [7, 7];
    let held = |cents: i32| (cents + 1_000_000) as u32;
    assert_eq!(alone_flat(6, held(-30), &[5, 3], &[held(-20)], &mut counts), 1);
    assert_eq!(alone_flat(6, held(-30), &[5, 0], &[held(-20); 2], &mut counts), 5);
    assert_eq!(alone_flat(6, 2_000_001, &[5, 3], &[held(-20); 2], &mut counts), 5);
    assert_eq!(alone_flat(1001, held(-30), &[5, 3], &[held(-20); 2], &mut counts), 5);
    assert_eq!(alone_flat(6, held(-30), &[5, 3], &[held(-20), 2_000_001], &mut counts), 5);
    assert_eq!(counts, [7, 7]);
    assert_eq!(alone_flat(6, held(-30), &[5, 3], &[held(-20); 2], &mut counts), 0);
    assert_eq!(counts, [4, 2]);
    assert_eq!(allot_flat(6, held(-30), &[5, 0], &[held(-20); 2], &mut counts), 0);
    assert_eq!(counts, [5, 0]);
    let mut long = vec![7; 259];
    let flat = |places: usize, counts: &mut [u64]| allot_flat(1, 0, &vec![1; places], &vec![0; places], counts);
    assert_eq!(flat(259, &mut long), 1);
    assert_eq!(flat(258, &mut long[..258]), 0);
    assert_eq!(alone_flat(1, 0, &vec![1; 257], &vec![0; 257], &mut long[..257]), 1);
}
