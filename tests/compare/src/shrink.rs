//! Takes calls out of a list for as long as the difference stays.

use std::time::{Duration, Instant};

/// The shortest list found within so long.
pub fn shrink(mut calls: Vec<Vec<u8>>, time: Duration, differs: impl Fn(&[Vec<u8>]) -> bool) -> Vec<Vec<u8>> {
    let start = Instant::now();
    let mut size = calls.len().div_ceil(2);
    while size > 0 {
        let mut at = 0;
        let mut shorter = false;
        while at < calls.len() && start.elapsed() < time {
            let end = (at + size).min(calls.len());
            let rest = [&calls[..at], &calls[end..]].concat();
            if differs(&rest) {
                calls = rest;
                shorter = true;
            } else {
                at = end;
            }
        }
        // Single calls are tried anew until none can go.
        if size > 1 || !shorter {
            size /= 2;
        }
        if start.elapsed() >= time {
            break;
        }
    }
    calls
}

#[cfg(test)]
mod tests {
    use super::*;

    #[test]
    fn only_the_calls_that_matter_stay() {
        let calls: Vec<Vec<u8>> = (0..100).map(|number| vec![number]).collect();
        let differs = |list: &[Vec<u8>]| list.contains(&vec![7]) && list.contains(&vec![93]);
        assert_eq!(shrink(calls, Duration::from_secs(60), differs), [[7], [93]]);
    }
}
