//! A smaller input that still differs, by leaving out parts.
use std::time::{Duration, Instant};

/// The most bytes that a character has: parts of so many elements and fewer are left out at every place.
const CHARACTER: usize = 4;

/// The smallest list for which the question is still answered with a yes, as far as it is found within the time.
pub fn shrink<T: Clone>(list: &[T], time: Duration, mut differs: impl FnMut(&[T]) -> bool) -> Vec<T> {
    let start = Instant::now();
    let mut best = list.to_vec();
    let mut size = best.len().div_ceil(2);
    while size > 0 {
        let mut at = 0;
        while at + size <= best.len() && start.elapsed() < time {
            let mut less = best.clone();
            less.drain(at..at + size);
            if differs(&less) {
                best = less;
            } else {
                at += if size <= CHARACTER { 1 } else { size };
            }
        }
        size = if size <= CHARACTER { size - 1 } else { (size / 2).max(CHARACTER) };
    }
    best
}

#[cfg(test)]
mod tests {
    use super::*;

    #[test]
    fn what_does_not_matter_is_left_out() {
        let time = Duration::from_secs(60);
        let list: Vec<u32> = (0..100).collect();
        assert_eq!(shrink(&list, time, |l| l.contains(&17) && l.contains(&80)), [17, 80]);
        assert_eq!(shrink(&list, time, |l| l.len() >= 3).len(), 3);
        assert_eq!(shrink(&list, time, |_| true), []);
    }

    #[test]
    fn time_ends_it() {
        assert_eq!(shrink(&[1, 2, 3], Duration::ZERO, |_| true), [1, 2, 3]);
    }
}
