//! A case of any kind, and the smallest one that still fails.

use crate::random::Random;

/// One case: what both programs are given.
pub trait Case: Clone {
    fn random(r: &mut Random) -> Self;

    /// The numbers that both programs answered, or what differs.
    fn compare(&self) -> Result<Vec<u8>, String>;

    /// Cases that are smaller, those that leave out most first.
    fn smaller(&self) -> Box<dyn Iterator<Item = Self> + '_>;

    /// All of the case, to be read.
    fn show(&self) -> String;
}

/// Runs a case; a panic of the second program counts as a difference.
pub fn verdict<C: Case>(case: &C) -> Result<Vec<u8>, String> {
    let run = std::panic::AssertUnwindSafe(|| case.compare());
    std::panic::catch_unwind(run).unwrap_or_else(|_| Err(String::from("the second program panicked")))
}

/// How many smaller cases are tried before the smallest so far is shown.
const TRIES: usize = 10_000;

/// Takes the first smaller case that still fails, again and again.
pub fn smallest<C: Case>(mut case: C) -> C {
    let mut tries = 0;
    loop {
        let next = case.smaller().take(TRIES - tries).find(|candidate| {
            tries += 1;
            verdict(candidate).is_err()
        });
        match next {
            Some(candidate) => case = candidate,
            None => return case,
        }
    }
}

/// Stretches of 0 to n-1: all of it, its halves, its quarters, down to single ones.
pub fn stretches(n: usize) -> impl Iterator<Item = std::ops::Range<usize>> {
    let sizes = std::iter::successors(Some(n), |&size| if size > 1 { Some(size.div_ceil(2)) } else { None });
    sizes.filter(|&size| size > 0).flat_map(move |size| (0..n).step_by(size).map(move |start| start..(start + size).min(n)))
}

/// The list without one of its stretches.
pub fn shorter<T: Clone>(list: &[T]) -> impl Iterator<Item = Vec<T>> + '_ {
    stretches(list.len()).map(move |cut| [&list[..cut.start], &list[cut.end..]].concat())
}

/// The bytes with 0 in one of their stretches, where that changes them.
pub fn zeroed(bytes: &[u8]) -> impl Iterator<Item = Vec<u8>> + '_ {
    stretches(bytes.len()).filter(move |cut| bytes[cut.clone()].iter().any(|&byte| byte != 0)).map(move |cut| {
        let mut copy = bytes.to_vec();
        copy[cut].fill(0);
        copy
    })
}

/// Bytes parted by spaces.
pub fn row(bytes: &[u8]) -> String {
    let numbers: Vec<String> = bytes.iter().map(u8::to_string).collect();
    numbers.join(" ")
}
