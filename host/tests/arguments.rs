//! The numbers that arguments earn: every call without tables on random arguments, so many rounds of each.
#[allow(dead_code)] // commits are judged in lent.rs
mod judge;
mod rounds;

use judge::make::Random;
use rounds::Seen;

const ROUNDS: usize = 3000;

/// Makes the rounds of some calls; each of some numbers must come.
fn hold(seed: u64, round: fn(&mut Random, &mut Seen), numbers: &[usize]) {
    let (mut r, mut seen) = (Random::new(seed), Seen::default());
    (0..ROUNDS).for_each(|_| round(&mut r, &mut seen));
    numbers.iter().for_each(|&n| assert!(seen.0[n] > 0, "{n} never came: {:?}", seen.0));
}

#[test]
fn numbers() {
    hold(41, rounds::numbers, &[0, 1, 18]);
}

#[test]
fn sets_and_pages() {
    hold(42, rounds::sets_and_pages, &[0, 1, 2, 3, 22]);
}

#[test]
fn two_sets() {
    hold(43, rounds::two_sets, &[0, 3, 22]);
}

#[test]
fn frames() {
    hold(44, rounds::frames, &[0, 1, 3, 19, 23]);
}

#[test]
fn joins() {
    hold(45, rounds::joins, &[0, 2, 3, 22]);
}

#[test]
fn snapshots_and_changes() {
    hold(46, rounds::snapshots_and_changes, &[0, 1, 2, 3, 16]);
}

#[test]
fn checks() {
    hold(47, rounds::checks, &[0, 20]);
}
