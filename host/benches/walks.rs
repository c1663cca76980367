//! The walk of a long log, and a save into full tables, beside safe Rust doing the same on the same bytes: `cargo bench --offline --bench walks`. The Rust's walk holds all that was taken in one
//! map of windows, which the caller of ours need not lend. Each figure is the best of three rounds (of 400 for 32 commits), ours and the Rust's in turn; both must leave the same bytes.
#[allow(dead_code)] // other calls are in calls.rs and checks.rs
mod rust;

use rust::*;
use sigatuda::plain;
use std::collections::BTreeMap;
use std::time::Instant;

const ITEM: usize = 1003;

/// A commit at an LSN with these windows.
fn commit_with(lsn: u64, windows: &[(u32, u64)]) -> Vec<u8> {
    let mut b = vec![0; 722];
    b[17..25].copy_from_slice(&(!lsn).to_be_bytes());
    b[62] = 1;
    b[79] = windows.len() as u8;
    for (w, (index, mask)) in windows.iter().enumerate() {
        let at = 80 + 12 * w;
        b[at..at + 4].copy_from_slice(&index.to_be_bytes());
        b[at + 4..at + 12].copy_from_slice(&mask.to_be_bytes());
    }
    b
}

/// So many windows from one on, one page in each.
fn row(first: u32, windows: u32) -> Vec<(u32, u64)> {
    (first..first + windows).map(|w| (w, 2)).collect()
}

/// A commit at an LSN with so many windows from one on, one page in each.
fn commit_of(lsn: u64, first: u32, windows: u32) -> Vec<u8> {
    commit_with(lsn, &row(first, windows))
}

/// Four pages of 262,144, scattered by the commit's number.
fn scattered(i: u32) -> Vec<(u32, u64)> {
    let mut pages: Vec<u32> = (1..5).map(|k| (4 * i + k).wrapping_mul(2_654_435_761) >> 14).collect();
    pages.sort_unstable();
    pages.dedup_by_key(|p| *p / 64);
    pages.iter().map(|p| (p / 64, 2 << (p % 63))).collect()
}

/// The items of the walk of all commits of one log, no page above the count: in safe Rust.
fn rust_walk(commits: &[u8], list: &mut [u8]) -> Option<usize> {
    if !formed(commits, 722, 25, commit_form) {
        return None;
    }
    let (mut taken, mut items) = (BTreeMap::new(), 0);
    for record in commits[2..].chunks_exact(722).take(be(&commits[..2]) as usize) {
        let gift = gift(record, u32::MAX, &mut taken);
        if gift[0] == 0 {
            continue;
        }
        put_item(list.get_mut(items * ITEM..(items + 1) * ITEM)?, record, &gift);
        items += 1;
    }
    Some(items)
}

/// Milliseconds of the best of some rounds of two pieces of work, made in turn, each so many times.
fn best(rounds: u32, times: u32, mut ours: impl FnMut(), mut rust: impl FnMut()) -> (f64, f64) {
    let timed = |work: &mut dyn FnMut()| {
        let start = Instant::now();
        (0..times).for_each(|_| work());
        start.elapsed().as_secs_f64() * 1000.0 / f64::from(times)
    };
    (0..rounds).fold((f64::MAX, f64::MAX), |least, _| (least.0.min(timed(&mut ours)), least.1.min(timed(&mut rust))))
}

fn line(name: &str, (a, b): (f64, f64)) {
    println!("{name:<72}{a:>12.4}{b:>12.4}{:>10.2}", a / b);
}

/// The windows of commit i of n.
type Windows = fn(u32, u32) -> Vec<(u32, u64)>;

const LOGS: [(&str, Windows); 7] = [
    ("all of one page", |_, _| row(1, 1)),
    ("a page each, in 32 windows", |i, _| vec![(i % 32 + 1, 2 << (i / 32 % 63))]),
    ("a page each, in windows of their own", |i, _| row(i + 1, 1)),
    ("32 windows each, all shared", |i, _| (1..33).map(|w| (w, 2 << ((7 * i + w) % 63))).collect()),
    ("32 windows each, none shared", |i, _| row(32 * i + 1, 32)),
    ("page 1 and one more each, falling", |i, n| vec![(0, 2), (n - i, 2)]),
    ("four pages each, scattered", |i, _| scattered(i)),
];

/// The walk of a log into a list with a place for each commit, and, where there are fewer items than commits, into one with just as many places as items.
fn walks() {
    for (commits, rounds, times) in [(32, 400, 8), (4096, 3, 1)] {
        for (name, windows) in LOGS {
            let commit = |i: usize| commit_with((commits - i) as u64, &windows(i as u32, commits as u32));
            let table = table(722, commits, |i, b| b.copy_from_slice(&commit(i)));
            let mut snapshot = [0; 262];
            assert_eq!(plain::snapshot_new(&[0; 16], 1, commits as u64, u32::MAX, &mut snapshot).code, 0);
            let mut want = vec![0; ITEM * commits];
            let number = rust_walk(&table, &mut want).expect("room for all");
            for (size, places) in [("long", commits), ("short", number)] {
                if size == "short" && number == commits {
                    continue;
                }
                let (mut list, mut copy, mut items) = (vec![0; ITEM * places], vec![0; ITEM * places], 0);
                let figures = best(
                    rounds,
                    times,
                    || assert_eq!(plain::walk(&table, &snapshot, &mut list, &mut items).code, 0),
                    || assert_eq!(rust_walk(&table, &mut copy), Some(number)),
                );
                assert!(list == copy && items as usize == number, "the same items");
                line(&format!("walk of {commits} commits, {name}, {size} list"), figures);
            }
        }
    }
}

/// A save of 2,000 pages where 63,000 index entries and present pages are held.
fn saves() {
    let local = |i: usize, b: &mut [u8]| b.copy_from_slice(&commit_of(30 - i as u64, 1, 1));
    let held = |i: usize, b: &mut [u8]| {
        b[1] = 5;
        b[17..21].copy_from_slice(&(i as u32 + 1).to_be_bytes());
        b[21..29].copy_from_slice(&(!1u64).to_be_bytes());
    };
    let there = |i: usize, b: &mut [u8]| {
        b[1] = 9;
        b[17..21].copy_from_slice(&(!(63_000 - i as u32)).to_be_bytes());
    };
    let room = |mut t: Vec<u8>, size: usize, more: usize| {
        t.resize(t.len() + size * more, 0);
        t
    };
    let fresh = [
        room(table(722, 30, local), 722, 2),
        vec![0; 2 + 25 * 8],
        room(table(29, 63_000, held), 29, 2_535),
        room(table(21, 63_000, there), 21, 2_535),
    ];
    let mut volumes = vec![0; 2 + 117];
    volumes[1] = 1;
    volumes[2 + 34] = 7; // the remote log; the local log is the commits'
    let (mut snapshot, mut pages, sid) = ([0; 262], [0; 385], [1; 16]);
    assert_eq!(plain::snapshot_new(&[0; 16], 1, 30, 64, &mut snapshot).code, 0);
    assert_eq!(plain::set_range(64, 2_047, &mut pages).code, 0);
    let mut commit = commit_of(31, 1, 0);
    commit[25..29].copy_from_slice(&2_047u32.to_be_bytes());
    commit[63..79].copy_from_slice(&sid);
    commit[79..464].copy_from_slice(&pages);
    let mut out = [0; 262];
    let mut ours =
        |[c, k, i, p]: &mut [Vec<u8>; 4]| plain::save(&volumes, c, k, i, p, &[0; 16], &snapshot, 2_047, &sid, &pages, &mut out).code == 0;
    let rust = |[c, k, i, p]: &mut [Vec<u8>; 4]| {
        let in_form = formed(&volumes, 117, 17, |b| b[0] == 0 && zeros(&b[50..])) && formed(p, 21, 21, present_form);
        let used = c[2..].chunks_exact(722).take(be(&c[..2]) as usize).any(|r| r[62] == 1 && r[63..79] == sid);
        if !in_form || used || !write_commit(c, k, i, &commit) {
            return false;
        }
        let mut key = [0; 21];
        key[1..17].copy_from_slice(&sid);
        let (at, count) = (place(p, 21, &key).unwrap_or_else(|at| at), be(&p[..2]) as usize);
        p.copy_within(2 + at * 21..2 + count * 21, 2 + (at + 1_984) * 21);
        for (row, page) in p[2 + at * 21..2 + (at + 1_984) * 21].chunks_exact_mut(21).zip((64..2_048u32).rev()) {
            key[17..].copy_from_slice(&(!page).to_be_bytes());
            row.copy_from_slice(&key);
        }
        p[..2].copy_from_slice(&((count + 1_984) as u16).to_be_bytes());
        true
    };
    let (mut left, mut right) = (fresh.clone(), fresh.clone());
    assert!(ours(&mut left) && rust(&mut right) && left == right, "the same bytes");
    let (a, b) = race_stores(&fresh, ours, rust);
    line("save of 1,984 pages, 63,000 entries and pages held", (a / 1e6, b / 1e6));
}

fn main() {
    println!("{:<72}{:>12}{:>12}{:>10}", "call", "ours, ms", "Rust, ms", "ratio");
    walks();
    saves();
}
