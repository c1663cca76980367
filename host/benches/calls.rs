//! Calls over tables against safe Rust doing the same on the same bytes, in one run: `cargo bench --offline --bench calls`. Each figure is the best of
//! many rounds, ours and the Rust's in turn; both check every lent table first (20), and both must leave the same bytes.
#[allow(dead_code)] // whole checks are in checks.rs
mod rust;

use rust::*;
use sigatuda::plain;
use std::hint::black_box;

fn line(name: &str, count: usize, (a, b): (f64, f64)) {
    println!("{name:<44}{count:>8}{:>12.2}{:>12.2}{:>8.2}", a / 1000.0, b / 1000.0, a / b);
}

/// A commit without hash at a log's LSN: the pages of so many whole windows from window 1 on, and the last one cut to so many pages in all.
fn commit_of(log: u8, lsn: u64, pages: u32) -> Vec<u8> {
    let mut b = vec![0; 722];
    b[1] = log;
    b[17..25].copy_from_slice(&(!lsn).to_be_bytes());
    b[25..29].copy_from_slice(&2048u32.to_be_bytes());
    b[62] = 1;
    let windows = pages.div_ceil(64);
    b[79] = windows as u8;
    for w in 0..windows {
        let (at, left) = (80 + 12 * w as usize, pages - 64 * w);
        let mask = if left >= 64 { u64::MAX } else { (1 << left) - 1 };
        b[at..at + 4].copy_from_slice(&(w + 1).to_be_bytes());
        b[at + 4..at + 12].copy_from_slice(&mask.to_be_bytes());
    }
    b[657] = 1;
    b[658..666].copy_from_slice(&lsn.to_be_bytes());
    b
}

/// A table with room to spare.
fn roomy(mut table: Vec<u8>, size: usize, more: usize) -> Vec<u8> {
    table.resize(table.len() + size * more, 0);
    table
}

/// 63,000 index entries of log 5: 30 LSNs, falling from 30, for each of 2,100 pages from 64 on.
fn held_entries(i: usize, b: &mut [u8]) {
    b[1] = 5;
    b[17..21].copy_from_slice(&((i / 30) as u32 + 64).to_be_bytes());
    b[21..29].copy_from_slice(&(!(30 - (i % 30) as u64)).to_be_bytes());
}

/// Writing a commit of 2,000 pages where 63,000 entries are held.
fn writes() {
    let commits = roomy(table(722, 30, |i, b| b.copy_from_slice(&commit_of(5, 30 - i as u64, 2000))), 722, 2);
    let checkpoints = roomy(table(25, 0, |_, _| {}), 25, 8);
    let index = roomy(table(29, 63_000, held_entries), 29, 2_535);
    let fresh = [commits, checkpoints, index];
    for (name, log, lsn) in [("in front", 1, 7), ("at the end", 9, 7), ("interleaved", 5, 31), ("all held", 5, 30)] {
        let commit = commit_of(log, lsn, 2000);
        let ours = |[c, k, i]: &mut [Vec<u8>; 3]| plain::write_commit(c, k, i, &commit).code == 0;
        let rust = |[c, k, i]: &mut [Vec<u8>; 3]| write_commit(c, k, i, &commit);
        let (mut left, mut right) = (fresh.clone(), fresh.clone());
        assert!(ours(&mut left) && rust(&mut right) && left == right, "the same bytes");
        line(&format!("write 2,000 pages, {name}"), 63_000, race_stores(&fresh, ours, rust));
    }
}

/// Writing a commit of one page into commits of the largest form.
fn writes_of_one() {
    for count in [32, 4096] {
        let fresh = [roomy(table(722, count, commit), 722, 1), vec![0; 2 + 25 * 8], roomy(table(29, 512, entry), 29, 8)];
        let commit = commit_of(0, 5001 - count as u64 / 2, 1);
        let mut commit = commit;
        commit[16] = 1; // a log after all others
        let ours = |[c, k, i]: &mut [Vec<u8>; 3]| plain::write_commit(c, k, i, &commit).code == 0;
        let rust = |[c, k, i]: &mut [Vec<u8>; 3]| write_commit(c, k, i, &commit);
        let (mut left, mut right) = (fresh.clone(), fresh.clone());
        assert!(ours(&mut left) && rust(&mut right) && left == right, "the same bytes");
        line("write 1 page, commits held", count, race_stores(&fresh, ours, rust));
    }
}

/// A commit found by its key.
fn reads() {
    for count in [32, 4096] {
        let commits = table(722, count, commit);
        let (lsn, mut out, mut copy) = (5_000 - count as u64 / 3, [0; 722], [0; 722]);
        let mut key = [0; 25];
        key[17..].copy_from_slice(&(!lsn).to_be_bytes());
        let ours = || plain::commit_read(black_box(&commits), &[0; 16], lsn, &mut out).found == 1;
        let rust = || {
            let commits = black_box(&commits);
            let formed = formed(commits, 722, 25, commit_form);
            let found = place(commits, 722, &key).map(|at| copy.copy_from_slice(&commits[2 + at * 722..2 + (at + 1) * 722]));
            formed && found.is_ok()
        };
        line("commit read", count, race(ours, rust));
        assert_eq!(out, copy);
    }
}

/// A page found by a snapshot of one range.
fn searches() {
    for count in [512, 65_535] {
        let (commits, index) = (table(722, 32, |i, b| b.copy_from_slice(&commit_of(0, 38 - i as u64, 64))), table(29, count, entry));
        let (mut snapshot, mut out, mut copy) = ([0; 262], [0; 722], [0; 722]);
        assert_eq!(plain::snapshot_new(&[0; 16], 1, 9, 100, &mut snapshot).code, 0);
        let ours = || plain::search(black_box(&commits), black_box(&index), &snapshot, 300, &mut out).found == 1;
        let mut low = [0; 29];
        low[17..21].copy_from_slice(&300u32.to_be_bytes());
        low[21..].copy_from_slice(&(!9u64).to_be_bytes());
        let rust = || {
            let (commits, index) = (black_box(&commits), black_box(&index));
            if !formed(commits, 722, 25, commit_form) || !formed(index, 29, 29, index_form) {
                return false;
            }
            let at = place(index, 29, &low).unwrap_or_else(|at| at);
            let found = &index[2 + at * 29..2 + (at + 1) * 29];
            if found[..21] != low[..21] || be64(&found[21..]) > !1 {
                return false;
            }
            let mut key = [0; 25];
            key[17..].copy_from_slice(&found[21..]);
            place(commits, 722, &key).map(|at| copy.copy_from_slice(&commits[2 + at * 722..2 + (at + 1) * 722])).is_ok()
        };
        line("search, index entries held", count, race(ours, rust));
        assert_eq!(out, copy);
    }
}

/// A page marked present, and one removed.
fn marks() {
    for count in [512, 65_534] {
        let every_other = |i: usize, b: &mut [u8]| b[17..21].copy_from_slice(&(!(200_000 - 2 * i as u32)).to_be_bytes());
        let fresh = [roomy(table(21, count, every_other), 21, 1)];
        let page = 200_001 - 2 * (count as u32 / 2);
        let mut record = [0; 21];
        record[17..].copy_from_slice(&(!page).to_be_bytes());
        let ours = |[p]: &mut [Vec<u8>; 1]| plain::page_mark(p, &[0; 16], page).code == 0;
        let rust = |[p]: &mut [Vec<u8>; 1]| formed(p, 21, 21, present_form) && put(p, 21, 21, &record);
        let (mut left, mut right) = (fresh.clone(), fresh.clone());
        assert!(ours(&mut left) && rust(&mut right) && left == right, "the same bytes");
        line("page marked, pages held", count, race_stores(&fresh, ours, rust));
    }
}

fn removals() {
    for count in [512, 65_535] {
        let fresh = [table(21, count, present)];
        let page = 70_000 - count as u32 / 2;
        let mut key = [0; 21];
        key[17..].copy_from_slice(&(!page).to_be_bytes());
        let ours = |[p]: &mut [Vec<u8>; 1]| plain::page_remove(p, &[0; 16], page).code == 0;
        let rust = |[p]: &mut [Vec<u8>; 1]| {
            let formed = formed(p, 21, 21, present_form);
            remove(p, 21, &key);
            formed
        };
        let (mut left, mut right) = (fresh.clone(), fresh.clone());
        assert!(ours(&mut left) && rust(&mut right) && left == right, "the same bytes");
        line("page removed, pages held", count, race_stores(&fresh, ours, rust));
    }
}

/// A volume's snapshot, of one volume with a sync point.
fn snapshots() {
    for count in [32, 4096] {
        let commits = table(722, count, commit);
        let mut volumes = vec![0; 2 + 117];
        volumes[1] = 1;
        volumes[50 + 2] = 1; // a sync point
        volumes[58 + 2] = 7;
        volumes[18 + 2 + 16] = 9; // the remote log; the local log is the commits'
        let (mut out, mut copy) = ([0; 262], [0; 262]);
        let ours = || plain::snapshot(black_box(&volumes), black_box(&commits), &[0; 16], &mut out).found == 1;
        let rust = || {
            let (volumes, commits) = (black_box(&volumes), black_box(&commits));
            let volume_form = |b: &[u8]| b[0] == 0 && b[17] == 0 && be64(&b[51..59]) != 0 && zeros(&b[59..]);
            if !formed(volumes, 117, 17, volume_form) || !formed(commits, 722, 25, commit_form) {
                return false;
            }
            let Ok(at) = place(volumes, 117, &[0; 17]) else { return false };
            let volume = &volumes[2 + at * 117..];
            let mut key = [0; 25];
            key[1..17].copy_from_slice(&volume[18..34]);
            let latest = place(commits, 722, &key).unwrap_or_else(|at| at);
            let latest = &commits[2 + latest * 722..2 + (latest + 1) * 722];
            copy[1..5].copy_from_slice(&latest[25..29]);
            copy[5] = 2;
            copy[6..22].copy_from_slice(&volume[18..34]);
            copy[29] = 1;
            copy[30..38].copy_from_slice(&(!be64(&latest[17..25])).to_be_bytes());
            copy[38..54].copy_from_slice(&volume[34..50]);
            copy[61] = 1;
            copy[62..70].copy_from_slice(&volume[51..59]);
            true
        };
        line("snapshot, commits held", count, race(ours, rust));
        assert_eq!(out, copy);
    }
}

fn main() {
    println!("{:<44}{:>8}{:>12}{:>12}{:>8}", "call", "records", "ours, us", "Rust, us", "ratio");
    writes();
    writes_of_one();
    reads();
    searches();
    marks();
    removals();
    snapshots();
}
