//! The check of a lent table (20) against safe Rust doing the same on the same bytes, in one run: `cargo bench --offline`.
//! Each figure is the best of many rounds, ours and the Rust's in turn.
#[allow(dead_code)] // stores are in calls.rs
mod rust;

use rust::*;
use sigatuda::plain;
use std::hint::black_box;

fn main() {
    println!("{:<24}{:>10}{:>14}{:>14}{:>8}", "check of", "records", "ours, us", "Rust, us", "ratio");
    let line = |name: &str, count: usize, (a, b): (f64, f64)| {
        println!("{name:<24}{count:>10}{:>14.2}{:>14.2}{:>8.2}", a / 1000.0, b / 1000.0, a / b);
    };
    for count in [512, 65_535] {
        let t = table(29, count, entry);
        let form = |b: &[u8]| b[0] == 0 && be32(&b[17..21]) != 0 && be64(&b[21..29]) != u64::MAX;
        line("index", count, race(|| plain::index_formed(black_box(&t)).code == 0, || formed(black_box(&t), 29, 29, form)));
        let t = table(25, count, checkpoint);
        let form = |b: &[u8]| b[0] == 0 && be64(&b[17..25]) != u64::MAX;
        line("checkpoints", count, race(|| plain::checkpoints_formed(black_box(&t)).code == 0, || formed(black_box(&t), 25, 25, form)));
        let t = table(21, count, present);
        let form = |b: &[u8]| b[0] == 0 && be32(&b[17..21]) != u32::MAX;
        line("presence", count, race(|| plain::presence_formed(black_box(&t)).code == 0, || formed(black_box(&t), 21, 21, form)));
    }
    for count in [32, 4096] {
        let t = table(722, count, commit);
        line("commits", count, race(|| plain::commits_formed(black_box(&t)).code == 0, || formed(black_box(&t), 722, 25, commit_form)));
    }
}
