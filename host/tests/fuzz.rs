//! All calls in long random runs over the boundary. The calls over tables go in histories: tables in form are lent again and again and keep what the calls leave,
//! and at times a damaged, cut, mistaken or random copy of one is lent instead and thrown away. After each call: its number is document 01's (by the judge of
//! byte forms, or one that its row allows), a refused call has left every lent byte (recover's 8: all but one volume's pending part), tables in form stay in form,
//! and an index that grew from fresh tables lists exactly the pages of the stored commits until a commit is overwritten by one that lacks a page of it.
//!
//!     SIGATUDA_FUZZ='10000000 1' cargo test --offline --release --test fuzz -- --nocapture     # so many calls, from a seed
//!     SIGATUDA_FUZZ='1000000 1 depth' ..                                                       # and how deep each call over tables goes
mod judge;
mod rounds;
mod rows;
mod stack;

use judge::TABLES;
use judge::make::Random;
use rounds::Seen;
use rows::{AMPLE, Args, COMMITS, INDEX, Made, ROWS, Row, Six};
use sigatuda::Reply;
use stack::Stack;
use std::collections::{BTreeMap, BTreeSet};
use std::time::Instant;

/// The calls of a short run, as part of all tests.
const SHORT: u64 = 40_000;

/// The calls of a history.
const LENGTH: usize = 60;

/// The calls without tables: rounds of some of them.
type Round = fn(&mut Random, &mut Seen);
const ROUNDS: [(&str, Round); 7] = [
    ("LSNs, pages, counts", rounds::numbers),
    ("sets and pages", rounds::sets_and_pages),
    ("two sets", rounds::two_sets),
    ("frames", rounds::frames),
    ("joins", rounds::joins),
    ("snapshots and changes", rounds::snapshots_and_changes),
    ("checks of tables", rounds::checks),
];

/// What came: for each call the numbers, how often the index was held to its commits, and how deep calls went, where it is asked.
#[derive(Default)]
struct Tally {
    calls: BTreeMap<&'static str, Seen>,
    exact: u64,
    lost: u64,
    stack: Option<Stack>,
    deepest: BTreeMap<&'static str, usize>,
}

impl Tally {
    /// Makes a call, on a stack of its own where its depth is asked.
    fn make(&mut self, name: &'static str, mut call: impl FnMut() -> Reply) -> Reply {
        let Some(stack) = &mut self.stack else { return call() };
        let mut reply = Reply { code: 0, found: 0 };
        let deep = stack.run(|| reply = call());
        let deepest = self.deepest.entry(name).or_default();
        *deepest = deep.max(*deepest);
        reply
    }

    fn total(&self) -> u64 {
        self.calls.values().flat_map(|seen| seen.0).sum()
    }

    fn print(&self) {
        let shown = |numbers: &[u64; 25]| {
            let came = (0..25).filter(|&n| numbers[n] > 0).map(|n| format!("{n}: {}", numbers[n]));
            came.collect::<Vec<_>>().join(", ")
        };
        let mut all = [0; 25];
        for (name, seen) in &self.calls {
            println!("{name:22} {:9} | {}", seen.0.iter().sum::<u64>(), shown(&seen.0));
            all.iter_mut().zip(seen.0).for_each(|(sum, n)| *sum += n);
        }
        println!("{} calls | {}", self.total(), shown(&all));
        self.deepest.iter().for_each(|(name, bytes)| println!("{name:22} {bytes:9} bytes of stack"));
        println!("the index was exact after {} calls that stored commits; {} lost a page", self.exact, self.lost);
    }
}

/// The pages of a commit's record.
fn pages(record: &[u8]) -> impl Iterator<Item = u32> {
    let windows = record[80..80 + 12 * usize::from(record[79])].chunks_exact(12);
    windows.flat_map(|w| {
        let (window, mask) = (u32::from_be_bytes(w[..4].try_into().unwrap()), u64::from_be_bytes(w[4..].try_into().unwrap()));
        (0..64).filter(move |bit| mask >> bit & 1 == 1).map(move |bit| window * 64 + bit)
    })
}

/// The index entries that a table of commits asks for.
fn entries_of(commits: &[u8]) -> BTreeSet<Vec<u8>> {
    let held = usize::from(u16::from_be_bytes([commits[0], commits[1]]));
    let records = commits[2..].chunks_exact(722).take(held);
    let entry = |record: &[u8], page: u32| [&record[..17], &page.to_be_bytes(), &record[17..25]].concat();
    records.flat_map(|record| pages(record).map(move |page| entry(record, page))).collect()
}

/// The entries that an index holds.
fn entries(index: &[u8]) -> BTreeSet<Vec<u8>> {
    let held = usize::from(u16::from_be_bytes([index[0], index[1]]));
    index[2..].chunks_exact(29).take(held).map(<[u8]>::to_vec).collect()
}

/// Six tables that calls go on with; `exact` while their index lists exactly the pages of their commits.
struct History {
    six: Six,
    exact: bool,
}

impl History {
    /// Fresh tables with room for few records or many, which calls let grow, or any tables in form.
    fn new(r: &mut Random) -> Self {
        if r.below(2) == 0 {
            return History { six: std::array::from_fn(|kind| rows::good(kind, r)), exact: false };
        }
        let room = |kind: usize, r: &mut Random| [r.below(4), r.below(40), if TABLES[kind].record > 100 { 60 } else { AMPLE }][r.below(3)];
        History { six: std::array::from_fn(|kind| vec![0; 2 + TABLES[kind].record * room(kind, r) + r.below(2)]), exact: true }
    }

    /// The tables that a call is lent, one of them in four calls another than it was: damaged, any bytes, cut, or of another kind.
    fn lent(&self, row: &Row, r: &mut Random) -> (Six, bool) {
        let mut lent = Six::default();
        row.lent.iter().for_each(|&kind| lent[kind].clone_from(&self.six[kind]));
        if r.below(4) != 0 {
            return (lent, false);
        }
        let kind = row.lent[r.below(row.lent.len())];
        let table = std::mem::take(&mut lent[kind]);
        lent[kind] = match r.below(6) {
            0 => table[..r.below(table.len() + 1)].to_vec(),
            1 => self.six[r.below(6)].clone(),
            _ => rows::spoiled(kind, table, r),
        };
        (lent, true)
    }

    /// Makes a call and holds it to what is promised.
    fn call(&mut self, row: &Row, r: &mut Random, tally: &mut Tally) {
        let mut args = Args::new(r);
        args.aim(&self.six, r);
        let (mut after, other) = self.lent(row, r);
        let before = after.clone();
        let mut out = row.out(r);
        let reply = tally.make(row.name, || row.call(&mut after, &args, &mut out));
        tally.calls.entry(row.name).or_default().0[reply.code as usize] += 1;
        Made { row, args: &args, formed: !other || row.formed(&before), before: &before, after: &after, out: &out, reply }.check();
        if other {
            return;
        }
        let stored = row.lent.contains(&INDEX) && (after[COMMITS] != before[COMMITS] || after[INDEX] != before[INDEX]);
        row.lent.iter().for_each(|&kind| self.six[kind] = std::mem::take(&mut after[kind]));
        if self.exact && stored {
            self.hold_index(&before[COMMITS], tally);
        }
    }

    /// The index is exact, or a commit was overwritten by one that lacks a page of it.
    fn hold_index(&mut self, before: &[u8], tally: &mut Tally) {
        let now = entries_of(&self.six[COMMITS]);
        if entries_of(before).is_subset(&now) {
            assert!(entries(&self.six[INDEX]) == now, "the index lists exactly the pages of the stored commits");
            tally.exact += 1;
        } else {
            tally.lost += 1;
            self.exact = false;
        }
    }
}

/// At least so many calls, from a seed.
fn run(calls: u64, seed: u64, depth: bool) -> Tally {
    let (mut r, mut made) = (Random::new(seed), 0);
    let mut tally = Tally { stack: depth.then(Stack::new), ..Tally::default() };
    while made < calls {
        let mut history = History::new(&mut r);
        (0..LENGTH).for_each(|_| history.call(&ROWS[r.below(ROWS.len())], &mut r, &mut tally));
        let (name, round) = ROUNDS[r.below(ROUNDS.len())];
        round(&mut r, tally.calls.entry(name).or_default());
        made = tally.total();
    }
    tally
}

#[test]
fn fuzz() {
    let asked = std::env::var("SIGATUDA_FUZZ").unwrap_or_else(|_| format!("{SHORT} 1"));
    let words: Vec<&str> = asked.split_whitespace().collect();
    let number = |i: usize| words.get(i).map_or(1, |n| n.parse().expect("SIGATUDA_FUZZ='CALLS SEED [depth]'"));
    let start = Instant::now();
    let tally = run(number(0), number(1), words.get(2) == Some(&"depth"));
    tally.print();
    println!("{:.0} s", start.elapsed().as_secs_f64());
    assert!(tally.exact > 0 && tally.calls.len() == ROWS.len() + ROUNDS.len(), "every call was made");
}
