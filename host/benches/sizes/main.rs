//! The calls that a tester lives by, at a tester's size and with full tables, beside safe Rust on the same bytes: `cargo bench --offline --bench sizes`. A time is the best of many rounds,
//! ours and the Rust's in turn, and beside it stands the time of the check of the lent tables alone (20), which each call makes. Both sides must leave the same bytes.
//!
//!     cargo bench --offline --bench sizes -- search             # one of check, snapshot, search, walk, sync, write, save
//!     cargo bench --offline --bench sizes -- --write FOLDER     # the tables and the snapshot as files, for ../bench-others
mod books;
#[path = "../rust/mod.rs"]
#[allow(dead_code)] // other tables are in checks.rs and calls.rs
mod rust;
mod same;

use books::*;
use sigatuda::plain;
use std::hint::black_box;
use std::time::Instant;

/// Rounds of a walk, and of a call that stores.
const WALKS: usize = 20;
const STORES: usize = 400;

/// The five tables of a size, with its snapshot of all commits: nothing to store, or one commit less and room for it.
struct Held {
    size: Size,
    full: [Vec<u8>; 5],
    fresh: [Vec<u8>; 5],
    snapshot: Vec<u8>,
}

impl Held {
    fn new(size: Size) -> Self {
        let (full, mut snapshot) = (size.tables(size.commits), vec![0; 262]);
        assert_eq!(plain::snapshot(&full[0], &full[1], &LOCAL_VOLUME, &mut snapshot).code, 0);
        Held { size, full, fresh: size.tables(size.commits - 1), snapshot }
    }

    /// Whether some of the tables are in form: 0 volumes, 1 commits, 2 checkpoints, 3 index, 4 presence.
    fn formed(&self, tables: &[Vec<u8>; 5], lent: &[usize]) -> bool {
        let checks = [plain::volumes_formed, plain::commits_formed, plain::checkpoints_formed, plain::index_formed, plain::presence_formed];
        lent.iter().all(|&i| checks[i](black_box(&tables[i])).code == 0)
    }

    fn rust_formed(&self, tables: &[Vec<u8>; 5], lent: &[usize]) -> bool {
        let checks = [same::volumes_formed, same::commits_formed, same::checkpoints_formed, same::index_formed, same::presence_formed];
        lent.iter().all(|&i| checks[i](black_box(&tables[i])))
    }

    /// Makes a call, ours and the Rust's, and the check of the tables that it is lent, in turn; what a call changes is put back before, outside of the time. Prints a line for each
    /// side: call, size, who, microseconds of the best round, and of the best round of the check.
    fn measure<T: Clone>(
        &self,
        (call, rounds, each): (&str, usize, usize),
        (tables, lent): (&[Vec<u8>; 5], &[usize]),
        fresh: &T,
        mut ours: impl FnMut(&mut T) -> bool,
        mut rust: impl FnMut(&mut T) -> bool,
    ) {
        let (mut best, mut changed) = ([f64::MAX; 4], fresh.clone());
        for round in 0..4 * rounds {
            changed.clone_from(fresh);
            let start = Instant::now();
            for _ in 0..each {
                let done = match round % 4 {
                    0 => ours(&mut changed),
                    1 => self.formed(tables, lent),
                    2 => rust(&mut changed),
                    _ => self.rust_formed(tables, lent),
                };
                assert!(black_box(done));
            }
            let took = start.elapsed().as_nanos() as f64 / each as f64 / 1000.0;
            best[round % 4] = took.min(best[round % 4]);
        }
        println!("{call}\t{}\tours\t{:.2}\t{:.2}", self.size.name, best[0], best[1]);
        println!("{call}\t{}\tRust\t{:.2}\t{:.2}", self.size.name, best[2], best[3]);
    }

    /// Rounds of a read and its calls in a round: eight, or one where tables are large, since a short round is less often disturbed.
    fn reads(&self) -> (usize, usize) {
        if self.size.commits < 1000 { (100, 8) } else { (400, 1) }
    }

    fn form_checks(&self) {
        let (rounds, each) = self.reads();
        for (i, name) in [(1, "check of commits"), (3, "check of the index"), (4, "check of present pages")] {
            let lent = (&self.full, &[i][..]);
            self.measure((name, rounds, each), lent, &(), |_| self.formed(&self.full, &[i]), |_| self.rust_formed(&self.full, &[i]));
        }
    }

    fn snapshot(&self) {
        let [volumes, commits, ..] = &self.full;
        let (mut out, mut copy) = ([0; 262], [0; 262]);
        let (rounds, each) = self.reads();
        self.measure(
            ("snapshot", rounds, each),
            (&self.full, &[0, 1]),
            &(),
            |_| plain::snapshot(black_box(volumes), black_box(commits), &LOCAL_VOLUME, &mut out).code == 0,
            |_| same::snapshot(black_box(volumes), black_box(commits), &LOCAL_VOLUME, &mut copy),
        );
        assert_eq!(out, copy);
    }

    fn search(&self) {
        let [_, commits, _, index, _] = &self.full;
        let (mut out, mut copy) = ([0; 722], [0; 722]);
        let (mut k, mut l) = (0, 0);
        let page = |k: &mut u32| {
            *k += 1;
            searched(self.size, *k)
        };
        let (rounds, each) = self.reads();
        self.measure(
            ("search", rounds, each),
            (&self.full, &[1, 3]),
            &(),
            |_| plain::search(black_box(commits), black_box(index), &self.snapshot, page(&mut k), &mut out).found == 1,
            |_| same::search(black_box(commits), black_box(index), &self.snapshot, page(&mut l), &mut copy),
        );
        assert_eq!(out, copy);
    }

    fn walk(&self) {
        let commits = &self.full[1];
        let (mut list, mut copy, mut items, mut number) = (vec![0; 1003 * 200], vec![0; 1003 * 200], 0, 0);
        self.measure(
            ("walk", WALKS, 1),
            (&self.full, &[1]),
            &(),
            |_| plain::walk(black_box(commits), &self.snapshot, &mut list, &mut items).code == 0,
            |_| same::walk(black_box(commits), &self.snapshot, &mut copy).inspect(|&n| number = n).is_some(),
        );
        assert!(list == copy && items as usize == number && number > 0, "the same items");
    }

    /// A call that stores: both sides must leave the same bytes; then their times.
    fn stores<T: Clone + PartialEq>(
        &self,
        call: &str,
        lent: (&[Vec<u8>; 5], &[usize]),
        fresh: &T,
        mut ours: impl FnMut(&mut T) -> bool,
        mut rust: impl FnMut(&mut T) -> bool,
    ) {
        let (mut left, mut right) = (fresh.clone(), fresh.clone());
        assert!(ours(&mut left) && rust(&mut right) && left == right && left != *fresh, "the same bytes");
        self.measure((call, STORES, 1), lent, fresh, ours, rust);
    }

    fn sync(&self) {
        let (volumes, commits) = (&self.full[0], &self.full[1]);
        let ours = |v: &mut Vec<u8>| plain::sync(v, commits, &REMOTE_VOLUME).code == 0;
        let rust = |v: &mut Vec<u8>| same::sync(v, commits, &REMOTE_VOLUME);
        self.stores("sync", (&self.full, &[0, 1]), volumes, ours, rust);
    }

    fn write(&self) {
        let commit = self.size.commit(self.size.commits);
        let ours = |[_, c, k, i, _]: &mut [Vec<u8>; 5]| plain::write_commit(c, k, i, &commit).code == 0;
        let rust = |[_, c, k, i, _]: &mut [Vec<u8>; 5]| rust::write_commit(c, k, i, &commit);
        self.stores("write", (&self.fresh, &[1, 2, 3]), &self.fresh, ours, rust);
    }

    fn save(&self) {
        let (last, count) = (self.size.commits, self.size.count());
        let (sid, pages, mut snapshot) = (self.size.sid(last), self.size.set(last), vec![0; 262]);
        assert_eq!(plain::snapshot(&self.fresh[0], &self.fresh[1], &LOCAL_VOLUME, &mut snapshot).code, 0);
        let (mut out, mut copy) = ([0; 262], [0; 262]);
        let ours = |[v, c, k, i, p]: &mut [Vec<u8>; 5]| {
            plain::save(v, c, k, i, p, &LOCAL_VOLUME, &snapshot, count, &sid, &pages, &mut out).code == 0
        };
        let rust =
            |[v, c, k, i, p]: &mut [Vec<u8>; 5]| same::save(v, [c, k, i, p], &LOCAL_VOLUME, &snapshot, count, &sid, &pages, &mut copy);
        self.stores("save", (&self.fresh, &[0, 1, 2, 3, 4]), &self.fresh, ours, rust);
        assert_eq!(out, copy);
    }

    /// The tables and the snapshot as files.
    fn write_files(&self, folder: &str) {
        let files = [("commits", &self.full[1]), ("index", &self.full[3]), ("snapshot", &self.snapshot)];
        for (name, bytes) in files {
            std::fs::write(format!("{folder}/{}-{name}.bin", self.size.name), bytes).expect("written");
        }
    }
}

/// Measures a call on both sides, and prints its times.
type Measure = fn(&Held);

fn main() {
    let args: Vec<String> = std::env::args().skip(1).filter(|a| a != "--bench").collect();
    if let [write, folder] = &args[..]
        && write == "--write"
    {
        return SIZES.map(Held::new).iter().for_each(|held| held.write_files(folder));
    }
    let calls: [(&str, Measure); 7] = [
        ("check", Held::form_checks),
        ("snapshot", Held::snapshot),
        ("search", Held::search),
        ("walk", Held::walk),
        ("sync", Held::sync),
        ("write", Held::write),
        ("save", Held::save),
    ];
    let only = args.first();
    for held in SIZES.map(Held::new) {
        calls.iter().filter(|(name, _)| only.is_none_or(|o| o == name)).for_each(|(_, measure)| measure(&held));
    }
}
