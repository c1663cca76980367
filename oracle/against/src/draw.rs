//! Calls drawn at random on small domains, so that identifiers, LSNs and pages meet: few volumes, logs, segments and pages, and numbers at both ends.
use crate::calls::{Args, Id, Op};
use crate::judge::{damage, make};
use crate::tables::{Both, read, to_commit, to_hash};
use graft::core::{self, lsn::LSN, page::Page};
use graft::local::fjall_storage::FjallStorage;
use graft::snapshot::Snapshot;
use graft::volume;
use harness::forms;
use harness::random::Random;
use sigatuda::Volume;

mod rich;
pub use rich::Rich;

const PAGES: [u32; 16] = [1, 2, 3, 4, 5, 6, 7, 8, 63, 64, 65, 127, 128, 200, u32::MAX - 1, u32::MAX];

/// The draw of a history: its numbers, the snapshots that were seen, and a counter for identifiers that are in use nowhere.
pub struct Draw {
    r: Random,
    damage: make::Random,
    snapshots: Vec<Vec<u8>>,
    fresh: u64,
    rich: Rich,
}

impl Draw {
    pub fn new(seed: u64, rich: Rich) -> Self {
        Draw { r: Random::new(seed), damage: make::Random::new(seed), snapshots: vec![], fresh: 0, rich }
    }

    /// An identifier of few.
    fn few(&mut self, n: u64) -> Id {
        let mut id = [0; 16];
        id[15] = 1 + self.r.below(n) as u8;
        id
    }

    /// An identifier that nothing has, mostly, or one of few.
    fn spare(&mut self, n: u64) -> Id {
        if self.r.one_in(4) { self.few(n) } else { self.fresh() }
    }

    /// An identifier that nothing has.
    fn fresh(&mut self) -> Id {
        self.fresh += 1;
        let mut id = [0xf0; 16];
        id[8..].copy_from_slice(&self.fresh.to_be_bytes());
        id
    }

    fn lsn(&mut self) -> u64 {
        match self.r.below(40) {
            0 => u64::MAX,
            1 => u64::MAX - 1,
            n => 1 + n % 6,
        }
    }

    fn page(&mut self) -> u32 {
        self.r.pick(&PAGES)
    }

    fn count(&mut self) -> u32 {
        if self.r.one_in(10) { self.r.pick(&[u32::MAX, u32::MAX - 1, 1000]) } else { self.r.below(10) as u32 }
    }

    /// A number, rarely 0.
    fn or_zero<T: From<u8>>(&mut self, n: T) -> T {
        if self.r.one_in(40) { T::from(0) } else { n }
    }

    /// A set's form: none, some pages, or a run of them.
    fn set(&mut self) -> Vec<u8> {
        let mut pages: Vec<u32> = match self.r.below(12) {
            0 => vec![],
            1 => {
                let first = self.page().min(u32::MAX - 130);
                (first..first + 1 + self.r.below(130) as u32).collect()
            }
            n => (0..n.min(6)).map(|_| self.page()).collect(),
        };
        pages.sort();
        pages.dedup();
        let runs: Vec<_> = pages.into_iter().map(|p| (p, p)).collect();
        forms::set_bytes(&forms::windows(&runs).expect("at most 32 windows"))
    }

    /// A hash of few, ZERO among them, its first byte 0.
    fn hash(&mut self) -> [u8; 32] {
        let mut hash = [0; 32];
        hash[31] = self.r.below(4) as u8;
        hash
    }

    /// A segment's form, at times with frames in the domain.
    fn segment(&mut self) -> Vec<u8> {
        let (sid, set) = (self.few(6), self.set());
        let start = forms::to_set(&set).first().map_or(1, |p| p.to_u32());
        let mut lasts: Vec<u32> = (0..self.r.below(4)).map(|_| self.page()).filter(|&p| p >= start).collect();
        lasts.sort();
        lasts.dedup();
        let frames: Vec<_> = lasts.into_iter().map(|last| (self.r.pick(&[0, 1, 100, u64::MAX / 4]), last)).collect();
        forms::segment_bytes(sid, &set, &frames)
    }

    /// A commit's form at a log and LSN.
    fn commit(&mut self, log: Id, lsn: u64, hash: Option<[u8; 32]>) -> Vec<u8> {
        let mut out = vec![0];
        out.extend(log);
        out.extend((!lsn).to_be_bytes());
        out.extend(self.count().to_be_bytes());
        out.push(u8::from(hash.is_some()));
        out.extend(hash.unwrap_or_default());
        let segment = if self.r.one_in(5) { None } else { Some(self.segment()) };
        out.push(u8::from(segment.is_some()));
        out.extend(segment.unwrap_or_else(|| vec![0; 594]));
        let listed = if self.r.one_in(3) { self.r.below(9) } else { self.r.below(2) };
        out.push(listed as u8);
        for _ in 0..listed {
            out.extend(self.lsn().to_be_bytes());
        }
        out.resize(722, 0);
        out
    }

    fn random_commit(&mut self) -> Vec<u8> {
        let (log, lsn, hash) = (self.few(4), self.lsn(), self.hash());
        let hash = self.r.one_in(2).then_some(hash);
        self.commit(log, lsn, hash)
    }

    /// A form, damaged one time in so many.
    fn or_damaged(&mut self, mut form: Vec<u8>, n: u64) -> Vec<u8> {
        if self.r.one_in(n) {
            damage::value(&mut form, &mut self.damage);
        }
        form
    }

    /// A snapshot: the volume's latest, one near it, an earlier one, or any path.
    fn snapshot(&mut self, vid: &Id, both: &Both) -> Vec<u8> {
        let latest = both.original.reads().snapshot(&core::VolumeId::new(*vid)).ok();
        match (latest, self.r.below(8)) {
            (Some(latest), 0..=4) => {
                let form = forms::of_snapshot(&latest);
                if self.snapshots.len() < 40 {
                    self.snapshots.push(form.clone());
                }
                form
            }
            (Some(latest), 6) => self.near(&latest),
            (_, 5) if !self.snapshots.is_empty() => {
                let at = self.r.below(self.snapshots.len() as u64) as usize;
                self.snapshots[at].clone()
            }
            _ => {
                let ranges = if self.r.one_in(4) { self.r.below(9) } else { self.r.below(4) };
                let path: Vec<_> = (0..ranges)
                    .map(|_| {
                        let (log, a, b) = (self.few(4), self.lsn(), self.lsn());
                        (log, a.min(b), a.max(b))
                    })
                    .collect();
                forms::snapshot_bytes(self.count(), &path)
            }
        }
    }

    /// A snapshot with one thing changed: a range left out, an end moved, or two ranges the other way round.
    fn near(&mut self, snapshot: &Snapshot) -> Vec<u8> {
        let mut path: Vec<_> = snapshot.iter().map(|r| (r.log.bytes(), r.lsns.start().to_u64(), r.lsns.end().to_u64())).collect();
        if path.is_empty() {
            return forms::snapshot_bytes(self.count(), &[(self.few(4), 1, self.lsn())]);
        }
        let at = self.r.below(path.len() as u64) as usize;
        match self.r.below(4) {
            0 => drop(path.remove(at)),
            1 => path.reverse(),
            2 => path[at].2 = path[at].2.saturating_add(1),
            _ => path[at].2 = path[at].1,
        }
        forms::snapshot_bytes(snapshot.page_count.to_u32(), &path)
    }

    /// Puts records into an original's storage that no call would leave together, or none.
    pub fn start(&mut self, storage: &FjallStorage) {
        self.snapshots.clear();
        if self.r.one_in(4) {
            return;
        }
        for _ in 0..self.r.below(12) {
            let commit = to_commit(&self.random_commit());
            if self.r.one_in(4) { storage.store_bare_commit(commit) } else { storage.store_commit(commit) }.expect("stored");
        }
        for _ in 0..self.r.below(6) {
            let volume = self.volume();
            storage.store_volume(volume).expect("stored");
        }
        for _ in 0..self.r.below(3) {
            let (log, page, lsn) = (core::LogId::new(self.few(4)), core::PageIdx::try_new(self.page()).unwrap(), LSN::new(self.lsn()));
            storage.store_index_entry(log, page, lsn).expect("stored");
        }
        for _ in 0..self.r.below(6) {
            let (sid, page) = (core::SegmentId::new(self.few(6)), core::PageIdx::try_new(self.page()).unwrap());
            storage.write_page(sid, page, Page::EMPTY).expect("stored");
        }
        self.start_rich(storage);
    }

    fn volume(&mut self) -> volume::Volume {
        let (local, remote, watermark) = (LSN::new(self.lsn()), LSN::new(self.lsn()), LSN::new(self.lsn()));
        let sync = (!self.r.one_in(3)).then(|| volume::SyncPoint { remote, local_watermark: self.r.one_in(2).then_some(watermark) });
        let (commit, hash) = (LSN::new(self.lsn()), self.hash());
        let pending = self.r.one_in(3).then(|| volume::PendingCommit { local, commit, commit_hash: to_hash(&hash) });
        let (vid, local, remote) = (self.few(3), self.few(4), self.few(4));
        volume::Volume::new(core::VolumeId::new(vid), core::LogId::new(local), core::LogId::new(remote), sync, pending)
    }

    /// Room for so many more records in each table: ample, or hardly any in some.
    pub fn room(&mut self) -> [usize; 6] {
        if self.rich != Rich::Mixed {
            return self.room_rich();
        }
        let tight = self.r.one_in(3);
        [12, 6, 60, 80, 2000, 800].map(|ample| if tight && self.r.one_in(3) { self.r.below(9) as usize } else { ample })
    }

    /// A call with its arguments.
    pub fn call(&mut self, both: &Both) -> (Op, Args) {
        let op = self.op();
        // volumes are not to run out
        let op = if op == Op::VolumeDelete && !self.r.one_in(4) { Op::VolumeExists } else { op };
        let mut args = self.args(op, both);
        match op {
            Op::Prepare => self.aim_prepare(&mut args, both),
            Op::Success => self.aim_success(&mut args, both),
            _ => {}
        }
        let op = self.aim(op, &mut args, both);
        (op, args)
    }

    fn args(&mut self, op: Op, both: &Both) -> Args {
        let (vid, page, lsn, end) = (self.few(4), self.page(), self.lsn(), self.lsn());
        let snapshot = self.snapshot(&vid, both);
        let last = if self.r.one_in(2) { page } else { self.page() };
        // mostly in order, at times not
        let (page, last) = if self.r.one_in(8) { (page, last) } else { (page.min(last), page.max(last)) };
        let (lsn, end) = if op != Op::StoredLsns || self.r.one_in(8) { (lsn, end) } else { (lsn.min(end), lsn.max(end)) };
        let right = if op.lists() { op.size() * self.r.below(14) as usize + self.r.below(3) as usize } else { op.size() };
        // a number, or an identifier, has its place by its type
        let wrong = !op.lists() && right > 16 && self.r.one_in(40);
        let (commit, set) = (self.random_commit(), self.set());
        Args {
            vid,
            log: self.few(4),
            sid: if op == Op::Save { self.spare(6) } else { self.few(6) },
            lsn: self.or_zero(lsn),
            end: self.or_zero(end),
            page: self.or_zero(page),
            last: self.or_zero(last),
            count: self.count(),
            name: self.name(),
            hash: self.hash(),
            snapshot: self.or_damaged(snapshot, 25),
            commit: self.or_damaged_commit(commit),
            set: self.or_damaged(set, 25),
            flags: [0; 3].map(|_| if self.r.one_in(3) { 0 } else { 1 + self.r.below(2) as u32 }),
            asked: [self.few(4), self.few(5), self.few(5)],
            spares: [self.spare(4), self.spare(5), self.spare(5)],
            room: if wrong { self.r.pick(&[0, right - 1, right + 1]) } else { right },
        }
    }

    /// A commit's form, at times damaged, its hash still one that the original can hold.
    fn or_damaged_commit(&mut self, commit: Vec<u8>) -> Vec<u8> {
        let damaged = self.or_damaged(commit.clone(), 12);
        if damaged.len() == 722 && damaged[29] == 1 && damaged[30] != 0 { commit } else { damaged }
    }

    /// A tag's name, few of them, at times too short or too long.
    fn name(&mut self) -> Vec<u8> {
        let names = ["a", "a\0", "ab", "b", "line 7", "0123456789abcdef0123456789abcde", "0123456789abcdef0123456789abcdef", "é"];
        match self.r.below(30) {
            0 => vec![],
            1 => vec![b'x'; 33],
            2 => vec![b'x'; 300],
            _ => self.r.pick(&names).into(),
        }
    }

    /// Often the LSNs that a prepare can take.
    fn aim_prepare(&mut self, a: &mut Args, both: &Both) {
        let Some(v) = read::<Volume>(&both.ours[0]).find(|v| v.vid.0 == a.vid) else { return };
        if self.r.one_in(4) {
            return;
        }
        let latest = both.original.reads().latest_lsn(&core::LogId::new(v.remote.0)).expect("readable");
        a.end = latest.map_or(1, |l| l.to_u64().saturating_add(1));
        let watermark = v.sync.and_then(|s| s.watermark).map_or(0, |w| w.get());
        if !self.r.one_in(6) {
            a.lsn = watermark.saturating_add(1 + self.r.below(3));
        }
    }

    /// Often the commit that is pending.
    fn aim_success(&mut self, a: &mut Args, both: &Both) {
        let Some(v) = read::<Volume>(&both.ours[0]).find(|v| v.vid.0 == a.vid) else { return };
        let Some(pending) = v.pending else { return };
        if self.r.one_in(4) {
            return;
        }
        let log = if self.r.one_in(6) { self.few(4) } else { v.remote.0 };
        let lsn = if self.r.one_in(12) { self.lsn() } else { pending.commit.get() };
        let hash = if self.r.one_in(12) { self.hash() } else { pending.hash.0 };
        let hash = if self.r.one_in(20) { None } else { Some(hash) };
        a.commit = self.commit(log, lsn, hash);
        a.commit = self.or_damaged_commit(a.commit.clone());
    }
}
