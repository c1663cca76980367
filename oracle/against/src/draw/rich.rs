//! Histories that are rich in some calls, where chance alone reaches their numbers too rarely: most calls are of those, on volumes and commits that
//! are stored, and tables fill up.
use super::Draw;
use crate::calls::{Args, Id, Op};
use crate::judge;
use crate::tables::{Both, records, to_commit};
use graft::core::{self, lsn::LSN};
use graft::local::fjall_storage::FjallStorage;
use harness::forms;
use sigatuda::{Commit, IndexEntry, Volume};

/// What histories are rich in.
#[derive(Clone, Copy, Debug, PartialEq, Eq)]
pub enum Rich {
    /// All calls, those that store rather more.
    Mixed,
    /// Writes of commits, many in place of another one.
    Writes,
    /// Saves and copies.
    Saves,
    /// Recovers that lack room and searches that find an entry without commit.
    Thin,
}

impl Rich {
    /// Of its word.
    pub fn of(word: &str) -> Option<Rich> {
        Some(match word {
            "mixed" => Rich::Mixed,
            "writes" => Rich::Writes,
            "saves" => Rich::Saves,
            "thin" => Rich::Thin,
            _ => return None,
        })
    }

    fn calls(self) -> &'static [Op] {
        match self {
            Rich::Mixed => &[Op::WriteCommit, Op::Save, Op::Open, Op::Prepare, Op::Success, Op::Recover, Op::Sync],
            Rich::Writes => &[Op::WriteCommit],
            Rich::Saves => &[Op::Save, Op::FromSnapshot, Op::FromLogref],
            Rich::Thin => &[Op::Recover, Op::Search],
        }
    }
}

impl Draw {
    /// A call: of those that the history is rich in, or any.
    pub(super) fn op(&mut self) -> Op {
        if self.rich == Rich::Mixed {
            return match self.r.below(3) {
                0 => self.r.pick(Rich::Mixed.calls()),
                _ => self.r.pick(Op::ALL),
            };
        }
        match self.r.below(8) {
            0..=4 => self.r.pick(self.rich.calls()),
            5 => self.r.pick(Rich::Mixed.calls()),
            _ => self.r.pick(Op::ALL),
        }
    }

    /// Records with which a rich history starts, beside those of every history.
    pub(super) fn start_rich(&mut self, storage: &FjallStorage) {
        if matches!(self.rich, Rich::Saves | Rich::Thin) {
            for _ in 0..1 + self.r.below(3) {
                let mut volume = self.volume();
                while self.rich == Rich::Thin && volume.pending_commit.is_none() {
                    volume = self.volume();
                }
                if let Some(pending) = volume.pending_commit.as_ref().filter(|_| self.rich == Rich::Thin) {
                    // what was pushed has arrived, and its entries are not here yet
                    let mut hash: [u8; 32] = pending.commit_hash.clone().into();
                    hash[0] = 0;
                    let commit = self.commit(volume.remote.bytes(), pending.commit.to_u64(), Some(hash));
                    storage.store_bare_commit(to_commit(&commit)).expect("stored");
                }
                storage.store_volume(volume).expect("stored");
            }
        }
        if self.rich == Rich::Thin {
            for _ in 0..self.r.below(12) {
                let (log, page, lsn) = (core::LogId::new(self.few(4)), core::PageIdx::try_new(self.page()).unwrap(), LSN::new(self.lsn()));
                storage.store_index_entry(log, page, lsn).expect("stored");
            }
        }
    }

    /// Room for so many more records in each table of a rich history: every other one is short of it somewhere.
    pub(super) fn room_rich(&mut self) -> [usize; 6] {
        let (ample, hardly) = match self.rich {
            Rich::Saves => ([24, 4, 150, 120, 3000, 1200], 8),
            Rich::Thin => ([8, 4, 60, 2, 2, 300], 1),
            _ => ([8, 4, 60, 80, 1500, 300], 8),
        };
        let tight = self.r.one_in(2);
        ample.map(|ample| if tight && self.r.one_in(2) { self.r.below(1 + ample as u64 / hardly) as usize } else { ample })
    }

    /// Turns a call's arguments to what is stored, but for one in eight. A copy into a full table of volumes becomes a deletion every other time.
    pub(super) fn aim(&mut self, op: Op, a: &mut Args, both: &Both) -> Op {
        if self.rich == Rich::Mixed || self.r.one_in(8) {
            return op;
        }
        let vid = self.stored_volume(both);
        match op {
            Op::WriteCommit => self.aim_write(a, both),
            Op::Save => {
                a.vid = vid.unwrap_or(a.vid);
                a.snapshot = self.snapshot(&a.vid, both);
                if judge::set(&a.set) == 0 && self.r.one_in(3) {
                    a.count = forms::to_set(&a.set).iter().count() as u32;
                }
            }
            Op::FromSnapshot | Op::FromLogref => {
                a.spares = [self.fresh(), self.fresh(), self.fresh()];
                a.snapshot = self.snapshot(&vid.unwrap_or(a.vid), both);
                if let Some(c) = self.stored::<Commit>(both, 2) {
                    (a.log, a.lsn) = (c.log.0, c.lsn.get());
                }
                let (held, room) = (usize::from(both.ours[0][1]), (both.ours[0].len() - 2) / 117);
                if let Some(vid) = vid.filter(|_| held == room && self.r.one_in(2)) {
                    a.vid = vid;
                    a.room = 0;
                    return Op::VolumeDelete;
                }
            }
            Op::Recover => a.vid = vid.unwrap_or(a.vid),
            Op::Search => {
                if let Some(entry) = self.stored::<IndexEntry>(both, 4) {
                    let (low, high) = (1 + self.r.below(entry.lsn.get().min(3)), entry.lsn.get().saturating_add(self.r.below(3)));
                    a.page = entry.page.get();
                    a.snapshot = forms::snapshot_bytes(self.count(), &[(self.few(4), 1, 2), (entry.log.0, low.min(high), high)]);
                }
            }
            _ => {}
        }
        op
    }

    /// Often a commit in place of a stored one: every other time with that one's pages, so that all its keys are held.
    fn aim_write(&mut self, a: &mut Args, both: &Both) {
        let Some(c) = self.stored::<Commit>(both, 2).filter(|_| a.commit.len() == 722 && self.r.one_in(2)) else { return };
        a.commit[1..17].copy_from_slice(&c.log.0);
        a.commit[17..25].copy_from_slice(&(!c.lsn.get()).to_be_bytes());
        if let Some(segment) = c.segment.filter(|_| self.r.one_in(2)) {
            a.commit[62] = 1;
            a.commit[63..657].copy_from_slice(&segment.to_bytes());
        }
    }

    /// One of the records of a table.
    fn stored<R: sigatuda::Record>(&mut self, both: &Both, table: usize) -> Option<R> {
        let mut records = records(&both.ours[table], R::SIZE);
        let at = self.r.below(records.len().max(1) as u64) as usize;
        records.nth(at).map(|record| R::read(record).expect("in form"))
    }

    fn stored_volume(&mut self, both: &Both) -> Option<Id> {
        self.stored::<Volume>(both, 0).map(|v| v.vid.0)
    }
}
