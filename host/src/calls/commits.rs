//! Calls on the commits alone, and on the checkpoints.
use super::{Entries, found, listed};
use crate::{Checkpoints, Commit, Commits, LogId, Lsn, PageCount, Refusal, Snapshot, WalkItem, plain};

impl Commits<'_> {
    /// The commit at an LSN of a log, or nothing: 20.
    pub fn read(&self, log: LogId, lsn: Lsn) -> Result<Option<Commit>, Refusal> {
        found(|out| plain::commit_read(self.as_bytes(), &log.0, lsn.get(), out))
    }

    /// The latest commit of a log, or nothing: 20.
    pub fn latest(&self, log: LogId) -> Result<Option<Commit>, Refusal> {
        found(|out| plain::latest_commit(self.as_bytes(), &log.0, out))
    }

    /// The latest LSN of a log, or nothing: 20.
    pub fn latest_lsn(&self, log: LogId) -> Result<Option<Lsn>, Refusal> {
        let mut lsn = 0;
        let found = plain::latest_lsn(self.as_bytes(), &log.0, &mut lsn).answer()?;
        found.then(|| Lsn::new(lsn)).transpose()
    }

    /// The page count as of an LSN of a log, or nothing: 20.
    pub fn page_count(&self, log: LogId, lsn: Lsn) -> Result<Option<PageCount>, Refusal> {
        let mut count = 0;
        let found = plain::page_count(self.as_bytes(), &log.0, lsn.get(), &mut count).answer()?;
        Ok(found.then_some(PageCount(count)))
    }

    /// The LSNs from `start` to `end` that a log holds, falling, in a lent list of 8 bytes each: 20, 2, 19.
    pub fn stored_lsns<'l>(&self, log: LogId, start: Lsn, end: Lsn, list: &'l mut [u8]) -> Result<Entries<'l, Lsn>, Refusal> {
        listed(list, |list, items| plain::stored_lsns(self.as_bytes(), &log.0, start.get(), end.get(), list, items))
    }

    /// The commits of a snapshot, in path order, LSN falling, in a lent list of 722 bytes each: 20, 2, 19.
    pub fn of_snapshot<'l>(&self, snapshot: &Snapshot, list: &'l mut [u8]) -> Result<Entries<'l, Commit>, Refusal> {
        listed(list, |list, items| plain::snapshot_commits(self.as_bytes(), &snapshot.to_bytes(), list, items))
    }

    /// The pages that each commit of a snapshot gives its reader, in path order, in a lent list of 1003 bytes each: 20, 2, 19.
    pub fn walk<'l>(&self, snapshot: &Snapshot, list: &'l mut [u8]) -> Result<Entries<'l, WalkItem>, Refusal> {
        listed(list, |list, items| plain::walk(self.as_bytes(), &snapshot.to_bytes(), list, items))
    }
}

impl Checkpoints<'_> {
    /// The highest checkpoint of a log at or below an LSN, or nothing: 20.
    pub fn at_or_below(&self, log: LogId, lsn: Lsn) -> Result<Option<Lsn>, Refusal> {
        let mut checkpoint = 0;
        let found = plain::checkpoint_at(self.as_bytes(), &log.0, lsn.get(), &mut checkpoint).answer()?;
        found.then(|| Lsn::new(checkpoint)).transpose()
    }
}
