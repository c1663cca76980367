//! Calls that read several tables.
use super::{Entries, found, listed, written};
use crate::{Commit, PageIdx, Refusal, SegmentRange, Snapshot, Tables, VolumeId, plain};

/// Calls that read several tables.
impl Tables<'_> {
    /// What a reader of the volume sees now, of volumes and commits: 20, 4.
    pub fn snapshot(&self, vid: VolumeId) -> Result<Snapshot, Refusal> {
        written(|out| plain::snapshot(self.volumes.as_bytes(), self.commits.as_bytes(), &vid.0, out))
    }

    /// Whether a snapshot is the volume's latest, of volumes and commits: 20, 2, 4.
    pub fn is_latest(&self, vid: VolumeId, snapshot: &Snapshot) -> Result<bool, Refusal> {
        plain::latest_check(self.volumes.as_bytes(), self.commits.as_bytes(), &vid.0, &snapshot.to_bytes()).answer()
    }

    /// The commit that holds a page as the snapshot sees it, or nothing, of commits and index: 20, 2, 21.
    pub fn search(&self, snapshot: &Snapshot, page: PageIdx) -> Result<Option<Commit>, Refusal> {
        found(|out| plain::search(self.commits.as_bytes(), self.index.as_bytes(), &snapshot.to_bytes(), page.get(), out))
    }

    /// The frames that hold pages of the snapshot and are not present, of commits and presence, in a lent list of 417 bytes each: 20, 2, 19.
    pub fn missing_frames<'l>(&self, snapshot: &Snapshot, list: &'l mut [u8]) -> Result<Entries<'l, SegmentRange>, Refusal> {
        let snapshot = snapshot.to_bytes();
        listed(list, |list, items| plain::missing_frames(self.commits.as_bytes(), self.presence.as_bytes(), &snapshot, list, items))
    }
}
