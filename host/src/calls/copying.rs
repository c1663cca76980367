//! Calls that copy a volume.
use super::{NewVolume, found, written};
use crate::{LogId, Lsn, Refusal, Snapshot, Tables, Volume, plain};

/// Calls that copy a volume.
impl Tables<'_> {
    /// A new volume whose local log holds the commits of a snapshot, in volumes, commits, checkpoints and index: 20, 2, 5, 19.
    pub fn volume_from_snapshot(&mut self, snapshot: &Snapshot, new: NewVolume) -> Result<Volume, Refusal> {
        let (volumes, commits) = (self.volumes.as_mut_bytes(), self.commits.as_mut_bytes());
        let (checkpoints, index, snapshot) = (self.checkpoints.as_mut_bytes(), self.index.as_mut_bytes(), snapshot.to_bytes());
        let NewVolume { vid, local, remote } = new;
        written(|out| plain::volume_from_snapshot(volumes, commits, checkpoints, index, &snapshot, &vid.0, &local.0, &remote.0, out))
    }

    /// A new volume whose local log holds the commits of a log up to an LSN, or nothing where that commit is not stored, in volumes, commits,
    /// checkpoints and index: 20, 5, 19.
    pub fn volume_from_logref(&mut self, log: LogId, lsn: Lsn, new: NewVolume) -> Result<Option<Volume>, Refusal> {
        let (volumes, commits) = (self.volumes.as_mut_bytes(), self.commits.as_mut_bytes());
        let (checkpoints, index) = (self.checkpoints.as_mut_bytes(), self.index.as_mut_bytes());
        let NewVolume { vid, local, remote } = new;
        found(|out| plain::volume_from_logref(volumes, commits, checkpoints, index, &log.0, lsn.get(), &vid.0, &local.0, &remote.0, out))
    }
}
