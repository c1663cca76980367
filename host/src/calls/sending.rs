//! Calls that follow the remote log and send to it.
use super::done;
use crate::{Commit, PendingCommit, Refusal, Tables, VolumeId, plain};

/// Calls that follow the remote log and send to it.
impl Tables<'_> {
    /// Moves the volume's sync point to the remote's latest, in volumes, of commits: 20, 4, 16, 8.
    pub fn sync(&mut self, vid: VolumeId) -> Result<(), Refusal> {
        done(plain::sync(self.volumes.as_mut_bytes(), self.commits.as_bytes(), &vid.0))
    }

    /// Sets the volume's pending commit before it is sent, in volumes, of commits: 20, 4, 9, 11, 12, 13.
    pub fn prepare(&mut self, vid: VolumeId, pending: PendingCommit) -> Result<(), Refusal> {
        let (volumes, commits) = (self.volumes.as_mut_bytes(), self.commits.as_bytes());
        done(plain::prepare(volumes, commits, &vid.0, pending.local.get(), pending.commit.get(), &pending.hash.0))
    }

    /// The pending commit was taken: stores it and makes it the sync point, in volumes, commits, checkpoints and index: 20, 3, 4, 10, 14, 15, 19.
    pub fn success(&mut self, vid: VolumeId, commit: &Commit) -> Result<(), Refusal> {
        let (volumes, commits) = (self.volumes.as_mut_bytes(), self.commits.as_mut_bytes());
        let (checkpoints, index) = (self.checkpoints.as_mut_bytes(), self.index.as_mut_bytes());
        done(plain::success(volumes, commits, checkpoints, index, &vid.0, &commit.to_bytes()))
    }

    /// Ends a pending commit by what the remote log holds at its place, in volumes, commits, checkpoints and index: 20, 4, 8, 19. With 8 the pending
    /// commit is dropped, the one refusal that changes a table.
    pub fn recover(&mut self, vid: VolumeId) -> Result<(), Refusal> {
        let (volumes, commits) = (self.volumes.as_mut_bytes(), self.commits.as_mut_bytes());
        done(plain::recover(volumes, commits, self.checkpoints.as_mut_bytes(), self.index.as_mut_bytes(), &vid.0))
    }
}
