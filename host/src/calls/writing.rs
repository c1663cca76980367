//! Calls that make volumes and commits.
use super::{NewVolume, done, written};
use crate::{Commit, LogId, PageCount, PageSet, Refusal, SegmentId, Snapshot, Tables, Volume, VolumeId, plain};

/// What a caller asks of the volume that is opened; a spare stands in for each part that is not asked.
#[derive(Clone, Copy, Debug, Default, PartialEq, Eq)]
pub struct Asked {
    /// The volume.
    pub vid: Option<VolumeId>,
    /// Its local log.
    pub local: Option<LogId>,
    /// Its remote log.
    pub remote: Option<LogId>,
}

/// An identifier as it crosses: a flag, and its bytes or any.
fn flagged(id: Option<[u8; 16]>) -> (u32, [u8; 16]) {
    (u32::from(id.is_some()), id.unwrap_or_default())
}

/// Calls that make volumes and commits.
impl Tables<'_> {
    /// Opens a volume: the asked one where it is stored, else a new one, in volumes, of commits: 20, 6, 5, 19. A spare that is not used is not looked at.
    pub fn open(&mut self, asked: Asked, spares: NewVolume) -> Result<Volume, Refusal> {
        let (has_vid, vid) = flagged(asked.vid.map(|id| id.0));
        let (has_local, local) = flagged(asked.local.map(|id| id.0));
        let (has_remote, remote) = flagged(asked.remote.map(|id| id.0));
        let (volumes, commits) = (self.volumes.as_mut_bytes(), self.commits.as_bytes());
        let NewVolume { vid: v, local: l, remote: r } = spares;
        written(|out| plain::open(volumes, commits, has_vid, &vid, has_local, &local, has_remote, &remote, &v.0, &l.0, &r.0, out))
    }

    /// Stores a commit in the place of any at its log and LSN, with its checkpoints and an index entry for each page; all or nothing, in commits,
    /// checkpoints and index: 20, 3, 19.
    pub fn write_commit(&mut self, commit: &Commit) -> Result<(), Refusal> {
        let (commits, checkpoints, index) = (self.commits.as_mut_bytes(), self.checkpoints.as_mut_bytes(), self.index.as_mut_bytes());
        done(plain::write_commit(commits, checkpoints, index, &commit.to_bytes()))
    }

    /// Saves pages as the volume's next local commit and answers the snapshot afterwards, in commits, checkpoints, index and presence, of volumes:
    /// 20, 2, 4, 7, 18, 5, 19.
    pub fn save(
        &mut self,
        vid: VolumeId,
        snapshot: &Snapshot,
        count: PageCount,
        sid: SegmentId,
        pages: &PageSet,
    ) -> Result<Snapshot, Refusal> {
        let (commits, checkpoints) = (self.commits.as_mut_bytes(), self.checkpoints.as_mut_bytes());
        let (index, presence, volumes) = (self.index.as_mut_bytes(), self.presence.as_mut_bytes(), self.volumes.as_bytes());
        let (snapshot, pages) = (snapshot.to_bytes(), pages.to_bytes());
        written(|out| plain::save(volumes, commits, checkpoints, index, presence, &vid.0, &snapshot, count.0, &sid.0, &pages, out))
    }
}
