//! Calls on the volumes alone.
use super::{Entries, done, listed, written};
use crate::{Refusal, Volume, VolumeId, Volumes, plain};

impl Volumes<'_> {
    /// The record of a volume: 20, 4.
    pub fn read(&self, vid: VolumeId) -> Result<Volume, Refusal> {
        written(|out| plain::volume_read(self.as_bytes(), &vid.0, out))
    }

    /// Whether there is a volume of that identifier: 20.
    pub fn exists(&self, vid: VolumeId) -> Result<bool, Refusal> {
        plain::volume_exists(self.as_bytes(), &vid.0).answer()
    }

    /// Every volume, in key order, in a lent list of 117 bytes each: 20, 19.
    pub fn list<'l>(&self, list: &'l mut [u8]) -> Result<Entries<'l, Volume>, Refusal> {
        listed(list, |list, items| plain::volume_list(self.as_bytes(), list, items))
    }

    /// Removes a volume's record; its tags, commits and pages stay. Done where there is none: 20.
    pub fn delete(&mut self, vid: VolumeId) -> Result<(), Refusal> {
        done(plain::volume_delete(self.as_mut_bytes(), &vid.0))
    }

    /// Drops a volume's pending commit; done where there is none: 20, 4.
    pub fn drop_pending(&mut self, vid: VolumeId) -> Result<(), Refusal> {
        done(plain::drop(self.as_mut_bytes(), &vid.0))
    }
}
