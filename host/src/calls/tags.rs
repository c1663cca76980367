//! Calls on the tags.
use super::{Entries, done, listed};
use crate::{Refusal, Tag, Tags, VolumeId, plain};

/// Calls on the tags. A name of another length than 1 to 32 bytes is 1.
impl Tags<'_> {
    /// The volume that a tag names, or nothing: 20, 1.
    pub fn read(&self, name: &[u8]) -> Result<Option<VolumeId>, Refusal> {
        let mut vid = [0; 16];
        let found = plain::tag_read(self.as_bytes(), name, &mut vid).answer()?;
        Ok(found.then_some(VolumeId(vid)))
    }

    /// Whether there is a tag of that name: 20, 1.
    pub fn exists(&self, name: &[u8]) -> Result<bool, Refusal> {
        plain::tag_exists(self.as_bytes(), name).answer()
    }

    /// Every tag, in key order, in a lent list of 50 bytes each: 20, 19.
    pub fn list<'l>(&self, list: &'l mut [u8]) -> Result<Entries<'l, Tag>, Refusal> {
        listed(list, |list, items| plain::tag_list(self.as_bytes(), list, items))
    }

    /// Removes a tag; done where there is none: 20, 1.
    pub fn delete(&mut self, name: &[u8]) -> Result<(), Refusal> {
        done(plain::tag_delete(self.as_mut_bytes(), name))
    }

    /// Makes a tag name a volume, and gives back the one that it named before, or nothing: 20, 1, 19.
    pub fn replace(&mut self, name: &[u8], vid: VolumeId) -> Result<Option<VolumeId>, Refusal> {
        let mut earlier = [0; 16];
        let found = plain::tag_replace(self.as_mut_bytes(), name, &vid.0, &mut earlier).answer()?;
        Ok(found.then_some(VolumeId(earlier)))
    }
}
