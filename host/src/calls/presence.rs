//! Calls on the present pages.
use super::done;
use crate::{PageIdx, Presence, Refusal, SegmentId, plain};

impl Presence<'_> {
    /// Whether a page of a segment is present: 20.
    pub fn has(&self, sid: SegmentId, page: PageIdx) -> Result<bool, Refusal> {
        plain::page_present(self.as_bytes(), &sid.0, page.get()).answer()
    }

    /// Marks a page of a segment present; done where it is already: 20, 19.
    pub fn mark(&mut self, sid: SegmentId, page: PageIdx) -> Result<(), Refusal> {
        done(plain::page_mark(self.as_mut_bytes(), &sid.0, page.get()))
    }

    /// Removes a present page; done where there is none: 20.
    pub fn remove(&mut self, sid: SegmentId, page: PageIdx) -> Result<(), Refusal> {
        done(plain::page_remove(self.as_mut_bytes(), &sid.0, page.get()))
    }

    /// Removes the present pages of a segment from `first` to `last`: 20, 2.
    pub fn remove_range(&mut self, sid: SegmentId, first: PageIdx, last: PageIdx) -> Result<(), Refusal> {
        done(plain::pages_remove(self.as_mut_bytes(), &sid.0, first.get(), last.get()))
    }
}
