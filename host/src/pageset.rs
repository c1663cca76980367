//! Sets of pages.
use crate::bytes::{ByteForm, byte_form};
use crate::{PageCount, PageIdx, Refusal, plain};

/// 64 pages of a set: page p is bit p mod 64 of window p div 64.
#[derive(Clone, Copy, Debug, PartialEq, Eq)]
pub struct Window {
    /// The pages from 64 times this.
    pub index: u32,
    /// A bit for each page, never zero.
    pub mask: u64,
}

/// A set of pages of at most 32 windows, in normal form.
///
/// ```
/// use sigatuda::{PageCount, PageIdx, PageSet, Refusal};
/// let page = |n| PageIdx::new(n).unwrap();
/// let mut set = PageSet::range(page(3), page(5))?;
/// set.truncate(PageCount(4));
/// assert!(set.pages().eq([page(3), page(4)]));
/// assert_eq!((set.len(), set.first(), set.last()), (PageCount(2), Some(page(3)), Some(page(4))));
/// assert_eq!(PageSet::range(page(1), page(2048)), Err(Refusal::TooWide));
/// # Ok::<(), Refusal>(())
/// ```
#[derive(Clone, Copy, PartialEq, Eq)]
pub struct PageSet([u8; 385]);

byte_form!(PageSet, 385);

impl ByteForm for PageSet {
    const SIZE: usize = 385;

    fn write(&self, out: &mut [u8]) {
        out.copy_from_slice(&self.0);
    }

    fn read(bytes: &[u8]) -> Result<Self, Refusal> {
        plain::set_size(bytes, &mut 0).answer()?;
        Ok(PageSet(bytes.try_into().expect("of its size")))
    }
}

impl PageSet {
    /// The set of no page.
    pub const EMPTY: PageSet = PageSet([0; 385]);

    /// The pages from `first` to `last`: 2, 22.
    pub fn range(first: PageIdx, last: PageIdx) -> Result<PageSet, Refusal> {
        let mut out = Self::EMPTY;
        plain::set_range(first.get(), last.get(), &mut out.0).answer()?;
        Ok(out)
    }

    /// The set of some pages: 22.
    pub fn of(pages: impl IntoIterator<Item = PageIdx>) -> Result<PageSet, Refusal> {
        let mut set = Self::EMPTY;
        for page in pages {
            set.insert(page)?;
        }
        Ok(set)
    }

    /// Puts a page in, and says whether it was new: 22, and the set is as it was.
    pub fn insert(&mut self, page: PageIdx) -> Result<bool, Refusal> {
        let mut out = Self::EMPTY;
        let new = plain::set_insert(&self.0, page.get(), &mut out.0).answer()?;
        *self = out;
        Ok(new)
    }

    /// The pages of both: 22.
    pub fn union(&self, other: &PageSet) -> Result<PageSet, Refusal> {
        let mut out = Self::EMPTY;
        plain::set_union(&self.0, &other.0, &mut out.0).answer()?;
        Ok(out)
    }

    /// The number of pages.
    pub fn len(&self) -> PageCount {
        let mut out = 0;
        plain::set_size(&self.0, &mut out).unrefused();
        PageCount(out)
    }

    /// Whether it has no page.
    pub fn is_empty(&self) -> bool {
        *self == Self::EMPTY
    }

    /// The first page, or nothing.
    pub fn first(&self) -> Option<PageIdx> {
        let mut out = 0;
        plain::set_first(&self.0, &mut out).unrefused().then(|| page(out))
    }

    /// The last page, or nothing.
    pub fn last(&self) -> Option<PageIdx> {
        let mut out = 0;
        plain::set_last(&self.0, &mut out).unrefused().then(|| page(out))
    }

    /// Whether a page is in it.
    pub fn contains(&self, page: PageIdx) -> bool {
        plain::set_contains(&self.0, page.get()).unrefused()
    }

    /// Whether some page from `first` to `last` is in it: 2.
    pub fn contains_any(&self, first: PageIdx, last: PageIdx) -> Result<bool, Refusal> {
        plain::set_contains_any(&self.0, first.get(), last.get()).answer()
    }

    /// Whether all pages from `first` to `last` are in it: 2.
    pub fn contains_all(&self, first: PageIdx, last: PageIdx) -> Result<bool, Refusal> {
        plain::set_contains_all(&self.0, first.get(), last.get()).answer()
    }

    /// Removes the pages above a count.
    pub fn truncate(&mut self, count: PageCount) {
        let mut out = Self::EMPTY;
        plain::set_truncate(&self.0, count.0, &mut out.0).unrefused();
        *self = out;
    }

    /// Removes the pages that are in `other` too, and gives them back.
    pub fn cut(&mut self, other: &PageSet) -> PageSet {
        let (mut common, mut rest) = (Self::EMPTY, Self::EMPTY);
        plain::set_cut(&self.0, &other.0, &mut common.0, &mut rest.0).unrefused();
        *self = rest;
        common
    }

    /// Removes the pages from `first` to `last`: 2, and the set is as it was.
    pub fn remove(&mut self, first: PageIdx, last: PageIdx) -> Result<(), Refusal> {
        let mut out = Self::EMPTY;
        plain::set_remove(&self.0, first.get(), last.get(), &mut out.0).answer()?;
        *self = out;
        Ok(())
    }

    /// The windows, rising.
    pub fn windows(&self) -> impl Iterator<Item = Window> + '_ {
        self.0[1..].chunks_exact(12).take(usize::from(self.0[0])).map(|place| Window {
            index: u32::from_be_bytes(place[..4].try_into().expect("four bytes")),
            mask: u64::from_be_bytes(place[4..].try_into().expect("eight bytes")),
        })
    }

    /// The pages, rising.
    pub fn pages(&self) -> impl Iterator<Item = PageIdx> + '_ {
        self.windows().flat_map(|w| (0..64).filter(move |bit| w.mask >> bit & 1 == 1).map(move |bit| page(w.index * 64 + bit)))
    }
}

/// The page of a number that a set in normal form holds.
fn page(n: u32) -> PageIdx {
    PageIdx::new(n).expect("a set holds no page 0")
}

impl Default for PageSet {
    fn default() -> Self {
        Self::EMPTY
    }
}

impl core::fmt::Debug for PageSet {
    fn fmt(&self, f: &mut core::fmt::Formatter<'_>) -> core::fmt::Result {
        f.debug_set().entries(self.pages().map(PageIdx::get)).finish()
    }
}
