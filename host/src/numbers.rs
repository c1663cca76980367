//! LSNs, page numbers and page counts, kept apart by their types.
use crate::bytes::{ByteForm, Reader};
use crate::{Refusal, plain};

/// An LSN: 1 to 2^64-1.
///
/// ```
/// use sigatuda::{Lsn, Refusal};
/// assert_eq!(Lsn::new(7)?.next()?, Lsn::new(8)?);
/// assert_eq!(Lsn::FIRST.prev(), None);
/// assert_eq!(Lsn::LAST.next(), Err(Refusal::NoLsnLeft));
/// assert_eq!(Lsn::new(0), Err(Refusal::Zero));
/// # Ok::<(), Refusal>(())
/// ```
#[derive(Clone, Copy, Debug, PartialEq, Eq, PartialOrd, Ord, Hash)]
pub struct Lsn(u64);

impl Lsn {
    /// The first LSN.
    pub const FIRST: Lsn = Lsn(1);
    /// The last LSN.
    pub const LAST: Lsn = Lsn(u64::MAX);

    /// The LSN of a number; 1 for 0.
    pub const fn new(n: u64) -> Result<Lsn, Refusal> {
        if n == 0 { Err(Refusal::Zero) } else { Ok(Lsn(n)) }
    }

    /// Its number.
    pub const fn get(self) -> u64 {
        self.0
    }

    /// The next LSN; 18 after the last.
    pub fn next(self) -> Result<Lsn, Refusal> {
        let mut out = 0;
        plain::lsn_next(self.0, &mut out).answer()?;
        Ok(Lsn(out))
    }

    /// The LSN before, or nothing before the first.
    pub fn prev(self) -> Option<Lsn> {
        let mut out = 0;
        plain::lsn_prev(self.0, &mut out).unrefused().then_some(Lsn(out))
    }

    /// The next LSN, or the last.
    pub fn saturating_next(self) -> Lsn {
        let mut out = 0;
        plain::lsn_saturating_next(self.0, &mut out).unrefused();
        Lsn(out)
    }

    /// The LSN before, or the first.
    pub fn saturating_prev(self) -> Lsn {
        let mut out = 0;
        plain::lsn_saturating_prev(self.0, &mut out).unrefused();
        Lsn(out)
    }
}

impl Default for Lsn {
    fn default() -> Self {
        Self::FIRST
    }
}

/// An entry of a list of LSNs: not complemented.
impl ByteForm for Lsn {
    const SIZE: usize = 8;

    fn write(&self, out: &mut [u8]) {
        out.copy_from_slice(&self.0.to_be_bytes());
    }

    fn read(bytes: &[u8]) -> Result<Self, Refusal> {
        Lsn::new(Reader(bytes).u64())
    }
}

/// A page number: 1 to 2^32-1.
///
/// ```
/// use sigatuda::{PageIdx, Refusal};
/// assert_eq!(PageIdx::new(4)?.saturating_next(), PageIdx::new(5)?);
/// assert_eq!(PageIdx::LAST.saturating_next(), PageIdx::LAST);
/// # Ok::<(), Refusal>(())
/// ```
#[derive(Clone, Copy, Debug, PartialEq, Eq, PartialOrd, Ord, Hash)]
pub struct PageIdx(u32);

impl PageIdx {
    /// Page 1.
    pub const FIRST: PageIdx = PageIdx(1);
    /// Page 2^32-1.
    pub const LAST: PageIdx = PageIdx(u32::MAX);

    /// The page of a number; 1 for 0.
    pub const fn new(n: u32) -> Result<PageIdx, Refusal> {
        if n == 0 { Err(Refusal::Zero) } else { Ok(PageIdx(n)) }
    }

    /// Its number.
    pub const fn get(self) -> u32 {
        self.0
    }

    /// The next page, or the last.
    pub fn saturating_next(self) -> PageIdx {
        let mut out = 0;
        plain::page_next(self.0, &mut out).unrefused();
        PageIdx(out)
    }

    /// The page before, or the first.
    pub fn saturating_prev(self) -> PageIdx {
        let mut out = 0;
        plain::page_prev(self.0, &mut out).unrefused();
        PageIdx(out)
    }
}

impl Default for PageIdx {
    fn default() -> Self {
        Self::FIRST
    }
}

/// A number of pages: 0 to 2^32-1. n pages end at page n.
#[derive(Clone, Copy, Debug, Default, PartialEq, Eq, PartialOrd, Ord, Hash)]
pub struct PageCount(pub u32);

impl PageCount {
    /// One more, or the most.
    pub fn saturating_incr(self) -> PageCount {
        let mut out = 0;
        plain::count_next(self.0, &mut out).unrefused();
        PageCount(out)
    }

    /// One less, or none.
    pub fn saturating_decr(self) -> PageCount {
        let mut out = 0;
        plain::count_prev(self.0, &mut out).unrefused();
        PageCount(out)
    }

    /// The page at which so many pages end, or nothing for none.
    pub fn last_page(self) -> Option<PageIdx> {
        let mut out = 0;
        plain::count_last_page(self.0, &mut out).unrefused().then_some(PageIdx(out))
    }
}
