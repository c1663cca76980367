//! The six tables, in bytes that the caller lends. A type for each keeps them from being swapped, and Rust's borrows keep them apart.
use crate::records::{Checkpoint, Commit, IndexEntry, PresentPage, Record, Tag, Volume};
use crate::{Refusal, plain};
use core::marker::PhantomData;

/// A lent table of one kind of record: two bytes of count, then the records in the order of their keys. Two zero bytes, or more, are
/// an empty table.
///
/// ```
/// use sigatuda::{Checkpoint, Checkpoints, Tags};
/// let mut bytes = [0; Checkpoints::bytes_for(3)];
/// let table = Checkpoints::lend(&mut bytes);
/// assert_eq!((table.capacity(), table.held(), table.records().count()), (3, Some(0), 0));
/// assert_eq!(Tags::bytes_for(2), 102);
/// ```
pub struct Table<'a, R> {
    bytes: &'a mut [u8],
    record: PhantomData<R>,
}

/// The volumes.
pub type Volumes<'a> = Table<'a, Volume>;
/// The tags.
pub type Tags<'a> = Table<'a, Tag>;
/// The commits.
pub type Commits<'a> = Table<'a, Commit>;
/// The checkpoints.
pub type Checkpoints<'a> = Table<'a, Checkpoint>;
/// The page index.
pub type Index<'a> = Table<'a, IndexEntry>;
/// The present pages.
pub type Presence<'a> = Table<'a, PresentPage>;

impl<'a, R: Record> Table<'a, R> {
    /// The bytes of a table with room for so many records.
    pub const fn bytes_for(capacity: usize) -> usize {
        2 + capacity * R::SIZE
    }

    /// The table in these bytes. They are not looked at: a call on bytes that are no table is 20.
    pub fn lend(bytes: &'a mut [u8]) -> Self {
        Table { bytes, record: PhantomData }
    }

    /// The whole records that fit, at most 65,535.
    pub fn capacity(&self) -> usize {
        (self.bytes.len().saturating_sub(2) / R::SIZE).min(65_535)
    }

    /// The records held, or nothing where the count is not there or does not fit.
    pub fn held(&self) -> Option<usize> {
        let count = usize::from(u16::from_be_bytes(self.bytes.get(..2)?.try_into().ok()?));
        (count <= self.capacity()).then_some(count)
    }

    /// The records, in the order of their keys; a refusal in the place of one that is not in form.
    pub fn records(&self) -> impl Iterator<Item = Result<R, Refusal>> + '_ {
        let records = self.bytes.get(2..).unwrap_or(&[]).chunks_exact(R::SIZE);
        records.take(self.held().unwrap_or(0)).map(crate::bytes::read_exact)
    }

    /// Whether the bytes are a table: a count that fits, keys that rise, each record in its form. Every call on a table asks this first (20).
    ///
    /// ```
    /// use sigatuda::Index;
    /// let mut bytes = [0; Index::bytes_for(1)];
    /// assert!(Index::lend(&mut bytes).is_formed());
    /// bytes[1] = 1; // one entry, of page 0
    /// assert!(!Index::lend(&mut bytes).is_formed());
    /// ```
    pub fn is_formed(&self) -> bool {
        plain::FORMED[R::TABLE as usize](self.bytes).code == 0
    }

    /// Its bytes.
    pub fn as_bytes(&self) -> &[u8] {
        self.bytes
    }

    /// Its bytes, for a call that writes.
    pub(crate) fn as_mut_bytes(&mut self) -> &mut [u8] {
        self.bytes
    }
}

/// The six tables, lent together.
pub struct Tables<'a> {
    /// The volumes.
    pub volumes: Volumes<'a>,
    /// The tags.
    pub tags: Tags<'a>,
    /// The commits.
    pub commits: Commits<'a>,
    /// The checkpoints.
    pub checkpoints: Checkpoints<'a>,
    /// The page index.
    pub index: Index<'a>,
    /// The present pages.
    pub presence: Presence<'a>,
}
