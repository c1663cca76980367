//! Tables that own their bytes (feature `owned`).
use crate::records::{Checkpoint, Commit, IndexEntry, PresentPage, Record, Tag, Volume};
use crate::tables::{Table, Tables};
use alloc::{vec, vec::Vec};
use core::marker::PhantomData;

/// A table with its own bytes.
#[derive(Clone, Debug, PartialEq, Eq)]
pub struct OwnedTable<R> {
    bytes: Vec<u8>,
    record: PhantomData<R>,
}

impl<R: Record> OwnedTable<R> {
    /// An empty table with room for so many records.
    pub fn with_capacity(capacity: usize) -> Self {
        Self::from_bytes(vec![0; Table::<R>::bytes_for(capacity)])
    }

    /// The table in these bytes, which are not looked at.
    pub fn from_bytes(bytes: Vec<u8>) -> Self {
        OwnedTable { bytes, record: PhantomData }
    }

    /// The table, lent.
    pub fn lend(&mut self) -> Table<'_, R> {
        Table::lend(&mut self.bytes)
    }

    /// Its bytes.
    pub fn as_bytes(&self) -> &[u8] {
        &self.bytes
    }
}

/// Six tables with their own bytes.
///
/// ```
/// use sigatuda::{Capacities, OwnedTables};
/// let mut tables = OwnedTables::new(Capacities { volumes: 4, tags: 4, commits: 32, checkpoints: 32, index: 512, presence: 512 });
/// assert_eq!(tables.lend().commits.capacity(), 32);
/// ```
#[derive(Clone, Debug, PartialEq, Eq)]
pub struct OwnedTables {
    /// The volumes.
    pub volumes: OwnedTable<Volume>,
    /// The tags.
    pub tags: OwnedTable<Tag>,
    /// The commits.
    pub commits: OwnedTable<Commit>,
    /// The checkpoints.
    pub checkpoints: OwnedTable<Checkpoint>,
    /// The page index.
    pub index: OwnedTable<IndexEntry>,
    /// The present pages.
    pub presence: OwnedTable<PresentPage>,
}

/// The most records that each table holds.
#[derive(Clone, Copy, Debug, PartialEq, Eq)]
#[allow(missing_docs)]
pub struct Capacities {
    pub volumes: usize,
    pub tags: usize,
    pub commits: usize,
    pub checkpoints: usize,
    pub index: usize,
    pub presence: usize,
}

impl OwnedTables {
    /// Six empty tables.
    pub fn new(room: Capacities) -> Self {
        OwnedTables {
            volumes: OwnedTable::with_capacity(room.volumes),
            tags: OwnedTable::with_capacity(room.tags),
            commits: OwnedTable::with_capacity(room.commits),
            checkpoints: OwnedTable::with_capacity(room.checkpoints),
            index: OwnedTable::with_capacity(room.index),
            presence: OwnedTable::with_capacity(room.presence),
        }
    }

    /// All six, lent.
    pub fn lend(&mut self) -> Tables<'_> {
        Tables {
            volumes: self.volumes.lend(),
            tags: self.tags.lend(),
            commits: self.commits.lend(),
            checkpoints: self.checkpoints.lend(),
            index: self.index.lend(),
            presence: self.presence.lend(),
        }
    }
}
