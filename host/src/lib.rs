//! The local bookkeeping of handheld line testers, for a Rust host.
//!
//! The calls are proved Rattle code in the archive `libboundary.a`, which `host/archive` makes; this crate links it and wraps
//! each of its functions. A call answers a value or a [`Refusal`], document 01's number with its words; a refused call changes nothing,
//! but for recover's 8, which drops the pending commit.
//! Values have one byte form each (docs/TABLES.md), and so have the six tables, whose memory the caller lends.
//!
//! ```
//! use sigatuda::*;
//! let mut tables = OwnedTables::new(Capacities { volumes: 4, tags: 4, commits: 32, checkpoints: 32, index: 512, presence: 512 });
//! let mut books = tables.lend();
//! // what is not asked, a spare stands in for; the caller draws it
//! let spares = NewVolume { vid: VolumeId([1; 16]), local: LogId([10; 16]), remote: LogId([11; 16]) };
//! let volume = books.open(Asked::default(), spares)?;
//! let empty = books.snapshot(volume.vid)?;
//! let pages = PageSet::range(PageIdx::FIRST, PageIdx::new(2)?)?;
//! let saved = books.save(volume.vid, &empty, PageCount(2), SegmentId([81; 16]), &pages)?;
//! assert_eq!(saved.head()?, Some((volume.local, Lsn::FIRST)));
//! assert_eq!(books.search(&saved, PageIdx::FIRST)?.map(|commit| commit.lsn), Some(Lsn::FIRST));
//! assert_eq!(books.save(volume.vid, &empty, PageCount(2), SegmentId([82; 16]), &pages), Err(Refusal::NotLatest));
//! # Ok::<(), Refusal>(())
//! ```
//!
//! [`plain`] has every function on plain numbers and bytes; the types of the other modules stand on it. The crate is `no_std`; the
//! feature `owned`, on by default, adds tables that own their bytes and needs an allocator.
#![no_std]
#![warn(missing_docs)]
#![warn(unsafe_op_in_unsafe_fn)]

#[cfg(feature = "owned")]
extern crate alloc;

mod bytes;
mod calls;
mod ids;
mod list;
mod numbers;
#[cfg(feature = "owned")]
mod owned;
mod pageset;
pub mod plain;
mod raw;
mod records;
mod refusal;
mod segment;
mod snapshot;
mod tables;

pub use bytes::ByteForm;
pub use calls::{Asked, Entries, NewVolume};
pub use ids::{CommitHash, LogId, SegmentId, VolumeId};
pub use list::List;
pub use numbers::{Lsn, PageCount, PageIdx};
#[cfg(feature = "owned")]
pub use owned::{Capacities, OwnedTable, OwnedTables};
pub use pageset::{PageSet, Window};
pub use raw::Reply;
pub use records::{Checkpoint, Commit, IndexEntry, PendingCommit, PresentPage, Record, SyncPoint, Tag, Volume};
pub use refusal::Refusal;
pub use segment::{Frame, Segment, SegmentRange, WalkItem};
pub use snapshot::{LogRange, Snapshot, changes};
pub use tables::{Checkpoints, Commits, Index, Presence, Table, Tables, Tags, Volumes};
