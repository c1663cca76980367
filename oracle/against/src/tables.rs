//! Our six tables beside the original's storage, and records from one side to the other.
//!
//! A hash crosses over its 31 free bytes: the original's first byte is 43 and ours 00, so that ZERO is ZERO. Present pages are turned
//! round within a segment: the original keeps them upwards and document 01 downwards.
use crate::calls::Six;
use crate::judge::TABLES;
use graft::core::{self, commit, commit_hash, logref, lsn};
use graft::local::fjall_storage::FjallStorage;
use graft::volume;
use harness::forms::{self, Reader};
use sigatuda::*;

/// Both sides, after the same calls.
pub struct Both {
    pub ours: Six,
    pub original: FjallStorage,
}

impl Both {
    /// What the original holds, in tables with room for so many more records each. What lies past the records is not zero.
    pub fn of(original: FjallStorage, room: [usize; 6]) -> Self {
        let mut ours = tables_of(&original);
        for (i, bytes) in ours.iter_mut().enumerate() {
            bytes.resize(bytes.len() + room[i] * TABLES[i].record + room[i] % 2, 0x5a);
        }
        Both { ours, original }
    }

    /// The first table that is not what it was before with the original's records laid over its front.
    pub fn difference(&self, before: &Six) -> Option<&'static str> {
        let want = tables_of(&self.original);
        (0..6).find(|&i| !laid_over(&self.ours[i], &want[i], &before[i])).map(|i| TABLES[i].name)
    }
}

/// Whether a table's bytes are some records laid over the front of what was there.
fn laid_over(now: &[u8], records: &[u8], before: &[u8]) -> bool {
    now.len() == before.len()
        && now.len() >= records.len()
        && now[..records.len()] == *records
        && now[records.len()..] == before[records.len()..]
}

/// The original's storage as six tables, with no room to spare.
pub fn tables_of(storage: &FjallStorage) -> Six {
    let dump = storage.dump().expect("all that is stored decodes");
    let mut presence = dump.presence;
    presence.sort_by_key(|&(sid, page)| (sid, !page));
    let page = |n| PageIdx::new(n).expect("no page 0");
    [
        laid(dump.volumes.iter().map(volume_of)),
        laid(dump.tags.iter().map(|(name, vid)| Tag::new(name.as_bytes(), VolumeId(vid.bytes())).expect("1 to 32 bytes"))),
        laid(dump.commits.iter().map(commit_of)),
        laid(dump.checkpoints.iter().map(checkpoint_of)),
        laid(dump.index.iter().map(|(log, p, at)| IndexEntry { log: LogId(log.bytes()), page: page(p.to_u32()), lsn: lsn_of(*at) })),
        laid(presence.iter().map(|&(sid, p)| PresentPage { sid: SegmentId(sid), page: page(p) })),
    ]
}

/// The table of some records, in their order.
fn laid<R: Record>(records: impl Iterator<Item = R>) -> Vec<u8> {
    let mut bytes = vec![0; 2];
    for record in records {
        let at = bytes.len();
        bytes.resize(at + R::SIZE, 0);
        record.to_slice(&mut bytes[at..]).expect("of its size");
    }
    let count = u16::try_from((bytes.len() - 2) / R::SIZE).expect("at most 65,535 records");
    bytes[..2].copy_from_slice(&count.to_be_bytes());
    bytes
}

/// The bytes of a table's records.
pub fn records(bytes: &[u8], size: usize) -> std::iter::Take<std::slice::ChunksExact<'_, u8>> {
    let held = usize::from(u16::from_be_bytes([bytes[0], bytes[1]]));
    bytes[2..].chunks_exact(size).take(held)
}

/// The records of a table in form.
pub fn read<R: Record>(bytes: &[u8]) -> impl Iterator<Item = R> {
    records(bytes, R::SIZE).map(|record| R::read(record).expect("in form"))
}

fn lsn_of(lsn: lsn::LSN) -> Lsn {
    Lsn::new(lsn.to_u64()).expect("no LSN 0")
}

fn hash_of(hash: &commit_hash::CommitHash) -> CommitHash {
    let mut bytes: [u8; 32] = hash.clone().into();
    bytes[0] = 0;
    CommitHash(bytes)
}

/// The original's hash of one whose first byte is 0.
pub fn to_hash(hash: &[u8; 32]) -> commit_hash::CommitHash {
    assert_eq!(hash[0], 0, "a hash that is compared starts with 0");
    let mut bytes = *hash;
    bytes[0] = b'C';
    bytes.try_into().expect("a hash")
}

fn checkpoint_of(at: &logref::LogRef) -> Checkpoint {
    Checkpoint { log: LogId(at.log.bytes()), lsn: lsn_of(at.lsn) }
}

pub fn volume_of(v: &volume::Volume) -> Volume {
    let sync = |s: &volume::SyncPoint| SyncPoint { remote: lsn_of(s.remote), watermark: s.local_watermark.map(lsn_of) };
    let pending =
        |p: &volume::PendingCommit| PendingCommit { local: lsn_of(p.local), commit: lsn_of(p.commit), hash: hash_of(&p.commit_hash) };
    Volume {
        vid: VolumeId(v.vid.bytes()),
        local: LogId(v.local.bytes()),
        remote: LogId(v.remote.bytes()),
        sync: v.sync.as_ref().map(sync),
        pending: v.pending_commit.as_ref().map(pending),
    }
}

pub fn commit_of(c: &commit::Commit) -> Commit {
    let mut checkpoints = List::new();
    c.checkpoints.iter().for_each(|&l| checkpoints.push(lsn_of(l)).expect("at most 8 checkpoints"));
    Commit {
        log: LogId(c.log.bytes()),
        lsn: lsn_of(c.lsn),
        count: PageCount(c.page_count.to_u32()),
        hash: c.commit_hash.as_ref().map(hash_of),
        segment: c.segment_idx.as_ref().map(segment_of),
        checkpoints,
    }
}

pub fn segment_of(s: &commit::SegmentIdx) -> Segment {
    let mut frames = List::new();
    for frame in s.frames.iter() {
        let last = PageIdx::new(frame.last_pageidx().to_u32()).expect("no page 0");
        frames.push(Frame { size: frame.frame_size(), last }).expect("at most 16 frames");
    }
    let pages = PageSet::from_bytes(&forms::of_set(&s.pageset).expect("at most 32 windows")).expect("in normal form");
    Segment { sid: SegmentId(s.sid.bytes()), pages, frames }
}

/// The original's commit of a form, in the table form of docs/TABLES.md.
pub fn to_commit(bytes: &[u8]) -> commit::Commit {
    let mut r = Reader(&bytes[1..]);
    let (log, lsn, count) = (core::LogId::new(r.id()), lsn::LSN::new(!r.u64()), core::PageCount::new(r.u32()));
    let (has_hash, hash) = (r.u8() == 1, r.bytes(32).try_into().expect("32 bytes"));
    let (has_segment, segment) = (r.u8() == 1, r.bytes(Segment::SIZE));
    let listed = r.u8();
    commit::Commit::new(log, lsn, count)
        .with_commit_hash(has_hash.then(|| to_hash(&hash)))
        .with_segment_idx(has_segment.then(|| forms::to_segment(segment)))
        .with_checkpoints((0..listed).map(|_| lsn::LSN::new(r.u64())).collect())
}
