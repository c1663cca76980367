//! The records of the six tables.
use crate::bytes::{ByteForm, Reader, Writer, byte_form};
use crate::{CommitHash, List, LogId, Lsn, PageCount, PageIdx, Refusal, Segment, SegmentId, VolumeId};

/// A record of a table. Its key is the first `KEY` bytes of its form.
pub trait Record: ByteForm {
    /// The bytes of the key.
    const KEY: usize;
    /// The table's place in the order volumes, tags, commits, checkpoints, index, presence.
    const TABLE: u32;
}

/// What a flag of a byte form says; 3 for other values than 0 and 1.
fn flag(byte: u8) -> Result<bool, Refusal> {
    match byte {
        0 => Ok(false),
        1 => Ok(true),
        _ => Err(Refusal::Form),
    }
}

/// Where a volume stands against its remote log.
#[derive(Clone, Copy, Debug, PartialEq, Eq)]
pub struct SyncPoint {
    /// The remote LSN that the volume has.
    pub remote: Lsn,
    /// The local LSN up to which all was sent, or nothing.
    pub watermark: Option<Lsn>,
}

/// A commit that is being sent.
#[derive(Clone, Copy, Debug, PartialEq, Eq)]
pub struct PendingCommit {
    /// The local LSN that is sent.
    pub local: Lsn,
    /// The LSN that it gets in the remote log.
    pub commit: Lsn,
    /// The hash of the remote commit.
    pub hash: CommitHash,
}

/// A volume.
#[derive(Clone, Copy, Debug, PartialEq, Eq)]
pub struct Volume {
    /// Its identifier.
    pub vid: VolumeId,
    /// Its local log.
    pub local: LogId,
    /// Its remote log.
    pub remote: LogId,
    /// Its sync point, or nothing.
    pub sync: Option<SyncPoint>,
    /// Its pending commit, or nothing.
    pub pending: Option<PendingCommit>,
}

byte_form!(Volume, 117);

impl Record for Volume {
    const KEY: usize = 17;
    const TABLE: u32 = 0;
}

impl ByteForm for Volume {
    const SIZE: usize = 117;

    fn write(&self, out: &mut [u8]) {
        let mut w = Writer(out);
        w.skip(1);
        w.put(&self.vid.0);
        w.skip(1);
        w.put(&self.local.0);
        w.put(&self.remote.0);
        let lsn = |lsn: Lsn| lsn.get().to_be_bytes();
        w.put_or_zero(self.sync.map(|s| lsn(s.remote)).as_ref().map(|b| &b[..]), 8);
        w.put_or_zero(self.sync.and_then(|s| s.watermark).map(lsn).as_ref().map(|b| &b[..]), 8);
        w.put(&[u8::from(self.pending.is_some())]);
        if let Some(pending) = self.pending {
            w.put(&lsn(pending.local));
            w.put(&lsn(pending.commit));
            w.put(&pending.hash.0);
        }
    }

    fn read(bytes: &[u8]) -> Result<Self, Refusal> {
        let mut r = Reader(&bytes[1..]);
        let vid = VolumeId(r.array());
        r.bytes(1);
        let (local, remote) = (LogId(r.array()), LogId(r.array()));
        let (has_sync, sync_remote) = (flag(r.u8())?, r.u64());
        let (has_watermark, watermark) = (flag(r.u8())?, r.u64());
        let has_pending = flag(r.u8())?;
        let watermark = if has_watermark { Some(Lsn::new(watermark)?) } else { None };
        let sync = if has_sync { Some(SyncPoint { remote: Lsn::new(sync_remote)?, watermark }) } else { None };
        let pending = if has_pending {
            Some(PendingCommit { local: Lsn::new(r.u64())?, commit: Lsn::new(r.u64())?, hash: CommitHash(r.array()) })
        } else {
            None
        };
        Ok(Volume { vid, local, remote, sync, pending })
    }
}

/// A tag: a name of 1 to 32 bytes for a volume.
#[derive(Clone, Copy, Debug, PartialEq, Eq)]
pub struct Tag {
    name: List<u8, 32>,
    /// The volume that it names.
    pub vid: VolumeId,
}

byte_form!(Tag, 50);

impl Tag {
    /// A tag; 1 for a name of another length than 1 to 32.
    pub fn new(name: &[u8], vid: VolumeId) -> Result<Tag, Refusal> {
        if name.is_empty() {
            return Err(Refusal::Zero);
        }
        Ok(Tag { name: List::from_slice(name).map_err(|_| Refusal::Zero)?, vid })
    }

    /// The name.
    pub fn name(&self) -> &[u8] {
        &self.name
    }
}

impl Record for Tag {
    const KEY: usize = 34;
    const TABLE: u32 = 1;
}

impl ByteForm for Tag {
    const SIZE: usize = 50;

    fn write(&self, out: &mut [u8]) {
        let mut w = Writer(out);
        w.skip(1);
        w.put(&self.name);
        w.skip(32 - self.name.len());
        w.put(&[self.name.len() as u8]);
        w.put(&self.vid.0);
    }

    fn read(bytes: &[u8]) -> Result<Self, Refusal> {
        let length = usize::from(bytes[33]);
        let name = bytes[1..33].get(..length).ok_or(Refusal::Zero)?;
        Tag::new(name, VolumeId(bytes[34..].try_into().expect("sixteen bytes")))
    }
}

/// A commit.
#[derive(Clone, Copy, Debug, PartialEq, Eq)]
pub struct Commit {
    /// Its log.
    pub log: LogId,
    /// Its LSN.
    pub lsn: Lsn,
    /// The page count as of this commit.
    pub count: PageCount,
    /// Its hash, or nothing.
    pub hash: Option<CommitHash>,
    /// Its segment, or nothing.
    pub segment: Option<Segment>,
    /// The checkpoints that it lists, in any order, repeats allowed.
    pub checkpoints: List<Lsn, 8>,
}

byte_form!(Commit, 722);

impl Record for Commit {
    const KEY: usize = 25;
    const TABLE: u32 = 2;
}

impl ByteForm for Commit {
    const SIZE: usize = 722;

    fn write(&self, out: &mut [u8]) {
        let mut w = Writer(out);
        w.skip(1);
        w.put(&self.log.0);
        w.put(&(!self.lsn.get()).to_be_bytes());
        w.put(&self.count.0.to_be_bytes());
        w.put_or_zero(self.hash.as_ref().map(|h| &h.0[..]), 32);
        let segment = self.segment.as_ref().map(Segment::to_bytes);
        w.put_or_zero(segment.as_ref().map(|s| &s[..]), Segment::SIZE);
        w.put(&[self.checkpoints.len() as u8]);
        for checkpoint in self.checkpoints.iter() {
            w.put(&checkpoint.get().to_be_bytes());
        }
    }

    fn read(bytes: &[u8]) -> Result<Self, Refusal> {
        let mut r = Reader(&bytes[1..]);
        let (log, lsn, count) = (LogId(r.array()), r.u64(), PageCount(r.u32()));
        let (has_hash, hash) = (r.u8(), CommitHash(r.array()));
        let (has_segment, segment) = (r.u8(), r.bytes(Segment::SIZE));
        let listed = r.u8();
        // LSNs first: 1 comes before 3
        let lsn = Lsn::new(!lsn)?;
        let mut checkpoints = List::new();
        for _ in 0..listed.min(8) {
            checkpoints.push(Lsn::new(r.u64())?)?;
        }
        let hash = flag(has_hash)?.then_some(hash);
        let segment = if flag(has_segment)? { Some(Segment::from_bytes(segment)?) } else { None };
        Ok(Commit { log, lsn, count, hash, segment, checkpoints })
    }
}

/// An LSN of a log that is a checkpoint.
#[derive(Clone, Copy, Debug, PartialEq, Eq)]
pub struct Checkpoint {
    /// The log.
    pub log: LogId,
    /// The LSN.
    pub lsn: Lsn,
}

byte_form!(Checkpoint, 25);

impl Record for Checkpoint {
    const KEY: usize = 25;
    const TABLE: u32 = 3;
}

impl ByteForm for Checkpoint {
    const SIZE: usize = 25;

    fn write(&self, out: &mut [u8]) {
        let mut w = Writer(out);
        w.skip(1);
        w.put(&self.log.0);
        w.put(&(!self.lsn.get()).to_be_bytes());
    }

    fn read(bytes: &[u8]) -> Result<Self, Refusal> {
        let mut r = Reader(&bytes[1..]);
        Ok(Checkpoint { log: LogId(r.array()), lsn: Lsn::new(!r.u64())? })
    }
}

/// A page that a commit of a log holds.
#[derive(Clone, Copy, Debug, PartialEq, Eq)]
pub struct IndexEntry {
    /// The log.
    pub log: LogId,
    /// The page.
    pub page: PageIdx,
    /// The commit's LSN.
    pub lsn: Lsn,
}

byte_form!(IndexEntry, 29);

impl Record for IndexEntry {
    const KEY: usize = 29;
    const TABLE: u32 = 4;
}

impl ByteForm for IndexEntry {
    const SIZE: usize = 29;

    fn write(&self, out: &mut [u8]) {
        let mut w = Writer(out);
        w.skip(1);
        w.put(&self.log.0);
        w.put(&self.page.get().to_be_bytes());
        w.put(&(!self.lsn.get()).to_be_bytes());
    }

    fn read(bytes: &[u8]) -> Result<Self, Refusal> {
        let mut r = Reader(&bytes[1..]);
        Ok(IndexEntry { log: LogId(r.array()), page: PageIdx::new(r.u32())?, lsn: Lsn::new(!r.u64())? })
    }
}

/// A page of a segment that is present.
#[derive(Clone, Copy, Debug, PartialEq, Eq)]
pub struct PresentPage {
    /// The segment.
    pub sid: SegmentId,
    /// The page.
    pub page: PageIdx,
}

byte_form!(PresentPage, 21);

impl Record for PresentPage {
    const KEY: usize = 21;
    const TABLE: u32 = 5;
}

impl ByteForm for PresentPage {
    const SIZE: usize = 21;

    fn write(&self, out: &mut [u8]) {
        let mut w = Writer(out);
        w.skip(1);
        w.put(&self.sid.0);
        w.put(&(!self.page.get()).to_be_bytes());
    }

    fn read(bytes: &[u8]) -> Result<Self, Refusal> {
        let mut r = Reader(&bytes[1..]);
        Ok(PresentPage { sid: SegmentId(r.array()), page: PageIdx::new(!r.u32())? })
    }
}
