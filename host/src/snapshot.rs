//! Snapshots, and what changed in a log.
use crate::bytes::{ByteForm, Reader, Writer, byte_form};
use crate::{List, LogId, Lsn, PageCount, Refusal, plain};

/// A log and some of its LSNs, both ends included.
#[derive(Clone, Copy, Debug, Default, PartialEq, Eq)]
pub struct LogRange {
    /// The log.
    pub log: LogId,
    /// The first LSN.
    pub start: Lsn,
    /// The last LSN, not below the first.
    pub end: Lsn,
}

/// What a reader sees: a path of at most 8 ranges, and a page count.
///
/// ```
/// use sigatuda::{LogId, Lsn, PageCount, Refusal, Snapshot};
/// let (log, lsn) = (LogId([1; 16]), |n| Lsn::new(n).unwrap());
/// let mut snapshot = Snapshot::new(log, lsn(4), lsn(5), PageCount(2))?;
/// snapshot.append(LogId([2; 16]), lsn(1), lsn(7))?;
/// assert_eq!(snapshot.head()?, Some((log, lsn(5))));
/// assert_eq!(Snapshot::default().head()?, None);
/// assert_eq!(Snapshot::new(log, lsn(5), lsn(4), PageCount(2)), Err(Refusal::Reversed));
/// # Ok::<(), Refusal>(())
/// ```
#[derive(Clone, Copy, Debug, Default, PartialEq, Eq)]
pub struct Snapshot {
    /// The page count.
    pub count: PageCount,
    /// The ranges, in path order.
    pub path: List<LogRange, 8>,
}

byte_form!(Snapshot, 262);

impl ByteForm for Snapshot {
    const SIZE: usize = 262;

    fn write(&self, out: &mut [u8]) {
        let mut w = Writer(out);
        w.skip(1);
        w.put(&self.count.0.to_be_bytes());
        w.put(&[self.path.len() as u8]);
        for range in self.path.iter() {
            w.put(&range.log.0);
            w.put(&range.start.get().to_be_bytes());
            w.put(&range.end.get().to_be_bytes());
        }
    }

    fn read(bytes: &[u8]) -> Result<Self, Refusal> {
        plain::snapshot_head(bytes, &mut [0; 16], &mut 0).answer()?;
        let mut r = Reader(&bytes[1..]);
        let count = PageCount(r.u32());
        let mut path = List::new();
        for _ in 0..r.u8() {
            path.push(LogRange { log: LogId(r.array()), start: Lsn::new(r.u64())?, end: Lsn::new(r.u64())? })?;
        }
        Ok(Snapshot { count, path })
    }
}

impl Snapshot {
    /// The snapshot of one range: 2.
    pub fn new(log: LogId, start: Lsn, end: Lsn, count: PageCount) -> Result<Snapshot, Refusal> {
        let mut out = [0; Snapshot::SIZE];
        plain::snapshot_new(&log.0, start.get(), end.get(), count.0, &mut out).answer()?;
        Snapshot::from_bytes(&out)
    }

    /// Puts a range at the path's end: 2, 3 for a ninth, and the snapshot is as it was.
    pub fn append(&mut self, log: LogId, start: Lsn, end: Lsn) -> Result<(), Refusal> {
        let mut out = [0; Snapshot::SIZE];
        plain::snapshot_append(&self.to_bytes(), &log.0, start.get(), end.get(), &mut out).answer()?;
        *self = Snapshot::from_bytes(&out)?;
        Ok(())
    }

    /// The first range's log and last LSN, or nothing: 2.
    pub fn head(&self) -> Result<Option<(LogId, Lsn)>, Refusal> {
        let (mut log, mut lsn) = ([0; 16], 0);
        if !plain::snapshot_head(&self.to_bytes(), &mut log, &mut lsn).answer()? {
            return Ok(None);
        }
        Ok(Some((LogId(log), Lsn::new(lsn)?)))
    }
}

/// The first and last LSN that a log has beyond a base, or nothing: 16 for a base without head.
///
/// ```
/// use sigatuda::{Lsn, Refusal, changes};
/// let lsn = |n| Some(Lsn::new(n).unwrap());
/// assert_eq!(changes(lsn(3), lsn(5))?, lsn(4).zip(lsn(5)));
/// assert_eq!(changes(lsn(5), lsn(5))?, None);
/// assert_eq!(changes(lsn(5), None), Err(Refusal::BaseWithoutHead));
/// # Ok::<(), Refusal>(())
/// ```
pub fn changes(base: Option<Lsn>, head: Option<Lsn>) -> Result<Option<(Lsn, Lsn)>, Refusal> {
    let (mut start, mut end) = (0, 0);
    let there = |lsn: Option<Lsn>| (u32::from(lsn.is_some()), lsn.map_or(0, Lsn::get));
    let ((has_base, base), (has_head, head)) = (there(base), there(head));
    if !plain::changes(has_base, base, has_head, head, &mut start, &mut end).answer()? {
        return Ok(None);
    }
    Ok(Some((Lsn::new(start)?, Lsn::new(end)?)))
}
