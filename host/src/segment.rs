//! Segments, their frames, and ranges of their bytes.
use crate::bytes::{ByteForm, Reader, Writer, byte_form};
use crate::{List, LogId, Lsn, PageIdx, PageSet, Refusal, SegmentId, plain};

/// A frame of a segment: it runs for its size, and up to its last page.
#[derive(Clone, Copy, Debug, Default, PartialEq, Eq)]
pub struct Frame {
    /// Its bytes.
    pub size: u64,
    /// Its last page.
    pub last: PageIdx,
}

/// The pages of a segment and its frames. Last pages strictly rise, the first is not below the set's first page, and the sizes sum
/// to at most 2^64-1; a call on any other segment is 3.
///
/// ```
/// use sigatuda::{Frame, List, PageIdx, PageSet, Refusal, Segment, SegmentId};
/// let page = |n| PageIdx::new(n).unwrap();
/// let segment = Segment {
///     sid: SegmentId([7; 16]),
///     pages: PageSet::of([2, 3, 5, 9].map(page))?,
///     frames: List::from_slice(&[Frame { size: 100, last: page(3) }, Frame { size: 50, last: page(9) }])?,
/// };
/// let frame = segment.frame_of_page(page(5))?.unwrap();
/// assert_eq!((frame.start, frame.end), (100, 150));
/// assert!(frame.pages.pages().eq([page(5), page(9)]));
/// assert_eq!(segment.frame_of_page(page(4))?, None);
/// assert_eq!(segment.frame_bytes(page(2), &[1; 150])?.unwrap().len(), 100);
/// assert_eq!(segment.frame_bytes(page(5), &[1; 149]), Err(Refusal::PastSegment));
/// # Ok::<(), Refusal>(())
/// ```
#[derive(Clone, Copy, Debug, Default, PartialEq, Eq)]
pub struct Segment {
    /// Its identifier.
    pub sid: SegmentId,
    /// Its pages.
    pub pages: PageSet,
    /// Its frames, in the order of its bytes; none in a segment that was never sent.
    pub frames: List<Frame, 16>,
}

byte_form!(Segment, 594);

impl ByteForm for Segment {
    const SIZE: usize = 594;

    fn write(&self, out: &mut [u8]) {
        let mut w = Writer(out);
        w.put(&self.sid.0);
        w.put(&self.pages.to_bytes());
        w.put(&[self.frames.len() as u8]);
        for frame in self.frames.iter() {
            w.put(&frame.size.to_be_bytes());
            w.put(&frame.last.get().to_be_bytes());
        }
    }

    fn read(bytes: &[u8]) -> Result<Self, Refusal> {
        // lent no room, the list is 19 where the segment is in form and has frames
        match plain::frame_list(bytes, &mut [], &mut 0).answer() {
            Ok(_) | Err(Refusal::NoRoom) => {}
            Err(refusal) => return Err(refusal),
        }
        let mut r = Reader(bytes);
        let sid = SegmentId(r.array());
        let pages = PageSet::from_bytes(r.bytes(PageSet::SIZE))?;
        let mut frames = List::new();
        for _ in 0..r.u8() {
            frames.push(Frame { size: r.u64(), last: PageIdx::new(r.u32())? })?;
        }
        Ok(Segment { sid, pages, frames })
    }
}

impl Segment {
    /// Every frame's bytes and its pages: 3.
    pub fn frame_list(&self) -> Result<List<SegmentRange, 16>, Refusal> {
        let (mut list, mut items) = ([0; 16 * SegmentRange::SIZE], 0);
        plain::frame_list(&self.to_bytes(), &mut list, &mut items).answer()?;
        let mut out = List::new();
        for range in list.chunks_exact(SegmentRange::SIZE).take(items as usize) {
            out.push(SegmentRange::from_bytes(range)?)?;
        }
        Ok(out)
    }

    /// The frame that holds a page, or nothing: 3.
    pub fn frame_of_page(&self, page: PageIdx) -> Result<Option<SegmentRange>, Refusal> {
        let mut out = [0; SegmentRange::SIZE];
        if !plain::frame_of_page(&self.to_bytes(), page.get(), &mut out).answer()? {
            return Ok(None);
        }
        SegmentRange::from_bytes(&out).map(Some)
    }

    /// The bytes of the frame that holds a page, as a part of the lent segment, or nothing: 3, 23.
    pub fn frame_bytes<'a>(&self, page: PageIdx, lent: &'a [u8]) -> Result<Option<&'a [u8]>, Refusal> {
        let mut part = &lent[..0];
        let found = plain::frame_bytes(&self.to_bytes(), page.get(), lent, &mut part).answer()?;
        Ok(found.then_some(part))
    }
}

/// Some bytes of a segment and the pages that they hold.
#[derive(Clone, Copy, Debug, Default, PartialEq, Eq)]
pub struct SegmentRange {
    /// The segment.
    pub sid: SegmentId,
    /// The first byte.
    pub start: u64,
    /// The byte after the last, not below the first.
    pub end: u64,
    /// The pages.
    pub pages: PageSet,
}

byte_form!(SegmentRange, 417);

impl ByteForm for SegmentRange {
    const SIZE: usize = 417;

    fn write(&self, out: &mut [u8]) {
        let mut w = Writer(out);
        w.put(&self.sid.0);
        w.put(&self.start.to_be_bytes());
        w.put(&self.end.to_be_bytes());
        w.put(&self.pages.to_bytes());
    }

    fn read(bytes: &[u8]) -> Result<Self, Refusal> {
        // joined with itself, a range is 2 or 3 where it is not in form
        plain::join(bytes, bytes, &mut [0; 417]).answer()?;
        let mut r = Reader(bytes);
        Ok(SegmentRange { sid: SegmentId(r.array()), start: r.u64(), end: r.u64(), pages: PageSet::from_bytes(r.bytes(PageSet::SIZE))? })
    }
}

impl SegmentRange {
    /// The range of both, or nothing where they are of two segments or do not touch: 2, 22.
    pub fn join(&self, other: &SegmentRange) -> Result<Option<SegmentRange>, Refusal> {
        let mut out = [0; SegmentRange::SIZE];
        if !plain::join(&self.to_bytes(), &other.to_bytes(), &mut out).answer()? {
            return Ok(None);
        }
        SegmentRange::from_bytes(&out).map(Some)
    }
}

/// What a commit gives a snapshot's reader: the pages that no earlier commit of the path gave.
#[derive(Clone, Copy, Debug, Default, PartialEq, Eq)]
pub struct WalkItem {
    /// The commit's log.
    pub log: LogId,
    /// Its LSN.
    pub lsn: Lsn,
    /// Its segment, with all its pages and frames.
    pub segment: Segment,
    /// The pages that it gives, never none.
    pub gift: PageSet,
}

byte_form!(WalkItem, 1003);

impl ByteForm for WalkItem {
    const SIZE: usize = 1003;

    fn write(&self, out: &mut [u8]) {
        let mut w = Writer(out);
        w.put(&self.log.0);
        w.put(&self.lsn.get().to_be_bytes());
        w.put(&self.segment.to_bytes());
        w.put(&self.gift.to_bytes());
    }

    fn read(bytes: &[u8]) -> Result<Self, Refusal> {
        let mut r = Reader(bytes);
        let (log, lsn) = (LogId(r.array()), Lsn::new(r.u64())?);
        Ok(WalkItem { log, lsn, segment: Segment::from_bytes(r.bytes(Segment::SIZE))?, gift: PageSet::from_bytes(r.bytes(PageSet::SIZE))? })
    }
}
