//! The original's values in the byte forms of docs/TABLES.md, and back. What has no form here has more than 32 windows.
use graft::core::commit::{SegmentFrameIdx, SegmentIdx, SegmentRangeRef};
use graft::core::lsn::LSN;
use graft::core::pageset::PageSet;
use graft::core::{LogId, PageCount, PageIdx, SegmentId};
use graft::snapshot::Snapshot;
use splinter_rs::Splinter;

/// Reads numbers and byte strings from front to back.
pub struct Reader<'a>(pub &'a [u8]);

impl<'a> Reader<'a> {
    pub fn bytes(&mut self, n: usize) -> &'a [u8] {
        let (here, rest) = self.0.split_at(n);
        self.0 = rest;
        here
    }

    pub fn id(&mut self) -> [u8; 16] {
        self.bytes(16).try_into().unwrap()
    }

    pub fn u8(&mut self) -> u8 {
        self.bytes(1)[0]
    }

    pub fn u32(&mut self) -> u32 {
        u32::from_be_bytes(self.bytes(4).try_into().unwrap())
    }

    pub fn u64(&mut self) -> u64 {
        u64::from_be_bytes(self.bytes(8).try_into().unwrap())
    }
}

/// The form of a set given by its windows, at most 32, rising.
pub fn set_bytes(windows: &[(u32, u64)]) -> Vec<u8> {
    assert!(windows.len() <= 32);
    let mut out = vec![windows.len() as u8];
    for (window, mask) in windows {
        out.extend_from_slice(&window.to_be_bytes());
        out.extend_from_slice(&mask.to_be_bytes());
    }
    out.resize(385, 0);
    out
}

/// The windows of some pages, rising, or nothing where there are more than 32.
pub fn windows(runs: &[(u32, u32)]) -> Option<Vec<(u32, u64)>> {
    let mut out: Vec<(u32, u64)> = vec![];
    for &(first, last) in runs {
        if last / 64 - first / 64 >= 32 {
            return None;
        }
        for page in first..=last {
            match out.last_mut() {
                Some((window, mask)) if *window == page / 64 => *mask |= 1 << (page % 64),
                _ => out.push((page / 64, 1 << (page % 64))),
            }
        }
    }
    (out.len() <= 32).then_some(out)
}

/// The form of the original's set, or nothing where it has more than 32 windows.
pub fn of_set(set: &PageSet) -> Option<Vec<u8>> {
    Some(set_bytes(&windows(Splinter::from(set.clone()).runs())?))
}

/// The original's set of a form.
pub fn to_set(bytes: &[u8]) -> PageSet {
    let places = bytes[1..].chunks(12).take(bytes[0] as usize).map(|place| {
        let mut r = Reader(place);
        (r.u32(), r.u64())
    });
    let pages = places.flat_map(|(window, mask)| (0..64).filter(move |b| mask >> b & 1 == 1).map(move |b| window * 64 + b));
    pages.collect::<Splinter>().into()
}

/// The form of a segment of a set's form and frames.
pub fn segment_bytes(sid: [u8; 16], set: &[u8], frames: &[(u64, u32)]) -> Vec<u8> {
    let mut out = sid.to_vec();
    out.extend_from_slice(set);
    out.push(frames.len() as u8);
    for (size, last) in frames {
        out.extend_from_slice(&size.to_be_bytes());
        out.extend_from_slice(&last.to_be_bytes());
    }
    out.resize(594, 0);
    out
}

/// The original's segment of a form.
pub fn to_segment(bytes: &[u8]) -> SegmentIdx {
    let mut r = Reader(bytes);
    let (sid, set) = (SegmentId::new(r.id()), to_set(r.bytes(385)));
    let count = r.u8();
    let frames = (0..count).map(|_| SegmentFrameIdx::new(r.u64(), PageIdx::try_new(r.u32()).unwrap())).collect();
    SegmentIdx::new(sid, set).with_frames(frames)
}

/// The form of a range of a set's form.
pub fn range_bytes(sid: [u8; 16], start: u64, end: u64, set: &[u8]) -> Vec<u8> {
    let mut out = sid.to_vec();
    out.extend_from_slice(&start.to_be_bytes());
    out.extend_from_slice(&end.to_be_bytes());
    out.extend_from_slice(set);
    out
}

/// The form of the original's range, or nothing where its set has more than 32 windows.
pub fn of_range(range: &SegmentRangeRef) -> Option<Vec<u8>> {
    Some(range_bytes(range.sid.bytes(), range.bytes.start, range.bytes.end, &of_set(&range.pageset)?))
}

/// The original's range of a form.
pub fn to_range(bytes: &[u8]) -> SegmentRangeRef {
    let mut r = Reader(bytes);
    SegmentRangeRef { sid: SegmentId::new(r.id()), bytes: r.u64()..r.u64(), pageset: to_set(r.bytes(385)) }
}

/// The form of a snapshot: a page count and at most 8 ranges.
pub fn snapshot_bytes(count: u32, path: &[([u8; 16], u64, u64)]) -> Vec<u8> {
    let mut out = vec![0];
    out.extend_from_slice(&count.to_be_bytes());
    out.push(path.len() as u8);
    for (log, start, end) in path {
        out.extend_from_slice(log);
        out.extend_from_slice(&start.to_be_bytes());
        out.extend_from_slice(&end.to_be_bytes());
    }
    out.resize(262, 0);
    out
}

/// The form of the original's snapshot, which has at most 8 ranges.
pub fn of_snapshot(snapshot: &Snapshot) -> Vec<u8> {
    let path: Vec<_> = snapshot.iter().map(|r| (r.log.bytes(), r.lsns.start().to_u64(), r.lsns.end().to_u64())).collect();
    snapshot_bytes(snapshot.page_count.to_u32(), &path)
}

/// The original's snapshot of a form.
pub fn to_snapshot(bytes: &[u8]) -> Snapshot {
    let mut r = Reader(&bytes[1..]);
    let mut out = Snapshot::empty();
    out.page_count = PageCount::new(r.u32());
    for _ in 0..r.u8() {
        out.append(LogId::new(r.id()), LSN::new(r.u64())..=LSN::new(r.u64()));
    }
    out
}
