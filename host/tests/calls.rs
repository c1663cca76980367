//! The calls through the archive: bench readings, the order of numbers, and what a refused call leaves alone.
use sigatuda::*;

fn page(n: u32) -> PageIdx {
    PageIdx::new(n).unwrap()
}

fn pages(of: &[u32]) -> PageSet {
    PageSet::of(of.iter().map(|&n| page(n))).unwrap()
}

fn reply(code: u32, found: u32) -> Reply {
    Reply { code, found }
}

/// P1 to P7.
#[test]
fn bench_readings_of_sets() {
    for (n, index, bit) in [(63, 0, 63), (64, 1, 0), (u32::MAX, 67_108_863, 63)] {
        assert!(pages(&[n]).windows().eq([Window { index, mask: 1 << bit }]));
    }
    let widest = PageSet::range(page(1), page(2047)).unwrap();
    assert_eq!((widest.windows().count(), widest.len()), (32, PageCount(2047)));
    assert_eq!(PageSet::range(page(1), page(2048)), Err(Refusal::TooWide));
    let mut set = pages(&[3, 4, 5]);
    set.truncate(PageCount(4));
    assert_eq!(set, pages(&[3, 4]));
    let mut set = pages(&[u32::MAX]);
    set.truncate(PageCount(u32::MAX));
    assert_eq!(set, pages(&[u32::MAX]));
}

/// P8 and P9.
#[test]
fn bench_readings_of_frames() {
    let frames = [Frame { size: 100, last: page(3) }, Frame { size: 50, last: page(9) }];
    let segment = Segment { sid: SegmentId([7; 16]), pages: pages(&[2, 3, 5, 9]), frames: List::from_slice(&frames).unwrap() };
    let range = |start, end, of: &[u32]| SegmentRange { sid: segment.sid, start, end, pages: pages(of) };
    assert_eq!(*segment.frame_list().unwrap(), [range(0, 100, &[2, 3]), range(100, 150, &[5, 9])]);
    assert_eq!(segment.frame_of_page(page(4)), Ok(None));
    let joined = range(0, 100, &[2, 3]).join(&range(100, 150, &[5, 9]));
    assert_eq!(joined, Ok(Some(range(0, 150, &[2, 3, 5, 9]))));
}

/// All arguments for 1, then for 2, then for 3, then the rest.
#[test]
fn the_lowest_number_first() {
    let (bad, mut out) = ([9; 385], [0; 385]);
    assert_eq!(plain::set_contains(&bad, 0), reply(1, 0));
    assert_eq!(plain::set_contains(&bad, 1), reply(3, 0));
    assert_eq!(plain::set_remove(&bad, 0, 0, &mut out), reply(1, 0));
    assert_eq!(plain::set_remove(&bad, 2, 1, &mut out[..3]), reply(2, 0));
    assert_eq!(plain::set_range(2, 1, &mut out[..3]), reply(2, 0));
    assert_eq!(plain::set_range(1, 2048, &mut out[..3]), reply(3, 0));
    assert_eq!(plain::set_range(1, 2048, &mut out), reply(22, 0));
    let reversed = SegmentRange { start: 5, end: 4, ..SegmentRange::default() };
    assert_eq!(plain::join(&[], &reversed.to_bytes(), &mut []), reply(2, 0));
    assert_eq!(plain::join(&[], &SegmentRange::default().to_bytes(), &mut []), reply(3, 0));
    assert_eq!(plain::snapshot_append(&[], &[0; 16], 5, 0, &mut []), reply(1, 0));
    assert_eq!(plain::snapshot_append(&[], &[0; 16], 5, 4, &mut []), reply(2, 0));
    assert_eq!(plain::snapshot_append(&[], &[0; 16], 4, 5, &mut []), reply(3, 0));
}

/// A ninth range is 3; nine that count, with an LSN 0 among the eight that have a place, are 1.
#[test]
fn a_path_over_its_limit() {
    let (log, lsn) = (LogId([1; 16]), Lsn::FIRST);
    let mut snapshot = Snapshot::default();
    for _ in 0..8 {
        snapshot.append(log, lsn, lsn).unwrap();
    }
    let full = snapshot;
    assert_eq!(snapshot.append(log, lsn, lsn), Err(Refusal::Form));
    assert_eq!(snapshot, full);
    let mut bytes = full.to_bytes();
    bytes[5] = 9;
    assert_eq!(plain::snapshot_head(&bytes, &mut [0; 16], &mut 0), reply(3, 0));
    bytes[22..30].fill(0);
    assert_eq!(plain::snapshot_head(&bytes, &mut [0; 16], &mut 0), reply(1, 0));
}

/// Slices of every wrong length near the right one are 3, and what is lent stays.
#[test]
fn lengths() {
    let set = pages(&[1, 70]).to_bytes();
    for length in [0, 1, 384, 386] {
        let mut wrong = vec![0xa5; length];
        assert_eq!(plain::set_range(1, 2, &mut wrong), reply(3, 0));
        assert_eq!(plain::set_insert(&set, 2, &mut wrong), reply(3, 0));
        assert_eq!(plain::set_union(&set, &set, &mut wrong), reply(3, 0));
        assert_eq!(plain::set_truncate(&set, 2, &mut wrong), reply(3, 0));
        let mut right = [0xa5; 385];
        assert_eq!(plain::set_cut(&set, &set, &mut right, &mut wrong), reply(3, 0));
        assert_eq!(plain::set_cut(&set, &set, &mut wrong, &mut right), reply(3, 0));
        assert_eq!(plain::set_insert(&wrong, 2, &mut right), reply(3, 0));
        assert!(wrong.iter().chain(&right).all(|&b| b == 0xa5));
    }
}

/// A list that is too short is 19 and stays; what lies past the answer stays too.
#[test]
fn result_lists() {
    let frames = [Frame { size: 1, last: page(1) }, Frame { size: 2, last: page(2) }];
    let segment = Segment { pages: pages(&[1, 2]), frames: List::from_slice(&frames).unwrap(), ..Segment::default() };
    for room in [0, 416, 417, 833] {
        let (mut list, mut items) = (vec![0xa5; room], 77);
        assert_eq!(plain::frame_list(&segment.to_bytes(), &mut list, &mut items), reply(19, 0));
        assert!(items == 77 && list.iter().all(|&b| b == 0xa5));
    }
    let (mut list, mut items) = ([0xa5; 900], 77);
    assert_eq!(plain::frame_list(&segment.to_bytes(), &mut list, &mut items), reply(0, 1));
    assert!(items == 2 && list[834..].iter().all(|&b| b == 0xa5));
}

/// Nothing found leaves the out value alone.
#[test]
fn nothing_found() {
    let (mut wide, mut narrow, mut range) = (77, 77, [0xa5; 417]);
    assert_eq!(plain::lsn_prev(1, &mut wide), reply(0, 0));
    assert_eq!(plain::set_first(&[0; 385], &mut narrow), reply(0, 0));
    assert_eq!(plain::count_last_page(0, &mut narrow), reply(0, 0));
    assert_eq!(plain::frame_of_page(&[0; 594], 1, &mut range), reply(0, 0));
    assert_eq!((wide, narrow, range), (77, 77, [0xa5; 417]));
}

/// A frame's bytes are a part of the lent segment itself; an empty frame at its very end is an empty part.
#[test]
fn frame_bytes_are_a_part() {
    let frames = [Frame { size: 4, last: page(1) }, Frame { size: 0, last: page(2) }];
    let segment = Segment { pages: pages(&[1, 2]), frames: List::from_slice(&frames).unwrap(), ..Segment::default() };
    let lent = [1, 2, 3, 4];
    let part = segment.frame_bytes(page(1), &lent).unwrap().unwrap();
    assert_eq!((part.as_ptr(), part.len()), (lent.as_ptr(), 4));
    assert_eq!(segment.frame_bytes(page(2), &lent), Ok(Some(&[][..])));
    assert_eq!(segment.frame_bytes(page(1), &lent[..3]), Err(Refusal::PastSegment));
    assert_eq!(segment.frame_bytes(page(3), &lent), Ok(None));
}

/// Every number has its words, and 0 and 25 are none.
#[test]
fn refusals() {
    assert_eq!(Refusal::ALL.len(), 24);
    for (n, refusal) in (1..).zip(Refusal::ALL) {
        assert_eq!((refusal.number(), Refusal::from_number(n)), (n, Some(*refusal)));
    }
    assert_eq!((Refusal::from_number(0), Refusal::from_number(25)), (None, None));
    assert_eq!(Refusal::Diverged.to_string(), "8: diverged");
}

/// A segment with 32 windows and 16 frames goes there and back.
#[test]
fn the_largest_values() {
    let set = PageSet::range(page(1), page(2047)).unwrap();
    let mut frames = List::new();
    for i in 1..=16 {
        frames.push(Frame { size: u64::MAX / 16, last: page(i * 100) }).unwrap();
    }
    let segment = Segment { sid: SegmentId([1; 16]), pages: set, frames };
    assert_eq!(Segment::from_bytes(&segment.to_bytes()), Ok(segment));
    assert_eq!(segment.frame_list().unwrap().len(), 16);
    assert_eq!(frames.push(Frame::default()), Err(Refusal::Form));
}
