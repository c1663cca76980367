//! Calls to compare: all of them on small domains, then random ones on large domains. Arguments are in form, so that the original has an
//! answer; page 0, LSN 0 and reversed LSN ranges are among them.
use crate::forms::*;
use crate::ops::*;
use crate::random::Random;

/// Takes a call: its number and its arguments.
pub type Each<'a> = &'a mut dyn FnMut(u8, Vec<u8>);

const LAST: u32 = u32::MAX;

/// Arguments put together.
fn args(parts: &[&[u8]]) -> Vec<u8> {
    parts.concat()
}

/// Every call on a small domain.
pub fn all_small(each: Each) {
    numbers(each);
    changes(each);
    snapshots(each);
    ranges_of_pages(each);
    for pages in [[1, 2, 3, 62, 63, 64, 65, 66], [1, 63, 64, 127, 128, LAST - 64, LAST - 1, LAST]] {
        sets(&pages, each);
    }
    frames(each);
    joins(each);
}

fn numbers(each: Each) {
    for n in [0, 1, 2, 3, 255, 256, 65_535, 65_536, 1 << 32, (1 << 32) - 1, u64::MAX - 2, u64::MAX - 1, u64::MAX] {
        for op in LSN_NEXT..=LSN_SATURATING_PREV {
            each(op, n.to_be_bytes().into());
        }
    }
    for n in [0, 1, 2, 3, 63, 64, 255, 256, 65_535, 65_536, LAST - 2, LAST - 1, LAST] {
        for op in PAGE_NEXT..=COUNT_LAST_PAGE {
            each(op, n.to_be_bytes().into());
        }
    }
}

/// Base and head each missing, 0, small or at the end; a missing one with any number beside it, and a flag other than 0 and 1.
fn changes(each: Each) {
    let ends = [(0, 0), (0, 9), (1, 0), (1, 1), (1, 2), (1, 3), (7, 2), (1, u64::MAX - 1), (1, u64::MAX)];
    for (has_base, base) in ends {
        for (has_head, head) in ends {
            let (has_base, has_head) = (u32::to_be_bytes(has_base), u32::to_be_bytes(has_head));
            each(CHANGES, args(&[&has_base, &base.to_be_bytes(), &has_head, &head.to_be_bytes()]));
        }
    }
}

/// New snapshots of all small ranges; appended ranges; heads of paths of every length.
fn snapshots(each: Each) {
    let lsns = [0, 1, 2, 3, u64::MAX - 1, u64::MAX];
    let log = |b: u8| [b; 16];
    for start in lsns {
        for end in lsns {
            let range = [start.to_be_bytes(), end.to_be_bytes()].concat();
            for count in [0, 1, LAST] {
                each(SNAPSHOT_NEW, args(&[&log(3), &range, &count.to_be_bytes()]));
            }
            for length in 0..8 {
                let path: Vec<_> = (0..length).map(|i| (log(i), u64::from(i) + 1, u64::from(i) * 2 + 1)).collect();
                each(SNAPSHOT_APPEND, args(&[&snapshot_bytes(5, &path), &log(9), &range]));
            }
        }
    }
    for length in 0..=8 {
        let path: Vec<_> = (0..length).map(|i| (log(i + 1), 1, u64::MAX - u64::from(i))).collect();
        each(SNAPSHOT_HEAD, snapshot_bytes(u32::from(length), &path));
    }
}

fn ranges_of_pages(each: Each) {
    let ends = [
        0,
        1,
        2,
        62,
        63,
        64,
        65,
        127,
        128,
        2046,
        2047,
        2048,
        2049,
        2111,
        2112,
        LAST / 2,
        LAST - 2112,
        LAST - 2048,
        LAST - 2047,
        LAST - 2046,
        LAST - 64,
        LAST - 63,
        LAST - 1,
        LAST,
    ];
    for first in ends {
        for last in ends {
            each(SET_RANGE, args(&[&first.to_be_bytes(), &last.to_be_bytes()]));
        }
    }
}

/// The form of the set of those of eight pages whose bit is set.
fn subset(pages: &[u32; 8], bits: u32) -> Vec<u8> {
    let runs: Vec<_> = (0..8).filter(|i| bits >> i & 1 == 1).map(|i| (pages[i], pages[i])).collect();
    set_bytes(&windows(&runs).unwrap())
}

/// All subsets of eight pages, with every page, count and span at their edges, and with each other.
fn sets(pages: &[u32; 8], each: Each) {
    let all: Vec<_> = (0..256).map(|bits| subset(pages, bits)).collect();
    let mut edges: Vec<u32> = pages.iter().flat_map(|&p| [p - 1, p, p.saturating_add(1)]).chain([0, 4, 100, LAST]).collect();
    edges.sort();
    edges.dedup();
    for a in &all {
        for op in [SET_SIZE, SET_FIRST, SET_LAST] {
            each(op, a.clone());
        }
        for n in &edges {
            for op in [SET_INSERT, SET_CONTAINS, SET_TRUNCATE] {
                each(op, args(&[a, &n.to_be_bytes()]));
            }
        }
        for (i, first) in edges.iter().enumerate() {
            for last in &edges[i..] {
                for op in [SET_CONTAINS_ANY, SET_CONTAINS_ALL, SET_REMOVE] {
                    each(op, args(&[a, &first.to_be_bytes(), &last.to_be_bytes()]));
                }
            }
        }
        for b in &all {
            each(SET_UNION, args(&[a, b]));
            each(SET_CUT, args(&[a, b]));
        }
    }
}

/// All sets within pages 1 to 6 with all lists of up to four frames whose last pages are at most 7.
fn frames(each: Each) {
    for bits in 0..64u32 {
        let runs: Vec<_> = (1..=6).filter(|p| bits >> (p - 1) & 1 == 1).map(|p| (p, p)).collect();
        let set = set_bytes(&windows(&runs).unwrap());
        let start = runs.first().map_or(1, |r| r.0);
        for picked in 0..128u32 {
            let lasts: Vec<u32> = (1..=7).filter(|p| picked >> (p - 1) & 1 == 1).collect();
            if lasts.len() > 4 || lasts.first().is_some_and(|&last| last < start) {
                continue;
            }
            let frames: Vec<_> = lasts.iter().zip([10, 0, 100, 7]).map(|(&last, size)| (size, last)).collect();
            calls_on_segment(&segment_bytes([7; 16], &set, &frames), 0..=8, &[0, 9, 10, 110, 117], each);
        }
    }
}

/// The calls on a segment: its list, and the frame and its bytes for some pages and lent lengths.
fn calls_on_segment(segment: &[u8], pages: impl IntoIterator<Item = u32>, lengths: &[u64], each: Each) {
    each(FRAME_LIST, segment.to_vec());
    each(FRAME_LIST_OF_4, segment.to_vec());
    for page in pages {
        each(FRAME_OF_PAGE, args(&[segment, &page.to_be_bytes()]));
        for length in lengths {
            each(FRAME_BYTES, args(&[segment, &page.to_be_bytes(), &length.to_be_bytes()]));
        }
    }
}

/// All byte ranges within 0 to 4, with three sets, of one segment and of two.
fn joins(each: Each) {
    let sets: Vec<_> = [vec![], vec![(1, 1)], vec![(1, 2)]].iter().map(|runs| set_bytes(&windows(runs).unwrap())).collect();
    for ends in 0..625u64 {
        let (a, b, c, d) = (ends % 5, ends / 5 % 5, ends / 25 % 5, ends / 125);
        if a > b || c > d {
            continue;
        }
        for (left, right, sid) in (0..18).map(|i| (i % 3, i / 3 % 3, 7 + (i / 9) as u8)) {
            let left = range_bytes([7; 16], a, b, &sets[left]);
            each(JOIN, args(&[&left, &range_bytes([sid; 16], c, d, &sets[right])]));
        }
    }
}

/// `n` random calls.
pub fn random(n: u64, seed: u64, each: Each) {
    let mut r = Random::new(seed);
    for _ in 0..n {
        let op = r.below(30) as u8 + 1;
        let arguments = random_args(op, &mut r);
        each(op, arguments);
    }
}

fn random_args(op: u8, r: &mut Random) -> Vec<u8> {
    match op {
        LSN_NEXT..=LSN_SATURATING_PREV => lsn(r).to_be_bytes().into(),
        PAGE_NEXT..=COUNT_LAST_PAGE => page(r).to_be_bytes().into(),
        SET_RANGE => {
            let first = page(r);
            let last = first.saturating_add(r.below(2200) as u32);
            args(&[&first.to_be_bytes(), &last.to_be_bytes()])
        }
        SET_SIZE | SET_FIRST | SET_LAST => set_bytes(&set(r)),
        SET_INSERT | SET_CONTAINS | SET_TRUNCATE => {
            let set = set(r);
            args(&[&set_bytes(&set), &page_near(&set, r).to_be_bytes()])
        }
        SET_CONTAINS_ANY | SET_CONTAINS_ALL | SET_REMOVE => {
            let set = set(r);
            let (p, q) = (page_near(&set, r), page_near(&set, r));
            args(&[&set_bytes(&set), &p.min(q).to_be_bytes(), &p.max(q).to_be_bytes()])
        }
        SET_UNION | SET_CUT => {
            let (a, b) = two_sets(r);
            args(&[&set_bytes(&a), &set_bytes(&b)])
        }
        FRAME_LIST..=FRAME_BYTES => random_segment_call(op, r),
        JOIN => random_join(r),
        CHANGES => {
            let mut end = || args(&[&(r.below(3) as u32).to_be_bytes(), &lsn(r).to_be_bytes()]);
            args(&[&end(), &end()])
        }
        SNAPSHOT_NEW => args(&[&id(r), &lsn_range(r), &page(r).to_be_bytes()]),
        SNAPSHOT_APPEND => args(&[&snapshot(r), &id(r), &lsn_range(r)]),
        SNAPSHOT_HEAD => snapshot(r),
        _ => unreachable!("no call {op}"),
    }
}

fn id(r: &mut Random) -> [u8; 16] {
    [r.u64().to_be_bytes(), r.below(4).to_be_bytes()].concat().try_into().unwrap()
}

/// An LSN, sometimes 0, often near another.
fn lsn(r: &mut Random) -> u64 {
    match r.below(4) {
        0 => r.u64(),
        1 => u64::MAX - r.below(3),
        _ => r.below(12),
    }
}

/// A page or a count, sometimes 0.
fn page(r: &mut Random) -> u32 {
    match r.below(4) {
        0 => r.u64() as u32,
        1 => LAST - r.below(130) as u32,
        _ => r.below(300) as u32,
    }
}

/// Windows of a set: dense or sparse, few or 32, low, anywhere or at the end.
fn set(r: &mut Random) -> Vec<(u32, u64)> {
    let count = if r.one_in(3) { 32 } else { r.below(33) };
    let base = r.pick(&[0, 0, 1, 1000, LAST / 64 - 40]);
    let reach = if r.one_in(2) { 33 } else { 41 };
    let mut windows: Vec<(u32, u64)> = vec![];
    while windows.len() < count as usize {
        let window = if r.one_in(8) { r.below(1 << 26) as u32 } else { base + r.below(reach) as u32 };
        let mask = match r.below(4) {
            0 => u64::MAX,
            1 => 1 << r.below(64),
            2 => r.u64() & r.u64(),
            _ => r.u64(),
        };
        let mask = if window == 0 { mask & !1 } else { mask };
        if mask != 0 && windows.iter().all(|w| w.0 != window) {
            windows.push((window, mask));
        }
    }
    windows.sort();
    windows
}

/// Two sets that often share windows.
fn two_sets(r: &mut Random) -> (Vec<(u32, u64)>, Vec<(u32, u64)>) {
    let (a, mut b) = (set(r), set(r));
    if r.one_in(2) {
        b.retain(|w| a.iter().all(|v| v.0 != w.0));
        b.extend(a.iter().filter(|_| r.one_in(2)).map(|&(window, mask)| (window, mask)));
        b.sort();
        b.truncate(32);
        for (window, mask) in &mut b {
            let other = r.u64();
            if *window != 0 && r.one_in(2) && *mask & other != 0 {
                *mask &= other;
            }
        }
    }
    (a, b)
}

/// A page at the edge of a window of the set, or any.
fn page_near(set: &[(u32, u64)], r: &mut Random) -> u32 {
    if set.is_empty() || r.one_in(4) {
        return page(r);
    }
    let (window, mask) = set[r.below(set.len() as u64) as usize];
    let low = u64::from(window) * 64;
    let page = match r.below(4) {
        0 => low + u64::from(mask.trailing_zeros()),
        1 => low + 63 - u64::from(mask.leading_zeros()),
        2 => (low + r.below(66)).saturating_sub(1),
        _ => low + r.below(64),
    };
    page.min(u64::from(LAST)) as u32
}

/// A segment with up to 16 frames in their domain, whose sizes sum to 2^64-1 at most, or are small.
fn random_segment_call(op: u8, r: &mut Random) -> Vec<u8> {
    let set = set(r);
    let first = set.first().map_or(1, |w| w.0 * 64 + w.1.trailing_zeros());
    let mut lasts: Vec<u32> = (0..r.below(17)).map(|_| page_near(&set, r)).filter(|&p| p >= first).collect();
    lasts.sort();
    lasts.dedup();
    if op == FRAME_LIST_OF_4 {
        lasts.truncate(4);
    }
    let small = op == FRAME_BYTES || r.one_in(2);
    let mut left = if small { LENT as u64 - 64 } else { u64::MAX };
    let mut frames = vec![];
    for last in lasts {
        let size = match r.below(4) {
            0 => 0,
            1 if !small && r.one_in(4) => left,
            _ => r.below(left / 4 + 1),
        };
        left -= size;
        frames.push((size, last));
    }
    let segment = segment_bytes(id(r), &set_bytes(&set), &frames);
    match op {
        FRAME_LIST | FRAME_LIST_OF_4 => segment,
        FRAME_OF_PAGE => args(&[&segment, &page_near(&set, r).to_be_bytes()]),
        _ => {
            let total: u64 = frames.iter().map(|f| f.0).sum();
            let lent = if r.one_in(2) { total } else { r.below(total + 2) };
            args(&[&segment, &page_near(&set, r).to_be_bytes(), &lent.to_be_bytes()])
        }
    }
}

/// Two ranges that often touch, at the left or at the right.
fn random_join(r: &mut Random) -> Vec<u8> {
    let (a, b) = two_sets(r);
    let sid = id(r);
    let mut ends = [r.u64(), lsn(r), r.u64()];
    ends.sort();
    let [low, middle, high] = ends;
    let other = if r.one_in(6) { id(r) } else { sid };
    let gap = if r.one_in(4) { r.below(2) } else { 0 };
    let left = range_bytes(sid, low, middle, &set_bytes(&a));
    let right = range_bytes(other, middle.saturating_add(gap).min(high), high, &set_bytes(&b));
    if r.one_in(2) { args(&[&left, &right]) } else { args(&[&right, &left]) }
}

fn lsn_range(r: &mut Random) -> Vec<u8> {
    let (start, end) = (lsn(r), lsn(r));
    let (start, end) = if r.one_in(5) { (start, end) } else { (start.min(end), start.max(end)) };
    args(&[&start.to_be_bytes(), &end.to_be_bytes()])
}

fn snapshot(r: &mut Random) -> Vec<u8> {
    let path: Vec<_> = (0..r.below(9))
        .map(|_| {
            let (start, end) = (lsn(r).max(1), lsn(r).max(1));
            (id(r), start.min(end), start.max(end))
        })
        .collect();
    snapshot_bytes(page(r), &path)
}

#[cfg(test)]
mod tests {
    use super::*;
    use crate::original;
    use std::collections::BTreeSet;

    /// The random calls meet what docs/DIFFERENCES.md says of them.
    #[test]
    fn random_calls_meet_the_edges() {
        original::keep_panics();
        let mut met: BTreeSet<&str> = BTreeSet::new();
        random(60_000, 3, &mut |op, args| {
            let Some(record) = original::record(op, &args) else { return };
            let (count, answer) = (usize::from(args[0]), (op, record.code, record.found));
            let edges = [
                ("set of 32 windows", op == SET_SIZE && count == 32),
                ("page 2^32-1 in a set", op == SET_LAST && record.out == LAST.to_be_bytes()),
                ("insert into 32 windows", answer == (SET_INSERT, 22, 0)),
                ("union over 32 windows", answer == (SET_UNION, 22, 0)),
                ("join over 32 windows", answer == (JOIN, 22, 0)),
                ("joined", answer == (JOIN, 0, 1)),
                ("not joined", answer == (JOIN, 0, 0)),
                ("past the lent segment", answer == (FRAME_BYTES, 23, 0)),
                ("reversed path range", answer == (SNAPSHOT_APPEND, 2, 0)),
            ];
            met.extend(edges.iter().filter(|e| e.1).map(|e| e.0));
            if (FRAME_LIST..=FRAME_BYTES).contains(&op) {
                let held = usize::from(args[401]);
                let frames: Vec<_> = args[402..].chunks(12).take(held).map(|f| (Reader(f).u64(), Reader(&f[8..]).u32())).collect();
                let sum = frames.iter().map(|f| f.0).sum::<u64>();
                let edges = [
                    ("16 frames", held == 16),
                    ("sizes up to 2^64-1", sum == u64::MAX),
                    ("frame up to page 2^32-1", frames.last().is_some_and(|f| f.1 == LAST)),
                    ("frame of no bytes", frames.iter().any(|f| f.0 == 0)),
                    ("no frames", held == 0),
                ];
                met.extend(edges.iter().filter(|e| e.1).map(|e| e.0));
            }
        });
        assert_eq!(met.len(), 14, "{met:?}");
    }
}
