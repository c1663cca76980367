//! Tables to run on, and the same work in safe Rust on the same bytes.
use std::collections::BTreeMap;
use std::hint::black_box;
use std::time::Instant;

/// A fresh table's bytes with so many records, each made from its place.
pub fn table(size: usize, count: usize, record: impl Fn(usize, &mut [u8])) -> Vec<u8> {
    let mut bytes = vec![0; 2 + size * count];
    bytes[..2].copy_from_slice(&(count as u16).to_be_bytes());
    for (i, place) in bytes[2..].chunks_mut(size).enumerate() {
        record(i, place);
    }
    bytes
}

/// Index entry i: eight logs, pages up, one LSN.
pub fn entry(i: usize, b: &mut [u8]) {
    b[1] = (i / 8192) as u8;
    b[17..21].copy_from_slice(&((i % 8192) as u32 + 1).to_be_bytes());
    b[21..29].copy_from_slice(&(!7u64).to_be_bytes());
}

/// Checkpoint i: one log, LSNs down.
pub fn checkpoint(i: usize, b: &mut [u8]) {
    b[17..25].copy_from_slice(&(!(70_000 - i as u64)).to_be_bytes());
}

/// Present page i: one segment, pages down.
pub fn present(i: usize, b: &mut [u8]) {
    b[17..21].copy_from_slice(&(!(70_000 - i as u32)).to_be_bytes());
}

/// Commit i: one log, LSNs down, a hash, a segment of 32 windows and 16 frames, 8 checkpoints.
pub fn commit(i: usize, b: &mut [u8]) {
    b[17..25].copy_from_slice(&(!(5_000 - i as u64)).to_be_bytes());
    b[25..29].copy_from_slice(&2048u32.to_be_bytes());
    b[29] = 1;
    b[30..62].fill(0xab);
    b[62] = 1;
    b[63..79].fill(0x51);
    b[79] = 32;
    for w in 0..32 {
        let at = 80 + 12 * w;
        b[at..at + 4].copy_from_slice(&(w as u32 + 1).to_be_bytes());
        b[at + 4..at + 12].copy_from_slice(&u64::MAX.to_be_bytes());
    }
    b[464] = 16;
    for f in 0..16 {
        let at = 465 + 12 * f;
        b[at..at + 8].copy_from_slice(&1000u64.to_be_bytes());
        b[at + 8..at + 12].copy_from_slice(&(64 + 128 * (f as u32 + 1)).to_be_bytes());
    }
    b[657] = 8;
    for k in 0..8 {
        b[658 + 8 * k..666 + 8 * k].copy_from_slice(&(k as u64 + 1).to_be_bytes());
    }
}

pub fn be(b: &[u8]) -> u64 {
    b.iter().fold(0, |n, &x| n << 8 | u64::from(x))
}

pub fn be32(b: &[u8]) -> u32 {
    u32::from_be_bytes(b.try_into().unwrap())
}

pub fn be64(b: &[u8]) -> u64 {
    u64::from_be_bytes(b.try_into().unwrap())
}

/// A count that fits, keys that rise, each record in form: in safe Rust.
pub fn formed(bytes: &[u8], size: usize, key: usize, form: impl Fn(&[u8]) -> bool) -> bool {
    let Some(count) = bytes.get(..2) else { return false };
    let count = be(count) as usize;
    if count > ((bytes.len() - 2) / size).min(65_535) {
        return false;
    }
    let mut last: Option<&[u8]> = None;
    for record in bytes[2..].chunks_exact(size).take(count) {
        if !form(record) || last.is_some_and(|l| l >= &record[..key]) {
            return false;
        }
        last = Some(&record[..key]);
    }
    true
}

/// Whether all bytes are zero: without an early end, which makes it fast.
pub fn zeros(b: &[u8]) -> bool {
    b.iter().fold(0, |any, &x| any | x) == 0
}

pub fn set_form(b: &[u8]) -> bool {
    let n = usize::from(b[0]);
    if n > 32 {
        return false;
    }
    let mut low = 0;
    for w in b[1..1 + 12 * n].chunks_exact(12) {
        let index = be32(&w[..4]);
        if index < low || index > 67_108_863 || be64(&w[4..]) == 0 {
            return false;
        }
        low = index + 1;
    }
    let page_zero = n > 0 && be32(&b[1..5]) == 0 && b[12] & 1 == 1;
    !page_zero && zeros(&b[1 + 12 * n..385])
}

pub fn segment_form(b: &[u8]) -> bool {
    if !set_form(&b[16..401]) {
        return false;
    }
    let first = if b[16] == 0 { 1 } else { be32(&b[17..21]) * 64 + be64(&b[21..29]).trailing_zeros() };
    let n = usize::from(b[401]);
    if n > 16 {
        return false;
    }
    let (mut below, mut sum) = (first - 1, 0u64);
    for f in b[402..402 + 12 * n].chunks_exact(12) {
        let last = be32(&f[8..]);
        let Some(more) = sum.checked_add(be64(&f[..8])) else { return false };
        if last <= below {
            return false;
        }
        (below, sum) = (last, more);
    }
    zeros(&b[402 + 12 * n..594])
}

pub fn optional(b: &[u8], form: impl Fn(&[u8]) -> bool) -> bool {
    match b[0] {
        0 => zeros(&b[1..]),
        1 => form(&b[1..]),
        _ => false,
    }
}

pub fn commit_form(b: &[u8]) -> bool {
    let n = usize::from(b[657]);
    b[0] == 0
        && be64(&b[17..25]) != u64::MAX
        && optional(&b[29..62], |_| true)
        && optional(&b[62..657], segment_form)
        && n <= 8
        && b[658..658 + 8 * n].chunks_exact(8).all(|l| be64(l) != 0)
        && zeros(&b[658 + 8 * n..722])
}

/// Nanoseconds of the best round of two calls, made in turn.
pub fn race(mut ours: impl FnMut() -> bool, mut rust: impl FnMut() -> bool) -> (f64, f64) {
    let (mut a, mut b) = (f64::MAX, f64::MAX);
    for _ in 0..100 {
        let start = Instant::now();
        for _ in 0..8 {
            assert!(black_box(ours()));
        }
        a = a.min(start.elapsed().as_nanos() as f64 / 8.0);
        let start = Instant::now();
        for _ in 0..8 {
            assert!(black_box(rust()));
        }
        b = b.min(start.elapsed().as_nanos() as f64 / 8.0);
    }
    (a, b)
}

/// A table's count and its records' bytes.
fn held(bytes: &[u8], size: usize) -> (usize, &[u8]) {
    let count = usize::from(u16::from_be_bytes(bytes[..2].try_into().unwrap()));
    (count, &bytes[2..2 + count * size])
}

pub fn index_form(b: &[u8]) -> bool {
    b[0] == 0 && be32(&b[17..21]) != 0 && be64(&b[21..29]) != u64::MAX
}

pub fn checkpoint_form(b: &[u8]) -> bool {
    b[0] == 0 && be64(&b[17..25]) != u64::MAX
}

pub fn present_form(b: &[u8]) -> bool {
    b[0] == 0 && be32(&b[17..21]) != u32::MAX
}

/// The place of a key: where it is, or where it would stand.
pub fn place(bytes: &[u8], size: usize, key: &[u8]) -> Result<usize, usize> {
    let (count, records) = held(bytes, size);
    let (mut low, mut high) = (0, count);
    while low < high {
        let middle = (low + high) / 2;
        match records[middle * size..middle * size + key.len()].cmp(key) {
            std::cmp::Ordering::Less => low = middle + 1,
            std::cmp::Ordering::Equal => return Ok(middle),
            std::cmp::Ordering::Greater => high = middle,
        }
    }
    Err(low)
}

/// Puts a record in, or over the one of its key; false where there is no room.
pub fn put(bytes: &mut [u8], size: usize, key: usize, record: &[u8]) -> bool {
    let count = held(bytes, size).0;
    let at = match place(bytes, size, &record[..key]) {
        Ok(at) => at,
        Err(_) if count == ((bytes.len() - 2) / size).min(65_535) => return false,
        Err(at) => {
            bytes.copy_within(2 + at * size..2 + count * size, 2 + (at + 1) * size);
            bytes[..2].copy_from_slice(&(count as u16 + 1).to_be_bytes());
            at
        }
    };
    bytes[2 + at * size..2 + (at + 1) * size].copy_from_slice(record);
    true
}

/// Removes the record of a key, where there is one.
pub fn remove(bytes: &mut [u8], size: usize, key: &[u8]) {
    if let Ok(at) = place(bytes, size, key) {
        let count = held(bytes, size).0;
        bytes.copy_within(2 + (at + 1) * size..2 + count * size, 2 + at * size);
        bytes[..2].copy_from_slice(&(count as u16 - 1).to_be_bytes());
    }
}

/// The pages of a set's form, from the last down.
pub fn pages_down(set: &[u8]) -> impl Iterator<Item = u32> {
    let windows = set[1..1 + 12 * usize::from(set[0])].chunks_exact(12).rev();
    windows.flat_map(|w| {
        let (index, mut mask) = (be32(&w[..4]), be64(&w[4..]));
        std::iter::from_fn(move || {
            let bit = 63u32.checked_sub(mask.leading_zeros())?;
            mask ^= 1 << bit;
            Some(index * 64 + bit)
        })
    })
}

fn entry_of(log: &[u8], page: u32, lsn: &[u8]) -> [u8; 29] {
    let mut entry = [0; 29];
    entry[1..17].copy_from_slice(log);
    entry[17..21].copy_from_slice(&page.to_be_bytes());
    entry[21..].copy_from_slice(lsn);
    entry
}

/// Writes a commit: the checks, the room of all three tables, then one merge from the back into the index, each held entry moved at most once.
pub fn write_commit(commits: &mut [u8], checkpoints: &mut [u8], index: &mut [u8], commit: &[u8]) -> bool {
    let formed = formed(commits, 722, 25, commit_form) && formed(checkpoints, 25, 25, checkpoint_form) && formed(index, 29, 29, index_form);
    formed && commit.len() == 722 && commit_form(commit) && write_formed(commits, checkpoints, index, commit)
}

/// The same, where all is in form.
pub fn write_formed(commits: &mut [u8], checkpoints: &mut [u8], index: &mut [u8], commit: &[u8]) -> bool {
    let (log, lsn, set) = (&commit[1..17], &commit[17..25], &commit[79..464]);
    let count = held(index, 29).0;
    let mut new = 0;
    let mut high = count;
    for page in pages_down(set) {
        let (is_new, at) = match place_below(index, high, &entry_of(log, page, lsn)) {
            Ok(at) => (0, at),
            Err(at) => (1, at),
        };
        new += is_new;
        high = at;
    }
    let full = |bytes: &[u8], size: usize, more: usize| held(bytes, size).0 + more > ((bytes.len() - 2) / size).min(65_535);
    let listed: Vec<_> = commit[658..658 + 8 * usize::from(commit[657])].chunks_exact(8).map(|l| checkpoint_of(log, l)).collect();
    let mut fresh: Vec<_> = listed.iter().filter(|k| place(checkpoints, 25, &k[..]).is_err()).collect();
    fresh.sort();
    fresh.dedup();
    let new_commit = usize::from(place(commits, 722, &commit[..25]).is_err());
    if full(index, 29, new) || full(checkpoints, 25, fresh.len()) || full(commits, 722, new_commit) {
        return false;
    }
    let (mut from, mut to) = (count, count + new);
    for page in pages_down(set) {
        let entry = entry_of(log, page, lsn);
        let Err(at) = place_below(index, from, &entry) else { continue };
        index.copy_within(2 + at * 29..2 + from * 29, 2 + (to - (from - at)) * 29);
        to -= from - at + 1;
        from = at;
        index[2 + to * 29..2 + (to + 1) * 29].copy_from_slice(&entry);
    }
    index[..2].copy_from_slice(&((count + new) as u16).to_be_bytes());
    listed.iter().all(|k| put(checkpoints, 25, 25, k)) && put(commits, 722, 25, commit)
}

fn checkpoint_of(log: &[u8], lsn: &[u8]) -> [u8; 25] {
    let mut record = [0; 25];
    record[1..17].copy_from_slice(log);
    record[17..].copy_from_slice(&(!be64(lsn)).to_be_bytes());
    record
}

/// The place of an index entry among the first so many.
fn place_below(index: &[u8], high: usize, key: &[u8; 29]) -> Result<usize, usize> {
    let (mut low, mut high) = (0, high);
    while low < high {
        let middle = (low + high) / 2;
        match index[2 + middle * 29..2 + (middle + 1) * 29].cmp(&key[..]) {
            std::cmp::Ordering::Less => low = middle + 1,
            std::cmp::Ordering::Equal => return Ok(middle),
            std::cmp::Ordering::Greater => high = middle,
        }
    }
    Err(low)
}

/// Nanoseconds of the best round of two stores, made in turn; before each the tables are put back, outside of the time.
pub fn race_stores<T: Clone>(fresh: &T, mut ours: impl FnMut(&mut T) -> bool, mut rust: impl FnMut(&mut T) -> bool) -> (f64, f64) {
    let (mut a, mut b, mut tables) = (f64::MAX, f64::MAX, fresh.clone());
    for _ in 0..400 {
        tables.clone_from(fresh);
        let start = Instant::now();
        assert!(black_box(ours(&mut tables)));
        a = a.min(start.elapsed().as_nanos() as f64);
        tables.clone_from(fresh);
        let start = Instant::now();
        assert!(black_box(rust(&mut tables)));
        b = b.min(start.elapsed().as_nanos() as f64);
    }
    (a, b)
}

/// The pages of a commit's record, up to a page count, that no earlier one took, as a page set in bytes; they are then taken.
pub fn gift(record: &[u8], count: u32, taken: &mut BTreeMap<u32, u64>) -> [u8; 385] {
    let mut gift = [0u8; 385];
    for w in record[80..80 + 12 * usize::from(record[79])].chunks_exact(12) {
        let (window, mask) = (be32(&w[..4]), be64(&w[4..]));
        let mask = match (u64::from(count) + 1).saturating_sub(64 * u64::from(window)) {
            0 => 0,
            n if n < 64 => mask & ((1 << n) - 1),
            _ => mask,
        };
        let held = taken.entry(window).or_insert(0);
        let left = mask & !*held;
        *held |= mask;
        if left != 0 {
            let at = 1 + 12 * usize::from(gift[0]);
            gift[at..at + 4].copy_from_slice(&window.to_be_bytes());
            gift[at + 4..at + 12].copy_from_slice(&left.to_be_bytes());
            gift[0] += 1;
        }
    }
    gift
}

/// The item of a walk: log, LSN, segment and gift.
pub fn put_item(item: &mut [u8], record: &[u8], gift: &[u8]) {
    item[..16].copy_from_slice(&record[1..17]);
    item[16..24].copy_from_slice(&(!be64(&record[17..25])).to_be_bytes());
    item[24..618].copy_from_slice(&record[63..657]);
    item[618..].copy_from_slice(gift);
}
