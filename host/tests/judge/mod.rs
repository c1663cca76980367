//! A judge of byte forms, written from docs/TABLES.md and document 01 alone: it shares no code with the crate or the archive.
//! A value earns document 01's number, 0 where it is in form; a table is formed or not.

pub mod damage;
pub mod make;

fn u32_at(b: &[u8], at: usize) -> u32 {
    b[at..at + 4].iter().fold(0, |n, &x| n << 8 | u32::from(x))
}

fn u64_at(b: &[u8], at: usize) -> u64 {
    b[at..at + 8].iter().fold(0, |n, &x| n << 8 | u64::from(x))
}

fn all_zero(b: &[u8]) -> bool {
    b.iter().all(|&x| x == 0)
}

/// Number of windows (1), 32 places of window (4) and mask (8): windows strictly rise, no mask is zero, no page is 0 or above 2^32-1.
pub fn set(b: &[u8]) -> u32 {
    if b.len() != 385 || b[0] > 32 {
        return 3;
    }
    let held = usize::from(b[0]);
    let window = |i: usize| u32_at(b, 1 + 12 * i);
    let mask = |i: usize| u64_at(b, 5 + 12 * i);
    let rising = (1..held).all(|i| window(i - 1) < window(i));
    let pages = (0..held).all(|i| mask(i) != 0 && window(i) <= 67_108_863 && (window(i) != 0 || mask(i) & 1 == 0));
    if rising && pages && all_zero(&b[1 + 12 * held..]) { 0 } else { 3 }
}

/// The set's first page, or 1 where it is empty.
fn starting_page(set: &[u8]) -> u32 {
    if set[0] == 0 { 1 } else { u32_at(set, 1) * 64 + u64_at(set, 5).trailing_zeros() }
}

/// Sid (16), page set (385), number of frames (1), 16 places of size (8) and last page (4): last pages strictly rise, the first is not
/// below the starting page, sizes sum to at most 2^64-1.
pub fn segment(b: &[u8]) -> u32 {
    if b.len() != 594 || set(&b[16..401]) != 0 || b[401] > 16 {
        return 3;
    }
    let held = usize::from(b[401]);
    let last = |i: usize| u32_at(b, 410 + 12 * i);
    let rising = (1..held).all(|i| last(i - 1) < last(i));
    let starts = held == 0 || last(0) >= starting_page(&b[16..401]);
    let sum: u128 = (0..held).map(|i| u128::from(u64_at(b, 402 + 12 * i))).sum();
    if rising && starts && sum < 1 << 64 && all_zero(&b[402 + 12 * held..]) { 0 } else { 3 }
}

/// Sid (16), first byte (8), byte after the last (8), page set (385).
pub fn range(b: &[u8]) -> u32 {
    if b.len() != 417 {
        return 3;
    }
    if u64_at(b, 16) > u64_at(b, 24) { 2 } else { set(&b[32..]) }
}

/// Reserved (1), page count (4), number of ranges (1), 8 places of log (16), first LSN (8), last LSN (8). 1 and 2 look at the ranges that
/// count and have a place.
pub fn snapshot(b: &[u8]) -> u32 {
    if b.len() != 262 {
        return 3;
    }
    let looked = usize::from(b[5].min(8));
    let ends = |i: usize| (u64_at(b, 22 + 32 * i), u64_at(b, 30 + 32 * i));
    if (0..looked).any(|i| ends(i).0 == 0 || ends(i).1 == 0) {
        return 1;
    }
    if (0..looked).any(|i| ends(i).0 > ends(i).1) {
        return 2;
    }
    if b[0] == 0 && b[5] <= 8 && all_zero(&b[6 + 32 * looked..]) { 0 } else { 3 }
}

/// A flag and what it says is there: zero where it is missing.
fn there_or_zero(b: &[u8], flag: usize, end: usize) -> bool {
    b[flag] == 1 || (b[flag] == 0 && all_zero(&b[flag + 1..end]))
}

fn volume(b: &[u8]) -> bool {
    let sync = if b[50] == 0 {
        all_zero(&b[51..68])
    } else {
        b[50] == 1 && u64_at(b, 51) != 0 && there_or_zero(b, 59, 68) && (b[59] == 0 || u64_at(b, 60) != 0)
    };
    let pending = there_or_zero(b, 68, 117) && (b[68] == 0 || (u64_at(b, 69) != 0 && u64_at(b, 77) != 0));
    b[0] == 0 && b[17] == 0 && sync && pending
}

fn tag(b: &[u8]) -> bool {
    b[0] == 0 && (1..=32).contains(&b[33]) && all_zero(&b[1 + usize::from(b[33])..33])
}

fn commit(b: &[u8]) -> bool {
    let segment = there_or_zero(b, 62, 657) && (b[62] == 0 || segment(&b[63..657]) == 0);
    let listed = usize::from(b[657]);
    let checkpoints = listed <= 8 && (0..listed).all(|i| u64_at(b, 658 + 8 * i) != 0) && all_zero(&b[658 + 8 * listed..]);
    b[0] == 0 && !u64_at(b, 17) != 0 && there_or_zero(b, 29, 62) && segment && checkpoints
}

/// A commit as an argument: 1 for an LSN 0, its own or one of the listed that have a place; 3 for any other fault. Of other bytes than 722 nothing is looked at.
pub fn commit_argument(b: &[u8]) -> u32 {
    if b.len() != 722 {
        return 3;
    }
    let looked = usize::from(b[657].min(8));
    if !u64_at(b, 17) == 0 || (0..looked).any(|i| u64_at(b, 658 + 8 * i) == 0) {
        return 1;
    }
    if commit(b) { 0 } else { 3 }
}

fn checkpoint(b: &[u8]) -> bool {
    b[0] == 0 && !u64_at(b, 17) != 0
}

fn index_entry(b: &[u8]) -> bool {
    b[0] == 0 && u32_at(b, 17) != 0 && !u64_at(b, 21) != 0
}

fn present_page(b: &[u8]) -> bool {
    b[0] == 0 && !u32_at(b, 17) != 0
}

/// One of the six tables: its name, the bytes of a record and of its key, and the judge of a record.
#[derive(Clone, Copy)]
pub struct Kind {
    pub name: &'static str,
    pub record: usize,
    pub key: usize,
    pub in_form: fn(&[u8]) -> bool,
}

/// The six tables, in the order of docs/TABLES.md.
pub const TABLES: [Kind; 6] = [
    Kind { name: "volumes", record: 117, key: 17, in_form: volume },
    Kind { name: "tags", record: 50, key: 34, in_form: tag },
    Kind { name: "commits", record: 722, key: 25, in_form: commit },
    Kind { name: "checkpoints", record: 25, key: 25, in_form: checkpoint },
    Kind { name: "index", record: 29, key: 29, in_form: index_entry },
    Kind { name: "presence", record: 21, key: 21, in_form: present_page },
];

impl Kind {
    /// Whether a record has its size and is in form.
    pub fn judges(&self, record: &[u8]) -> bool {
        record.len() == self.record && (self.in_form)(record)
    }

    /// Whether bytes are a table: the count fits, records are in form, keys strictly rise. What lies past the last is not looked at.
    pub fn formed(&self, b: &[u8]) -> bool {
        if b.len() < 2 {
            return false;
        }
        let count = usize::from(b[0]) * 256 + usize::from(b[1]);
        if count > (b.len() - 2) / self.record {
            return false;
        }
        let records: Vec<_> = b[2..].chunks(self.record).take(count).collect();
        records.iter().all(|r| self.judges(r)) && records.windows(2).all(|w| w[0][..self.key] < w[1][..self.key])
    }
}
