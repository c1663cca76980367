//! Where bytes break the form of a table, after docs/TABLES.md. The archive says whether they do; this says where, the first place first.
use crate::files::Kind;

/// A place that breaks the form: its record, from 1 on, and its byte in the file, from 0 on; the field, and what is wrong with it.
pub struct Fault {
    pub record: Option<usize>,
    pub at: usize,
    pub field: String,
    pub wrong: String,
}

/// Nothing, or the first fault of a part of a record; its byte is then that in the record.
type Form = Result<(), Fault>;

fn fault<T>(at: usize, field: &str, wrong: String) -> Result<T, Fault> {
    Err(Fault { record: None, at, field: field.to_string(), wrong })
}

/// The first fault of a table's bytes, or nothing where they are in form.
pub fn first_fault(kind: Kind, bytes: &[u8]) -> Option<Fault> {
    let (shape, capacity) = (kind.shape(), kind.capacity(bytes));
    let Some(count) = bytes.first_chunk().map(|&count| usize::from(u16::from_be_bytes(count))) else {
        return fault::<()>(0, "count", "a table starts with two bytes of count".into()).err();
    };
    if count > capacity {
        return fault::<()>(0, "count", format!("it says {count}, and only {capacity} fit: the file may be cut short")).err();
    }
    let mut before: Option<&[u8]> = None;
    for (i, record) in bytes[2..].chunks_exact(shape.record).take(count).enumerate() {
        let key = &record[..shape.key];
        if let Err(found) = record_form(kind, Bytes(record)).and_then(|()| rises(before, key)) {
            return Some(Fault { record: Some(i + 1), at: 2 + i * shape.record + found.at, ..found });
        }
        before = Some(key);
    }
    None
}

/// A key is above the one before it.
fn rises(before: Option<&[u8]>, key: &[u8]) -> Form {
    match before {
        Some(before) if before == key => fault(0, "key", "the record before has the same".into()),
        Some(before) if before > key => fault(0, "key", "it belongs before the record before it".into()),
        _ => Ok(()),
    }
}

fn record_form(kind: Kind, record: Bytes) -> Form {
    record.reserved(0)?;
    match kind {
        Kind::Volumes => volume(record),
        Kind::Tags => tag(record),
        Kind::Commits => commit(record),
        Kind::Checkpoints => record.complemented_lsn(17),
        Kind::Index => {
            record.not_zero(17, 4, "page")?;
            record.complemented_lsn(21)
        }
        Kind::Presence if record.number(17, 4) == u64::from(u32::MAX) => fault(17, "page", "it is 0".into()),
        Kind::Presence => Ok(()),
    }
}

fn volume(record: Bytes) -> Form {
    record.reserved(17)?;
    if record.flag(50, 68, "sync point")? {
        record.not_zero(51, 8, "remote LSN of the sync point")?;
        if record.flag(59, 68, "watermark")? {
            record.not_zero(60, 8, "watermark")?;
        }
    }
    if record.flag(68, 117, "pending commit")? {
        record.not_zero(69, 8, "local LSN of the pending commit")?;
        record.not_zero(77, 8, "LSN of the pending commit's remote commit")?;
    }
    Ok(())
}

fn tag(record: Bytes) -> Form {
    match record.0[33] {
        length @ 1..=32 => record.zero(1 + usize::from(length), 33, "name", "is not zero past the name's length"),
        length => fault(33, "length of the name", format!("it is {length}, and must be 1 to 32")),
    }
}

fn commit(record: Bytes) -> Form {
    record.complemented_lsn(17)?;
    record.flag(29, 62, "hash")?;
    if record.flag(62, 657, "segment")? {
        set(record, 79)?;
        frames(record, 464)?;
    }
    let listed = record.count(657, 8, "checkpoints")?;
    for i in 0..listed {
        record.not_zero(658 + 8 * i, 8, &format!("checkpoint {}", i + 1))?;
    }
    record.zero(658 + 8 * listed, 722, "checkpoints", "is not zero past their number")
}

/// The page set of a commit's segment.
fn set(record: Bytes, at: usize) -> Form {
    let held = record.count(at, 32, "windows of the page set")?;
    let place = |i: usize| at + 1 + 12 * i;
    for i in 0..held {
        let (window, mask) = (record.number(place(i), 4), record.number(place(i) + 4, 8));
        let field = format!("window {} of the page set", i + 1);
        if window > 67_108_863 {
            return fault(place(i), &field, format!("it is {window}, past the last page's, 67108863"));
        }
        if i > 0 && window <= record.number(place(i - 1), 4) {
            return fault(place(i), &field, format!("it is {window}, not above the one before it"));
        }
        if mask == 0 {
            return fault(place(i) + 4, &field, "it holds no page".into());
        }
        if window == 0 && mask & 1 == 1 {
            return fault(place(i) + 4, &field, "it holds page 0".into());
        }
    }
    record.zero(place(held), place(32), "windows of the page set", "is not zero past their number")
}

/// The frames of a commit's segment, whose page set ends where they start and is in form.
fn frames(record: Bytes, at: usize) -> Form {
    let held = record.count(at, 16, "frames")?;
    let place = |i: usize| at + 1 + 12 * i;
    let set = at - 385;
    let first_page = match record.0[set] {
        0 => 1,
        _ => record.number(set + 1, 4) * 64 + u64::from(record.number(set + 5, 8).trailing_zeros()),
    };
    let (mut least, mut sum) = (first_page, 0u64);
    for i in 0..held {
        let (size, last) = (record.number(place(i), 8), record.number(place(i) + 8, 4));
        let Some(total) = sum.checked_add(size) else {
            return fault(place(i), &format!("size of frame {}", i + 1), "the sizes sum to 2^64 or more".into());
        };
        if last < least {
            return fault(place(i) + 8, &format!("last page of frame {}", i + 1), format!("it is {last}, and must be {least} or more"));
        }
        (least, sum) = (last + 1, total);
    }
    record.zero(place(held), place(16), "frames", "is not zero past their number")
}

/// The bytes of a record, which has its whole size.
#[derive(Clone, Copy)]
struct Bytes<'a>(&'a [u8]);

impl Bytes<'_> {
    /// A big-endian number of at most 8 bytes.
    fn number(self, at: usize, size: usize) -> u64 {
        self.0[at..at + size].iter().fold(0, |n, &byte| n << 8 | u64::from(byte))
    }

    fn reserved(self, at: usize) -> Form {
        self.zero(at, at + 1, "reserved byte", "is not zero")
    }

    /// Bytes that hold nothing.
    fn zero(self, at: usize, end: usize, field: &str, wrong: &str) -> Form {
        match self.0[at..end].iter().position(|&byte| byte != 0) {
            Some(i) => fault(at + i, field, format!("byte {} {wrong}", self.0[at + i])),
            None => Ok(()),
        }
    }

    /// A flag, and zeros up to `end` where it says that nothing is there.
    fn flag(self, at: usize, end: usize, field: &str) -> Result<bool, Fault> {
        match self.0[at] {
            0 => self.zero(at + 1, end, field, "is not zero, though it is said to be missing").map(|()| false),
            1 => Ok(true),
            other => fault(at, field, format!("its flag is {other}, and must be 0 or 1")),
        }
    }

    fn not_zero(self, at: usize, size: usize, field: &str) -> Form {
        if self.number(at, size) == 0 { fault(at, field, "it is 0".into()) } else { Ok(()) }
    }

    /// The LSN of a key, stored as its complement.
    fn complemented_lsn(self, at: usize) -> Form {
        if self.number(at, 8) == u64::MAX { fault(at, "LSN", "it is 0".into()) } else { Ok(()) }
    }

    /// A number of places, at most so many.
    fn count(self, at: usize, most: u8, field: &str) -> Result<usize, Fault> {
        match self.0[at] {
            count if count <= most => Ok(usize::from(count)),
            count => fault(at, &format!("number of {field}"), format!("it is {count}, and at most {most} fit")),
        }
    }
}
