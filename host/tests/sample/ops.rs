//! The calls of the sample, as oracle/SAMPLE.md lists them: a number for each, the bytes of its arguments and of what it writes.

macro_rules! ops {
    ($($number:literal $name:ident $args:expr, $out:expr;)*) => {
        $(pub const $name: u8 = $number;)*

        /// Every call: number, name, bytes of its arguments, bytes of what it writes.
        pub const ALL: &[(u8, &str, usize, usize)] = &[$(($number, stringify!($name), $args, $out)),*];
    };
}

pub const ID: usize = 16;
pub const SET: usize = 385;
pub const SEGMENT: usize = 594;
pub const RANGE: usize = 417;
pub const SNAPSHOT: usize = 262;

ops! {
    1 LSN_NEXT 8, 8;
    2 LSN_PREV 8, 8;
    3 LSN_SATURATING_NEXT 8, 8;
    4 LSN_SATURATING_PREV 8, 8;
    5 PAGE_NEXT 4, 4;
    6 PAGE_PREV 4, 4;
    7 COUNT_NEXT 4, 4;
    8 COUNT_PREV 4, 4;
    9 COUNT_LAST_PAGE 4, 4;
    10 SET_RANGE 8, SET;
    11 SET_INSERT SET + 4, SET;
    12 SET_UNION SET + SET, SET;
    13 SET_SIZE SET, 4;
    14 SET_FIRST SET, 4;
    15 SET_LAST SET, 4;
    16 SET_CONTAINS SET + 4, 0;
    17 SET_CONTAINS_ANY SET + 8, 0;
    18 SET_CONTAINS_ALL SET + 8, 0;
    19 SET_TRUNCATE SET + 4, SET;
    20 SET_CUT SET + SET, SET + SET;
    21 SET_REMOVE SET + 8, SET;
    22 FRAME_LIST SEGMENT, 4 + 16 * RANGE;
    23 FRAME_LIST_OF_4 SEGMENT, 4 + 4 * RANGE;
    24 FRAME_OF_PAGE SEGMENT + 4, RANGE;
    25 FRAME_BYTES SEGMENT + 4 + 8, 16;
    26 JOIN RANGE + RANGE, RANGE;
    27 CHANGES 4 + 8 + 4 + 8, 16;
    28 SNAPSHOT_NEW ID + 8 + 8 + 4, SNAPSHOT;
    29 SNAPSHOT_APPEND SNAPSHOT + ID + 8 + 8, SNAPSHOT;
    30 SNAPSHOT_HEAD SNAPSHOT, ID + 8;
}

/// The most bytes that a call of the sample lends as a segment.
pub const LENT: usize = 4096;

/// The bytes of a call's arguments and of what it writes.
pub fn sizes(op: u8) -> Option<(usize, usize)> {
    ALL.iter().find(|o| o.0 == op).map(|o| (o.2, o.3))
}

/// A call's name.
pub fn name(op: u8) -> &'static str {
    ALL.iter().find(|o| o.0 == op).map_or("?", |o| o.1)
}

/// A call with its answer: what it writes is as it stands after the call on bytes that were zero.
#[derive(Clone, Debug, PartialEq, Eq)]
pub struct Record {
    pub op: u8,
    pub args: Vec<u8>,
    pub code: u8,
    pub found: u8,
    pub out: Vec<u8>,
}

impl Record {
    /// The record's bytes.
    pub fn write(&self, to: &mut Vec<u8>) {
        to.push(self.op);
        to.extend_from_slice(&self.args);
        to.extend_from_slice(&[self.code, self.found]);
        to.extend_from_slice(&self.out);
    }

    /// How many bytes of `out`, from its front, the call writes; the others stay as they were. A refusal and nothing found write none, an
    /// insert writes its set in both cases, and a list ends with its last item.
    pub fn written(&self) -> usize {
        if self.code != 0 || (self.found == 0 && self.op != SET_INSERT) {
            return 0;
        }
        match self.op {
            FRAME_LIST | FRAME_LIST_OF_4 => 4 + RANGE * u32::from_be_bytes(self.out[..4].try_into().unwrap()) as usize,
            _ => self.out.len(),
        }
    }

    /// What `out` holds after the call where each of its bytes was `before`.
    pub fn out_over(&self, before: u8) -> Vec<u8> {
        let mut out = vec![before; self.out.len()];
        out[..self.written()].copy_from_slice(&self.out[..self.written()]);
        out
    }

    /// The record at the front of some bytes, which go on after it.
    pub fn read(from: &mut &[u8]) -> Option<Record> {
        let (&op, rest) = from.split_first()?;
        let (args, out) = sizes(op)?;
        let (args, rest) = rest.split_at_checked(args)?;
        let (answer, rest) = rest.split_at_checked(2)?;
        let (out, rest) = rest.split_at_checked(out)?;
        *from = rest;
        Some(Record { op, args: args.to_vec(), code: answer[0], found: answer[1], out: out.to_vec() })
    }
}
