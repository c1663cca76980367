//! A call of the sample, run on the archive.
use super::ops::*;
use sigatuda::{Reply, plain};

/// Arguments, read from front to back.
struct Args<'a>(&'a [u8]);

impl<'a> Args<'a> {
    fn take(&mut self, n: usize) -> &'a [u8] {
        let (here, rest) = self.0.split_at(n);
        self.0 = rest;
        here
    }

    fn id(&mut self) -> &'a [u8; 16] {
        self.take(ID).try_into().unwrap()
    }

    fn u32(&mut self) -> u32 {
        u32::from_be_bytes(self.take(4).try_into().unwrap())
    }

    fn u64(&mut self) -> u64 {
        u64::from_be_bytes(self.take(8).try_into().unwrap())
    }
}

/// Lets a call write a number into four bytes.
fn number32(out: &mut [u8], call: impl FnOnce(&mut u32) -> Reply) -> Reply {
    let mut n = u32::from_be_bytes(out.try_into().unwrap());
    let reply = call(&mut n);
    out.copy_from_slice(&n.to_be_bytes());
    reply
}

/// Lets a call write a number into eight bytes.
fn number64(out: &mut [u8], call: impl FnOnce(&mut u64) -> Reply) -> Reply {
    let mut n = u64::from_be_bytes(out.try_into().unwrap());
    let reply = call(&mut n);
    out.copy_from_slice(&n.to_be_bytes());
    reply
}

/// Runs a call. What it writes goes over `out`.
pub fn run(op: u8, args: &[u8], out: &mut [u8]) -> Reply {
    let args = Args(args);
    match op {
        LSN_NEXT..=COUNT_LAST_PAGE => run_number(op, args, out),
        SET_RANGE..=SET_REMOVE => run_set(op, args, out),
        _ => run_record(op, args, out),
    }
}

fn run_number(op: u8, mut a: Args, out: &mut [u8]) -> Reply {
    match op {
        LSN_NEXT => number64(out, |n| plain::lsn_next(a.u64(), n)),
        LSN_PREV => number64(out, |n| plain::lsn_prev(a.u64(), n)),
        LSN_SATURATING_NEXT => number64(out, |n| plain::lsn_saturating_next(a.u64(), n)),
        LSN_SATURATING_PREV => number64(out, |n| plain::lsn_saturating_prev(a.u64(), n)),
        PAGE_NEXT => number32(out, |n| plain::page_next(a.u32(), n)),
        PAGE_PREV => number32(out, |n| plain::page_prev(a.u32(), n)),
        COUNT_NEXT => number32(out, |n| plain::count_next(a.u32(), n)),
        COUNT_PREV => number32(out, |n| plain::count_prev(a.u32(), n)),
        COUNT_LAST_PAGE => number32(out, |n| plain::count_last_page(a.u32(), n)),
        _ => panic!("no call {op}"),
    }
}

fn run_set(op: u8, mut a: Args, out: &mut [u8]) -> Reply {
    match op {
        SET_RANGE => plain::set_range(a.u32(), a.u32(), out),
        SET_INSERT => plain::set_insert(a.take(SET), a.u32(), out),
        SET_UNION => plain::set_union(a.take(SET), a.take(SET), out),
        SET_SIZE => number32(out, |n| plain::set_size(a.take(SET), n)),
        SET_FIRST => number32(out, |n| plain::set_first(a.take(SET), n)),
        SET_LAST => number32(out, |n| plain::set_last(a.take(SET), n)),
        SET_CONTAINS => plain::set_contains(a.take(SET), a.u32()),
        SET_CONTAINS_ANY => plain::set_contains_any(a.take(SET), a.u32(), a.u32()),
        SET_CONTAINS_ALL => plain::set_contains_all(a.take(SET), a.u32(), a.u32()),
        SET_TRUNCATE => plain::set_truncate(a.take(SET), a.u32(), out),
        SET_CUT => {
            let (common, rest) = out.split_at_mut(SET);
            plain::set_cut(a.take(SET), a.take(SET), common, rest)
        }
        SET_REMOVE => plain::set_remove(a.take(SET), a.u32(), a.u32(), out),
        _ => panic!("no call {op}"),
    }
}

fn run_record(op: u8, mut a: Args, out: &mut [u8]) -> Reply {
    match op {
        FRAME_LIST | FRAME_LIST_OF_4 => {
            let (items, list) = out.split_at_mut(4);
            number32(items, |n| plain::frame_list(a.take(SEGMENT), list, n))
        }
        FRAME_OF_PAGE => plain::frame_of_page(a.take(SEGMENT), a.u32(), out),
        FRAME_BYTES => frame_bytes(a.take(SEGMENT), a.u32(), a.u64(), out),
        JOIN => plain::join(a.take(RANGE), a.take(RANGE), out),
        CHANGES => {
            let (start, end) = out.split_at_mut(8);
            number64(start, |s| number64(end, |e| plain::changes(a.u32(), a.u64(), a.u32(), a.u64(), s, e)))
        }
        SNAPSHOT_NEW => plain::snapshot_new(a.id(), a.u64(), a.u64(), a.u32(), out),
        SNAPSHOT_APPEND => plain::snapshot_append(a.take(SNAPSHOT), a.id(), a.u64(), a.u64(), out),
        SNAPSHOT_HEAD => {
            let (log, lsn) = out.split_at_mut(ID);
            let log: &mut [u8; 16] = log.try_into().unwrap();
            number64(lsn, |lsn| plain::snapshot_head(a.take(SNAPSHOT), log, lsn))
        }
        _ => panic!("no call {op}"),
    }
}

/// The frame's bytes of a lent slice of some length: where the part starts, and its length.
fn frame_bytes(segment: &[u8], page: u32, length: u64, out: &mut [u8]) -> Reply {
    let lent = &[0; LENT][..usize::try_from(length).unwrap()];
    let mut part = &lent[..0];
    let reply = plain::frame_bytes(segment, page, lent, &mut part);
    if reply.found == 1 {
        let start = part.as_ptr() as u64 - lent.as_ptr() as u64;
        out[..8].copy_from_slice(&start.to_be_bytes());
        out[8..].copy_from_slice(&(part.len() as u64).to_be_bytes());
    }
    reply
}
