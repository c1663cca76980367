//! A call, answered by the original.
//!
//! Where the original panics, the panic's place says which of document 01's numbers stands there; where it has no value for an argument
//! (page 0), that is 1; where its answer has over 32 windows, that is 22, and where the frame it names ends past the lent length, 23. What
//! it answers otherwise than document 01 on purpose (docs/DIFFERENCES.md) is nothing here, and is not compared.
use crate::forms::*;
use crate::ops::{self, *};
use graft::core::lsn::LSN;
use graft::core::pageset::PageSet;
use graft::core::{LogId, PageCount, PageIdx};
use graft::err::LogicalErr;
use graft::local::fjall_storage::FjallStorageErr;
use graft::snapshot::Snapshot;
use graft::volume::AheadStatus;
use std::cell::RefCell;
use std::panic::{AssertUnwindSafe, catch_unwind};

thread_local! {
    /// The words of the last panic.
    pub static PANIC: RefCell<String> = const { RefCell::new(String::new()) };
}

/// Keeps a panic's words instead of printing them. To be called once.
pub fn keep_panics() {
    std::panic::set_hook(Box::new(|info| PANIC.set(info.to_string())));
}

/// What an answer is: the number, whether something was found, and what was written.
#[derive(Debug)]
pub struct Answer {
    pub code: u8,
    pub found: bool,
    pub out: Vec<u8>,
}

fn found(out: impl Into<Vec<u8>>) -> Option<Answer> {
    Some(Answer { code: 0, found: true, out: out.into() })
}

fn refused(code: u8) -> Option<Answer> {
    Some(Answer { code, found: false, out: vec![] })
}

fn yes(yes: bool) -> Option<Answer> {
    Some(Answer { code: 0, found: yes, out: vec![] })
}

/// Found, or nothing.
fn maybe(out: Option<impl Into<Vec<u8>>>) -> Option<Answer> {
    match out {
        Some(out) => found(out),
        None => yes(false),
    }
}

/// A form that is there, or 22 for over 32 windows.
fn or_22(form: Option<Vec<u8>>) -> Option<Answer> {
    match form {
        Some(form) => found(form),
        None => refused(22),
    }
}

/// The number of the panic that was kept.
pub fn panic_number(words: &str) -> Option<u8> {
    let numbers = [
        ("LSN must be non-zero", 1),
        ("no page 0", 1),
        ("assertion failed: !lsns.is_empty()", 2),
        ("BUG: snapshot behind sync point", 16),
        ("LSN overflow", 18),
    ];
    numbers.iter().find(|n| words.contains(n.0)).map(|n| n.1)
}

/// The number of an error: it has four that are document 01's.
pub fn error_number(error: &FjallStorageErr) -> u32 {
    match error {
        FjallStorageErr::LogicalErr(LogicalErr::VolumeNotFound(_)) => 4,
        FjallStorageErr::LogicalErr(LogicalErr::VolumeRemoteMismatch { .. }) => 6,
        FjallStorageErr::LogicalErr(LogicalErr::VolumeConcurrentWrite(_)) => 7,
        FjallStorageErr::LogicalErr(LogicalErr::VolumeDiverged(_)) => 8,
        other => panic!("the original fails with no number: {other}"),
    }
}

/// The original's answer to a call whose arguments are in form, or nothing where it cannot be compared.
pub fn record(op: u8, args: &[u8]) -> Option<Record> {
    let answer = match catch_unwind(AssertUnwindSafe(|| ask(op, args))) {
        Ok(answer) => answer?,
        Err(_) => {
            let words = PANIC.take();
            let number = panic_number(&words);
            refused(number.unwrap_or_else(|| panic!("the original panics with no number: {words}")))?
        }
    };
    let mut out = answer.out;
    out.resize(ops::sizes(op)?.1, 0);
    Some(Record { op, args: args.to_vec(), code: answer.code, found: u8::from(answer.found), out })
}

fn page(n: u32) -> PageIdx {
    PageIdx::try_new(n).expect("no page 0")
}

/// Two pages, or nothing where the first is above the last: there the original has an empty range and document 01 a 2.
fn span(r: &mut Reader) -> Option<std::ops::RangeInclusive<PageIdx>> {
    let (first, last) = (page(r.u32()), page(r.u32()));
    (first <= last).then_some(first..=last)
}

fn ask(op: u8, args: &[u8]) -> Option<Answer> {
    let mut r = Reader(args);
    match op {
        LSN_NEXT..=COUNT_LAST_PAGE => ask_number(op, &mut r),
        SET_RANGE => or_22(of_set(&PageSet::from_range(span(&mut r)?))),
        SET_INSERT..=SET_REMOVE => ask_set(op, &mut r),
        FRAME_LIST..=JOIN => ask_frames(op, &mut r),
        _ => ask_snapshot(op, &mut r),
    }
}

fn ask_number(op: u8, r: &mut Reader) -> Option<Answer> {
    let lsn = |l: LSN| l.to_u64().to_be_bytes();
    match op {
        LSN_NEXT => found(lsn(LSN::new(r.u64()).next())),
        LSN_PREV => maybe(LSN::new(r.u64()).checked_prev().map(lsn)),
        LSN_SATURATING_NEXT => found(lsn(LSN::new(r.u64()).saturating_next())),
        LSN_SATURATING_PREV => found(lsn(LSN::new(r.u64()).saturating_prev())),
        PAGE_NEXT => found(page(r.u32()).saturating_next().to_u32().to_be_bytes()),
        PAGE_PREV => found(page(r.u32()).saturating_prev().to_u32().to_be_bytes()),
        COUNT_NEXT => found(PageCount::new(r.u32()).saturating_incr().to_u32().to_be_bytes()),
        COUNT_PREV => found(PageCount::new(r.u32()).saturating_decr().to_u32().to_be_bytes()),
        COUNT_LAST_PAGE => maybe(PageCount::new(r.u32()).last_pageidx().map(|p| p.to_u32().to_be_bytes())),
        _ => unreachable!(),
    }
}

fn ask_set(op: u8, r: &mut Reader) -> Option<Answer> {
    let mut set = to_set(r.bytes(SET));
    let number = |p: PageIdx| p.to_u32().to_be_bytes();
    match op {
        SET_INSERT => {
            let new = set.insert(page(r.u32()));
            or_22(of_set(&set)).map(|a| Answer { found: a.found && new, ..a })
        }
        SET_UNION => {
            set |= to_set(r.bytes(SET));
            or_22(of_set(&set))
        }
        SET_SIZE => found(set.cardinality().to_u32().to_be_bytes()),
        SET_FIRST => maybe(set.first().map(number)),
        SET_LAST => maybe(set.last().map(number)),
        SET_CONTAINS => yes(set.contains(page(r.u32()))),
        SET_CONTAINS_ANY => yes(set.contains_any(&span(r)?)),
        SET_CONTAINS_ALL => yes(set.contains_all(&span(r)?)),
        SET_TRUNCATE => {
            set.truncate(PageCount::new(r.u32()));
            or_22(of_set(&set))
        }
        SET_CUT => {
            let mut out = of_set(&set.cut(&to_set(r.bytes(SET))))?;
            out.extend(of_set(&set)?);
            found(out)
        }
        SET_REMOVE => {
            set.remove_page_range(span(r)?);
            or_22(of_set(&set))
        }
        _ => unreachable!(),
    }
}

fn ask_frames(op: u8, r: &mut Reader) -> Option<Answer> {
    match op {
        FRAME_LIST | FRAME_LIST_OF_4 => {
            let frames: Vec<_> = to_segment(r.bytes(SEGMENT)).iter_frames(|_| true).collect();
            if op == FRAME_LIST_OF_4 && frames.len() > 4 {
                return None; // 19 is document 01's alone
            }
            let mut out = (frames.len() as u32).to_be_bytes().to_vec();
            for frame in &frames {
                out.extend(of_range(frame)?);
            }
            found(out)
        }
        FRAME_OF_PAGE => {
            let segment = to_segment(r.bytes(SEGMENT));
            maybe(segment.frame_for_pageidx(page(r.u32())).map(|f| of_range(&f).unwrap()))
        }
        FRAME_BYTES => {
            let segment = to_segment(r.bytes(SEGMENT));
            let Some(frame) = segment.frame_for_pageidx(page(r.u32())) else { return yes(false) };
            if r.u64() < frame.bytes.end {
                return refused(23);
            }
            found([frame.bytes.start.to_be_bytes(), frame.size().to_be_bytes()].concat())
        }
        JOIN => match to_range(r.bytes(RANGE)).coalesce(to_range(r.bytes(RANGE))) {
            Ok(joined) => or_22(of_range(&joined)),
            Err(_) => yes(false),
        },
        _ => unreachable!(),
    }
}

fn ask_snapshot(op: u8, r: &mut Reader) -> Option<Answer> {
    match op {
        CHANGES => {
            let mut lsn = || {
                let (there, n) = (r.u32() != 0, r.u64());
                there.then(|| LSN::new(n))
            };
            let (base, head) = (lsn(), lsn());
            let changes = AheadStatus::new(head, base).changes();
            maybe(changes.map(|c| [c.start().to_u64().to_be_bytes(), c.end().to_u64().to_be_bytes()].concat()))
        }
        SNAPSHOT_NEW => {
            let (log, lsns) = (LogId::new(r.id()), LSN::new(r.u64())..=LSN::new(r.u64()));
            found(of_snapshot(&Snapshot::new(log, lsns, PageCount::new(r.u32()))))
        }
        SNAPSHOT_APPEND => {
            let mut snapshot = to_snapshot(r.bytes(SNAPSHOT));
            snapshot.append(LogId::new(r.id()), LSN::new(r.u64())..=LSN::new(r.u64()));
            if snapshot.iter().count() > 8 {
                return None; // a ninth range is document 01's 3 alone
            }
            found(of_snapshot(&snapshot))
        }
        SNAPSHOT_HEAD => {
            let snapshot = to_snapshot(r.bytes(SNAPSHOT));
            maybe(snapshot.head().map(|(log, lsn)| [&log.bytes()[..], &lsn.to_u64().to_be_bytes()].concat()))
        }
        _ => unreachable!("no call {op}"),
    }
}
