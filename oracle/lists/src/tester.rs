//! A call list on the original. What it cannot show is judged here: 24 and 22 by the line, 1 for LSN 0 and page 0, 5 and 19 by what it holds, once its own checks pass.
use crate::line::{Call, Range, parse, windows};
use graft::core::commit::{Commit, SegmentIdx};
use graft::core::lsn::LSN;
use graft::core::page::Page;
use graft::core::pageset::PageSet;
use graft::core::{LogId, PageCount, PageIdx, SegmentId, VolumeId};
use graft::local::fjall_storage::FjallStorage;
use graft::snapshot::Snapshot;
use harness::original::{PANIC, error_number, panic_number};
use std::collections::BTreeSet;
use std::panic::{AssertUnwindSafe, catch_unwind};

const VOLUMES: usize = 4;
const COMMITS: usize = 32;
const CHECKPOINTS: usize = 32;
const INDEX: usize = 512;
const PRESENCE: usize = 512;

/// The log's last byte and the LSN of what a line names.
type Head = Option<(u8, u64)>;

type Answer = Result<Head, u32>;

pub struct Tester {
    storage: FjallStorage,
    slots: [Option<Snapshot>; 4],
}

fn id(last: u8) -> [u8; 16] {
    let mut id = [0; 16];
    id[15] = last;
    id
}

fn head(snapshot: &Snapshot) -> Head {
    snapshot.head().map(|(log, lsn)| (log.bytes()[15], lsn.to_u64()))
}

/// How many pages these ranges have.
fn size(pages: &[Range]) -> usize {
    pages.iter().map(|&(first, last)| (last - first) as usize + 1).sum()
}

fn numbers(pages: &[Range]) -> impl Iterator<Item = u32> {
    pages.iter().flat_map(|&(first, last)| first..=last)
}

fn page(n: u32) -> PageIdx {
    PageIdx::try_new(n).expect("no page 0")
}

impl Tester {
    pub fn new() -> Self {
        Tester { storage: FjallStorage::open_temporary().expect("storage in memory"), slots: Default::default() }
    }

    /// What document 01 has a line print, after `code=`.
    pub fn line(&mut self, line: &[u8]) -> (u32, Head) {
        let asked = catch_unwind(AssertUnwindSafe(|| self.asked(line)));
        SegmentId::unqueue();
        match asked {
            Ok(Ok(head)) => (0, head),
            Ok(Err(code)) => (code, None),
            Err(_) => {
                let words = PANIC.take();
                (panic_number(&words).unwrap_or_else(|| panic!("the original panics with no number: {words}")).into(), None)
            }
        }
    }

    fn asked(&mut self, line: &[u8]) -> Answer {
        let call = parse(line).ok_or(24u32)?;
        match &call {
            Call::Save { slot, .. } | Call::Find { slot, .. } if self.slots[*slot].is_none() => return Err(24),
            Call::Save { pages, .. } | Call::Fetch { pages, .. } if windows(pages) > 32 => return Err(22),
            _ => {}
        }
        match call {
            Call::Open { vid, local, remote } => self.open(VolumeId::new(id(vid)), LogId::new(id(local)), LogId::new(id(remote))),
            Call::Snap { vid, slot } => {
                let snapshot = self.storage.reads().snapshot(&VolumeId::new(id(vid))).map_err(|e| error_number(&e))?;
                let named = head(&snapshot);
                self.slots[slot] = Some(snapshot);
                Ok(named)
            }
            Call::Save { vid, slot, count, sid, pages } => {
                let snapshot = self.slots[slot].clone().expect("a slot that is set");
                self.save(VolumeId::new(id(vid)), snapshot, count, sid, &pages)
            }
            Call::Find { slot, page: n } => {
                let snapshot = self.slots[slot].as_ref().expect("a slot that is set");
                if n == 0 {
                    return Err(1);
                }
                let found = self.storage.reads().search_page(snapshot, page(n)).map_err(|e| error_number(&e))?;
                Ok(found.map(|c| (c.log.bytes()[15], c.lsn.to_u64())))
            }
            Call::Fetch { log, lsn, count, sid, pages } => self.fetch(LogId::new(id(log)), lsn, count, sid, &pages),
            Call::Pull { vid } => {
                self.storage.guarded().sync_remote_to_local(VolumeId::new(id(vid))).map_err(|e| error_number(&e))?;
                Ok(None)
            }
        }
    }

    fn open(&mut self, vid: VolumeId, local: LogId, remote: LogId) -> Answer {
        let held = self.storage.dump().expect("all decodes").volumes.len();
        if held == VOLUMES && !self.storage.reads().volume_exists(&vid).map_err(|e| error_number(&e))? {
            return Err(19);
        }
        self.storage.guarded().volume_open(Some(vid), Some(local), Some(remote)).map_err(|e| error_number(&e))?;
        Ok(None)
    }

    /// 5 and 19 come behind the original's own 4, 7 and 18.
    fn save(&mut self, vid: VolumeId, snapshot: Snapshot, count: u32, sid: u8, pages: &[Range]) -> Answer {
        let reads = self.storage.reads();
        let passes = match reads.volume(&vid) {
            Ok(volume) => {
                let last = reads.latest_lsn(&volume.local).map_err(|e| error_number(&e))?;
                reads.is_latest_snapshot(&vid, &snapshot).map_err(|e| error_number(&e))? && last.is_none_or(|l| l.to_u64() < u64::MAX)
            }
            Err(_) => false,
        };
        if passes {
            let held = self.storage.dump().expect("all decodes");
            let of_commit = |c: &Commit| c.segment_idx.as_ref().is_some_and(|s| s.sid.bytes() == id(sid));
            if held.commits.iter().any(of_commit) || held.presence.iter().any(|&(s, _)| s == id(sid)) {
                return Err(5);
            }
            let n = size(pages);
            let more = usize::from(count as usize == n);
            if held.commits.len() + 1 > COMMITS
                || held.checkpoints.len() + more > CHECKPOINTS
                || held.index.len() + n > INDEX
                || held.presence.len() + n > PRESENCE
            {
                return Err(19);
            }
        }
        SegmentId::queue(id(sid));
        let contents = if passes { numbers(pages).map(|n| (page(n), Page::EMPTY)).collect() } else { Default::default() };
        let after = self.storage.guarded().commit(&vid, snapshot, PageCount::new(count), contents).map_err(|e| error_number(&e))?;
        Ok(head(&after))
    }

    fn fetch(&mut self, log: LogId, lsn: u64, count: u32, sid: u8, pages: &[Range]) -> Answer {
        if lsn == 0 {
            return Err(1);
        }
        let lsn = LSN::new(lsn);
        let held = self.storage.dump().expect("all decodes");
        let new = usize::from(!held.commits.iter().any(|c| c.log == log && c.lsn == lsn));
        let known: BTreeSet<u32> = held.index.iter().filter(|e| e.0 == log && e.2 == lsn).map(|e| e.1.to_u32()).collect();
        let known = known.iter().filter(|&&n| pages.iter().any(|r| (r.0..=r.1).contains(&n))).count();
        if held.commits.len() + new > COMMITS || held.index.len() + size(pages) - known > INDEX {
            return Err(19);
        }
        let mut set = PageSet::EMPTY;
        numbers(pages).for_each(|n| {
            set.insert(page(n));
        });
        let segment = SegmentIdx::new(SegmentId::new(id(sid)), set);
        self.storage.store_commit(Commit::new(log, lsn, PageCount::new(count)).with_segment_idx(Some(segment))).map_err(|e| error_number(&e))?;
        Ok(None)
    }
}

/// What document 01 has a whole list print.
pub fn printed(list: &[u8]) -> Vec<u8> {
    let mut tester = Tester::new();
    let mut lines: Vec<&[u8]> = list.split(|&b| b == b'\n').collect();
    if lines.last().is_some_and(|l| l.is_empty()) {
        lines.pop();
    }
    let mut out = vec![];
    for (i, line) in lines.iter().enumerate() {
        let (code, head) = tester.line(line);
        let (log, lsn) = head.map_or(("-".into(), 0), |(log, lsn)| (format!("{log:02x}"), lsn));
        out.extend(format!("line={} code={code} log={log} lsn={lsn}\n", i + 1).into_bytes());
    }
    out
}
