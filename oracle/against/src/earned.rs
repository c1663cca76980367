//! Numbers that the original cannot show: what arguments earn (1, 2, 3), by the judge of byte forms; identifiers in use (5), by a look through the
//! records; and room (19), by the same call on tables with room to spare.
use crate::calls::{self, Args, Id, Op, Six};
use crate::judge;
use crate::tables::{read, records};
use graft::core::VolumeId;
use graft::local::fjall_storage::FjallStorage;
use harness::forms;
use sigatuda::{PresentPage, Volume};

fn zero(n: u64) -> u32 {
    u32::from(n == 0)
}

fn span(first: u64, last: u64) -> u32 {
    if first == 0 || last == 0 { 1 } else { 2 * u32::from(first > last) }
}

fn name(name: &[u8]) -> u32 {
    u32::from(!(1..=32).contains(&name.len()))
}

/// The lowest number that the arguments and the lent place earn, or 0.
pub fn by_arguments(op: Op, a: &Args) -> u32 {
    let snapshot = || judge::snapshot(&a.snapshot);
    let arguments = match op {
        Op::TagRead | Op::TagExists | Op::TagDelete | Op::TagReplace => vec![name(&a.name)],
        Op::CommitRead | Op::PageCount | Op::CheckpointAt | Op::FromLogref => vec![zero(a.lsn)],
        Op::StoredLsns => vec![span(a.lsn, a.end)],
        Op::WriteCommit | Op::Success => vec![judge::commit_argument(&a.commit)],
        Op::PagePresent | Op::PageMark | Op::PageRemove => vec![zero(a.page.into())],
        Op::PagesRemove => vec![span(a.page.into(), a.last.into())],
        Op::LatestCheck | Op::SnapshotCommits | Op::Walk | Op::MissingFrames | Op::FromSnapshot => vec![snapshot()],
        Op::Search => vec![snapshot(), zero(a.page.into())],
        Op::Save => vec![snapshot(), judge::set(&a.set)],
        Op::Prepare => vec![zero(a.lsn), zero(a.end)],
        _ => vec![],
    };
    let place = if !op.lists() && a.room != op.size() { 3 } else { 0 };
    arguments.into_iter().chain([place]).filter(|&n| n != 0).min().unwrap_or(0)
}

/// The number, where a call that the original would do is 5 or a number before it; document 01's order decides.
pub fn by_identifiers(op: Op, a: &Args, tables: &Six, storage: &FjallStorage) -> Option<u32> {
    let volumes = || read::<Volume>(&tables[0]);
    let commits = || records(&tables[2], 722);
    let stored = |vid: Id| volumes().any(|v| v.vid.0 == vid);
    let has_commits = |log: Id| commits().any(|c| c[1..17] == log);
    let in_use = match op {
        Op::Open => {
            let asked = a.flags.map(|f| f != 0);
            if asked[0] && stored(a.asked[0]) {
                return None;
            }
            let stands: Vec<Id> = (0..3).map(|i| if asked[i] { a.asked[i] } else { a.spares[i] }).collect();
            let named = |log: Id| volumes().any(|v| v.local.0 == log || v.remote.0 == log) || has_commits(log);
            (!asked[0] && stored(stands[0])) || (1..3).any(|i| !asked[i] && (named(stands[i]) || stands[i] == stands[3 - i]))
        }
        Op::Save => {
            let of_commit = commits().any(|c| c[62] == 1 && c[63..79] == a.sid);
            of_commit || read::<PresentPage>(&tables[5]).any(|p| p.sid.0 == a.sid)
        }
        Op::FromLogref if !commits().any(|c| c[1..17] == a.log && c[17..25] == (!a.lsn).to_be_bytes()) => return None,
        Op::FromSnapshot | Op::FromLogref => {
            let [vid, local, remote] = a.spares;
            stored(vid) || has_commits(local) || has_commits(remote) || local == remote
        }
        _ => false,
    };
    if !in_use {
        return None;
    }
    if op != Op::Save {
        return Some(5);
    }
    // a save is 4, 7 and 18 before it is 5
    let (reads, vid) = (storage.reads(), VolumeId::new(a.vid));
    let Ok(latest) = reads.is_latest_snapshot(&vid, &forms::to_snapshot(&a.snapshot)) else { return Some(4) };
    if !latest {
        return Some(7);
    }
    let local = reads.volume(&vid).expect("stored").local;
    let last = reads.latest_lsn(&local).expect("readable").is_some_and(|l| l.to_u64() == u64::MAX);
    Some(if last { 18 } else { 5 })
}

/// Whether a call has to be 19: with room to spare it is done, and some table then holds more than its room.
pub fn lacks_room(op: Op, a: &Args, tables: &Six) -> bool {
    let room = |bytes: &[u8], record: usize| (bytes.len() - 2) / record;
    let held = |bytes: &[u8]| usize::from(u16::from_be_bytes([bytes[0], bytes[1]]));
    for more in [1, 20] {
        let mut wide = tables.clone();
        for ((bytes, kind), spare) in wide.iter_mut().zip(judge::TABLES).zip([10, 10, 20, 60, 1000, 200]) {
            bytes.resize(bytes.len() + more * spare * kind.record, 0);
        }
        let reply = calls::run(op, a, &mut wide).reply;
        if reply.code != 19 {
            return reply.code == 0 && (0..6).any(|i| held(&wide[i]) > room(&tables[i], judge::TABLES[i].record));
        }
    }
    false
}
