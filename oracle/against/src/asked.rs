//! A call over tables, answered by the original. Where it panics, the panic's place is one of document 01's numbers, as in `harness::original`; its
//! errors are 4, 6, 7 and 8. Arguments are in form here, and no identifier that it would draw is in use (`earned.rs` has those numbers).
use crate::calls::{Answer, Args, BEFORE, ITEMS_BEFORE, Id, Op};
use crate::tables::{commit_of, segment_of, to_commit, to_hash, volume_of};
use graft::core::commit::SegmentIdx;
use graft::core::lsn::LSN;
use graft::core::page::Page;
use graft::core::pageset::PageSet;
use graft::core::{LogId, PageCount, PageIdx, SegmentId, VolumeId, logref::LogRef};
use graft::local::fjall_storage::{FjallStorage, FjallStorageErr};
use graft::snapshot::Snapshot;
use graft::volume::PendingCommit;
use harness::forms;
use harness::original::{PANIC, error_number, panic_number};
use sigatuda::{ByteForm, Reply, Tag};
use std::collections::BTreeSet;
use std::panic::{AssertUnwindSafe, catch_unwind};

/// What the original answers: something written or listed, nothing, yes or no.
enum Told {
    Written(Vec<u8>),
    Listed(Vec<Vec<u8>>),
    Whether(bool),
}
use Told::*;

type Asked = Result<Told, FjallStorageErr>;

/// The original's answer to a call.
pub fn ask(op: Op, a: &Args, storage: &FjallStorage) -> Answer {
    let told = catch_unwind(AssertUnwindSafe(|| told(op, a, storage)));
    VolumeId::unqueue();
    LogId::unqueue();
    SegmentId::unqueue();
    let mut answer = Answer { reply: Reply { code: 0, found: 0 }, out: vec![BEFORE; a.room], items: ITEMS_BEFORE };
    match told {
        Ok(Ok(Written(bytes))) => {
            answer.reply.found = 1;
            answer.out[..bytes.len()].copy_from_slice(&bytes);
        }
        Ok(Ok(Listed(entries))) if entries.len() > a.room / op.size() => answer.reply.code = 19, // document 01's alone
        Ok(Ok(Listed(entries))) => {
            answer.reply.found = 1;
            answer.items = entries.len() as u32;
            let entries = entries.concat();
            answer.out[..entries.len()].copy_from_slice(&entries);
        }
        Ok(Ok(Whether(yes))) => answer.reply.found = u32::from(yes),
        Ok(Err(error)) => answer.reply.code = error_number(&error),
        Err(_) => answer.reply.code = number_of_panic(op, &PANIC.take()),
    }
    answer
}

/// The number of a panic's place. Success has two that say nothing of their own: no pending commit, and two values that differ.
fn number_of_panic(op: Op, words: &str) -> u32 {
    let numbers = [
        ("BUG: pending commit is present", 9),
        ("BUG: local_watermark monotonicity violation", 11),
        ("BUG: remote lsn monotonicity violation", 12),
        ("commit_hash != CommitHash::ZERO", 13),
        ("BUG: remote commit mismatch", 15),
        ("BUG: page version index references non-existing commit", 21),
    ];
    let of_success = [("called `Option::unwrap()` on a `None` value", 10), ("assertion `left == right` failed", 14)];
    let of_success = of_success.iter().filter(|_| op == Op::Success);
    let number = numbers.iter().chain(of_success).find(|n| words.contains(n.0)).map(|n| n.1);
    let number = number.or_else(|| panic_number(words).map(u32::from));
    number.unwrap_or_else(|| panic!("the original panics with no number: {words}"))
}

fn log(id: Id) -> LogId {
    LogId::new(id)
}

fn page(n: u32) -> PageIdx {
    PageIdx::try_new(n).expect("no page 0")
}

/// A record's bytes, where there is one.
fn maybe(bytes: Option<Vec<u8>>) -> Told {
    bytes.map_or(Whether(false), Written)
}

fn bytes<R: ByteForm>(record: &R) -> Vec<u8> {
    let mut out = vec![0; R::SIZE];
    record.to_slice(&mut out).expect("of its size");
    out
}

fn told(op: Op, a: &Args, storage: &FjallStorage) -> Asked {
    match op {
        Op::VolumeList | Op::TagList | Op::StoredLsns | Op::SnapshotCommits => told_list(op, a, storage),
        Op::Walk => Ok(Listed(walk(&forms::to_snapshot(&a.snapshot), storage)?)),
        Op::MissingFrames => {
            let frames = storage.reads().find_missing_frames(&forms::to_snapshot(&a.snapshot))?;
            Ok(Listed(frames.iter().map(|f| forms::of_range(f).expect("at most 32 windows")).collect()))
        }
        Op::TagRead | Op::TagExists | Op::TagDelete | Op::TagReplace => told_tag(op, a, storage),
        Op::PagePresent | Op::PageMark | Op::PageRemove | Op::PagesRemove => told_page(op, a, storage),
        Op::Open | Op::Save | Op::WriteCommit | Op::FromSnapshot | Op::FromLogref => told_write(op, a, storage),
        Op::Sync | Op::Prepare | Op::Success | Op::Recover | Op::Drop => told_push(op, a, storage),
        _ => told_read(op, a, storage),
    }
}

fn told_read(op: Op, a: &Args, storage: &FjallStorage) -> Asked {
    let (reads, vid, at) = (storage.reads(), VolumeId::new(a.vid), log(a.log));
    Ok(match op {
        Op::VolumeRead => Written(bytes(&volume_of(&reads.volume(&vid)?))),
        Op::VolumeExists => Whether(reads.volume_exists(&vid)?),
        Op::VolumeDelete => {
            storage.volume_delete(&vid)?;
            Whether(true)
        }
        Op::CommitRead => maybe(reads.get_commit(&at, LSN::new(a.lsn))?.map(|c| bytes(&commit_of(&c)))),
        Op::LatestCommit => maybe(reads.latest_commit(&at)?.map(|c| bytes(&commit_of(&c)))),
        Op::LatestLsn => maybe(reads.latest_lsn(&at)?.map(|l| l.to_u64().to_be_bytes().into())),
        Op::PageCount => maybe(reads.page_count(&at, LSN::new(a.lsn))?.map(|n| n.to_u32().to_be_bytes().into())),
        Op::CheckpointAt => maybe(reads.checkpoint_for(&at, LSN::new(a.lsn))?.map(|l| l.to_u64().to_be_bytes().into())),
        Op::Snapshot => Written(forms::of_snapshot(&reads.snapshot(&vid)?)),
        Op::LatestCheck => Whether(reads.is_latest_snapshot(&vid, &forms::to_snapshot(&a.snapshot))?),
        Op::Search => {
            let found = reads.search_page(&forms::to_snapshot(&a.snapshot), page(a.page))?;
            maybe(found.map(|c| bytes(&commit_of(&c))))
        }
        _ => unreachable!("{op:?}"),
    })
}

fn told_list(op: Op, a: &Args, storage: &FjallStorage) -> Asked {
    let reads = storage.reads();
    Ok(Listed(match op {
        Op::VolumeList => reads.iter_volumes().map(|v| v.map(|v| bytes(&volume_of(&v)))).collect::<Result<_, _>>()?,
        Op::TagList => {
            let tag =
                |name: &str, vid: VolumeId| bytes(&Tag::new(name.as_bytes(), sigatuda::VolumeId(vid.bytes())).expect("1 to 32 bytes"));
            reads.iter_tags().map(|t| t.map(|(name, vid)| tag(name.as_str(), vid))).collect::<Result<_, _>>()?
        }
        Op::StoredLsns => {
            let lsns = reads.lsns(&log(a.log), &(LSN::new(a.lsn)..=LSN::new(a.end)))?;
            // the original's set rises, document 01's list falls
            let mut lsns: Vec<_> = lsns.iter().map(|l| l.to_u64().to_be_bytes().to_vec()).collect();
            lsns.sort_by(|x, y| y.cmp(x));
            lsns
        }
        Op::SnapshotCommits => {
            let snapshot = forms::to_snapshot(&a.snapshot);
            reads.commits(&snapshot).map(|c| c.map(|c| bytes(&commit_of(&c)))).collect::<Result<_, _>>()?
        }
        _ => unreachable!("{op:?}"),
    }))
}

/// The original's walk, each item with its commit's log and LSN. The original leaves these out, so the commits that give something are found by plain
/// sets of pages.
fn walk(snapshot: &Snapshot, storage: &FjallStorage) -> Result<Vec<Vec<u8>>, FjallStorageErr> {
    let reads = storage.reads();
    let (mut taken, mut givers) = (BTreeSet::<u32>::new(), vec![]);
    for commit in reads.commits(snapshot) {
        let commit = commit?;
        let Some(segment) = &commit.segment_idx else { continue };
        let pages = segment.pageset.iter().map(|p| p.to_u32()).filter(|&p| p <= snapshot.page_count.to_u32());
        let held = taken.len();
        taken.extend(pages);
        if taken.len() > held {
            givers.push((commit.log.bytes(), commit.lsn.to_u64()));
        }
    }
    let gifts = reads.iter_visible_pages(snapshot).collect::<Result<Vec<_>, _>>()?;
    let item = |(i, (idx, gift)): (usize, &(SegmentIdx, PageSet))| {
        let (log, lsn) = givers.get(i).copied().unwrap_or_default();
        let mut item = [&log[..], &lsn.to_be_bytes()].concat();
        item.extend(segment_of(idx).to_bytes());
        item.extend(forms::of_set(gift).expect("at most 32 windows"));
        item
    };
    Ok(gifts.iter().enumerate().map(item).collect())
}

fn told_tag(op: Op, a: &Args, storage: &FjallStorage) -> Asked {
    let name = std::str::from_utf8(&a.name).expect("names that are compared are text");
    let id = |vid: Option<VolumeId>| maybe(vid.map(|v| v.bytes().to_vec()));
    Ok(match op {
        Op::TagRead => id(storage.reads().get_tag(name)?),
        Op::TagExists => Whether(storage.reads().tag_exists(name)?),
        Op::TagReplace => id(storage.guarded().tag_replace(name, VolumeId::new(a.vid))?),
        _ => {
            storage.tag_delete(name)?;
            Whether(true)
        }
    })
}

fn told_page(op: Op, a: &Args, storage: &FjallStorage) -> Asked {
    let (sid, first) = (SegmentId::new(a.sid), page(a.page));
    match op {
        Op::PagePresent => return Ok(Whether(storage.reads().has_page(sid, first)?)),
        Op::PageMark => storage.write_page(sid, first, Page::EMPTY)?,
        Op::PageRemove => storage.remove_page(sid, first)?,
        // the original's removal of a range works on one page only (docs/DIFFERENCES.md): a longer one goes page by page
        _ if a.page == a.last => storage.remove_page_range(&sid, first..=first)?,
        _ => {
            let held = storage.dump()?.presence.into_iter().filter(|&(s, p)| s == a.sid && (a.page..=a.last).contains(&p));
            held.map(|(_, p)| storage.remove_page(sid.clone(), page(p))).collect::<Result<(), _>>()?
        }
    }
    Ok(Whether(true))
}

/// Hands the original the three identifiers that it would draw.
fn queue(spares: &[Id; 3], wanted: [bool; 3]) {
    wanted[0].then(|| VolumeId::queue(spares[0]));
    wanted[1].then(|| LogId::queue(spares[1]));
    wanted[2].then(|| LogId::queue(spares[2]));
}

fn told_write(op: Op, a: &Args, storage: &FjallStorage) -> Asked {
    Ok(match op {
        Op::Open => {
            let asked = a.flags.map(|f| f != 0);
            queue(&a.spares, asked.map(|f| !f));
            let [vid, local, remote] = a.asked;
            let (local, remote) = (asked[1].then(|| log(local)), asked[2].then(|| log(remote)));
            Written(bytes(&volume_of(&storage.guarded().volume_open(asked[0].then(|| VolumeId::new(vid)), local, remote)?)))
        }
        Op::Save => {
            SegmentId::queue(a.sid);
            let pages = forms::to_set(&a.set).iter().map(|p| (p, Page::EMPTY)).collect();
            let (vid, snapshot) = (VolumeId::new(a.vid), forms::to_snapshot(&a.snapshot));
            Written(forms::of_snapshot(&storage.guarded().commit(&vid, snapshot, PageCount::new(a.count), pages)?))
        }
        Op::WriteCommit => {
            storage.store_commit(to_commit(&a.commit))?;
            Whether(true)
        }
        Op::FromSnapshot => {
            queue(&a.spares, [true; 3]);
            Written(bytes(&volume_of(&storage.volume_from_snapshot(&forms::to_snapshot(&a.snapshot))?)))
        }
        _ => {
            queue(&a.spares, [true; 3]);
            maybe(storage.volume_from_logref(LogRef::new(log(a.log), LSN::new(a.lsn)))?.map(|v| bytes(&volume_of(&v))))
        }
    })
}

fn told_push(op: Op, a: &Args, storage: &FjallStorage) -> Asked {
    let vid = VolumeId::new(a.vid);
    match op {
        Op::Sync => storage.guarded().sync_remote_to_local(vid)?,
        Op::Prepare => {
            let pending = PendingCommit { local: LSN::new(a.lsn), commit: LSN::new(a.end), commit_hash: to_hash(&a.hash) };
            storage.guarded().remote_commit_prepare(&vid, pending)?
        }
        Op::Success => storage.guarded().remote_commit_success(&vid, to_commit(&a.commit))?,
        Op::Recover => storage.guarded().recover_pending_commit(&vid)?,
        _ => storage.guarded().drop_pending_commit(&vid)?,
    }
    Ok(Whether(true))
}
