//! The calls over tables, by types: document 01's bench readings and its example, each number once where a caller meets it, and what stays.
mod few;

use few::*;
use sigatuda::*;

/// The capacities of document 01's call list program.
fn books() -> OwnedTables {
    OwnedTables::new(Capacities { volumes: 4, tags: 4, commits: 32, checkpoints: 32, index: 512, presence: 512 })
}

/// A table of one record, with room for three more.
fn table_of<R: Record>(record: &R) -> OwnedTable<R> {
    let mut bytes = vec![0; 2 + 4 * R::SIZE];
    bytes[1] = 1;
    record.to_slice(&mut bytes[2..2 + R::SIZE]).unwrap();
    OwnedTable::from_bytes(bytes)
}

fn volume(sync: Option<SyncPoint>, pending: Option<PendingCommit>) -> Volume {
    Volume { vid: VID, local: LOCAL, remote: REMOTE, sync, pending }
}

fn commit(log: LogId, at: u64, of: &[u32]) -> Commit {
    let segment = Segment { sid: SegmentId(id(at as u8)), pages: pages(of), frames: List::new() };
    Commit { log, lsn: lsn(at), count: PageCount(9), hash: None, segment: Some(segment), checkpoints: List::new() }
}

fn synced(remote: u64, watermark: Option<u64>) -> Option<SyncPoint> {
    Some(SyncPoint { remote: lsn(remote), watermark: watermark.map(lsn) })
}

fn range(log: LogId, start: u64, end: u64) -> LogRange {
    LogRange { log, start: lsn(start), end: lsn(end) }
}

/// P10, P11 and P12, and what the latest check says of each.
#[test]
fn bench_readings_of_snapshots() {
    let mut tables = OwnedTables { volumes: table_of(&volume(synced(7, Some(3)), None)), ..books() };
    let mut t = tables.lend();
    t.write_commit(&commit(LOCAL, 3, &[1])).unwrap();
    assert_eq!(t.snapshot(VID), Ok(Snapshot::default()), "P12");
    assert_eq!(t.is_latest(VID, &Snapshot::default()), Ok(false));
    t.write_commit(&commit(REMOTE, 7, &[1])).unwrap();
    let remote = Snapshot { count: PageCount(9), path: List::from_slice(&[range(REMOTE, 1, 7)]).unwrap() };
    assert_eq!(t.snapshot(VID), Ok(remote), "P11");
    t.write_commit(&commit(LOCAL, 5, &[1])).unwrap();
    let both = Snapshot { path: List::from_slice(&[range(LOCAL, 4, 5), range(REMOTE, 1, 7)]).unwrap(), ..remote };
    assert_eq!(t.snapshot(VID), Ok(both), "P10");
    assert_eq!(t.is_latest(VID, &both), Ok(true));
    assert_eq!(t.is_latest(VolumeId(id(2)), &both), Err(Refusal::NoVolume));
}

#[test]
fn volumes() {
    let pending = Some(PendingCommit { local: lsn(2), commit: lsn(8), hash: CommitHash([5; 32]) });
    let mut tables = OwnedTables { volumes: table_of(&volume(synced(7, None), pending)), ..books() };
    let mut t = tables.lend();
    assert_eq!(t.volumes.read(VID), Ok(volume(synced(7, None), pending)));
    assert_eq!(t.volumes.drop_pending(VID), Ok(()));
    assert_eq!(t.volumes.read(VID), Ok(volume(synced(7, None), None)));
    assert_eq!((t.volumes.exists(VID), t.volumes.delete(VID), t.volumes.exists(VID)), (Ok(true), Ok(()), Ok(false)));
    assert_eq!((t.volumes.read(VID), t.volumes.drop_pending(VID)), (Err(Refusal::NoVolume), Err(Refusal::NoVolume)));
    assert_eq!(t.volumes.delete(VID), Ok(()), "a removal succeeds when nothing is there");
}

#[test]
fn tags() {
    let mut tables = books();
    let tags = &mut tables.lend().tags;
    assert_eq!(tags.replace(b"a", VID), Ok(None));
    assert_eq!(tags.replace(b"a\0", VolumeId(id(2))), Ok(None), "two names");
    assert_eq!(tags.replace(b"a", VolumeId(id(3))), Ok(Some(VID)));
    assert_eq!((tags.read(b"a"), tags.exists(b"b")), (Ok(Some(VolumeId(id(3)))), Ok(false)));
    assert_eq!((tags.replace(b"b", VID), tags.replace(b"c", VID), tags.replace(b"d", VID)), (Ok(None), Ok(None), Err(Refusal::NoRoom)));
    assert_eq!((tags.delete(b"a"), tags.delete(b"a"), tags.read(b"a")), (Ok(()), Ok(()), Ok(None)));
    assert_eq!(tags.replace(b"d", VID), Ok(None), "room freed by a removal is used again");
    assert_eq!((tags.read(b""), tags.delete(&[0; 33])), (Err(Refusal::Zero), Err(Refusal::Zero)));
}

#[test]
fn commits() {
    let mut tables = books();
    let mut t = tables.lend();
    let (first, second) =
        (commit(LOCAL, 1, &[1, 2]), Commit { checkpoints: List::from_slice(&[lsn(1), lsn(2)]).unwrap(), ..commit(LOCAL, 2, &[2]) });
    assert_eq!((t.write_commit(&first), t.write_commit(&second)), (Ok(()), Ok(())));
    assert_eq!((t.commits.read(LOCAL, lsn(1)), t.commits.latest(LOCAL)), (Ok(Some(first)), Ok(Some(second))));
    assert_eq!((t.commits.latest_lsn(LOCAL), t.commits.latest_lsn(REMOTE)), (Ok(Some(lsn(2))), Ok(None)));
    assert_eq!((t.commits.page_count(LOCAL, lsn(2)), t.commits.page_count(LOCAL, lsn(3))), (Ok(Some(PageCount(9))), Ok(None)));
    let held = (t.commits.held(), t.checkpoints.held(), t.index.held());
    assert_eq!(held, (Some(2), Some(2), Some(3)));
    let wide = Commit { segment: Some(Segment { pages: PageSet::range(page(1), page(511)).unwrap(), ..Segment::default() }), ..second };
    assert_eq!(t.write_commit(&wide), Err(Refusal::NoRoom), "510 new entries beside 3 held");
    assert_eq!((t.commits.held(), t.checkpoints.held(), t.index.held()), held);
}

#[test]
fn sync_and_prepare() {
    let mut tables = OwnedTables { volumes: table_of(&volume(None, None)), ..books() };
    let mut t = tables.lend();
    assert_eq!(t.sync(VID), Ok(()), "no remote changes");
    t.write_commit(&commit(REMOTE, 4, &[1])).unwrap();
    assert_eq!(t.sync(VID), Ok(()));
    assert_eq!(t.volumes.read(VID), Ok(volume(synced(4, None), None)));
    let pending = |at| PendingCommit { local: lsn(1), commit: lsn(at), hash: CommitHash([1; 32]) };
    assert_eq!(t.prepare(VID, pending(4)), Err(Refusal::NotNext));
    assert_eq!(t.prepare(VID, PendingCommit { hash: CommitHash::ZERO, ..pending(5) }), Err(Refusal::ZeroHash));
    assert_eq!((t.prepare(VID, pending(5)), t.prepare(VID, pending(5))), (Ok(()), Err(Refusal::Pending)));
    t.write_commit(&commit(REMOTE, 5, &[1])).unwrap();
    t.write_commit(&commit(LOCAL, 1, &[1])).unwrap();
    assert_eq!(t.sync(VID), Err(Refusal::Diverged));
}

#[test]
fn search() {
    let mut tables = OwnedTables { volumes: table_of(&volume(synced(4, None), None)), ..books() };
    let mut t = tables.lend();
    let (local, remote) =
        (commit(LOCAL, 1, &[1, 2]), Commit { checkpoints: List::from_slice(&[lsn(4)]).unwrap(), ..commit(REMOTE, 4, &[2, 3]) });
    t.write_commit(&local).unwrap();
    t.write_commit(&remote).unwrap();
    let snapshot = t.snapshot(VID).unwrap();
    assert_eq!((t.search(&snapshot, page(2)), t.search(&snapshot, page(3))), (Ok(Some(local)), Ok(Some(remote))));
    assert_eq!(t.search(&snapshot, page(4)), Ok(None));
    assert_eq!((t.checkpoints.at_or_below(REMOTE, lsn(9)), t.checkpoints.at_or_below(REMOTE, lsn(3))), (Ok(Some(lsn(4))), Ok(None)));
}

#[test]
fn present_pages() {
    let (mut tables, sid) = (books(), SegmentId(id(7)));
    let presence = &mut tables.lend().presence;
    for n in [1, 2, 3, 3] {
        assert_eq!(presence.mark(sid, page(n)), Ok(()));
    }
    assert_eq!((presence.held(), presence.has(sid, page(2)), presence.has(sid, page(4))), (Some(3), Ok(true), Ok(false)));
    assert_eq!((presence.remove_range(sid, page(1), page(2)), presence.remove(sid, page(9))), (Ok(()), Ok(())));
    assert_eq!(presence.records().collect::<Result<Vec<_>, _>>(), Ok(vec![PresentPage { sid, page: page(3) }]));
    assert_eq!(presence.remove_range(sid, page(3), page(2)), Err(Refusal::Reversed));
}

#[test]
fn lists() {
    let mut tables = OwnedTables { volumes: table_of(&volume(None, None)), ..books() };
    let mut t = tables.lend();
    let mut list = [0xa5; 4 * 722];
    assert!(t.volumes.list(&mut list).unwrap().eq([volume(None, None)]));
    t.tags.replace(b"b", VID).unwrap();
    t.tags.replace(b"a", VID).unwrap();
    assert!(t.tags.list(&mut list).unwrap().map(|tag| tag.name().to_vec()).eq([b"a", b"b"]));
    for n in [1, 2, 5] {
        t.write_commit(&commit(LOCAL, n, &[1])).unwrap();
    }
    assert!(t.commits.stored_lsns(LOCAL, lsn(2), lsn(9), &mut list).unwrap().eq([lsn(5), lsn(2)]), "falling");
    assert_eq!(t.commits.stored_lsns(LOCAL, lsn(2), lsn(1), &mut list).err(), Some(Refusal::Reversed));
    assert_eq!(t.commits.stored_lsns(LOCAL, lsn(2), lsn(9), &mut list[..15]).err(), Some(Refusal::NoRoom));
    let twice = Snapshot { count: PageCount(9), path: List::from_slice(&[range(LOCAL, 2, 9), range(LOCAL, 1, 2)]).unwrap() };
    let lsns = t.commits.of_snapshot(&twice, &mut list).unwrap().map(|c| c.lsn);
    assert!(lsns.eq([lsn(5), lsn(2), lsn(2), lsn(1)]), "in path order");
}

#[test]
fn walk() {
    let mut tables = books();
    let mut t = tables.lend();
    let (first, second) = (commit(LOCAL, 1, &[1, 2, 10]), commit(LOCAL, 2, &[2, 3]));
    t.write_commit(&first).unwrap();
    t.write_commit(&second).unwrap();
    let snapshot = Snapshot { count: PageCount(9), path: List::from_slice(&[range(LOCAL, 1, 2), range(LOCAL, 1, 1)]).unwrap() };
    let mut list = [0; 2 * WalkItem::SIZE];
    let item = |c: &Commit, of: &[u32]| WalkItem { log: c.log, lsn: c.lsn, segment: c.segment.unwrap(), gift: pages(of) };
    assert!(t.commits.walk(&snapshot, &mut list).unwrap().eq([item(&second, &[2, 3]), item(&first, &[1])]));
    assert_eq!(t.commits.walk(&snapshot, &mut list[1..]).err(), Some(Refusal::NoRoom));
}

#[test]
fn missing_frames() {
    let mut tables = books();
    let mut t = tables.lend();
    let frames = [Frame { size: 100, last: page(3) }, Frame { size: 50, last: page(9) }];
    let segment = Segment { sid: SegmentId(id(7)), pages: pages(&[2, 3, 5, 9]), frames: List::from_slice(&frames).unwrap() };
    t.write_commit(&Commit { segment: Some(segment), ..commit(REMOTE, 1, &[]) }).unwrap();
    let snapshot = Snapshot::new(REMOTE, lsn(1), lsn(1), PageCount(9)).unwrap();
    let mut list = [0; 3 * SegmentRange::SIZE];
    assert_eq!(t.missing_frames(&snapshot, &mut list).unwrap().len(), 2);
    t.presence.mark(segment.sid, page(2)).unwrap();
    t.presence.mark(segment.sid, page(9)).unwrap();
    let second = SegmentRange { sid: segment.sid, start: 100, end: 150, pages: pages(&[5, 9]) };
    assert!(t.missing_frames(&snapshot, &mut list).unwrap().eq([second]), "a frame's first page says");
}

/// Identifiers that nothing has.
const SPARE: NewVolume = NewVolume { vid: VolumeId(id(21)), local: LogId(id(22)), remote: LogId(id(23)) };

#[test]
fn open() {
    let mut tables = books();
    let mut t = tables.lend();
    t.write_commit(&commit(REMOTE, 4, &[1])).unwrap();
    let asked = Asked { vid: Some(VID), local: Some(LOCAL), remote: Some(REMOTE) };
    assert_eq!(t.open(asked, SPARE), Ok(volume(synced(4, None), None)));
    assert_eq!(t.open(Asked { local: None, remote: None, ..asked }, SPARE), Ok(volume(synced(4, None), None)));
    assert_eq!(t.open(Asked { remote: Some(LOCAL), ..asked }, SPARE), Err(Refusal::OtherRemote));
    assert_eq!(t.open(Asked::default(), NewVolume { local: LOCAL, ..SPARE }), Err(Refusal::InUse));
    let new = Volume { vid: SPARE.vid, local: SPARE.local, remote: SPARE.remote, sync: None, pending: None };
    assert_eq!(t.open(Asked::default(), SPARE), Ok(new));
}

#[test]
fn success_and_recovery() {
    let mut tables = OwnedTables { volumes: table_of(&volume(None, None)), ..books() };
    let mut t = tables.lend();
    let hash = CommitHash([1; 32]);
    let pending = PendingCommit { local: lsn(3), commit: lsn(1), hash };
    let sent = Commit { hash: Some(hash), ..commit(REMOTE, 1, &[1]) };
    assert_eq!((t.success(VID, &sent), t.recover(VID)), (Err(Refusal::NonePending), Ok(())));
    t.prepare(VID, pending).unwrap();
    assert_eq!(t.success(VID, &Commit { hash: None, ..sent }), Err(Refusal::NotThePending));
    assert_eq!((t.success(VID, &sent), t.volumes.read(VID)), (Ok(()), Ok(volume(synced(1, Some(3)), None))));
    t.prepare(VID, PendingCommit { local: lsn(4), commit: lsn(2), ..pending }).unwrap();
    t.write_commit(&commit(REMOTE, 2, &[1])).unwrap();
    assert_eq!(t.recover(VID), Err(Refusal::Diverged), "another's commit is there");
    assert_eq!(t.volumes.read(VID), Ok(volume(synced(1, Some(3)), None)), "and the pending one is dropped");
}

/// Document 01's call list.
#[test]
fn the_example() {
    let mut tables = books();
    let mut t = tables.lend();
    let asked = Asked { vid: Some(VID), local: Some(LOCAL), remote: Some(REMOTE) };
    t.open(asked, SPARE).unwrap();
    let empty = t.snapshot(VID).unwrap();
    assert_eq!(empty.head(), Ok(None));
    let first = t.save(VID, &empty, PageCount(2), SegmentId(id(0x51)), &pages(&[1, 2])).unwrap();
    assert_eq!(first.head(), Ok(Some((LOCAL, lsn(1)))));
    let second = t.save(VID, &first, PageCount(3), SegmentId(id(0x52)), &pages(&[2, 3])).unwrap();
    assert_eq!(second.head(), Ok(Some((LOCAL, lsn(2)))));
    assert_eq!(t.save(VID, &first, PageCount(3), SegmentId(id(0x53)), &pages(&[1])), Err(Refusal::NotLatest));
    assert_eq!(t.save(VID, &second, PageCount(3), SegmentId(id(0x51)), &pages(&[1])), Err(Refusal::InUse));
    let found = t.search(&second, page(2)).unwrap().unwrap();
    assert_eq!((found.log, found.lsn), (LOCAL, lsn(2)));
    assert_eq!((t.checkpoints.held(), t.presence.held()), (Some(1), Some(4)), "the first save is a checkpoint");
}

#[test]
fn copies() {
    let mut tables = books();
    let mut t = tables.lend();
    for n in [3, 7] {
        t.write_commit(&commit(REMOTE, n, &[1])).unwrap();
    }
    let copy = Volume { vid: SPARE.vid, local: SPARE.local, remote: SPARE.remote, sync: None, pending: None };
    let seven = Snapshot::new(REMOTE, lsn(1), lsn(7), PageCount(9)).unwrap();
    assert_eq!(t.volume_from_snapshot(&seven, SPARE), Ok(copy));
    assert_eq!(t.commits.read(SPARE.local, lsn(2)), Ok(Some(Commit { log: SPARE.local, lsn: lsn(2), ..commit(REMOTE, 7, &[1]) })));
    assert_eq!(t.volume_from_snapshot(&seven, SPARE), Err(Refusal::InUse));
    assert_eq!(t.volume_from_logref(REMOTE, lsn(4), SPARE), Ok(None), "not stored, before 5");
    let other = NewVolume { vid: VID, local: LOCAL, remote: LogId(id(30)) };
    assert_eq!(t.volume_from_logref(REMOTE, lsn(3), other).map(|v| v.map(|v| v.vid)), Ok(Some(VID)));
    assert_eq!(t.commits.held(), Some(5));
}

/// A path may name the new local log: it has no commits, so nothing of it is copied, also once the copies stand there.
#[test]
fn a_copy_of_a_path_that_names_the_new_log() {
    let mut tables = books();
    let mut t = tables.lend();
    for n in [1, 2] {
        t.write_commit(&commit(REMOTE, n, &[1])).unwrap();
    }
    let mut path = Snapshot::new(SPARE.local, lsn(1), lsn(9), PageCount(9)).unwrap();
    path.append(REMOTE, lsn(1), lsn(2)).unwrap();
    t.volume_from_snapshot(&path, SPARE).unwrap();
    for n in [1, 2] {
        assert_eq!(t.commits.read(SPARE.local, lsn(n)), Ok(Some(Commit { log: SPARE.local, ..commit(REMOTE, n, &[1]) })));
    }
    assert_eq!(t.commits.latest_lsn(SPARE.local), Ok(Some(lsn(2))));
    assert_eq!(t.commits.held(), Some(4));
}
