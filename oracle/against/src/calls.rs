//! A call over tables, with its arguments in bytes, and what it answers.
use sigatuda::{Reply, plain};

/// An identifier.
pub type Id = [u8; 16];

/// The six tables' bytes, in the order volumes, tags, commits, checkpoints, index, presence.
pub type Six = [Vec<u8>; 6];

macro_rules! calls {
    ($($op:ident $name:literal $out:literal $list:literal,)*) => {
        /// A call over tables.
        #[derive(Clone, Copy, Debug, PartialEq, Eq)]
        pub enum Op { $($op),* }

        impl Op {
            pub const ALL: &'static [Op] = &[$(Op::$op),*];

            pub fn name(self) -> &'static str {
                match self { $(Op::$op => $name),* }
            }

            /// The bytes that it writes: a record or number, or an entry of its list.
            pub fn size(self) -> usize {
                match self { $(Op::$op => $out),* }
            }

            /// Whether it fills a list.
            pub fn lists(self) -> bool {
                match self { $(Op::$op => $list),* }
            }
        }
    };
}

calls! {
    VolumeRead "volume read" 117 false,
    VolumeExists "volume exists" 0 false,
    VolumeDelete "volume delete" 0 false,
    VolumeList "volume list" 117 true,
    Open "open" 117 false,
    Drop "drop" 0 false,
    TagRead "tag read" 16 false,
    TagExists "tag exists" 0 false,
    TagDelete "tag delete" 0 false,
    TagReplace "tag replacement" 16 false,
    TagList "tag list" 50 true,
    CommitRead "commit read" 722 false,
    LatestCommit "latest commit" 722 false,
    LatestLsn "latest LSN" 8 false,
    PageCount "page count" 4 false,
    StoredLsns "stored LSNs" 8 true,
    CheckpointAt "checkpoint lookup" 8 false,
    WriteCommit "write a commit" 0 false,
    PagePresent "page present" 0 false,
    PageMark "page mark" 0 false,
    PageRemove "page remove" 0 false,
    PagesRemove "remove a range" 0 false,
    Snapshot "snapshot" 262 false,
    LatestCheck "latest check" 0 false,
    SnapshotCommits "commits of a snapshot" 722 true,
    Search "search" 722 false,
    Walk "walk" 1003 true,
    MissingFrames "missing frames" 417 true,
    Save "save" 262 false,
    Sync "sync" 0 false,
    Prepare "prepare" 0 false,
    Success "success" 0 false,
    Recover "recover" 0 false,
    FromSnapshot "volume from snapshot" 117 false,
    FromLogref "volume from logref" 117 false,
}

/// The arguments of a call; each call looks at some of them.
#[derive(Clone, Debug)]
pub struct Args {
    pub vid: Id,
    pub log: Id,
    pub sid: Id,
    pub lsn: u64,
    /// The end of a range of LSNs; the LSN of a pending commit.
    pub end: u64,
    pub page: u32,
    pub last: u32,
    pub count: u32,
    pub name: Vec<u8>,
    pub hash: [u8; 32],
    pub snapshot: Vec<u8>,
    pub commit: Vec<u8>,
    pub set: Vec<u8>,
    /// Open: whether vid, local and remote are asked.
    pub flags: [u32; 3],
    pub asked: [Id; 3],
    /// Three identifiers for a new volume: vid, local, remote.
    pub spares: [Id; 3],
    /// The bytes lent for the answer, where it is not a number.
    pub room: usize,
}

/// What a call answers: its reply, the lent bytes afterwards, and the number of a list's items.
#[derive(Clone, Debug, PartialEq, Eq)]
pub struct Answer {
    pub reply: Reply,
    pub out: Vec<u8>,
    pub items: u32,
}

/// What lies in lent places before a call.
pub const BEFORE: u8 = 0xa5;
pub const ITEMS_BEFORE: u32 = 0xa5a5_a5a5;

/// A number that a call writes, as bytes.
fn number64(out: &mut [u8], call: impl FnOnce(&mut u64) -> Reply) -> Reply {
    let mut n = u64::from_be_bytes([BEFORE; 8]);
    let reply = call(&mut n);
    out.copy_from_slice(&n.to_be_bytes());
    reply
}

fn number32(out: &mut [u8], call: impl FnOnce(&mut u32) -> Reply) -> Reply {
    let mut n = u32::from_be_bytes([BEFORE; 4]);
    let reply = call(&mut n);
    out.copy_from_slice(&n.to_be_bytes());
    reply
}

fn id(out: &mut [u8], call: impl FnOnce(&mut Id) -> Reply) -> Reply {
    call(out.try_into().expect("sixteen bytes"))
}

/// Makes a call on the archive.
pub fn run(op: Op, a: &Args, tables: &mut Six) -> Answer {
    let (mut out, mut items) = (vec![BEFORE; a.room], ITEMS_BEFORE);
    let reply = match op {
        Op::Open | Op::WriteCommit | Op::Save | Op::Sync | Op::Prepare => run_write(op, a, tables, &mut out),
        Op::Success | Op::Recover | Op::FromSnapshot | Op::FromLogref => run_write(op, a, tables, &mut out),
        _ if op.lists() => run_list(op, a, tables, &mut out, &mut items),
        Op::VolumeRead | Op::VolumeExists | Op::VolumeDelete | Op::Drop => run_volume(op, a, tables, &mut out),
        Op::TagRead | Op::TagExists | Op::TagDelete | Op::TagReplace => run_tag(op, a, tables, &mut out),
        _ => run_log(op, a, tables, &mut out),
    };
    Answer { reply, out, items }
}

fn run_volume(op: Op, a: &Args, [volumes, ..]: &mut Six, out: &mut [u8]) -> Reply {
    match op {
        Op::VolumeRead => plain::volume_read(volumes, &a.vid, out),
        Op::VolumeExists => plain::volume_exists(volumes, &a.vid),
        Op::VolumeDelete => plain::volume_delete(volumes, &a.vid),
        Op::Drop => plain::drop(volumes, &a.vid),
        _ => unreachable!(),
    }
}

fn run_tag(op: Op, a: &Args, [_, tags, ..]: &mut Six, out: &mut [u8]) -> Reply {
    match op {
        Op::TagRead => id(out, |vid| plain::tag_read(tags, &a.name, vid)),
        Op::TagExists => plain::tag_exists(tags, &a.name),
        Op::TagDelete => plain::tag_delete(tags, &a.name),
        Op::TagReplace => id(out, |earlier| plain::tag_replace(tags, &a.name, &a.vid, earlier)),
        _ => unreachable!(),
    }
}

fn run_log(op: Op, a: &Args, tables: &mut Six, out: &mut [u8]) -> Reply {
    let [volumes, _, commits, checkpoints, index, presence] = tables;
    match op {
        Op::CommitRead => plain::commit_read(commits, &a.log, a.lsn, out),
        Op::LatestCommit => plain::latest_commit(commits, &a.log, out),
        Op::LatestLsn => number64(out, |n| plain::latest_lsn(commits, &a.log, n)),
        Op::PageCount => number32(out, |n| plain::page_count(commits, &a.log, a.lsn, n)),
        Op::CheckpointAt => number64(out, |n| plain::checkpoint_at(checkpoints, &a.log, a.lsn, n)),
        Op::PagePresent => plain::page_present(presence, &a.sid, a.page),
        Op::PageMark => plain::page_mark(presence, &a.sid, a.page),
        Op::PageRemove => plain::page_remove(presence, &a.sid, a.page),
        Op::PagesRemove => plain::pages_remove(presence, &a.sid, a.page, a.last),
        Op::Snapshot => plain::snapshot(volumes, commits, &a.vid, out),
        Op::LatestCheck => plain::latest_check(volumes, commits, &a.vid, &a.snapshot),
        Op::Search => plain::search(commits, index, &a.snapshot, a.page, out),
        _ => unreachable!(),
    }
}

fn run_list(op: Op, a: &Args, tables: &mut Six, out: &mut [u8], items: &mut u32) -> Reply {
    let [volumes, tags, commits, _, _, presence] = tables;
    match op {
        Op::VolumeList => plain::volume_list(volumes, out, items),
        Op::TagList => plain::tag_list(tags, out, items),
        Op::StoredLsns => plain::stored_lsns(commits, &a.log, a.lsn, a.end, out, items),
        Op::SnapshotCommits => plain::snapshot_commits(commits, &a.snapshot, out, items),
        Op::Walk => plain::walk(commits, &a.snapshot, out, items),
        Op::MissingFrames => plain::missing_frames(commits, presence, &a.snapshot, out, items),
        _ => unreachable!(),
    }
}

fn run_write(op: Op, a: &Args, tables: &mut Six, out: &mut [u8]) -> Reply {
    let [v, _, c, k, i, p] = tables;
    let ([has_vid, has_local, has_remote], [vid, local, remote]) = (a.flags, &a.asked);
    let [s_vid, s_local, s_remote] = &a.spares;
    match op {
        Op::Open => plain::open(v, c, has_vid, vid, has_local, local, has_remote, remote, s_vid, s_local, s_remote, out),
        Op::WriteCommit => plain::write_commit(c, k, i, &a.commit),
        Op::Save => plain::save(v, c, k, i, p, &a.vid, &a.snapshot, a.count, &a.sid, &a.set, out),
        Op::Sync => plain::sync(v, c, &a.vid),
        Op::Prepare => plain::prepare(v, c, &a.vid, a.lsn, a.end, &a.hash),
        Op::Success => plain::success(v, c, k, i, &a.vid, &a.commit),
        Op::Recover => plain::recover(v, c, k, i, &a.vid),
        Op::FromSnapshot => plain::volume_from_snapshot(v, c, k, i, &a.snapshot, s_vid, s_local, s_remote, out),
        Op::FromLogref => plain::volume_from_logref(v, c, k, i, &a.log, a.lsn, s_vid, s_local, s_remote, out),
        _ => unreachable!(),
    }
}
