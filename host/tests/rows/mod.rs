//! The calls over tables as rows: which tables each is lent, the place that it writes, the numbers that its arguments earn and those that may come
//! later; arguments for them; and what must hold of a call that was made.
use crate::judge::make::Random;
use crate::judge::{self, TABLES, damage, make};
use sigatuda::{Reply, plain};

/// The entries for which half of the tables have room: more than a set holds pages.
pub const AMPLE: usize = 2100;

/// What lies in lent places before a call.
const UNTOUCHED: u8 = 0xa5;
const WORD: u32 = u32::from_be_bytes([UNTOUCHED; 4]);
const LONG: u64 = u64::from_be_bytes([UNTOUCHED; 8]);

/// The six tables' bytes; a call is lent some of them.
pub type Six = [Vec<u8>; 6];

pub const VOLUMES: usize = 0;
const TAGS: usize = 1;
pub const COMMITS: usize = 2;
const CHECKPOINTS: usize = 3;
pub const INDEX: usize = 4;
const PRESENCE: usize = 5;

/// Arguments; each call looks at some of them.
pub struct Args {
    pub vid: [u8; 16],
    pub log: [u8; 16],
    pub sid: [u8; 16],
    pub spares: [[u8; 16]; 3],
    pub flags: [u32; 3],
    pub lsn: u64,
    pub end: u64,
    pub page: u32,
    pub last: u32,
    pub name: Vec<u8>,
    pub hash: [u8; 32],
    pub snapshot: Vec<u8>,
    pub commit: Vec<u8>,
    pub set: Vec<u8>,
}

/// A form, damaged one time in four.
fn damaged(mut form: Vec<u8>, r: &mut Random) -> Vec<u8> {
    if r.below(4) == 0 {
        damage::value(&mut form, r);
    }
    form
}

fn lsn(r: &mut Random) -> u64 {
    if r.below(12) == 0 { 0 } else { r.lsn() }
}

fn page(r: &mut Random) -> u32 {
    if r.below(12) == 0 { 0 } else { r.page() }
}

impl Args {
    pub fn new(r: &mut Random) -> Args {
        let id = |r: &mut Random| r.id().try_into().unwrap();
        let length = [0, 1, 1, 2, 31, 32, 33, 300][r.below(8)];
        let (snapshot, commit, set) = (make::snapshot(r), make::record(&TABLES[COMMITS], r), make::set(r));
        Args {
            vid: id(r),
            log: id(r),
            sid: id(r),
            spares: [id(r), id(r), id(r)],
            flags: [0; 3].map(|_| r.below(3) as u32),
            lsn: lsn(r),
            end: lsn(r),
            page: page(r),
            last: page(r),
            name: r.bytes(length).iter().map(|b| b % 4).collect(),
            hash: if r.below(8) == 0 { [0; 32] } else { r.bytes(32).try_into().unwrap() },
            snapshot: damaged(snapshot, r),
            commit: damaged(commit, r),
            set: damaged(set, r),
        }
    }

    /// Turns arguments to a volume of the table every other time: its identifier, its snapshot, and its pending commit.
    pub fn aim(&mut self, six: &Six, r: &mut Random) {
        let held = six[VOLUMES].get(1).map_or(0, |&n| usize::from(n));
        if held == 0 || r.below(2) == 0 || !TABLES[VOLUMES].formed(&six[VOLUMES]) {
            return;
        }
        let volume = &six[VOLUMES][2 + 117 * r.below(held)..][..117];
        self.vid.copy_from_slice(&volume[1..17]);
        if r.below(2) == 0 {
            let mut latest = vec![0; 262];
            if plain::snapshot(&six[VOLUMES], &six[COMMITS], &self.vid, &mut latest).code == 0 {
                self.snapshot = latest;
            }
        }
        if volume[68] == 1 && self.commit.len() == 722 {
            let lsn = u64::from_be_bytes(volume[77..85].try_into().unwrap());
            self.commit[17..25].copy_from_slice(&(!lsn).to_be_bytes());
            self.commit[29] = 1;
            self.commit[30..62].copy_from_slice(&volume[85..117]);
        }
    }
}

/// A table in form, with ample room or hardly any.
pub fn good(kind: usize, r: &mut Random) -> Vec<u8> {
    let mut bytes = make::table(&TABLES[kind], r);
    if r.below(2) == 0 {
        bytes.resize(bytes.len() + AMPLE * TABLES[kind].record.min(30), 0x5a);
    }
    bytes
}

/// What becomes of a table: damaged up to three times, or any bytes.
pub fn spoiled(kind: usize, mut bytes: Vec<u8>, r: &mut Random) -> Vec<u8> {
    if r.below(4) == 0 {
        let length = r.below(400);
        bytes = r.bytes(length);
        bytes.iter_mut().take(1).for_each(|b| *b = 0);
        return bytes;
    }
    for _ in 0..=r.below(3) {
        if bytes.len() >= 2 {
            damage::table(&TABLES[kind], &mut bytes, r);
        }
    }
    bytes
}

/// What a call writes besides tables: nothing, a number or identifier, a record of some bytes, a list of entries of some bytes.
#[derive(Clone, Copy)]
pub enum Place {
    None,
    Number(usize),
    Record(usize),
    List(usize),
}

impl Place {
    /// Bytes lent for it: of a record at times a wrong number.
    fn lent(self, r: &mut Random) -> Vec<u8> {
        let bytes = match self {
            Place::None => 0,
            Place::Number(size) => size,
            Place::Record(size) if r.below(10) == 0 => [0, size - 1, size + 1][r.below(3)],
            Place::Record(size) => size,
            Place::List(size) => size * r.below(14) + r.below(3),
        };
        vec![UNTOUCHED; bytes]
    }

    fn earns(self, lent: usize) -> u32 {
        match self {
            Place::Record(size) if size != lent => 3,
            _ => 0,
        }
    }
}

/// A call: its name, the tables that it is lent and the place that it writes, what its arguments earn, the numbers that may come later, and itself.
pub struct Row {
    pub name: &'static str,
    pub lent: &'static [usize],
    place: Place,
    earns: fn(&Args) -> Vec<u32>,
    pub later: &'static [u32],
    call: fn(&mut Six, &Args, &mut [u8], &mut u32) -> Reply,
}

impl Row {
    /// The place that is lent, and the number of items, before a call.
    pub fn out(&self, r: &mut Random) -> (Vec<u8>, u32) {
        (self.place.lent(r), WORD)
    }

    #[inline(always)] // its depth is measured
    pub fn call(&self, six: &mut Six, args: &Args, (out, items): &mut (Vec<u8>, u32)) -> Reply {
        (self.call)(six, args, out, items)
    }

    /// Whether the tables that it is lent are in form.
    pub fn formed(&self, six: &Six) -> bool {
        self.lent.iter().all(|&kind| TABLES[kind].formed(&six[kind]))
    }
}

/// A call that was made: the tables that it was lent, before and after, and whether they were in form before.
pub struct Made<'a> {
    pub row: &'a Row,
    pub args: &'a Args,
    pub before: &'a Six,
    pub formed: bool,
    pub after: &'a Six,
    pub out: &'a (Vec<u8>, u32),
    pub reply: Reply,
}

impl Made<'_> {
    /// Its number, what it left alone and what it left are document 01's.
    pub fn check(&self) {
        self.check_number();
        self.check_place();
        self.check_tables();
    }

    /// The number is 20, else the lowest that the arguments and the lent place earn, else one of the later ones.
    fn check_number(&self) {
        let (name, code, later) = (self.row.name, self.reply.code, self.row.later);
        let earned = (self.row.earns)(self.args).into_iter().chain([self.row.place.earns(self.out.0.len())]).filter(|&n| n != 0).min();
        match earned {
            _ if !self.formed => assert_eq!(code, 20, "{name}: a table that the judge refuses"),
            Some(number) => assert_eq!(code, number, "{name}: what the arguments earn"),
            None => assert!(code == 0 || later.contains(&code), "{name}: {code} is no number of this call"),
        }
    }

    /// A call that is refused or found nothing leaves the lent place as it was; past a list's answer it stays.
    fn check_place(&self) {
        let (name, reply, (out, items)) = (self.row.name, self.reply, self.out);
        let written = *items != WORD || out.iter().any(|&b| b != UNTOUCHED);
        assert!(reply.found == 1 || (reply.found == 0 && !written), "{name}: {reply:?}, and a lent place was written");
        assert!(reply.code == 0 || reply.found == 0, "{name}: {reply:?}");
        if let (Place::List(size), 0) = (self.row.place, reply.code) {
            let filled = *items as usize * size;
            assert!(filled <= out.len() && out[filled..].iter().all(|&b| b == UNTOUCHED), "{name}: past the answer a list stays");
        }
    }

    /// A refused call leaves the tables as they were, but for recover's 8; a call that is done leaves them in form.
    fn check_tables(&self) {
        let (name, reply, before, after) = (self.row.name, self.reply, self.before, self.after);
        assert!(after.iter().zip(before).all(|(now, before)| now.len() == before.len()), "{name}: a length");
        match reply.code {
            0 => {
                let kept = |kind: usize| after[kind] == before[kind] || TABLES[kind].formed(&after[kind]);
                assert!(self.row.lent.iter().all(|&kind| kept(kind)), "{name}: done, and a table is not in form");
            }
            8 if name == "recover" => {
                assert!(
                    after[1..] == before[1..] && after[VOLUMES] == dropped(&before[VOLUMES], &self.args.vid),
                    "only the pending part goes"
                );
            }
            _ => assert!(after == before, "{name}: {reply:?}, and a table was changed"),
        }
    }
}

/// A table of volumes without the pending commit of one.
fn dropped(volumes: &[u8], vid: &[u8; 16]) -> Vec<u8> {
    let mut volumes = volumes.to_vec();
    let volume = volumes[2..].chunks_exact_mut(117).find(|v| v[1..17] == *vid).expect("recover's 8 is not 4");
    assert_eq!(volume[68], 1, "something was pending");
    volume[68..].fill(0);
    volumes
}

fn zero(n: u64) -> u32 {
    u32::from(n == 0)
}

fn span(first: u64, last: u64) -> u32 {
    if first == 0 || last == 0 { 1 } else { 2 * u32::from(first > last) }
}

fn name(a: &Args) -> Vec<u32> {
    vec![u32::from(!(1..=32).contains(&a.name.len()))]
}

fn none(_: &Args) -> Vec<u32> {
    vec![]
}

fn at(a: &Args) -> Vec<u32> {
    vec![zero(a.lsn)]
}

fn lsns(a: &Args) -> Vec<u32> {
    vec![span(a.lsn, a.end)]
}

fn both_lsns(a: &Args) -> Vec<u32> {
    vec![zero(a.lsn), zero(a.end)]
}

fn on_page(a: &Args) -> Vec<u32> {
    vec![zero(a.page.into())]
}

fn pages(a: &Args) -> Vec<u32> {
    vec![span(a.page.into(), a.last.into())]
}

fn snapshot(a: &Args) -> Vec<u32> {
    vec![judge::snapshot(&a.snapshot)]
}

fn snapshot_page(a: &Args) -> Vec<u32> {
    vec![judge::snapshot(&a.snapshot), zero(a.page.into())]
}

fn snapshot_set(a: &Args) -> Vec<u32> {
    vec![judge::snapshot(&a.snapshot), judge::set(&a.set)]
}

fn commit(a: &Args) -> Vec<u32> {
    vec![judge::commit_argument(&a.commit)]
}

/// Lets a call write a number into lent bytes.
fn long(out: &mut [u8], call: impl FnOnce(&mut u64) -> Reply) -> Reply {
    let mut n = LONG;
    let reply = call(&mut n);
    out.copy_from_slice(&n.to_be_bytes());
    reply
}

fn word(out: &mut [u8], call: impl FnOnce(&mut u32) -> Reply) -> Reply {
    let mut n = WORD;
    let reply = call(&mut n);
    out.copy_from_slice(&n.to_be_bytes());
    reply
}

fn id(out: &mut [u8], call: impl FnOnce(&mut [u8; 16]) -> Reply) -> Reply {
    call(out.try_into().unwrap())
}

/// The tables that a call over commits and what goes with them is lent.
const LOGS: &[usize] = &[COMMITS, CHECKPOINTS, INDEX];
const VOLUMES_LOGS: &[usize] = &[VOLUMES, COMMITS, CHECKPOINTS, INDEX];
const ALL_BUT_TAGS: &[usize] = &[VOLUMES, COMMITS, CHECKPOINTS, INDEX, PRESENCE];

macro_rules! rows {
    ($($name:ident $lent:expr, $place:expr, $earns:expr, $later:expr, $call:expr;)*) => {
        /// Every call over tables.
        pub const ROWS: &[Row] = &[$(Row { name: stringify!($name), lent: $lent, place: $place, earns: $earns, later: $later, call: $call }),*];
    };
}

#[rustfmt::skip]
rows! {
    volume_read &[VOLUMES], Place::Record(117), none, &[4], |t, a, out, _| plain::volume_read(&t[0], &a.vid, out);
    volume_exists &[VOLUMES], Place::None, none, &[], |t, a, _, _| plain::volume_exists(&t[0], &a.vid);
    volume_list &[VOLUMES], Place::List(117), none, &[19], |t, _, out, items| plain::volume_list(&t[0], out, items);
    volume_delete &[VOLUMES], Place::None, none, &[], |t, a, _, _| plain::volume_delete(&mut t[0], &a.vid);
    drop_pending &[VOLUMES], Place::None, none, &[4], |t, a, _, _| plain::drop(&mut t[0], &a.vid);
    open &[VOLUMES, COMMITS], Place::Record(117), none, &[5, 6, 19], |[v, _, c, ..], a, out, _| {
        let ([f, g, h], [x, y, z]) = (a.flags, &a.spares);
        plain::open(v, c, f, &a.vid, g, &a.log, h, &a.sid, x, y, z, out)
    };
    tag_read &[TAGS], Place::Number(16), name, &[], |t, a, out, _| id(out, |vid| plain::tag_read(&t[1], &a.name, vid));
    tag_exists &[TAGS], Place::None, name, &[], |t, a, _, _| plain::tag_exists(&t[1], &a.name);
    tag_list &[TAGS], Place::List(50), none, &[19], |t, _, out, items| plain::tag_list(&t[1], out, items);
    tag_delete &[TAGS], Place::None, name, &[], |t, a, _, _| plain::tag_delete(&mut t[1], &a.name);
    tag_replace &[TAGS], Place::Number(16), name, &[19], |t, a, out, _| {
        id(out, |earlier| plain::tag_replace(&mut t[1], &a.name, &a.vid, earlier))
    };
    commit_read &[COMMITS], Place::Record(722), at, &[], |t, a, out, _| plain::commit_read(&t[2], &a.log, a.lsn, out);
    latest_commit &[COMMITS], Place::Record(722), none, &[], |t, a, out, _| plain::latest_commit(&t[2], &a.log, out);
    latest_lsn &[COMMITS], Place::Number(8), none, &[], |t, a, out, _| long(out, |n| plain::latest_lsn(&t[2], &a.log, n));
    page_count &[COMMITS], Place::Number(4), at, &[], |t, a, out, _| word(out, |n| plain::page_count(&t[2], &a.log, a.lsn, n));
    stored_lsns &[COMMITS], Place::List(8), lsns, &[19], |t, a, out, items| plain::stored_lsns(&t[2], &a.log, a.lsn, a.end, out, items);
    checkpoint_at &[CHECKPOINTS], Place::Number(8), at, &[], |t, a, out, _| long(out, |n| plain::checkpoint_at(&t[3], &a.log, a.lsn, n));
    write_commit LOGS, Place::None, commit, &[19], |[_, _, c, k, i, _], a, _, _| plain::write_commit(c, k, i, &a.commit);
    page_present &[PRESENCE], Place::None, on_page, &[], |t, a, _, _| plain::page_present(&t[5], &a.sid, a.page);
    page_mark &[PRESENCE], Place::None, on_page, &[19], |t, a, _, _| plain::page_mark(&mut t[5], &a.sid, a.page);
    page_remove &[PRESENCE], Place::None, on_page, &[], |t, a, _, _| plain::page_remove(&mut t[5], &a.sid, a.page);
    pages_remove &[PRESENCE], Place::None, pages, &[], |t, a, _, _| plain::pages_remove(&mut t[5], &a.sid, a.page, a.last);
    view &[VOLUMES, COMMITS], Place::Record(262), none, &[4], |t, a, out, _| plain::snapshot(&t[0], &t[2], &a.vid, out);
    latest_check &[VOLUMES, COMMITS], Place::None, snapshot, &[4], |t, a, _, _| plain::latest_check(&t[0], &t[2], &a.vid, &a.snapshot);
    snapshot_commits &[COMMITS], Place::List(722), snapshot, &[19], |t, a, out, items| plain::snapshot_commits(&t[2], &a.snapshot, out, items);
    search &[COMMITS, INDEX], Place::Record(722), snapshot_page, &[21], |t, a, out, _| plain::search(&t[2], &t[4], &a.snapshot, a.page, out);
    walk &[COMMITS], Place::List(1003), snapshot, &[19], |t, a, out, items| plain::walk(&t[2], &a.snapshot, out, items);
    missing_frames &[COMMITS, PRESENCE], Place::List(417), snapshot, &[19], |t, a, out, items| {
        plain::missing_frames(&t[2], &t[5], &a.snapshot, out, items)
    };
    save ALL_BUT_TAGS, Place::Record(262), snapshot_set, &[4, 7, 18, 5, 19], |[v, _, c, k, i, p], a, out, _| {
        plain::save(v, c, k, i, p, &a.vid, &a.snapshot, a.page, &a.sid, &a.set, out)
    };
    sync &[VOLUMES, COMMITS], Place::None, none, &[4, 16, 8], |[v, _, c, ..], a, _, _| plain::sync(v, c, &a.vid);
    prepare &[VOLUMES, COMMITS], Place::None, both_lsns, &[4, 9, 11, 12, 13], |[v, _, c, ..], a, _, _| {
        plain::prepare(v, c, &a.vid, a.lsn, a.end, &a.hash)
    };
    success VOLUMES_LOGS, Place::None, commit, &[4, 10, 14, 15, 19], |[v, _, c, k, i, _], a, _, _| plain::success(v, c, k, i, &a.vid, &a.commit);
    recover VOLUMES_LOGS, Place::None, none, &[4, 8, 19], |[v, _, c, k, i, _], a, _, _| plain::recover(v, c, k, i, &a.vid);
    volume_from_snapshot VOLUMES_LOGS, Place::Record(117), snapshot, &[5, 19], |[v, _, c, k, i, _], a, out, _| {
        plain::volume_from_snapshot(v, c, k, i, &a.snapshot, &a.spares[0], &a.spares[1], &a.spares[2], out)
    };
    volume_from_logref VOLUMES_LOGS, Place::Record(117), at, &[5, 19], |[v, _, c, k, i, _], a, out, _| {
        plain::volume_from_logref(v, c, k, i, &a.log, a.lsn, &a.spares[0], &a.spares[1], &a.spares[2], out)
    };
}
