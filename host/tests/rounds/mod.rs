//! The calls without tables in rounds of random arguments, good and damaged, and out slices of right and wrong lengths. 1, 2 and 3 of all arguments come in turn,
//! before anything else, by the judge of byte forms; a refused call leaves all that is lent as it was.
use crate::judge::make::Random;
use crate::judge::{self, TABLES, damage, make};
use sigatuda::{Reply, plain};

/// What lies in a place that nothing wrote.
const UNTOUCHED: u8 = 0xa5;

/// A form, damaged one time in three.
fn form(make: fn(&mut Random) -> Vec<u8>, r: &mut Random) -> Vec<u8> {
    let mut form = make(r);
    if r.below(3) == 0 {
        damage::value(&mut form, r);
    }
    form
}

/// An out slice, of a wrong length one time in eight.
fn out(size: usize, r: &mut Random) -> Vec<u8> {
    let size = if r.below(8) == 0 { [0, size - 1, size + 1][r.below(3)] } else { size };
    vec![UNTOUCHED; size]
}

/// A number that is 0 one time in eight.
fn number(r: &mut Random) -> u32 {
    if r.below(8) == 0 { 0 } else { r.page() }
}

fn lsn(r: &mut Random) -> u64 {
    if r.below(8) == 0 { 0 } else { r.lsn() }
}

/// What a page, a range of pages, a range of LSNs and an out slice earn.
fn page_earns(page: u32) -> u32 {
    u32::from(page == 0)
}

fn span_earns(first: u64, last: u64) -> u32 {
    if first == 0 || last == 0 { 1 } else { 2 * u32::from(first > last) }
}

fn out_earns(out: &[u8], size: usize) -> u32 {
    if out.len() == size { 0 } else { 3 }
}

/// Counts the numbers that came, so that each is seen to come.
#[derive(Default)]
pub struct Seen(pub [u64; 25]);

impl Seen {
    /// Holds a reply to the lowest number that its arguments earn, or, where they earn none, to 0 and the numbers that may come later.
    fn hold(&mut self, reply: Reply, earned: &[u32], later: &[u32], outs: &[&[u8]]) {
        match earned.iter().copied().filter(|&n| n != 0).min() {
            Some(lowest) => assert_eq!(reply.code, lowest, "{earned:?}"),
            None => assert!(reply.code == 0 || later.contains(&reply.code), "{reply:?}"),
        }
        if reply.code != 0 {
            assert_eq!(reply.found, 0);
            assert!(outs.iter().all(|out| out.iter().all(|&b| b == UNTOUCHED)), "{reply:?} has written");
        }
        self.0[reply.code as usize] += 1;
    }
}

/// Four or eight bytes that a call writes as a number.
const WORD: u32 = u32::from_be_bytes([UNTOUCHED; 4]);
const LONG: u64 = u64::from_be_bytes([UNTOUCHED; 8]);

pub fn numbers(r: &mut Random, seen: &mut Seen) {
    let (n, p) = (lsn(r), number(r));
    let (of_lsn, of_page) = (u32::from(n == 0), page_earns(p));
    for call in [plain::lsn_prev, plain::lsn_saturating_next, plain::lsn_saturating_prev] {
        let mut long = LONG;
        seen.hold(call(n, &mut long), &[of_lsn], &[], &[&long.to_be_bytes()]);
    }
    let mut long = LONG;
    seen.hold(plain::lsn_next(n, &mut long), &[of_lsn], &[18], &[&long.to_be_bytes()]);
    for call in [plain::page_next, plain::page_prev] {
        let mut word = WORD;
        seen.hold(call(p, &mut word), &[of_page], &[], &[&word.to_be_bytes()]);
    }
    for call in [plain::count_next, plain::count_prev, plain::count_last_page] {
        seen.hold(call(p, &mut 0), &[], &[], &[]);
    }
}

pub fn sets_and_pages(r: &mut Random, seen: &mut Seen) {
    let (set, p, q) = (form(make::set, r), number(r), number(r));
    let (of_set, of_page, of_span) = (judge::set(&set), page_earns(p), span_earns(p.into(), q.into()));
    let mut o = out(385, r);
    let of_out = out_earns(&o, 385);
    seen.hold(plain::set_contains(&set, p), &[of_set, of_page], &[], &[]);
    seen.hold(plain::set_contains_any(&set, p, q), &[of_set, of_span], &[], &[]);
    seen.hold(plain::set_contains_all(&set, p, q), &[of_set, of_span], &[], &[]);
    for call in [plain::set_size, plain::set_first, plain::set_last] {
        let mut word = WORD;
        seen.hold(call(&set, &mut word), &[of_set], &[], &[&word.to_be_bytes()]);
    }
    seen.hold(plain::set_range(p, q, &mut o), &[of_span, of_out], &[22], &[&o]);
    o.fill(UNTOUCHED);
    seen.hold(plain::set_insert(&set, p, &mut o), &[of_set, of_page, of_out], &[22], &[&o]);
    o.fill(UNTOUCHED);
    seen.hold(plain::set_truncate(&set, p, &mut o), &[of_set, of_out], &[], &[&o]);
    o.fill(UNTOUCHED);
    seen.hold(plain::set_remove(&set, p, q, &mut o), &[of_set, of_span, of_out], &[], &[&o]);
}

pub fn two_sets(r: &mut Random, seen: &mut Seen) {
    let (a, b) = (form(make::set, r), form(make::set, r));
    let (mut o, mut p) = (out(385, r), out(385, r));
    let earned = [judge::set(&a), judge::set(&b), out_earns(&o, 385)];
    seen.hold(plain::set_union(&a, &b, &mut o), &earned, &[22], &[&o]);
    o.fill(UNTOUCHED);
    let earned = [earned[0], earned[1], earned[2], out_earns(&p, 385)];
    seen.hold(plain::set_cut(&a, &b, &mut o, &mut p), &earned, &[], &[&o, &p]);
}

pub fn frames(r: &mut Random, seen: &mut Seen) {
    let (segment, p) = (form(make::segment, r), number(r));
    let (of_segment, of_page) = (judge::segment(&segment), page_earns(p));
    let (mut list, mut items) = (vec![UNTOUCHED; 417 * r.below(17)], WORD);
    let reply = plain::frame_list(&segment, &mut list, &mut items);
    seen.hold(reply, &[of_segment], &[19], &[&list, &items.to_be_bytes()]);
    let mut o = out(417, r);
    let reply = plain::frame_of_page(&segment, p, &mut o);
    seen.hold(reply, &[of_segment, of_page, out_earns(&o, 417)], &[], &[&o]);
    let lent = [0; 300];
    let pages = if of_segment == 0 { sigatuda::Segment::from_bytes(&segment).unwrap().pages.first() } else { None };
    for page in [p, pages.map_or(p, |first| first.get())] {
        let mut part = &lent[..0];
        seen.hold(plain::frame_bytes(&segment, page, &lent, &mut part), &[of_segment, page_earns(page)], &[23], &[]);
    }
}

pub fn joins(r: &mut Random, seen: &mut Seen) {
    let (a, mut b, mut o) = (form(make::range, r), form(make::range, r), out(417, r));
    if a.len() == 417 && b.len() == 417 && r.below(2) == 0 {
        b[..16].copy_from_slice(&a[..16]);
        b[16..24].copy_from_slice(&a[24..32]);
    }
    let earned = [judge::range(&a), judge::range(&b), out_earns(&o, 417)];
    seen.hold(plain::join(&a, &b, &mut o), &earned, &[22], &[&o]);
}

pub fn snapshots_and_changes(r: &mut Random, seen: &mut Seen) {
    let (snapshot, log, start, end) = (form(make::snapshot, r), [3; 16], lsn(r), lsn(r));
    let (of_snapshot, of_span) = (judge::snapshot(&snapshot), span_earns(start, end));
    let mut o = out(262, r);
    let of_out = out_earns(&o, 262);
    seen.hold(plain::snapshot_new(&log, start, end, 5, &mut o), &[of_span, of_out], &[], &[&o]);
    o.fill(UNTOUCHED);
    let ninth = if snapshot.get(5) == Some(&8) { 3 } else { 0 };
    let reply = plain::snapshot_append(&snapshot, &log, start, end, &mut o);
    seen.hold(reply, &[of_snapshot, of_span, of_out, ninth], &[], &[&o]);
    let (mut head, mut long) = ([UNTOUCHED; 16], LONG);
    let reply = plain::snapshot_head(&snapshot, &mut head, &mut long);
    seen.hold(reply, &[of_snapshot], &[], &[&head, &long.to_be_bytes()]);
    let (has_base, has_head) = (r.below(3) as u32, r.below(3) as u32);
    let zero = (has_base != 0 && start == 0) || (has_head != 0 && end == 0);
    let (mut first, mut last) = (LONG, LONG);
    let reply = plain::changes(has_base, start, has_head, end, &mut first, &mut last);
    seen.hold(reply, &[u32::from(zero)], &[16], &[&first.to_be_bytes(), &last.to_be_bytes()]);
}

/// The check of a table: good, damaged, or any bytes.
pub fn checks(r: &mut Random, seen: &mut Seen) {
    for (kind, check) in TABLES.iter().zip(plain::FORMED) {
        let mut table = make::table(kind, r);
        match r.below(4) {
            0 => damage::table(kind, &mut table, r),
            1 => {
                table = {
                    let length = r.below(900);
                    r.bytes(length)
                }
            }
            _ => {}
        }
        let number = if kind.formed(&table) { 0 } else { 20 };
        seen.hold(check(&table), &[number], &[], &[]);
    }
}
