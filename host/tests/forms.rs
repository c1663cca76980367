//! Byte forms: an independent judge against the archive and against the crate's reading, over random and damaged values and tables.
mod judge;

use judge::make::Random;
use judge::{Kind, TABLES, damage, make};
use sigatuda::*;

/// Each form so many times as it is, and so many times damaged.
const ROUNDS: usize = 4000;

/// Makes forms, damages every other one up to three times, and hands them on; both good and bad ones must come.
fn each(
    seed: u64,
    make: impl Fn(&mut Random) -> Vec<u8>,
    spoil: impl Fn(&mut Vec<u8>, &mut Random),
    mut judged: impl FnMut(&[u8]) -> bool,
) {
    let (mut r, mut good, mut bad) = (Random::new(seed), 0, 0);
    for round in 0..2 * ROUNDS {
        let mut form = make(&mut r);
        if round % 2 == 1 {
            let size = form.len();
            for _ in 0..=r.below(3) {
                if form.len() == size {
                    spoil(&mut form, &mut r);
                }
            }
        }
        let formed = judged(&form);
        assert!(formed || round % 2 == 1, "a form as it was made is judged bad: {form:02x?}");
        *(if formed { &mut good } else { &mut bad }) += 1;
    }
    assert!(good > ROUNDS && bad > ROUNDS / 4, "{good} good, {bad} bad");
}

#[test]
fn sets() {
    each(1, make::set, damage::value, |form| {
        let number = judge::set(form);
        assert_eq!(plain::set_size(form, &mut 0).code, number, "{form:02x?}");
        assert_eq!(PageSet::from_bytes(form).map(|s| s.to_bytes().to_vec()).ok(), (number == 0).then(|| form.to_vec()));
        number == 0
    });
}

#[test]
fn segments() {
    each(2, make::segment, damage::value, |form| {
        let number = judge::segment(form);
        assert_eq!(plain::frame_list(form, &mut [0; 16 * 417], &mut 0).code, number, "{form:02x?}");
        assert_eq!(Segment::from_bytes(form).map(|s| s.to_bytes().to_vec()).ok(), (number == 0).then(|| form.to_vec()));
        number == 0
    });
}

#[test]
fn ranges() {
    each(3, make::range, damage::value, |form| {
        let number = judge::range(form);
        assert_eq!(plain::join(form, form, &mut [0; 417]).code, number, "{form:02x?}");
        assert_eq!(SegmentRange::from_bytes(form).map(|s| s.to_bytes().to_vec()).ok(), (number == 0).then(|| form.to_vec()));
        number == 0
    });
}

#[test]
fn snapshots() {
    each(4, make::snapshot, damage::value, |form| {
        let number = judge::snapshot(form);
        assert_eq!(plain::snapshot_head(form, &mut [0; 16], &mut 0).code, number, "{form:02x?}");
        assert_eq!(Snapshot::from_bytes(form).map(|s| s.to_bytes().to_vec()).ok(), (number == 0).then(|| form.to_vec()));
        number == 0
    });
}

/// The records of a kind, judged and read.
fn records(seed: u64, kind: &Kind, read: impl Fn(&[u8]) -> Option<Vec<u8>>) {
    each(
        seed,
        |r| make::record(kind, r),
        damage::value,
        |form| {
            let in_form = kind.judges(form);
            assert_eq!(read(form), in_form.then(|| form.to_vec()), "{}: {form:02x?}", kind.name);
            in_form
        },
    );
}

#[test]
fn records_of_all_tables() {
    records(5, &TABLES[0], |b| Volume::from_bytes(b).ok().map(|v| v.to_bytes().to_vec()));
    records(6, &TABLES[1], |b| Tag::from_bytes(b).ok().map(|v| v.to_bytes().to_vec()));
    records(7, &TABLES[2], |b| Commit::from_bytes(b).ok().map(|v| v.to_bytes().to_vec()));
    records(8, &TABLES[3], |b| Checkpoint::from_bytes(b).ok().map(|v| v.to_bytes().to_vec()));
    records(9, &TABLES[4], |b| IndexEntry::from_bytes(b).ok().map(|v| v.to_bytes().to_vec()));
    records(10, &TABLES[5], |b| PresentPage::from_bytes(b).ok().map(|v| v.to_bytes().to_vec()));
}

/// A commit as an argument is judged as a record is, with a number, and the crate reads it so.
#[test]
fn commits_as_arguments() {
    each(
        11,
        |r| make::record(&TABLES[2], r),
        damage::value,
        |form| {
            let number = judge::commit_argument(form);
            assert_eq!(number == 0, TABLES[2].judges(form), "{form:02x?}");
            assert_eq!(Commit::from_bytes(form).err().map_or(0, Refusal::number), number, "{form:02x?}");
            number == 0
        },
    );
}

/// Whether the crate reads bytes as a table: the count fits, each record reads, keys rise.
fn reads<R: Record>(bytes: &[u8]) -> bool {
    let mut bytes = bytes.to_vec();
    let table = Table::<R>::lend(&mut bytes);
    let Some(held) = table.held() else { return false };
    let keys: Vec<_> = table.as_bytes()[2..].chunks(R::SIZE).take(held).map(|r| &r[..R::KEY]).collect();
    table.records().all(|r| r.is_ok()) && keys.windows(2).all(|w| w[0] < w[1])
}

#[test]
fn tables() {
    let readers = [reads::<Volume>, reads::<Tag>, reads::<Commit>, reads::<Checkpoint>, reads::<IndexEntry>, reads::<PresentPage>];
    for (seed, ((kind, reads), check)) in TABLES.iter().zip(readers).zip(plain::FORMED).enumerate() {
        let spoil = |form: &mut Vec<u8>, r: &mut Random| {
            if form.len() >= 2 {
                damage::table(kind, form, r);
            }
        };
        each(
            20 + seed as u64,
            |r| make::table(kind, r),
            spoil,
            |form| {
                let formed = kind.formed(form);
                assert_eq!(reads(form), formed, "{}: {form:02x?}", kind.name);
                let reply = check(form);
                assert_eq!((reply.code, reply.found), if formed { (0, 1) } else { (20, 0) }, "{}: {form:02x?}", kind.name);
                formed
            },
        );
    }
}

#[test]
fn record_sizes_are_the_archives() {
    for (table, kind) in TABLES.iter().enumerate() {
        assert_eq!(plain::record_size(table as u32), kind.record as u32, "{}", kind.name);
    }
    assert_eq!((plain::record_size(6), plain::record_size(u32::MAX)), (0, 0));
    assert_eq!(plain::format(), 1);
}

#[test]
fn entry_sizes_are_the_archives() {
    let sizes = [Volume::SIZE, Tag::SIZE, 8, Commit::SIZE, SegmentRange::SIZE, WalkItem::SIZE, SegmentRange::SIZE];
    for (list, size) in sizes.into_iter().enumerate() {
        assert_eq!(plain::entry_size(list as u32), size as u32, "list {list}");
    }
    assert_eq!((plain::entry_size(7), plain::entry_size(u32::MAX)), (0, 0));
}

#[test]
fn a_fresh_table_is_so_many_zeros() {
    for (table, kind) in TABLES.iter().enumerate() {
        let bytes = |records| plain::table_bytes(table as u32, records) as usize;
        for records in [0, 1, 32, 65_535] {
            assert_eq!(bytes(records), 2 + records as usize * kind.record, "{}", kind.name);
            assert!(kind.formed(&vec![0; bytes(records)]), "{}", kind.name);
        }
        assert_eq!((bytes(65_536), bytes(u32::MAX)), (0, 0));
    }
    assert_eq!((plain::table_bytes(6, 1), plain::table_bytes(u32::MAX, 0)), (0, 0));
    let mut presence = vec![0; plain::table_bytes(5, 2) as usize];
    let marks = [1, 2, 3].map(|page| plain::page_mark(&mut presence, &[9; 16], page).code);
    assert_eq!(marks, [0, 0, 19], "room for two");
}
