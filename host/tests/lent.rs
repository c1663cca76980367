//! Every call over tables, on good, damaged, cut and random tables with good and damaged arguments: its number is document 01's, by the judge of byte
//! forms (20 first, then what the arguments earn) or one that its row allows; a refused call leaves every lent byte as it was; a call that is
//! done leaves tables in form. Every number of a row comes in its rounds: half of those on good tables are drawn near to what the tables hold, so that none is
//! left to chance. Calls use at most 8 KiB of stack, but for one.
#[allow(dead_code)] // ranges of segments are judged in forms.rs
mod judge;
mod near;
mod rows;
mod stack;

use judge::make::Random;
use rows::{Args, Made, ROWS, Six};
use sigatuda::Reply;
use stack::Stack;

/// Rounds of each call.
const ROUNDS: usize = 900;

/// The most bytes of stack that a call may use: 8 KiB. Volume from snapshot is a little above it.
const DEEPEST: usize = 8 * 1024;
const DEEPEST_COPY: usize = 9 * 1024;

fn deepest_of(name: &str) -> usize {
    match name {
        "volume_from_snapshot" => DEEPEST_COPY,
        _ => DEEPEST,
    }
}

/// Holds a call to document 01, and to its depth.
fn hold(name: &str) {
    let row = ROWS.iter().find(|row| row.name == name).expect("a row");
    let (mut r, mut seen) = (Random::new(71), [0; 25]);
    let (mut stack, mut deepest) = (Stack::new(), 0);
    for round in 0..ROUNDS {
        let mut six = Six::default();
        let bad = if round % 3 == 0 { Some(row.lent[r.below(row.lent.len())]) } else { None };
        for &kind in row.lent {
            let good = rows::good(kind, &mut r);
            six[kind] = if bad == Some(kind) { rows::spoiled(kind, good, &mut r) } else { good };
        }
        let (mut args, near) = (Args::new(&mut r), bad.is_none() && r.below(2) == 0);
        if near {
            near::turn_volumes(&mut six, &mut r);
        }
        args.aim(&six, &mut r);
        if near {
            near::turn_arguments(&mut args, &six, &mut r);
        }
        let before = six.clone();
        let (mut out, mut reply) = (row.out(&mut r), Reply { code: 0, found: 0 });
        deepest = deepest.max(stack.run(|| reply = row.call(&mut six, &args, &mut out)));
        seen[reply.code as usize] += 1;
        Made { row, args: &args, formed: row.formed(&before), before: &before, after: &six, out: &out, reply }.check();
    }
    for number in [&[0, 20], row.later].concat() {
        assert!(seen[number as usize] > 0, "{number} did not come; numbers that came: {seen:?}");
    }
    println!("{name}: deepest stack: {deepest} bytes; numbers that came: {seen:?}");
    assert!(deepest <= deepest_of(name), "{deepest} bytes of stack");
}

macro_rules! held {
    ($($name:ident)*) => {
        $(#[test]
        fn $name() {
            hold(stringify!($name));
        })*

        #[test]
        fn every_row_is_held() {
            assert_eq!(ROWS.iter().map(|row| row.name).collect::<Vec<_>>(), [$(stringify!($name)),*]);
        }
    };
}

held! {
    volume_read volume_exists volume_list volume_delete drop_pending open
    tag_read tag_exists tag_list tag_delete tag_replace
    commit_read latest_commit latest_lsn page_count stored_lsns checkpoint_at write_commit
    page_present page_mark page_remove pages_remove
    view latest_check snapshot_commits search walk missing_frames
    save sync prepare success recover volume_from_snapshot volume_from_logref
}
