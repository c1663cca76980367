//! The recorded answers of the original (crates/replay/data/sample.bin, in the form of oracle/SAMPLE.md), asked of the archive again.
#[allow(dead_code)] // records are written where the original runs
#[path = "sample/ops.rs"]
mod ops;
#[path = "sample/run.rs"]
mod run;
mod stack;

use ops::Record;
use std::collections::BTreeMap;

#[test]
fn the_originals_answers() {
    let bytes = include_bytes!("../../crates/replay/data/sample.bin");
    let (mut rest, mut records, mut of_each) = (&bytes[..], 0, [0; 256]);
    while !rest.is_empty() {
        let at = bytes.len() - rest.len();
        let want = Record::read(&mut rest).unwrap_or_else(|| panic!("no record at byte {at}"));
        let name = ops::name(want.op);
        // over zeros, as it was recorded, and over other bytes, which stay where nothing is written
        for before in [0, 0xa5] {
            let mut out = vec![before; want.out.len()];
            let got = run::run(want.op, &want.args, &mut out);
            assert_eq!((got.code, got.found), (want.code.into(), want.found.into()), "{name} at byte {at}");
            assert_eq!(out, want.out_over(before), "{name} at byte {at}");
        }
        assert_eq!(want.out, want.out_over(0), "{name} at byte {at}: recorded where nothing is written");
        records += 1;
        of_each[usize::from(want.op)] += 1;
    }
    for (op, name, ..) in ops::ALL {
        assert!(of_each[usize::from(*op)] > 0, "the sample has no {name}");
    }
    println!("{records} records equal");
}

/// Every call uses at most 8 KiB of stack.
#[test]
fn the_depth_of_each_call() {
    let mut rest = &include_bytes!("../../crates/replay/data/sample.bin")[..];
    let (mut stack, mut deepest) = (stack::Stack::new(), BTreeMap::new());
    while let Some(record) = Record::read(&mut rest) {
        let mut out = vec![0; record.out.len()];
        let depth = stack.run(|| _ = run::run(record.op, &record.args, &mut out));
        let most = deepest.entry(record.op).or_insert(0);
        *most = depth.max(*most);
    }
    for (op, depth) in deepest {
        println!("{:24}{depth:6} bytes of stack", ops::name(op));
        assert!(depth <= 8 * 1024, "{}: {depth}", ops::name(op));
    }
}
