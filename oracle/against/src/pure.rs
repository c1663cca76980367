//! The calls without tables.
use crate::tally::Tally;
pub use harness::ops;
use harness::ops::Record;
use harness::{generate, original};

#[path = "../../../host/tests/sample/run.rs"]
mod run;

/// All calls on small domains, then `n` random ones.
pub fn compare(n: u64, seed: u64, tally: &mut Tally) {
    generate::all_small(&mut |op, args| compare_call(op, &args, tally));
    generate::random(n, seed, &mut |op, args| compare_call(op, &args, tally));
}

fn compare_call(op: u8, args: &[u8], tally: &mut Tally) {
    match original::record(op, args) {
        Some(want) => tally.count(ops::name(op), u32::from(want.code), difference(&want)),
        None => tally.not_compared(),
    }
}

/// How the archive's answer differs from the original's: in its number, in what was found, in what it wrote, or in what it left alone. Each
/// call is asked twice, over zeros and over other bytes, so that a byte that is written shows.
fn difference(want: &Record) -> Option<String> {
    let args = || want.args.iter().map(|b| format!("{b:02x}")).collect::<String>();
    for before in [0, 0xa5] {
        let mut out = vec![before; want.out.len()];
        let got = run::run(want.op, &want.args, &mut out);
        if (got.code, got.found) != (u32::from(want.code), u32::from(want.found)) {
            return Some(format!("original {} {}, here {} {}; {}", want.code, want.found, got.code, got.found, args()));
        }
        if out != want.out_over(before) {
            return Some(format!("what is written or left alone differs; {}", args()));
        }
    }
    None
}
