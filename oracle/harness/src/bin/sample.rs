//! sample FILE: the original's answers to calls of every kind, in the form of oracle/SAMPLE.md. The same calls each time.
use harness::ops::{self, *};
use harness::random::Random;
use harness::{generate, original};
use std::collections::BTreeMap;

/// The bytes that the answered records of one call and one kind of answer may take together; small domains and refusals have half of it.
fn share(op: u8) -> usize {
    match op {
        SET_SIZE..=SET_CONTAINS_ALL => 3_000,
        SET_UNION | SET_CUT | SET_TRUNCATE | FRAME_LIST_OF_4 | JOIN => 11_500,
        _ => 4_400,
    }
}

/// Keeps some records of each call, each number and each stream (small domains, random), drawn evenly from all that come.
struct Sample {
    draw: Random,
    stream: u8,
    kept: BTreeMap<(u8, u8, u8, u8), Kept>,
}

#[derive(Default)]
struct Kept {
    seen: u64,
    records: Vec<Record>,
}

impl Sample {
    fn take(&mut self, op: u8, args: &[u8]) {
        let Some(record) = original::record(op, args) else { return };
        let kept = self.kept.entry((op, record.code, record.found, self.stream)).or_default();
        kept.seen += 1;
        let (in_args, in_out) = ops::sizes(op).unwrap();
        let share = if record.code == 0 && self.stream == 1 { share(op) } else { share(op) / 2 };
        let most = (share / (3 + in_args + in_out)).clamp(1, 16);
        if kept.records.len() < most {
            kept.records.push(record);
        } else if let Some(place) = kept.records.get_mut(self.draw.below(kept.seen) as usize) {
            *place = record;
        }
    }
}

fn main() {
    let file = std::env::args().nth(1).expect("sample FILE");
    original::keep_panics();
    let mut sample = Sample { draw: Random::new(2026), stream: 0, kept: BTreeMap::new() };
    generate::all_small(&mut |op, args| sample.take(op, &args));
    sample.stream = 1;
    generate::random(60_000, 1, &mut |op, args| sample.take(op, &args));

    let (mut bytes, mut records) = (vec![], 0);
    for ((op, code, found, stream), kept) in &sample.kept {
        let (name, stream) = (ops::name(*op), ["small", "random"][usize::from(*stream)]);
        println!("{name:20} code {code:2} found {found}: {} of {} {stream}", kept.records.len(), kept.seen);
        kept.records.iter().for_each(|r| r.write(&mut bytes));
        records += kept.records.len();
    }
    std::fs::write(&file, &bytes).expect("the sample is written");
    println!("{records} records, {} bytes", bytes.len());
}
