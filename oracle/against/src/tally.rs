//! What was compared, and what differed.
use std::collections::BTreeMap;
use std::time::Instant;

/// The most differences that are written out.
const SHOWN: u64 = 20;

pub struct Tally {
    pub compared: u64,
    pub apart: u64,
    pub differences: u64,
    calls: BTreeMap<&'static str, BTreeMap<u32, u64>>,
    said: Instant,
}

impl Tally {
    pub fn new() -> Self {
        Tally { compared: 0, apart: 0, differences: 0, calls: BTreeMap::new(), said: Instant::now() }
    }

    /// Counts a call that the original cannot be asked, or answers otherwise on purpose.
    pub fn not_compared(&mut self) {
        self.apart += 1;
    }

    /// Counts a call, and the difference where there is one.
    pub fn count(&mut self, call: &'static str, number: u32, difference: Option<String>) {
        self.compared += 1;
        *self.calls.entry(call).or_default().entry(number).or_default() += 1;
        if let Some(words) = difference {
            self.differences += 1;
            if self.differences <= SHOWN {
                println!("DIFFERENCE {call}: {words}");
            }
        }
        if self.said.elapsed().as_secs() >= 5 {
            self.said = Instant::now();
            eprintln!("{} calls, {} differences", self.compared, self.differences);
        }
    }

    /// The counts, for each call by number, and whether all were equal.
    pub fn end(&self) -> bool {
        let shown = |numbers: &BTreeMap<u32, u64>| {
            let numbers: Vec<_> = numbers.iter().map(|(number, count)| format!("{number} ({count})")).collect();
            numbers.join(" ")
        };
        let mut all: BTreeMap<u32, u64> = BTreeMap::new();
        for (call, numbers) in &self.calls {
            println!("{call:22} {:9}: {}", numbers.values().sum::<u64>(), shown(numbers));
            numbers.iter().for_each(|(number, count)| *all.entry(*number).or_default() += count);
        }
        println!("numbers reached: {}", shown(&all));
        println!("not compared: {}", self.apart);
        println!("{} calls compared, {} differences", self.compared, self.differences);
        self.compared > 0 && self.differences == 0
    }
}
