//! Call lists beside the original.
//!   lists answer                              what document 01 has the list on standard input print, by the original
//!   lists draw LINES SEED [bad]               a random list
//!   lists compare CALLRUN LISTS LINES SEED    random lists, every second one damaged, through the program CALLRUN and the original
mod draw;
mod line;
mod tester;

use harness::{original::keep_panics, random::Random};
use std::collections::BTreeMap;
use std::io::{Read, Write};
use std::process::{Command, ExitCode, Stdio};

/// What the program prints for a list.
fn ran(program: &str, list: &[u8]) -> Vec<u8> {
    let mut child = Command::new(program).stdin(Stdio::piped()).stdout(Stdio::piped()).spawn().expect("a program to compare");
    let mut input = child.stdin.take().expect("its input");
    let list = list.to_vec();
    let feed = std::thread::spawn(move || input.write_all(&list));
    let output = child.wait_with_output().expect("its output");
    feed.join().expect("a thread").expect("all of the list read");
    output.stdout
}

fn compare(program: &str, lists: u64, lines: u64, seed: u64) -> bool {
    let (mut differing, mut compared) = (0, 0);
    let mut codes: BTreeMap<String, u64> = BTreeMap::new();
    for i in 0..lists {
        let list = draw::list(&mut Random::new(seed.wrapping_mul(1 << 32).wrapping_add(i)), lines, i % 2 == 1);
        let want = tester::printed(&list);
        let ours = ran(program, &list);
        for line in want.split(|&b| b == b'\n').filter(|l| !l.is_empty()) {
            let code = String::from_utf8_lossy(line).split(' ').nth(1).expect("a code").to_string();
            *codes.entry(code).or_default() += 1;
            compared += 1;
        }
        if want != ours {
            differing += 1;
            println!("list {i} differs");
        }
    }
    codes.iter().for_each(|(code, n)| println!("{n} lines with {code}"));
    println!("{lists} lists, {compared} lines, {differing} differences");
    differing == 0
}

fn main() -> ExitCode {
    keep_panics();
    let args: Vec<String> = std::env::args().collect();
    let number = |i: usize| args[i].parse().expect("a number");
    match args.get(1).map(String::as_str) {
        Some("answer") => {
            let mut list = vec![];
            std::io::stdin().read_to_end(&mut list).expect("a list");
            std::io::stdout().write_all(&tester::printed(&list)).expect("written");
        }
        Some("draw") => {
            let list = draw::list(&mut Random::new(number(3)), number(2), args.get(4).is_some());
            std::io::stdout().write_all(&list).expect("written");
        }
        Some("compare") => return ExitCode::from(u8::from(!compare(&args[2], number(3), number(4), number(5)))),
        _ => {
            eprintln!("lists answer | draw LINES SEED [bad] | compare CALLRUN LISTS LINES SEED");
            return ExitCode::from(2);
        }
    }
    ExitCode::SUCCESS
}
