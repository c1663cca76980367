//! against [N] [SEED] [RICH]: the archive and the original, asked the same, and every answer compared. N random calls after all those on small
//! domains, then N calls over tables in histories. With `writes`, `saves` or `thin` the histories are rich in some calls (`draw/rich.rs`), and calls
//! without tables are left out. The exit status is 0 exactly if there is no difference.
//! against speed: how long calls take on the original (`speed.rs`); nothing is compared.
mod asked;
mod calls;
mod draw;
mod earned;
mod histories;
#[path = "../../../host/tests/judge/mod.rs"]
#[allow(dead_code)] // values come from draw.rs; whole tables and ranges of segments are judged in the host's tests
mod judge;
mod pure;
mod speed;
mod tables;
mod tally;

use draw::Rich;

fn main() -> std::process::ExitCode {
    let usage = "against [N] [SEED] [mixed | writes | saves | thin]";
    let mut args = std::env::args().skip(1).peekable();
    if args.peek().is_some_and(|word| word == "speed") {
        speed::measure();
        return std::process::ExitCode::SUCCESS;
    }
    let mut number = |usual| args.next().map_or(usual, |a| a.parse().expect(usage));
    let (n, seed) = (number(200_000), number(1));
    let rich = args.next().map_or(Rich::Mixed, |word| Rich::of(&word).expect(usage));
    harness::original::keep_panics();
    let mut tally = tally::Tally::new();
    let ran = std::panic::catch_unwind(std::panic::AssertUnwindSafe(|| {
        if rich == Rich::Mixed {
            pure::compare(n, seed, &mut tally);
        }
        histories::compare(n, seed, rich, &mut tally);
    }));
    if ran.is_err() {
        eprintln!("{}", harness::original::PANIC.take());
    }
    if tally.end() && ran.is_ok() { std::process::ExitCode::SUCCESS } else { std::process::ExitCode::FAILURE }
}
