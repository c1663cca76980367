//! The day of examples/day.rs, as a test: each call of it is done, search names the commits that are told after each step, and 8 leaves every byte.
#[path = "../examples/day.rs"]
mod day;

#[test]
fn the_day() {
    day::main().unwrap();
}
