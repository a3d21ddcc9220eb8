//! First compares the proved engine with the one by hand on random days, then times both, and SQLite on the days that it can work.
//! cost DAYS REPETITIONS
#[path = "../hand/day.rs"]
mod day;
#[path = "../hand/engine.rs"]
mod engine;
#[path = "../hand/kinds.rs"]
mod kinds;
#[path = "../hand/random.rs"]
mod random;

mod alike;
mod days;
mod ours;
mod sqlite;
mod table;
mod timing;

fn main() {
    let numbers: Vec<u64> = std::env::args().skip(1).map(|word| word.parse().expect("a number")).collect();
    let &[days, repetitions] = &numbers[..] else {
        panic!("cost DAYS REPETITIONS");
    };
    alike::run(days);
    table::run(repetitions as usize);
}
