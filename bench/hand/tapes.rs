//! Compares `daytape` with the engine by hand on random tapes: valid and damaged, long and short.
//! tapes DAYTAPE COUNT: stops at the first tape on which the two differ, and prints it.
mod day;
mod engine;
mod kinds;
mod random;
use day::SetUp;
use kinds::Kinds;
use random::{Random, four_cells, tape};
use std::io::Write;
use std::process::{Command, Stdio};

fn by_daytape(program: &str, tape: &[u8]) -> std::io::Result<Vec<u8>> {
    let mut child = Command::new(program).stdin(Stdio::piped()).stdout(Stdio::piped()).spawn()?;
    let mut input = child.stdin.take().expect("a pipe");
    input.write_all(tape)?;
    drop(input);
    Ok(child.wait_with_output()?.stdout)
}

/// With the room of daytape.
fn by_hand(tape: &[u8]) -> Vec<u8> {
    let SetUp { thresholds, mut cells, mut rights, policies } = four_cells();
    let mut lines = vec![];
    day::run_tape(&thresholds, &mut cells, &mut rights, &policies, tape, 170_000, &mut lines).expect("a set-up and room");
    lines
}

fn main() -> std::io::Result<()> {
    let arguments: Vec<String> = std::env::args().collect();
    let count: u64 = arguments[2].parse().expect("a count");
    let mut kinds = Kinds::default();
    for number in 0..count {
        let bytes = tape(&mut Random::of_day(number), &four_cells());
        let (hand, proved) = (by_hand(&bytes), by_daytape(&arguments[1], &bytes)?);
        if hand != proved {
            let (hand, proved) = (String::from_utf8_lossy(&hand), String::from_utf8_lossy(&proved));
            println!("tape {number} differs:\n{bytes:02x?}\nby hand:\n{hand}daytape:\n{proved}");
            std::process::exit(1);
        }
        kinds.count(&hand);
    }
    println!("{count} tapes, all alike: {kinds}");
    Ok(())
}
