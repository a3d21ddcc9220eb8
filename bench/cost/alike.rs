//! The proved engine and the one by hand on random days: same number, same lines, same lists in the evening. The first difference is
//! printed with its day, and ends the run.
use crate::day::{self, SetUp};
use crate::kinds::Kinds;
use crate::ours;
use crate::random::{Random, set_up, tape};
use std::collections::BTreeMap;
use std::process::exit;

/// What a day comes to: the number that is answered, how many bytes of lines, and the buffer and the lists in the evening.
#[derive(PartialEq)]
struct Evening {
    number: u32,
    used: usize,
    lines: Vec<u8>,
    cells: Vec<u32>,
    rights: Vec<u32>,
}

// Each byte of a buffer before the day, so that one that a line does not reach is seen to stay.
const BEFORE: u8 = b'.';

fn by_ours(set_up: &SetUp, tape: &[u8], room: usize) -> Evening {
    let (mut cells, mut rights) = (set_up.cells.clone(), set_up.rights.clone());
    let mut lines = vec![BEFORE; room];
    let (number, used) = ours::run_tape(&set_up.thresholds, &mut cells, &mut rights, &set_up.policies, tape, &mut lines);
    Evening { number, used, lines, cells, rights }
}

fn by_hand(set_up: &SetUp, tape: &[u8], room: usize) -> Evening {
    let (mut cells, mut rights) = (set_up.cells.clone(), set_up.rights.clone());
    let mut lines = vec![];
    let ran = day::run_tape(&set_up.thresholds, &mut cells, &mut rights, &set_up.policies, tape, room, &mut lines);
    let number = ran.err().map_or(0, u32::from);
    let used = lines.len();
    lines.resize(room, BEFORE);
    Evening { number, used, lines, cells, rights }
}

fn print(name: &str, evening: &Evening) {
    let Evening { number, used, lines, cells, rights } = evening;
    println!("{name}: answered {number}, {used} bytes of lines, cells {cells:?}, rights {rights:?}, lines:");
    println!("{}", String::from_utf8_lossy(lines).trim_end_matches(char::from(BEFORE)));
}

fn stop(number: u64, set_up: &SetUp, tape: &[u8], what: &str) {
    println!("day {number} differs in {what}\n{set_up:?}\ntape of {} bytes:", tape.len());
    for byte in tape {
        print!("{byte:02x}");
    }
    println!();
}

fn compare(number: u64, set_up: &SetUp, tape: &[u8], room: usize) -> Evening {
    let (hand, proved) = (by_hand(set_up, tape, room), by_ours(set_up, tape, room));
    if hand != proved {
        stop(number, set_up, tape, &format!("what it comes to in a buffer of {room} bytes"));
        print("by hand", &hand);
        print("ours", &proved);
        exit(1);
    }
    let (mut cells, mut rights) = (set_up.cells.clone(), set_up.rights.clone());
    let checked = ours::check(&set_up.thresholds, &mut cells, &mut rights, &set_up.policies);
    let expected = day::check(&set_up.thresholds, &mut cells, &mut rights, &set_up.policies).err().map_or(0, u32::from);
    if checked != expected {
        stop(number, set_up, tape, &format!("the check of its set-up: by hand {expected}, ours {checked}"));
        exit(1);
    }
    hand
}

/// How long the buffer for the lines is: mostly with room for every tape's, and else just enough for this tape, one byte less, or more or less than that.
fn room(random: &mut Random, tape: &[u8]) -> usize {
    let enough = day::most_bytes_of_lines(tape);
    match random.below(16) {
        0 => enough,
        1 => enough - 1,
        2 => random.below(2 * enough as u64) as usize,
        _ => 170_000,
    }
}

/// Compares so many days, and says what they were like.
pub fn run(count: u64) {
    let mut kinds = Kinds::default();
    let mut answered: BTreeMap<u32, u64> = BTreeMap::new();
    let (mut ladders, mut long) = (0, 0);
    for number in 0..count {
        let random = &mut Random::of_day(number);
        let set_up = set_up(random);
        let tape = tape(random, &set_up);
        let room = room(random, &tape);
        let evening = compare(number, &set_up, &tape, room);
        kinds.count(&evening.lines[..evening.used]);
        *answered.entry(evening.number).or_default() += 1;
        ladders += (evening.number == 0 && set_up.thresholds.len() == 3) as u64;
        long += (tape.len() > 60_000) as u64;
    }
    let done = answered.remove(&0).unwrap_or(0);
    println!("{count} random days, all answered alike: the same number, lines, cells and rights.");
    println!("  {done} were worked ({ladders} in the ladder order), {long} tapes had more than 60,000 bytes.");
    for (number, count) in answered {
        println!("  {count} days were answered with {number}.");
    }
    println!("  {kinds}");
}
