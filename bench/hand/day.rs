//! A tape as a day of the engine by hand, from bytes to lines of text.
use crate::engine::{Engine, Object, Order, Policy, Request};
use std::io::Write;

/// A policy in plain numbers, as a caller in C gives it: kind 0 is a cell, 1 a policy.
#[repr(C)]
#[derive(Clone, Copy, Debug)]
pub struct PolicyRow {
    pub subject: u16,
    pub kind: u16,
    pub number: u16,
}

/// What a day begins with.
#[derive(Clone, Debug)]
pub struct SetUp {
    pub thresholds: Vec<u32>,
    pub cells: Vec<u32>,
    pub rights: Vec<u32>,
    pub policies: Vec<PolicyRow>,
}

/// The order and the policies of a set-up in plain numbers, unless there are too many or one has an object of no kind.
pub fn prepare(thresholds: &[u32], cells: usize, rows: &[PolicyRow]) -> Result<(Order, Vec<Policy>), u8> {
    let order = Order::of(thresholds)?;
    if cells > 256 || rows.len() > 64 {
        return Err(14);
    }
    let policy = |row: &PolicyRow| match row.kind {
        0 => Ok(Policy { subject: row.subject, object: Object::Cell(row.number) }),
        1 => Ok(Policy { subject: row.subject, object: Object::Policy(row.number) }),
        _ => Err(15),
    };
    Ok((order, rows.iter().map(policy).collect::<Result<_, _>>()?))
}

/// What set-up refuses.
pub fn check(thresholds: &[u32], cells: &mut [u32], rights: &mut [u32], rows: &[PolicyRow]) -> Result<(), u8> {
    let (order, policies) = prepare(thresholds, cells.len(), rows)?;
    Engine::new(cells, rights, order, &policies)?;
    Ok(())
}

fn two(bytes: &[u8], at: usize) -> u16 {
    u16::from_be_bytes([bytes[at], bytes[at + 1]])
}

fn four(bytes: &[u8], at: usize) -> u32 {
    u32::from_be_bytes([bytes[at], bytes[at + 1], bytes[at + 2], bytes[at + 3]])
}

/// The request at the front of the bytes and the length of its record, or the number of its fault.
pub fn request(left: &[u8]) -> Result<(Request, usize), u8> {
    if left.len() < 3 {
        return Err(9);
    }
    let length = 3 + two(left, 1) as usize;
    let Some(content) = left.get(3..length) else {
        return Err(9);
    };
    let request = match (left[0], content.len()) {
        (1, 2) => Request::Open(two(content, 0)),
        (2, 4) => Request::Deploy(two(content, 0), two(content, 2)),
        (3, 4) => Request::Read(two(content, 0), two(content, 2)),
        (4, 8) => Request::Write(two(content, 0), two(content, 2), four(content, 4)),
        (5, 4) => Request::Show(two(content, 0), two(content, 2)),
        (6, 8) => Request::Set(two(content, 0), two(content, 2), four(content, 4)),
        (7, 2) => Request::Commit(two(content, 0)),
        (8, 2) => Request::GiveUp(two(content, 0)),
        (1..=8, _) => return Err(11),
        _ => return Err(10),
    };
    Ok((request, length))
}

/// How many bytes of lines a tape could have, whatever its bytes are: it is shortest records with the longest answers, and then a fault of the longest numbers.
pub fn most_bytes_of_lines(tape: &[u8]) -> usize {
    let answer = b"S 65535 65535\n".len();
    let fault = b"F 255 4294967295 4294967295\n".len();
    let shortest_record = [7, 0, 2, 0, 1].len();
    let answers = if tape.len() > 60_000 { 0 } else { tape.chunks_exact(shortest_record).count() };
    answers * answer + fault
}

/// Runs a tape on the two lists; the lines go behind those that are there. Refuses what set-up refuses, and then too little room for what lines the tape could have.
pub fn run_tape(
    thresholds: &[u32],
    cells: &mut [u32],
    rights: &mut [u32],
    rows: &[PolicyRow],
    tape: &[u8],
    room: usize,
    lines: &mut Vec<u8>,
) -> Result<(), u8> {
    let (order, policies) = prepare(thresholds, cells.len(), rows)?;
    let mut engine = Engine::new(cells, rights, order, &policies)?;
    if room < most_bytes_of_lines(tape) {
        return Err(12);
    }
    if tape.len() > 60_000 {
        lines.extend_from_slice(b"F 13 0 0\n");
        return Ok(());
    }
    let (mut at, mut number) = (0, 1);
    while at < tape.len() {
        match request(&tape[at..]) {
            Ok((request, length)) => {
                writeln!(lines, "{}", engine.call(request)).expect("a vector takes all");
                at += length;
                number += 1;
            }
            Err(fault) => {
                writeln!(lines, "F {fault} {number} {at}").expect("a vector takes all");
                break;
            }
        }
    }
    Ok(())
}
