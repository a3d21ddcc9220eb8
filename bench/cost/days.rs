//! The days that are timed.
use crate::day::{PolicyRow, SetUp};
use crate::engine::Request;
use crate::random::{Manner, Random, put, whole_tape};

const SUBJECTS: u16 = 12;

/// A depot with 64 cells and 56 policies: each of twelve subjects has four policies on cells, the last of them on a cell that the next
/// subject has too, and a thirteenth subject has eight policies on policies.
pub fn depot() -> SetUp {
    let mut policies = vec![];
    for subject in 0..SUBJECTS {
        for at in 0..4 {
            policies.push(PolicyRow { subject, kind: 0, number: (3 * subject + at) % (3 * SUBJECTS) });
        }
    }
    for at in 0..8 {
        policies.push(PolicyRow { subject: SUBJECTS, kind: 1, number: 6 * at });
    }
    let rights = policies.iter().map(|policy| if policy.kind == 0 { 6 } else { 7 }).collect();
    SetUp { thresholds: vec![], cells: vec![0; 64], rights, policies }
}

/// The largest set-up, in the ladder order: 256 cells and 64 policies, four for each of sixteen subjects.
pub fn largest() -> SetUp {
    let policies: Vec<PolicyRow> = (0..64).map(|at| PolicyRow { subject: at / 4, kind: 0, number: 4 * at + 3 }).collect();
    SetUp { thresholds: vec![10, 20, 30], cells: vec![0; 256], rights: vec![25; policies.len()], policies }
}

/// A day of up to 16 transactions beside each other: so many records, or as many as fit.
pub fn mixed(set_up: &SetUp, records: usize) -> Vec<u8> {
    let manner = Manner { crowd: 16, shares: [0, 8, 16, 12, 1, 2, 4, 1], astray: 50 };
    whole_tape(&mut Random::of_day(1), set_up, manner, records, 60_000)
}

/// A day of openings and commits by turns.
pub fn openings(records: usize) -> Vec<u8> {
    let mut tape = vec![];
    for number in 1..=records as u16 / 2 {
        put(&mut tape, Request::Open(0));
        put(&mut tape, Request::Commit(number));
    }
    tape
}

/// A day of transactions one after another: each opens, deploys two policies, reads four times, writes twice, and commits.
pub fn one_by_one(transactions: u16) -> Vec<u8> {
    let random = &mut Random::of_day(2);
    let mut tape = vec![];
    for number in 1..=transactions {
        let subject = random.below(SUBJECTS.into()) as u16;
        let deployed = [random.below(2) as u16, 2 + random.below(2) as u16];
        let cell = |random: &mut Random| (3 * subject + deployed[random.below(2) as usize]) % (3 * SUBJECTS);
        put(&mut tape, Request::Open(subject));
        for at in deployed {
            put(&mut tape, Request::Deploy(number, 4 * subject + at));
        }
        for at in 0..6 {
            let cell = cell(random);
            put(&mut tape, match at {
                2 | 5 => Request::Write(number, cell, random.below(1 << 32) as u32),
                _ => Request::Read(number, cell),
            });
        }
        put(&mut tape, Request::Commit(number));
    }
    tape
}
