//! Random set-ups, and random tapes whose records mostly mean something to the set-up at hand: the engine by hand works along, so that
//! a record names a transaction that is open, a policy of its subject, or an object that it has deployed a policy of.
use crate::day::{PolicyRow, SetUp, prepare};
use crate::engine::{Answer, Engine, Request};

pub struct Random(pub u64);

impl Random {
    /// The generator of a day by its number.
    pub fn of_day(number: u64) -> Random {
        Random(number.wrapping_mul(0x9E3779B97F4A7C15))
    }

    pub fn below(&mut self, n: u64) -> u64 {
        self.0 = self.0.wrapping_mul(6364136223846793005).wrapping_add(1442695040888963407);
        (self.0 >> 33) % n
    }

    fn one_in(&mut self, n: u64) -> bool {
        self.below(n) == 0
    }

    fn of<T: Copy>(&mut self, choices: &[T]) -> Option<T> {
        if choices.is_empty() { None } else { Some(choices[self.below(choices.len() as u64) as usize]) }
    }
}

/// Four cells and two policies: the set-up of daytape.
pub fn four_cells() -> SetUp {
    SetUp {
        thresholds: vec![],
        cells: vec![0; 4],
        rights: vec![6, 7],
        policies: vec![
            PolicyRow { subject: 1, kind: 0, number: 0 },
            PolicyRow { subject: 9, kind: 1, number: 0 },
        ],
    }
}

/// A right that is mostly one of the order, and mostly a strong one.
fn right(random: &mut Random, vector: bool) -> u32 {
    match (random.below(8), vector) {
        (0, true) => random.below(9) as u32,
        (1 | 2, true) => random.below(8) as u32,
        (_, true) => [7, 7, 6, 4][random.below(4) as usize],
        (0, false) => random.below(103) as u32,
        (1 | 2, false) => random.below(101) as u32,
        (_, false) => 60 + random.below(41) as u32,
    }
}

fn thresholds(random: &mut Random) -> Vec<u32> {
    if random.one_in(2) {
        return vec![];
    }
    let count = if random.one_in(40) { random.below(5) } else { 3 };
    let odd = random.one_in(16);
    let threshold = |_| match random.below(8) {
        0 if odd => [0, 101, u32::MAX][random.below(3) as usize],
        1 => 1 + random.below(100) as u32,
        _ => 1 + random.below(70) as u32,
    };
    (0..count).map(threshold).collect()
}

/// A policy on a cell or on a policy. Of many cells it takes one of the first or of the last.
fn policy(random: &mut Random, subjects: u64, cells: u64, policies: u64) -> PolicyRow {
    let subject = random.below(subjects) as u16;
    if cells == 0 || random.one_in(3) {
        return PolicyRow { subject, kind: 1, number: random.below(policies) as u16 };
    }
    let near = random.below(cells.min(16));
    PolicyRow { subject, kind: 0, number: if random.one_in(2) { near } else { cells - 1 - near } as u16 }
}

/// A set-up that is mostly sound: one in twelve may have an object that is not there, a kind that is none, a code that is no right, or
/// lists of different lengths.
pub fn set_up(random: &mut Random) -> SetUp {
    let thresholds = thresholds(random);
    let vector = thresholds.is_empty();
    let (few, many) = (random.below(13), random.below(67));
    let count = if random.one_in(5) { many } else { few };
    let (few, many) = (random.below(9), random.below(301));
    let cells = if random.one_in(if count > 16 { 2 } else { 8 }) { many } else { few };
    let subjects = [1, 2, 4][random.below(3) as usize];
    let mut policies: Vec<PolicyRow> = (0..count).map(|_| policy(random, subjects, cells, count)).collect();
    let mut rights: Vec<u32> = (0..count).map(|_| right(random, vector).min(if vector { 7 } else { 100 })).collect();
    if random.one_in(12) && count > 0 {
        let at = random.below(count) as usize;
        match random.below(8) {
            0 => policies[at].kind = 2 + random.below(2) as u16,
            1 | 2 => policies[at].number = random.below(65_536) as u16,
            3 | 4 => rights[at] = random.below(200) as u32,
            5 => rights[at] = u32::MAX,
            6 => rights.push(1),
            _ => rights.truncate(count as usize - 1),
        }
    }
    SetUp { thresholds, cells: (0..cells).map(|_| random.below(1 << 32) as u32).collect(), rights, policies }
}

/// A transaction that the tape has opened and not yet ended, with the policies that it deployed.
struct Live {
    number: u16,
    subject: u16,
    deployed: Vec<u16>,
}

/// What a tape is like: how many transactions stand open beside each other, and how often each of the eight requests comes.
pub struct Manner {
    pub crowd: usize,
    pub shares: [u64; 8],
    /// One number in so many is any number, and none that would mean something.
    pub astray: u64,
}

impl Manner {
    fn any(random: &mut Random, set_up: &SetUp) -> Manner {
        // Few who change much, for a 17th change.
        if set_up.policies.len() > 16 && random.one_in(2) {
            return Manner { crowd: 1 + random.below(2) as usize, shares: [0, 30, 2, 40, 2, 20, 1, 0], astray: 64 };
        }
        let crowd = [1, 2, 3, 8, 16, 17][random.below(6) as usize];
        let shares = match random.below(3) {
            0 => [2, 5, 5, 5, 2, 3, 2, 1],
            1 => [2, 6, 2, 2, 4, 8, 1, 1],
            _ => [1, 1, 1, 1, 1, 1, 1, 1],
        };
        Manner { crowd, shares, astray: [8, 16, 64][random.below(3) as usize] }
    }
}

/// Makes one record after another, and is told what each was answered.
pub struct Author<'a> {
    set_up: &'a SetUp,
    manner: Manner,
    live: Vec<Live>,
}

impl<'a> Author<'a> {
    pub fn new(set_up: &'a SetUp, manner: Manner) -> Author<'a> {
        Author { set_up, manner, live: vec![] }
    }

    fn pick(&self, random: &mut Random) -> usize {
        let shares = self.manner.shares;
        let mut at = random.below(shares.iter().sum());
        shares.iter().position(|share| {
            let here = at < *share;
            at = at.saturating_sub(*share);
            here
        }).expect("a request")
    }

    /// The number of an object of this kind of which the transaction has deployed a policy.
    fn object(&self, random: &mut Random, live: &Live, kind: u16) -> Option<u16> {
        let policies = live.deployed.iter().map(|p| self.set_up.policies[*p as usize]);
        let numbers: Vec<u16> = policies.filter(|row| row.kind == kind).map(|row| row.number).collect();
        random.of(&numbers)
    }

    fn policy_of(&self, random: &mut Random, subject: u16) -> Option<u16> {
        let policies = self.set_up.policies.iter().enumerate();
        let numbers: Vec<u16> = policies.filter(|(_, row)| row.subject == subject).map(|(at, _)| at as u16).collect();
        random.of(&numbers)
    }

    pub fn next(&mut self, random: &mut Random) -> Request {
        let astray = random.one_in(self.manner.astray);
        let few = self.live.len() < self.manner.crowd && random.one_in(4);
        let kind = if few || (self.live.is_empty() && !astray) { 0 } else { self.pick(random) };
        if kind == 0 {
            let subjects: Vec<u16> = self.set_up.policies.iter().map(|row| row.subject).collect();
            let subject = if astray { None } else { random.of(&subjects) };
            return Request::Open(subject.unwrap_or(random.below(5) as u16));
        }
        let nobody = Live { number: random.below(9) as u16, subject: 0, deployed: vec![] };
        let live = match self.live.len() {
            0 => &nobody,
            _ if astray && random.one_in(3) => &nobody,
            count => &self.live[random.below(count as u64) as usize],
        };
        let meant = match kind {
            _ if astray => None,
            1 => None,
            2 | 3 => self.object(random, live, 0),
            _ => self.object(random, live, 1),
        };
        // Who has deployed nothing of that kind deploys first.
        let (kind, meant) = match (kind, meant) {
            (1..=5, None) if !astray => (1, self.policy_of(random, live.subject)),
            _ => (kind, meant),
        };
        let most = if matches!(kind, 2 | 3) { self.set_up.cells.len() } else { self.set_up.policies.len() };
        let beyond = if astray { 2 } else { 0 };
        let number = meant.unwrap_or(random.below((most as u64 + beyond).max(1)) as u16);
        match kind {
            1 => Request::Deploy(live.number, number),
            2 => Request::Read(live.number, number),
            3 => Request::Write(live.number, number, random.below(1 << 32) as u32),
            4 => Request::Show(live.number, number),
            5 => Request::Set(live.number, number, right(random, self.set_up.thresholds.is_empty())),
            6 => Request::Commit(live.number),
            _ => Request::GiveUp(live.number),
        }
    }

    pub fn told(&mut self, request: Request, answer: Answer) {
        match (request, answer) {
            (Request::Open(subject), Answer::Granted(number)) => {
                self.live.push(Live { number: number as u16, subject, deployed: vec![] });
            }
            (Request::Deploy(number, policy), Answer::Granted(_)) => {
                let live = self.live.iter_mut().find(|live| live.number == number).expect("it is open");
                live.deployed.push(policy);
            }
            (Request::Commit(number) | Request::GiveUp(number), Answer::Granted(_) | Answer::Aborted(..)) => {
                self.live.retain(|live| live.number != number);
            }
            _ => {}
        }
    }
}

/// The record of a request goes to the end of the tape.
pub fn put(tape: &mut Vec<u8>, request: Request) {
    let (tag, numbers, long) = match request {
        Request::Open(s) => (1, vec![s], None),
        Request::Deploy(t, p) => (2, vec![t, p], None),
        Request::Read(t, c) => (3, vec![t, c], None),
        Request::Write(t, c, v) => (4, vec![t, c], Some(v)),
        Request::Show(t, p) => (5, vec![t, p], None),
        Request::Set(t, p, r) => (6, vec![t, p], Some(r)),
        Request::Commit(t) => (7, vec![t], None),
        Request::GiveUp(t) => (8, vec![t], None),
    };
    let length = 2 * numbers.len() as u16 + if long.is_some() { 4 } else { 0 };
    tape.push(tag);
    tape.extend(length.to_be_bytes());
    tape.extend(numbers.iter().flat_map(|n| n.to_be_bytes()));
    tape.extend(long.iter().flat_map(|n| n.to_be_bytes()));
}

/// A tape of so many records, or of as many as fit into so many bytes.
pub fn whole_tape(random: &mut Random, set_up: &SetUp, manner: Manner, records: usize, bytes: usize) -> Vec<u8> {
    let (mut cells, mut rights) = (set_up.cells.clone(), set_up.rights.clone());
    let prepared = prepare(&set_up.thresholds, cells.len(), &set_up.policies);
    let mut engine = match &prepared {
        Ok((order, policies)) => Engine::new(&mut cells, &mut rights, *order, policies).ok(),
        Err(_) => None,
    };
    let mut author = Author::new(set_up, manner);
    let mut tape = vec![];
    for _ in 0..records {
        let request = author.next(random);
        let before = tape.len();
        put(&mut tape, request);
        if tape.len() > bytes {
            tape.truncate(before);
            break;
        }
        if let Some(engine) = &mut engine {
            author.told(request, engine.call(request));
        }
    }
    tape
}

/// A tape, whole or damaged, short or long or too long.
pub fn tape(random: &mut Random, set_up: &SetUp) -> Vec<u8> {
    let full = random.one_in(100);
    let records = match random.below(16) {
        _ if full => 12_000,
        0 | 1 => random.below(3),
        2 => random.below(7000),
        _ => random.below(250),
    };
    let manner = Manner::any(random, set_up);
    let mut bytes = whole_tape(random, set_up, manner, records as usize, 60_000);
    if random.one_in(4) && !bytes.is_empty() {
        let at = random.below(bytes.len() as u64) as usize;
        match random.below(3) {
            0 => bytes[at] = random.below(256) as u8,
            1 => bytes.truncate(at),
            _ => bytes.insert(at, random.below(256) as u8),
        }
    }
    if full {
        let length = 59_998 + random.below(5) as usize;
        while bytes.len() < length {
            put(&mut bytes, Request::Commit(1));
        }
        bytes.truncate(length);
    }
    bytes
}
