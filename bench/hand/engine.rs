//! The engine's rules (docs/RULES.md) once more, by hand, in ordinary Rust: no proof, and no line shared with the proved crates.
//! It is there to be compared with them.

use std::fmt;

pub const READ: usize = 0;
pub const RELAX: usize = 1;
pub const RESTRICT: usize = 2;
pub const DEPLOY: usize = 3;

#[derive(Clone, Copy, PartialEq)]
enum Says {
    Yes,
    No,
    Signal,
}

/// What a held lock on a policy (row) says to one that is asked for (column): read, relax, restrict, deploy.
const POLICY_LOCKS: [[Says; 4]; 4] = [
    [Says::Yes, Says::No, Says::No, Says::Yes],
    [Says::No, Says::No, Says::No, Says::No],
    [Says::No, Says::No, Says::No, Says::No],
    [Says::Yes, Says::Yes, Says::Signal, Says::Yes],
];

#[derive(Clone, Copy, PartialEq)]
pub enum Object {
    Cell(u16),
    Policy(u16),
}

#[derive(Clone, Copy)]
pub struct Policy {
    pub subject: u16,
    pub object: Object,
}

#[derive(Clone, Copy)]
pub enum Order {
    Vector,
    Ladder([u32; 3]),
}

impl Order {
    /// The vector order of no thresholds, and the ladder of three from 1 to 100.
    pub fn of(thresholds: &[u32]) -> Result<Order, u8> {
        match *thresholds {
            [] => Ok(Order::Vector),
            [a, b, c] if thresholds.iter().all(|t| (1..=100).contains(t)) => Ok(Order::Ladder([a, b, c])),
            _ => Err(17),
        }
    }

    fn is_right(self, code: u32) -> bool {
        match self {
            Order::Vector => code <= 7,
            Order::Ladder(_) => code <= 100,
        }
    }

    fn join(self, a: u32, b: u32) -> u32 {
        if !self.is_right(a) || !self.is_right(b) {
            return 0;
        }
        match self {
            Order::Vector => a | b,
            Order::Ladder(_) => a.max(b),
        }
    }

    fn permits(self, right: u32, operation: usize) -> bool {
        self.is_right(right)
            && match self {
                Order::Vector => right & [4, 2, 1][operation] != 0,
                Order::Ladder(thresholds) => right >= thresholds[operation],
            }
    }
}

#[derive(Clone, Copy)]
pub enum Request {
    Open(u16),
    Deploy(u16, u16),
    Read(u16, u16),
    Write(u16, u16, u32),
    Show(u16, u16),
    Set(u16, u16, u32),
    Commit(u16),
    GiveUp(u16),
}

#[derive(Clone, Copy, PartialEq, Debug)]
pub enum Answer {
    Granted(u32),
    Wait(u16),
    Refused(u8),
    Aborted(u16, u16),
}

impl fmt::Display for Answer {
    fn fmt(&self, f: &mut fmt::Formatter) -> fmt::Result {
        match self {
            Answer::Granted(n) => write!(f, "G {n}"),
            Answer::Wait(t) => write!(f, "W {t}"),
            Answer::Refused(n) => write!(f, "R {n}"),
            Answer::Aborted(t, p) => write!(f, "S {t} {p}"),
        }
    }
}

struct Transaction {
    number: u16,
    subject: u16,
    /// Locks as pairs of a mode and a number: on cells (false is read, true is write), and on policies.
    cells: Vec<(bool, u16)>,
    policies: Vec<(usize, u16)>,
    changes: Vec<(Object, u32)>,
}

enum Slot {
    Free,
    Open(Transaction),
    Aborted { number: u16, by: u16, policy: u16 },
}

pub struct Engine<'a> {
    cells: &'a mut [u32],
    rights: &'a mut [u32],
    policies: &'a [Policy],
    order: Order,
    slots: Vec<Slot>,
    opened: u32,
    commits: u32,
}

impl<'a> Engine<'a> {
    /// What set-up refuses, or an engine.
    pub fn new(cells: &'a mut [u32], rights: &'a mut [u32], order: Order, policies: &'a [Policy]) -> Result<Engine<'a>, u8> {
        if cells.len() > 256 || policies.len() > 64 {
            return Err(14);
        }
        let absent = |p: &Policy| match p.object {
            Object::Cell(c) => c as usize >= cells.len(),
            Object::Policy(q) => q as usize >= policies.len(),
        };
        if policies.len() != rights.len() || policies.iter().any(absent) {
            return Err(15);
        }
        if rights.iter().any(|r| !order.is_right(*r)) {
            return Err(16);
        }
        let slots = (0..16).map(|_| Slot::Free).collect();
        Ok(Engine { cells, rights, policies, order, slots, opened: 0, commits: 0 })
    }

    pub fn call(&mut self, request: Request) -> Answer {
        let number = match request {
            Request::Open(subject) => return self.open(subject),
            Request::Deploy(t, _) | Request::Read(t, _) | Request::Write(t, _, _) | Request::Show(t, _) => t,
            Request::Set(t, _, _) | Request::Commit(t) | Request::GiveUp(t) => t,
        };
        let Some(at) = self.slots.iter().position(|s| match s {
            Slot::Free => false,
            Slot::Open(x) => x.number == number,
            Slot::Aborted { number: n, .. } => *n == number,
        }) else {
            return Answer::Refused(3);
        };
        if let Slot::Aborted { by, policy, .. } = self.slots[at] {
            if let Request::Commit(_) | Request::GiveUp(_) = request {
                self.slots[at] = Slot::Free;
            }
            return Answer::Aborted(by, policy);
        }
        match request {
            Request::Open(_) => unreachable!(),
            Request::Deploy(_, p) => self.deploy(at, p),
            Request::Read(_, c) => self.read(at, c),
            Request::Write(_, c, v) => self.write(at, c, v),
            Request::Show(_, p) => self.show(at, p),
            Request::Set(_, p, r) => self.set(at, p, r),
            Request::Commit(_) => self.commit(at),
            Request::GiveUp(_) => {
                self.slots[at] = Slot::Free;
                Answer::Granted(0)
            }
        }
    }

    fn open(&mut self, subject: u16) -> Answer {
        if self.opened == 50_000 {
            return Answer::Refused(1);
        }
        let Some(at) = self.slots.iter().position(|s| matches!(s, Slot::Free)) else {
            return Answer::Refused(2);
        };
        self.opened += 1;
        self.slots[at] = Slot::Open(Transaction {
            number: self.opened as u16,
            subject,
            cells: vec![],
            policies: vec![],
            changes: vec![],
        });
        Answer::Granted(self.opened)
    }

    fn at(&self, at: usize) -> &Transaction {
        match &self.slots[at] {
            Slot::Open(x) => x,
            _ => unreachable!(),
        }
    }

    fn at_mut(&mut self, at: usize) -> &mut Transaction {
        match &mut self.slots[at] {
            Slot::Open(x) => x,
            _ => unreachable!(),
        }
    }

    fn permitted(&self, at: usize, object: Object, operation: usize) -> bool {
        self.at(at).policies.iter().any(|(mode, p)| {
            *mode == DEPLOY
                && self.policies[*p as usize].object == object
                && self.order.permits(self.rights[*p as usize], operation)
        })
    }

    fn full(&self, at: usize, object: Object) -> bool {
        let changes = &self.at(at).changes;
        changes.len() == 16 && !changes.iter().any(|(o, _)| *o == object)
    }

    fn change(&mut self, at: usize, object: Object, value: u32) {
        let changes = &mut self.at_mut(at).changes;
        match changes.iter_mut().find(|(o, _)| *o == object) {
            Some((_, v)) => *v = value,
            None => changes.push((object, value)),
        }
    }

    fn seen(&self, at: usize, object: Object) -> u32 {
        match self.at(at).changes.iter().find(|(o, _)| *o == object) {
            Some((_, v)) => *v,
            None => match object {
                Object::Cell(c) => self.cells[c as usize],
                Object::Policy(p) => self.rights[p as usize],
            },
        }
    }

    fn others(&self, at: usize) -> impl Iterator<Item = (usize, &Transaction)> {
        self.slots.iter().enumerate().filter_map(move |(k, s)| match s {
            Slot::Open(x) if k != at => Some((k, x)),
            _ => None,
        })
    }

    /// The lock on a cell, or the lowest-numbered transaction to wait for.
    fn lock_cell(&mut self, at: usize, write: bool, cell: u16) -> Result<(), u16> {
        if self.at(at).cells.contains(&(write, cell)) {
            return Ok(());
        }
        let no = |x: &Transaction| x.cells.iter().any(|(w, c)| *c == cell && (*w || write));
        match self.others(at).filter(|(_, x)| no(x)).map(|(_, x)| x.number).min() {
            Some(number) => Err(number),
            None => {
                self.at_mut(at).cells.push((write, cell));
                Ok(())
            }
        }
    }

    /// The lock on a policy and how many it struck, or the lowest-numbered transaction to wait for.
    fn lock_policy(&mut self, at: usize, mode: usize, policy: u16) -> Result<u32, u16> {
        if self.at(at).policies.contains(&(mode, policy)) {
            return Ok(0);
        }
        let says = |x: &Transaction, what: Says| {
            x.policies.iter().any(|(held, p)| *p == policy && POLICY_LOCKS[*held][mode] == what)
        };
        if let Some(number) = self.others(at).filter(|(_, x)| says(x, Says::No)).map(|(_, x)| x.number).min() {
            return Err(number);
        }
        let struck: Vec<usize> = self.others(at).filter(|(_, x)| says(x, Says::Signal)).map(|(k, _)| k).collect();
        let by = self.at(at).number;
        for k in &struck {
            let number = self.at(*k).number;
            self.slots[*k] = Slot::Aborted { number, by, policy };
        }
        self.at_mut(at).policies.push((mode, policy));
        Ok(struck.len() as u32)
    }

    fn deploy(&mut self, at: usize, policy: u16) -> Answer {
        let Some(p) = self.policies.get(policy as usize) else {
            return Answer::Refused(4);
        };
        if p.subject != self.at(at).subject {
            return Answer::Refused(5);
        }
        match self.lock_policy(at, DEPLOY, policy) {
            Ok(_) => Answer::Granted(0),
            Err(t) => Answer::Wait(t),
        }
    }

    fn read(&mut self, at: usize, cell: u16) -> Answer {
        if cell as usize >= self.cells.len() {
            return Answer::Refused(4);
        }
        if !self.permitted(at, Object::Cell(cell), 0) {
            return Answer::Refused(6);
        }
        match self.lock_cell(at, false, cell) {
            Ok(()) => Answer::Granted(self.seen(at, Object::Cell(cell))),
            Err(t) => Answer::Wait(t),
        }
    }

    fn write(&mut self, at: usize, cell: u16, value: u32) -> Answer {
        if cell as usize >= self.cells.len() {
            return Answer::Refused(4);
        }
        if !self.permitted(at, Object::Cell(cell), 1) {
            return Answer::Refused(6);
        }
        if self.full(at, Object::Cell(cell)) {
            return Answer::Refused(7);
        }
        match self.lock_cell(at, true, cell) {
            Ok(()) => {
                self.change(at, Object::Cell(cell), value);
                Answer::Granted(0)
            }
            Err(t) => Answer::Wait(t),
        }
    }

    fn show(&mut self, at: usize, policy: u16) -> Answer {
        if policy as usize >= self.policies.len() {
            return Answer::Refused(4);
        }
        if !self.permitted(at, Object::Policy(policy), 0) {
            return Answer::Refused(6);
        }
        match self.lock_policy(at, READ, policy) {
            Ok(_) => Answer::Granted(self.seen(at, Object::Policy(policy))),
            Err(t) => Answer::Wait(t),
        }
    }

    fn set(&mut self, at: usize, policy: u16, right: u32) -> Answer {
        if policy as usize >= self.policies.len() {
            return Answer::Refused(4);
        }
        if !self.order.is_right(right) {
            return Answer::Refused(8);
        }
        let relaxes = self.order.join(self.rights[policy as usize], right) == right;
        if !self.permitted(at, Object::Policy(policy), if relaxes { 1 } else { 2 }) {
            return Answer::Refused(6);
        }
        if self.full(at, Object::Policy(policy)) {
            return Answer::Refused(7);
        }
        match self.lock_policy(at, if relaxes { RELAX } else { RESTRICT }, policy) {
            Ok(struck) => {
                self.change(at, Object::Policy(policy), right);
                Answer::Granted(struck)
            }
            Err(t) => Answer::Wait(t),
        }
    }

    fn commit(&mut self, at: usize) -> Answer {
        for (object, value) in std::mem::take(&mut self.at_mut(at).changes) {
            match object {
                Object::Cell(c) => self.cells[c as usize] = value,
                Object::Policy(p) => self.rights[p as usize] = value,
            }
        }
        self.slots[at] = Slot::Free;
        self.commits += 1;
        Answer::Granted(self.commits)
    }
}
