//! The table of times, and whether the wanted bounds hold.
use crate::day::{SetUp, request};
use crate::days::{depot, largest, mixed, one_by_one, openings};
use crate::engine::Request;
use crate::kinds::Kinds;
use crate::sqlite::{self, Sqlite};
use crate::timing::{Day, ROOM, Times, run_by_hand, run_ours};

fn requests(tape: &[u8]) -> Vec<Request> {
    let (mut at, mut requests) = (0, vec![]);
    while at < tape.len() {
        let (request, length) = request(&tape[at..]).expect("a sound tape");
        requests.push(request);
        at += length;
    }
    requests
}

fn kinds_of(day: &Day) -> Kinds {
    let (mut lines, mut kinds) = (vec![], Kinds::default());
    run_by_hand(&mut day.set_up.clone(), &day.tape, &mut lines);
    kinds.count(&lines);
    kinds
}

fn heading(of: &str, others: &str) {
    println!("\n  {:<32} {:>7}  {:<20} {:<20} {:>5}{others}", "day", of, "ours", "by hand", "ratio");
}

fn print(name: &str, day: &Day) {
    let cell = |times: &Times| format!("{:6.0} ({:.0}..{:.0})", times.median(), times.share(10), times.share(90));
    print!("  {name:<32} {:>7}  {:<20} {:<20} {:>5.2}", day.count, cell(&day.ours), cell(&day.hand), day.ours.ratio_to(&day.hand));
    for times in day.sqlite.iter().filter(|times| !times.is_empty()) {
        print!("  {:<22} {:>5.1}", cell(times), times.ratio_to(&day.ours));
    }
    println!();
}

fn verdict(what: &str, measured: f64, holds: bool) {
    println!("  {}  {measured:6.2}  {what}", if holds { "holds        " } else { "DOES NOT HOLD" });
}

/// SQLite's lines and its cells in the evening are the engine's.
fn check_sqlite(day: &Day, store: &mut Sqlite) {
    let mut evening = day.set_up.clone();
    let (mut ours, mut theirs) = (vec![0; ROOM], vec![0; ROOM]);
    let used = run_ours(&mut evening, &day.tape, &mut ours);
    ours.truncate(used);
    store.cells.copy_from_slice(&day.set_up.cells);
    store.put_cells();
    let used = store.run_tape(&day.tape, &mut theirs);
    theirs.truncate(used);
    if ours != theirs || store.get_cells() != evening.cells {
        let (ours, theirs) = (String::from_utf8_lossy(&ours), String::from_utf8_lossy(&theirs));
        println!("SQLite differs:\nours {:?}\n{ours}\nSQLite {:?}\n{theirs}", evening.cells, store.get_cells());
        std::process::exit(1);
    }
}

/// The days of calls by name: a mixed one and one of openings and commits, both at growing lengths, and a mixed one on the largest set-up.
fn days_of_calls() -> Vec<(&'static str, Day)> {
    let depot = depot();
    let day = |set_up: &SetUp, tape: Vec<u8>| {
        let count = requests(&tape).len();
        Day::new(set_up, tape, count)
    };
    let mut days = vec![];
    for records in [1000, 4000, 12_000] {
        days.push(("mixed", day(&depot, mixed(&depot, records))));
    }
    days.push(("mixed, largest set-up, ladder", day(&largest(), mixed(&largest(), 12_000))));
    for records in [1000, 4000, 12_000] {
        days.push(("openings and commits", day(&depot, openings(records))));
    }
    days
}

fn print_calls(days: &[(&str, Day)], repetitions: usize) {
    println!("\nA call in ns of processor time: the median of {repetitions} runs by turns, and in brackets the range without the lowest and the highest tenth; a ratio");
    println!("is the median of the turns' ratios. Each run is a whole tape, from bytes to lines. The mixed day has up to 16 transactions beside each other on 64");
    println!("cells and 56 policies, in the vector order; the largest set-up has 256 cells and 64 policies. The longest mixed day has");
    println!("{}.", kinds_of(&days[2].1));
    heading("calls", "");
    for (name, day) in days {
        print(name, day);
    }
}

/// A day of transactions one after another, which SQLite works too.
fn day_of_transactions(repetitions: usize, room: &mut [u8]) -> Day {
    let depot = depot();
    let count = 810;
    let mut day = Day::new(&depot, one_by_one(count), count.into());
    let mut stores = [true, false].map(|journal| Sqlite::new(journal, &depot));
    for store in &mut stores {
        check_sqlite(&day, store);
    }
    for _ in 0..repetitions {
        day.take_turn(room);
        day.take_sqlite_turn(&mut stores, room);
    }
    day
}

fn print_transactions(day: &Day) {
    let requests = requests(&day.tape);
    let reads = requests.iter().filter(|request| matches!(request, Request::Read(..))).count();
    println!("\nA transaction in ns, one after another on the same 64 cells and 56 policies: each opens, deploys two policies, reads four times, writes twice and");
    println!("commits. SQLite {} in memory writes the same {} lines, {reads} of them of reads, and leaves the same cells. Without a journal it could give", sqlite::version(), requests.len());
    println!("up no transaction.");
    heading("trans.", "  SQLite, with a journal  times  SQLite, without one    times");
    print("one transaction after another", day);
}

pub fn run(repetitions: usize) {
    let mut room = vec![0; ROOM];
    let mut days = days_of_calls();
    for _ in 0..repetitions {
        for (_, day) in &mut days {
            day.take_turn(&mut room);
        }
    }
    print_calls(&days, repetitions);
    let day = day_of_transactions(repetitions, &mut room);
    print_transactions(&day);

    println!("\nBounds");
    let all = days.iter().map(|(_, day)| day).chain([&day]);
    let worst = all.map(|day| day.ours.ratio_to(&day.hand)).fold(0.0, f64::max);
    verdict("times the engine by hand per call, on the day where that is most; wanted: at most 1.5", worst, worst <= 1.5);
    let [journal, none] = [0, 1].map(|at| day.sqlite[at].ratio_to(&day.ours));
    verdict("times as fast as SQLite with a journal, per transaction; wanted: at least 20", journal, journal >= 20.0);
    verdict("times as fast as SQLite without one, per transaction; wanted: at least 20", none, none >= 20.0);
    for (name, [short, long]) in [("mixed", [0, 2]), ("openings and commits", [4, 6])] {
        let growth = days[long].1.ours.ratio_to(&days[short].1.ours);
        verdict(&format!("times the cost per call of 1,000 records on the longest tape, {name}; wanted: no growth (at most 1.1)"), growth, growth <= 1.1);
    }
}
