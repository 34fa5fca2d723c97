//! The proved library beside a plain engine in Rust: ratios of their times in the same run.

use std::time::Instant;

use bench::checks;
use bench::library;
use bench::random::Random;
use bench::records::{random_journal, Record, ACTIVATE, DETACH, SIGN_OF_LIFE};
use bench::sheets::{self, SheetTask};
use bench::states::{self, Case};
use bench::timing::{measure, median, ratio, Engine, Task};
use bench::words::{self, WORDS};

const LIBRARY: usize = 0;
const PLAIN: usize = 1;
const ENGINES: [Engine; 2] = [library::call, words::call];
const ROUNDS: usize = 200;

// Places of the states that others are compared with, and of the last one.
const EMPTY: usize = 0;
const DENSE: usize = 2;
const LESSER: usize = 8;

/// What is played on a case.
type Records = fn(&Case) -> &[Record];

fn main() {
    // Before the others: behind them the plain converter took up to twice its time in some runs.
    let sheets = sheets::measured(ROUNDS);

    let mut cases = vec![states::empty(), states::harvest(), states::dense()];
    cases.extend(states::chains());
    cases.push(states::lesser());

    let checked = checks::compare(&cases);
    println!(
        "{} calls compared on {} states and two random journals: equal answers and words",
        checked.calls,
        cases.len()
    );
    println!(
        "refusals 0 to 14 given: {:?}, verdict 1: {}, through a role that isn't active itself: {}",
        checked.refusals, checked.verdicts, checked.inherited
    );
    println!(
        "lesser roles activated: {}, active roles dropped: {}",
        checked.lesser, checked.dropped
    );

    let operations: [(&str, Records); 5] = [
        ("kind 21, verdict 1", |case| &case.allowed),
        ("kind 21, verdict 0", |case| &case.denied),
        ("grant and ungrant", |case| &case.grants),
        ("publish and unpublish", |case| &case.publications),
        ("sign of life", |_| &SIGN_OF_LIFE),
    ];
    let mut tables: Vec<Vec<Task>> = operations
        .iter()
        .map(|(_, records)| {
            let task = |case| Task::new(records(case), ENGINES, &case.state);
            cases.iter().map(task).collect()
        })
        .collect();
    let mut presses: Vec<Task> = cases.iter().map(press_task).collect();
    let lesser = &cases[LESSER];
    let mut detachments = Task::new(&lesser.detachments, ENGINES, &lesser.state);
    let mut tasks: Vec<&mut Task> = tables.iter_mut().flatten().collect();
    tasks.extend(&mut presses);
    tasks.push(&mut detachments);
    measure(&mut tasks, ROUNDS);
    for ((operation, _), table) in operations.iter().zip(&tables) {
        print_table(operation, &cases, table);
    }
    print_presses(&cases, &presses);
    print_detachments(lesser, &detachments);
    journal();
    print_sheets(&sheets);
}

/// The questions with verdict 1 that an action may put, on a press and by themselves. An action tells no role.
fn press_task(case: &Case) -> Task {
    let questions = case.allowed.iter().filter(|record| record[5] <= 4);
    let questions: Vec<Record> = questions.cloned().collect();
    Task::new(&questions, [library::press, library::verdict], &case.state)
}

/// A line for each state: what an action on a press costs beside the kind 21 that it puts.
fn print_presses(cases: &[Case], tasks: &[Task]) {
    println!();
    println!(
        "{:<24}{:>14}{:>12}{:>12}",
        "action on a press", "press/call", "press ns", "call ns"
    );
    for (case, task) in cases.iter().zip(tasks) {
        println!(
            "{:<24}{:>14.2}{:>12.0}{:>12.0}",
            case.name,
            task.ratio(),
            task.time(0),
            task.time(1)
        );
    }
}

/// A line for each state: ratios first, then nanoseconds of a call.
fn print_table(operation: &str, cases: &[Case], table: &[Task]) {
    println!();
    println!(
        "{operation:<24}{:>14}{:>14}{:>14}{:>14}{:>12}{:>12}",
        "library/plain", "library/empty", "plain/empty", "library/dense", "library ns", "plain ns"
    );
    for (case, task) in cases.iter().zip(table) {
        println!(
            "{:<24}{:>14.2}{:>14.2}{:>14.2}{:>14.2}{:>12.0}{:>12.0}",
            case.name,
            task.ratio(),
            task.growth(&table[EMPTY], LIBRARY),
            task.growth(&table[EMPTY], PLAIN),
            task.growth(&table[DENSE], LIBRARY),
            task.time(LIBRARY),
            task.time(PLAIN)
        );
    }
}

/// Calls that break the reach of active roles, and calls that restore it and them.
fn print_detachments(case: &Case, task: &Task) {
    let of_kind = |kind: u16| {
        let records = case.detachments.iter();
        records.filter(|r| r[2..4] == kind.to_le_bytes()).count()
    };
    println!();
    println!(
        "{}, {} roles detached and attached, {} active roles dropped and activated again: time library/plain {:.2}; nanoseconds a call: library {:.0}, plain {:.0}",
        case.name,
        of_kind(DETACH),
        of_kind(ACTIVATE),
        task.ratio(),
        task.time(LIBRARY),
        task.time(PLAIN)
    );
}

/// A long random journal, played from starting by each engine in turn.
fn journal() {
    let journal = random_journal(&mut Random::new(2), 20_000);
    let mut times = [vec![], vec![]];
    for number in 0..15 {
        let mut ends = [vec![0; WORDS], vec![0; WORDS]];
        let mut sums = [0; 2];
        for turn in 0..2 {
            let engine = (number + turn) % 2;
            library::start(&mut ends[engine]);
            let begin = Instant::now();
            for record in &journal {
                sums[engine] += ENGINES[engine](&mut ends[engine], record);
            }
            times[engine].push(begin.elapsed().as_nanos() as f64);
        }
        assert!(
            sums[0] == sums[1] && ends[0] == ends[1],
            "the engines differ"
        );
    }
    let rate = |engine: usize| {
        let seconds = median(times[engine].clone()) / 1e9;
        journal.len() as f64 / seconds
    };
    println!();
    println!(
        "random journal of {} records: time library/plain {:.2}; records a second: library {:.0}, plain {:.0}",
        journal.len(),
        ratio(&times[LIBRARY], &times[PLAIN]),
        rate(LIBRARY),
        rate(PLAIN)
    );
}

/// A line for each sheet: its size, the ratio of the times, and bytes of the sheet a second.
fn print_sheets(tasks: &[SheetTask]) {
    println!();
    println!(
        "{:<24}{:>14}{:>14}{:>14}{:>18}{:>18}",
        "sheet", "bytes", "rows", "library/plain", "library bytes/s", "plain bytes/s"
    );
    for task in tasks {
        println!(
            "{:<24}{:>14}{:>14}{:>14.2}{:>18.0}{:>18.0}",
            task.name,
            task.csv.len(),
            task.rows,
            task.ratio(),
            task.rate(LIBRARY),
            task.rate(PLAIN)
        );
    }
}
