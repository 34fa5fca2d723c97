//! The same decisions by the library, by SQLite and by Casbin, on the dense state.
//! A call of the library also checks the law of the whole state; the other two only decide.

mod casbin;
mod policy;
mod sqlite;

use std::time::Instant;

use bench::answer;
use bench::library;
use bench::random::Random;
use bench::records::{record, Record, MAY_USE};
use bench::states;
use bench::timing::{median, ratio};
use policy::{Decision, Policy};
use sqlite::Database;

const DECISIONS: usize = 512;
const ROUNDS: usize = 15;

fn main() {
    let program = std::env::args().nth(1).expect("the Casbin program");
    let mut state = states::dense().state;
    let policy = Policy::of(&state);
    let decisions = decide(&mut state);
    let yes = decisions.iter().filter(|decision| decision.verdict).count();

    let database = Database::new(&policy);
    let mut queries = [database.downwards(), database.upwards()];
    for query in &mut queries {
        for decision in &decisions {
            assert_eq!(
                query.ask(decision),
                decision.verdict,
                "SQLite, {decision:?}"
            );
        }
    }
    let mut enforcer = casbin::Enforcer::new(&program, &policy, &decisions);
    enforcer.round();
    println!("{DECISIONS} decisions, {yes} of them yes: all three agree");

    let records: Vec<Record> = decisions.iter().map(Decision::record).collect();
    let mut times = [vec![], vec![], vec![], vec![]];
    for _ in 0..ROUNDS {
        times[0].push(nanoseconds(|n| {
            library::call(&mut state, &records[n]);
        }));
        for (query, times) in queries.iter_mut().zip(&mut times[1..]) {
            times.push(nanoseconds(|n| {
                query.ask(&decisions[n]);
            }));
        }
        times[3].push(enforcer.round());
    }
    println!("{:<40}{:>14}{:>16}", "", "peer/library", "ns a decision");
    for (name, times_of) in [
        "library, with the law check",
        "SQLite, down from the active roles",
        "SQLite, up from the roles that hold it",
        "Casbin",
    ]
    .iter()
    .zip(&times)
    {
        let ratio = ratio(times_of, &times[0]);
        println!("{name:<40}{ratio:>14.1}{:>16.0}", median(times_of.clone()));
    }
}

/// Random decisions and the library's verdicts.
fn decide(state: &mut [u16]) -> Vec<Decision> {
    let mut random = Random::new(512);
    (0..DECISIONS)
        .map(|_| {
            let [issuer, session] = [random.below(16), random.below(16)];
            let [owner, permission] = [random.below(16), random.below(16)];
            let question = record(MAY_USE, owner, &[permission, issuer, session]);
            let answer = library::call(state, &question);
            assert_eq!(answer::refusal(answer), 0, "{question:?}");
            let verdict = answer::verdict(answer) == 1;
            Decision {
                issuer,
                session,
                owner,
                permission,
                verdict,
            }
        })
        .collect()
}

/// Nanoseconds of one decision, all of them asked.
fn nanoseconds(mut ask: impl FnMut(usize)) -> f64 {
    let begin = Instant::now();
    (0..DECISIONS).for_each(&mut ask);
    begin.elapsed().as_nanos() as f64 / DECISIONS as f64
}
