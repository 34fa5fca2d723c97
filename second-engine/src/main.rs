//! Random journals, pairs of histories, sheets and presses on `libyermoitu.a`, against a plain
//! second engine, a plain converter and a plain press that were written from the paper alone.
//!
//! `cargo run --release` plays 300,000 calls and 300 pairs of histories, converts 150,000 sheets
//! and asks 100,000 times at presses; `cargo test` tries the engine itself on the paper's cases,
//! the converter on the standard's rules, and the press on its card's. `build.rs` says where the
//! library is looked for.
//!
//! The engine: `places`, `sets`, `lawful`, `record`, `refusals`, `through`, `cascades`, `engine`.
//! The journals: `worlds`, `ways`, `records`, `aims`, `lawful_states`, `damage`, `journals`. The
//! role of a yes: `through_cases`, `through_check`, `through_counts`. Demand 3: `histories`,
//! `pairs`. The converter: `sheet`. The sheets: `sheet_rows`, `sheet_spots`, `sheet_damage`,
//! `sheet_rough`, `sheet_cases`, `sheets`. The press: `press`. The presses: `press_floor`,
//! `press_spoils`, `press_histories`, `chains`, `presses`, `press_report`.

mod aims;
mod cascades;
mod cases;
mod chains;
mod counts;
mod damage;
mod engine;
mod guarded;
mod histories;
mod journals;
mod lawful;
mod lawful_states;
mod lent_press;
mod lent_sheet;
mod library;
mod pair_counts;
mod pairs;
mod patience;
mod places;
mod press;
#[cfg(test)]
mod press_case_tests;
mod press_counts;
mod press_floor;
mod press_histories;
#[cfg(test)]
mod press_misread;
mod press_report;
mod press_spoils;
#[cfg(test)]
mod press_tests;
#[cfg(test)]
mod press_wrong;
mod presses;
mod random;
mod reach_counts;
#[cfg(test)]
mod reach_tests;
mod record;
mod records;
mod refusals;
mod report;
mod sets;
mod sheet;
#[cfg(test)]
mod sheet_case_tests;
mod sheet_cases;
mod sheet_counts;
mod sheet_damage;
mod sheet_rough;
mod sheet_rows;
mod sheet_spots;
#[cfg(test)]
mod sheet_tests;
#[cfg(test)]
mod sheet_wrong;
mod sheets;
mod short_counts;
#[cfg(test)]
mod short_tests;
mod shrink;
mod side_by_side;
#[cfg(test)]
mod tests;
mod through;
#[cfg(test)]
mod through_case_tests;
mod through_cases;
mod through_check;
mod through_counts;
#[cfg(test)]
mod through_tests;
#[cfg(test)]
mod through_wrong;
mod ways;
mod worlds;

use counts::Counts;
use pair_counts::PairCounts;
use press_counts::PressCounts;
use sheet_counts::SheetCounts;
use std::env;
use std::process::ExitCode;

const USAGE: &str = "second-engine [--calls N] [--pairs N] [--sheets N] [--presses N] [--seed N] \
     [--patience SECONDS] [--trace]";

struct Options {
    calls: u64,
    pairs: u64,
    sheets: u64,
    presses: u64,
    seed: u64,
    /// The seconds in which some call must come back.
    patience: u64,
    /// Prints every step before it is played, for a library that doesn't come back.
    trace: bool,
}

fn options() -> Option<Options> {
    let mut options = Options {
        calls: 300_000,
        pairs: 300,
        sheets: 150_000,
        presses: 100_000,
        seed: 20_260_101,
        patience: 60,
        trace: false,
    };
    let mut arguments = env::args().skip(1);
    while let Some(name) = arguments.next() {
        match name.as_str() {
            "--calls" => options.calls = arguments.next()?.parse().ok()?,
            "--pairs" => options.pairs = arguments.next()?.parse().ok()?,
            "--sheets" => options.sheets = arguments.next()?.parse().ok()?,
            "--presses" => options.presses = arguments.next()?.parse().ok()?,
            "--seed" => options.seed = arguments.next()?.parse().ok()?,
            "--patience" => options.patience = arguments.next()?.parse().ok()?,
            "--trace" => options.trace = true,
            _ => return None,
        }
    }
    Some(options)
}

fn main() -> ExitCode {
    let Some(options) = options() else {
        eprintln!("{USAGE}");
        return ExitCode::from(2);
    };
    let Options {
        calls,
        pairs,
        sheets,
        presses,
        seed,
        patience,
        trace,
    } = options;
    patience::watch(patience);
    println!("seed                      {seed}");
    let mut missing = Vec::new();
    if calls > 0 {
        let mut counts = Counts::default();
        if !journals::play_journals(seed, calls, trace, &mut counts) {
            return ExitCode::FAILURE;
        }
        counts.print();
        missing.extend(counts.missing());
    }
    if pairs > 0 {
        let mut counts = PairCounts::default();
        if !pairs::play_pairs(seed, pairs, trace, &mut counts) {
            return ExitCode::FAILURE;
        }
        counts.print();
        missing.extend(counts.missing());
    }
    if sheets > 0 {
        let mut counts = SheetCounts::default();
        if !sheets::play_sheets(seed, sheets, trace, &mut counts) {
            return ExitCode::FAILURE;
        }
        counts.print();
        missing.extend(counts.missing());
    }
    if presses > 0 {
        let mut counts = PressCounts::default();
        if !presses::play_presses(seed, presses, trace, &mut counts) {
            return ExitCode::FAILURE;
        }
        counts.print();
        missing.extend(counts.missing());
    }
    println!("disagreements             0");
    // A test that can't reach something says nothing about it.
    if !missing.is_empty() {
        println!("NEVER REACHED: {}", missing.join("; "));
        return ExitCode::FAILURE;
    }
    ExitCode::SUCCESS
}
