//! Random journals on the library and on the second engine.

use crate::cases::{cases, state_s};
use crate::counts::{sizes, Counts};
use crate::damage::{any_damage, Damage};
use crate::engine::{Answer, Desk};
use crate::lawful::{broken_laws, lawful};
use crate::places::WORDS;
use crate::random::Random;
use crate::records::any_record;
use crate::report::{announce, report, shortened, size};
use crate::sets::Sets;
use crate::side_by_side::{SideBySide, Step};
use crate::worlds::World;

/// The most steps of a journal.
const LONGEST: usize = 2500;

/// Plays the paper's cases and then random journals, as many as `calls` take. On a
/// disagreement it prints the shortest failing list that it finds and gives `false`.
pub fn play_journals(seed: u64, calls: u64, trace: bool, counts: &mut Counts) -> bool {
    if !play_cases(trace, counts) {
        return false;
    }
    let mut seeds = Random::new(seed);
    while counts.calls < calls {
        let mut random = Random::new(seeds.next());
        let left = (calls - counts.calls) as usize;
        let length = random.between(50, LONGEST).min(left);
        if let Some(steps) = random_journal(&mut random, length, trace, counts) {
            let (journal, step) = (counts.journals, steps.len());
            let found = format!("journal {journal} of seed {seed}, step {step}");
            announce(&format!("{found}, after {} calls", counts.calls));
            return report(shortest(&mut seeds, steps));
        }
    }
    true
}

/// Looks in some more journals for a shorter failing list.
fn shortest(seeds: &mut Random, failing: Vec<Step>) -> Vec<Step> {
    let mut shortest = shortened(failing);
    for _ in 0..40 {
        let mut random = Random::new(seeds.next());
        let length = random.between(50, LONGEST);
        if let Some(steps) = random_journal(&mut random, length, false, &mut Counts::default()) {
            let other = shortened(steps);
            if size(&other) < size(&shortest) {
                shortest = other;
            }
        }
    }
    shortest
}

/// Plays S with each case after it; the paper gives the last answer.
fn play_cases(trace: bool, counts: &mut Counts) -> bool {
    for case in cases() {
        counts.journals += 1;
        let records = state_s().into_iter().chain(case.records.clone());
        let steps: Vec<Step> = records.map(Step::Call).collect();
        let Ok(mut both) = SideBySide::started(trace) else {
            announce("starting, after 0 calls");
            return report(steps);
        };
        let mut last = None;
        for step in &steps {
            last = play(&mut both, step, counts);
            if last.is_none() {
                let (name, calls) = (case.name, counts.calls);
                announce(&format!("case {name}, after {calls} calls"));
                return report(steps);
            }
        }
        if !last.is_some_and(|answer| case.fits(answer)) {
            let (name, expected, through) = (case.name, case.expected, case.through);
            println!("case {name}: the paper gives {expected:?} {through:?}");
            return false;
        }
    }
    true
}

/// Makes a journal while playing it; gives its steps if the last one fails.
fn random_journal(
    random: &mut Random,
    length: usize,
    trace: bool,
    counts: &mut Counts,
) -> Option<Vec<Step>> {
    counts.journals += 1;
    let mut steps = Vec::new();
    let Ok(mut both) = SideBySide::started(trace) else {
        return Some(steps);
    };
    let mut world = World::new(random);
    for place in 0..length {
        if random.below(150) == 0 {
            world.change_mood(random);
        }
        let step = any_step(random, &world, &both);
        steps.push(step);
        if play(&mut both, &steps[place], counts).is_none() {
            return Some(steps);
        }
        if place % 50 == 0 {
            assert!(
                both.desk().sound(),
                "the second engine's own sets went wrong"
            );
        }
    }
    None
}

fn any_step(random: &mut Random, world: &World, both: &SideBySide) -> Step {
    let present = both.desk().words();
    match random.below(200) {
        0 => Step::StartOn(any_damage(random, world, present)),
        1..=12 => {
            let damage = any_damage(random, world, present);
            let record = match random.below(20) {
                // a sign of life: "States of wrong length or law still give 1 or 2."
                0 | 1 => Vec::new(),
                2..=10 => any_record(random, world, &aim(&damage, both.desk())),
                _ => any_record(random, world, both.desk().sets()),
            };
            Step::CallOn(damage, record)
        }
        _ => Step::Call(any_record(random, world, both.desk().sets())),
    }
}

/// The sets of the damaged state if it is lawful, or else of the present one.
fn aim(damage: &Damage, desk: &Desk) -> Sets {
    let words = damage.apply(desk.words());
    if words.len() == WORDS {
        let sets = Sets::read(&words);
        if lawful(&sets) {
            return sets;
        }
    }
    desk.sets().clone()
}

/// Plays a step on both and counts it; `None` where they disagree.
fn play(both: &mut SideBySide, step: &Step, counts: &mut Counts) -> Option<Answer> {
    let before = sizes(both.desk().sets());
    let sessions = both.desk().sets().sessions.clone();
    let answer = both.play(step).ok()?;
    match step {
        Step::Call(record) => {
            counts.answered(record, answer);
            if answer.refusal == 0 {
                let after = both.desk().sets();
                counts.changed(record, answer, before, after);
                counts.reach.changed(record, &sessions, after);
                counts.through.accepted(record, answer, after);
            }
        }
        Step::CallOn(damage, record) => {
            counts.answered(record, answer);
            let words = damage.apply(both.desk().words());
            let mut broken = Vec::new();
            if answer.refusal == 2 {
                broken = broken_laws(&Sets::read(&words));
            } else if answer.refusal != 1 {
                let sets = Sets::read(&words);
                counts.reach.on_lawful_state(&sets);
                counts.through.on_lawful_state(record, answer, &sets);
                counts.short.on_lawful_state(record, answer);
            }
            counts.on_other_state(answer, &broken);
        }
        Step::StartOn(_) => counts.starts += 1,
    }
    Some(answer)
}
