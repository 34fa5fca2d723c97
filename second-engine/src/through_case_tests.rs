//! "Through which role?" in random calls, and wrong lookups told from the right one.

use crate::cases::{cases, state_s};
use crate::damage::any_damage;
use crate::engine::{call, Answer, Desk, ACCEPTED};
use crate::lawful_states::lawful_sets;
use crate::places::WORDS;
use crate::random::Random;
use crate::record::KINDS;
use crate::records::any_record;
use crate::sets::Sets;
use crate::through::NO_ROLE;
use crate::through_check::Yes;
use crate::through_counts::ThroughCounts;
use crate::through_wrong::{LOOKUPS, TELLERS};
use crate::worlds::World;

/// Random calls on the second engine; of those on damaged states, the refused ones.
fn random_calls(seed: u64, calls: usize, mut look: impl FnMut(&Sets, &[u8], Answer)) {
    let mut random = Random::new(seed);
    for _ in 0..calls / 500 {
        let mut world = World::new(&mut random);
        let mut desk = Desk::started();
        for turn in 0..500 {
            if turn % 100 == 0 {
                world.change_mood(&mut random);
            }
            let record = any_record(&mut random, &world, desk.sets());
            if random.percent(3) {
                let mut words = any_damage(&mut random, &world, desk.words()).apply(desk.words());
                let answer = call(&mut words, &record);
                if answer.refusal != 0 {
                    look(desk.sets(), &record, answer);
                }
            }
            let answer = desk.call(&record);
            look(desk.sets(), &record, answer);
        }
    }
}

/// Every other kind, accepted on some state.
#[test]
fn other_kinds_tell_no_role() {
    let mut seen = [false; KINDS + 1];
    random_calls(4, 20_000, |_, record, answer| {
        if answer.refusal == 0 && !record.is_empty() {
            seen[usize::from(record[2])] = true;
            assert!(record[2] == 21 || answer == ACCEPTED, "{record:?}");
        }
        assert_eq!(answer.verdict == 0, answer.through == NO_ROLE);
    });
    assert!(seen[1..].iter().all(|&seen| seen), "{seen:?}");
}

/// What is looked for in the sets holds of each yes, and all that is counted is reached.
#[test]
fn random_yeses_are_right_and_reach_everything() {
    let mut counts = ThroughCounts::default();
    random_calls(5, 40_000, |sets, record, answer| {
        if answer.refusal == 0 {
            counts.accepted(record, answer, sets);
        }
        let yes = Yes::to(record, answer.packed());
        assert_eq!(yes.and_then(|yes| yes.wrong(sets)), None, "{record:?}");
    });
    let mut random = Random::new(6);
    for _ in 0..200 {
        let sets = lawful_sets(&mut random);
        let mut words = vec![0; WORDS];
        sets.write(&mut words);
        let world = World::new(&mut random);
        let record = any_record(&mut random, &world, &sets);
        let answer = call(&mut words, &record);
        counts.on_lawful_state(&record, answer, &sets);
        let yes = Yes::to(&record, answer.packed());
        assert_eq!(yes.and_then(|yes| yes.wrong(&sets)), None, "{record:?}");
    }
    // Some names are rare; the cases have these two.
    let mut missing = counts.missing();
    missing.retain(|name| name != "through 0#0" && name != "through 15#15");
    assert_eq!(missing, Vec::<String>::new());
}

/// Each wrong lookup tells another role in some case, and in random calls. What it tells there is
/// found in the sets too.
#[test]
fn wrong_lookups_are_told_apart() {
    let mut in_cases = [0; LOOKUPS.len()];
    for case in cases() {
        let mut desk = Desk::started();
        let records: Vec<Vec<u8>> = state_s().into_iter().chain(case.records).collect();
        let answers = records.iter().map(|record| desk.call(record));
        let answer = answers.last().expect("S has records");
        let Some(yes) = Yes::to(&records[records.len() - 1], answer.packed()) else {
            continue;
        };
        for (place, (_, lookup)) in LOOKUPS.into_iter().enumerate() {
            let told = lookup(desk.sets(), yes.name, yes.permission);
            let right = case.through.is_none_or(|role| told == Some(role));
            in_cases[place] += u32::from(!right);
        }
    }
    let mut in_random = [0; LOOKUPS.len()];
    random_calls(7, 20_000, |sets, record, answer| {
        let Some(yes) = Yes::to(record, answer.packed()) else {
            return;
        };
        for (place, (name, lookup)) in LOOKUPS.into_iter().enumerate() {
            let told = lookup(sets, yes.name, yes.permission).unwrap_or(NO_ROLE);
            let wrong = Yes { told, ..yes }.wrong(sets).is_some();
            assert_eq!(wrong, told != yes.told, "{name}");
            in_random[place] += u32::from(wrong);
        }
    });
    for (place, (name, _)) in LOOKUPS.into_iter().enumerate() {
        assert!(in_cases[place] > 0, "{name}: no case");
        assert!(in_random[place] > 0, "{name}: no random call");
    }
}

#[test]
fn wrong_tellers_are_told_apart() {
    let mut found = [0; TELLERS.len()];
    random_calls(8, 5_000, |_, _, answer| {
        for (place, (_, change)) in TELLERS.into_iter().enumerate() {
            let mut told = answer;
            change(&mut told);
            found[place] += u32::from(told.packed() != answer.packed());
        }
    });
    for ((name, _), found) in TELLERS.into_iter().zip(found) {
        assert!(found > 5, "{name}: {found} times");
    }
}
