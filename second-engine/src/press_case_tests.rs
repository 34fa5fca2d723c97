//! The random presses tell wrong presses from right ones.

use crate::engine::{call, Desk, ACCEPTED};
use crate::lent_press::{Handed, LentPress, List, Presser};
use crate::library::Lent;
use crate::press::{act, next_stage, Asked, PRESSES};
use crate::press_counts::PressCounts;
use crate::press_floor::Question;
use crate::press_histories::{History, Turn};
use crate::press_misread::{Taken, READERS};
use crate::press_report::PressCase;
use crate::press_wrong::{plain, At, ASKERS, JUDGES, WHOLES, YES};
use crate::presses::on_words;
use crate::random::Random;
use std::slice;

/// A press in Rust, called as C calls it.
fn lent(press: impl Fn(&mut At) -> u16 + 'static) -> Box<Presser> {
    Box::new(move |handed| {
        // What has no bytes may be null. All else has its length behind it.
        let words = unsafe { slice::from_raw_parts_mut(handed.state, handed.words) };
        let owners = match handed.owners_len {
            0 => &[],
            length => unsafe { slice::from_raw_parts(handed.owners, length) },
        };
        let stages = match handed.stages_len {
            0 => &mut [],
            length => unsafe { slice::from_raw_parts_mut(handed.stages, length) },
        };
        u64::from(press(&mut At {
            words,
            owners,
            stages,
            asked: handed.asked,
        }))
    })
}

/// Each turn of random histories, on the plain engine alone, with the records before it.
fn random_presses(presses: usize, mut ask: impl FnMut(&[Vec<u8>], &Desk, &Question)) {
    let mut random = Random::new(6);
    let mut asked = 0;
    while asked < presses {
        let mut history = History::any(&mut random);
        let mut desk = Desk::started();
        let mut records = Vec::new();
        while let Some(turn) = history.turn(&mut random, &desk) {
            match turn {
                Turn::Call(record) => {
                    desk.call(&record);
                    records.push(record);
                }
                Turn::Press(question) => {
                    ask(&records, &desk, &question);
                    asked += 1;
                }
            }
        }
    }
}

/// Every other entry of the table of actions and stages.
fn wrong_tables() -> Vec<(String, Box<Presser>)> {
    let mut wrong = Vec::new();
    for (action, stage) in (0..20).map(|n| (n / 4, n % 4)) {
        for next in [None, Some(0), Some(1), Some(2), Some(3)] {
            if next == next_stage(action, stage) {
                continue;
            }
            let press = move |at: &mut At| {
                let place = usize::from(at.asked.press);
                let before = at.stages.get(place).copied();
                let error = plain(at);
                if (at.asked.action, before) != (action, Some(stage)) || !matches!(error, 0 | 19) {
                    return error;
                }
                at.stages[place] = next.unwrap_or(stage);
                next.map_or(19, |_| 0)
            };
            let name = format!("action {action} at stage {stage}: {next:?}");
            wrong.push((name, lent(press)));
        }
    }
    wrong
}

fn wrong_presses() -> Vec<(String, Box<Presser>)> {
    let mut wrong = Vec::new();
    for (name, read) in READERS {
        let press = move |at: &mut At| {
            let mut taken = Taken {
                owners: at.owners.to_vec(),
                stages: at.stages.to_vec(),
                asked: at.asked,
            };
            read(&mut taken);
            let before = taken.stages.clone();
            let error = plain(&mut At {
                words: at.words,
                owners: &taken.owners,
                stages: &mut taken.stages,
                asked: taken.asked,
            });
            // What moved there moves here.
            let both = before.iter().zip(&taken.stages);
            for (stage, (before, next)) in at.stages.iter_mut().zip(both) {
                if before != next {
                    *stage = *next;
                }
            }
            error
        };
        wrong.push((name.to_string(), lent(press)));
    }
    for (name, change) in ASKERS {
        let press = move |at: &mut At| {
            let ask = |record: &[u8]| {
                let mut record = record.to_vec();
                change(&mut record, at.asked);
                call(at.words, &record)
            };
            act(ask, at.owners, at.stages, at.asked)
        };
        wrong.push((name.to_string(), lent(press)));
    }
    for (name, judge) in JUDGES {
        let press = move |at: &mut At| {
            let ask = |record: &[u8]| match judge(call(at.words, record)) {
                true => YES,
                false => ACCEPTED,
            };
            act(ask, at.owners, at.stages, at.asked)
        };
        wrong.push((name.to_string(), lent(press)));
    }
    for (name, press) in WHOLES {
        wrong.push((name.to_string(), lent(press)));
    }
    wrong
}

/// The right press agrees each time, what goes ahead has a chain of trust, and all that is
/// counted is reached.
#[test]
fn random_presses_reach_everything() {
    let mut counts = PressCounts::default();
    let right = lent(plain);
    random_presses(15_000, |_, desk, question| {
        let sets = question.sets(desk);
        let Ok(agreed) = on_words(&question.lent, question.words(desk.words()), &*right) else {
            panic!("{question}");
        };
        let moved = agreed.error == 0;
        assert!(!moved || question.chain(&sets).is_some(), "{question}");
        counts.count(question, &agreed, &sets);
    });
    // Only the driver counts these.
    let only = ["presses, histories", "presses, calls between"];
    assert_eq!(counts.missing(), only);
}

/// Each is told apart in 15,000 presses, and what fails is shortened to a few records.
#[test]
fn wrong_presses_are_told_apart_and_shortened() {
    let mut left = wrong_presses();
    let mut found = Vec::new();
    random_presses(15_000, |records, desk, question| {
        let words = question.words(desk.words());
        let fails = |(_, wrong): &mut (String, Box<Presser>)| {
            on_words(&question.lent, words.clone(), &**wrong).is_err()
        };
        for (name, wrong) in left.extract_if(.., fails) {
            let case = PressCase {
                records: records.to_vec(),
                question: question.clone(),
            };
            found.push((name, wrong, case));
        }
    });
    let names: Vec<String> = left.into_iter().map(|(name, _)| name).collect();
    assert_eq!(names, [""; 0]);
    for (name, wrong, case) in found {
        let short = case.shortened(&*wrong);
        assert!(short.fails(&*wrong).is_some(), "{name}");
        let records = short.records.len();
        assert!(
            records <= 20,
            "{name}: {records} records, {}",
            short.question
        );
    }
}

#[test]
fn other_tables_are_told_apart() {
    let mut left = wrong_tables();
    assert_eq!(left.len(), 80);
    random_presses(15_000, |_, desk, question| {
        let words = question.words(desk.words());
        left.retain(|(_, wrong)| on_words(&question.lent, words.clone(), &**wrong).is_ok());
    });
    let names: Vec<String> = left.into_iter().map(|(name, _)| name).collect();
    assert_eq!(names, [""; 0]);
}

/// Lists of 10 owners and 12 stages, with bytes behind them that are no part.
fn odd_lists() -> LentPress {
    let list = |length: usize| List {
        bytes: vec![1; length],
        behind: vec![2; PRESSES - length],
    };
    LentPress {
        owners: list(10),
        stages: list(12),
        asked: Asked {
            press: 3,
            action: 0,
            issuer: 1,
            session: 2,
        },
        null: false,
    }
}

#[test]
fn what_is_overwritten_is_told() {
    let overwritten = |in_owners: bool, place: isize| {
        let presser: Box<Presser> = Box::new(move |handed| {
            let begin = if in_owners {
                handed.owners.cast_mut()
            } else {
                handed.stages
            };
            // The guards on either side have 64 bytes.
            unsafe { *begin.offset(place) ^= 1 };
            0
        });
        odd_lists()
            .act(&mut Lent::new(&[7; 20]), &*presser)
            .overwritten
    };
    for place in [0, 9] {
        assert_eq!(overwritten(true, place), Some("the owners"));
    }
    for place in [-64, -1, 10, 31, 32, 95] {
        assert_eq!(overwritten(true, place), Some("bytes beside the owners"));
    }
    for place in [-64, -1, 12, 31, 32, 95] {
        assert_eq!(overwritten(false, place), Some("bytes beside the stages"));
    }
    for place in [0, 11] {
        assert_eq!(overwritten(false, place), None);
    }
    for place in [-64, -1, 20, 83] {
        let presser: Box<Presser> = Box::new(move |handed| {
            // The guards on either side have 64 words.
            unsafe { *handed.state.offset(place) ^= 1 };
            0
        });
        let given = odd_lists().act(&mut Lent::new(&[7; 20]), &*presser);
        assert_eq!(given.overwritten, Some("words beside the state"));
    }
}

/// A press that reads behind a list of 31 bytes finds what would let it go ahead.
#[test]
fn bytes_behind_the_lists_matter() {
    let reads_on = |owners: usize, stages: usize| -> Box<Presser> {
        Box::new(move |handed: &Handed| {
            let right = lent(plain);
            if handed.owners_len != owners || handed.stages_len != stages {
                return right(handed);
            }
            right(&Handed {
                owners_len: PRESSES,
                stages_len: PRESSES,
                ..*handed
            })
        })
    };
    for wrong in [reads_on(31, PRESSES), reads_on(PRESSES, 31)] {
        let mut told_apart = 0;
        random_presses(5000, |_, desk, question| {
            let words = question.words(desk.words());
            told_apart += u32::from(on_words(&question.lent, words, &*wrong).is_err());
        });
        assert!(told_apart > 5, "{told_apart}");
    }
}
