//! Random histories on the library and on the second engine, and between their calls actions at
//! presses, on the library's press and on the plain one.

use crate::engine::{self, Answer};
use crate::lent_press::{library, GivenPress, LentPress, Presser};
use crate::library::Lent;
use crate::press::act;
use crate::press_counts::PressCounts;
use crate::press_floor::Question;
use crate::press_histories::{History, Turn};
use crate::press_report::report_press;
use crate::random::Random;
use crate::report::{announce, report};
use crate::side_by_side::{SideBySide, Step};
use std::fmt;

/// What the library and the plain press agree on.
pub struct Agreed {
    pub error: u16,
    /// The stages, as they are then.
    pub stages: Vec<u8>,
    /// What the desk answered, where it was asked.
    pub answer: Option<Answer>,
}

/// Where they disagree.
pub struct PressDifference {
    library: u64,
    plain: u16,
    /// The first differing stage: its place, the library's and the plain press's.
    stage: Option<(usize, u8, u8)>,
    /// The first word of the state that was changed: its place, before and after.
    word: Option<(usize, u16, u16)>,
    overwritten: Option<&'static str>,
}

impl fmt::Display for PressDifference {
    fn fmt(&self, out: &mut fmt::Formatter) -> fmt::Result {
        writeln!(out, "library:     error {}", self.library)?;
        write!(out, "plain press: error {}", self.plain)?;
        if let Some((place, library, plain)) = self.stage {
            write!(out, "\nfirst differing stage {place}: ")?;
            write!(out, "library {library}, plain press {plain}")?;
        }
        if let Some((place, before, after)) = self.word {
            write!(out, "\nthe library has changed word {place}: ")?;
            write!(out, "{before} before, {after} then")?;
        }
        if let Some(what) = self.overwritten {
            write!(out, "\nthe library has overwritten {what}")?;
        }
        Ok(())
    }
}

/// Plays random histories, as many as `presses` take. On a disagreement it prints the shortest
/// failing list that it finds and gives `false`.
pub fn play_presses(seed: u64, presses: u64, trace: bool, counts: &mut PressCounts) -> bool {
    let mut seeds = Random::new(seed.rotate_left(16));
    while counts.presses < presses {
        let mut random = Random::new(seeds.next());
        if !play_history(&mut random, seed, trace, counts) {
            return false;
        }
    }
    true
}

fn play_history(random: &mut Random, seed: u64, trace: bool, counts: &mut PressCounts) -> bool {
    counts.histories += 1;
    let whence = format!("history {} of seed {seed}", counts.histories);
    let found = |presses: u64| announce(&format!("{whence}, after {presses} presses"));
    let Ok(mut both) = SideBySide::started(trace) else {
        found(counts.presses);
        return report(Vec::new());
    };
    let mut history = History::any(random);
    let mut records = Vec::new();
    while let Some(turn) = history.turn(random, both.desk()) {
        let question = match turn {
            Turn::Call(record) => {
                records.push(record.clone());
                if both.play(&Step::Call(record)).is_err() {
                    found(counts.presses);
                    return report(records.into_iter().map(Step::Call).collect());
                }
                counts.calls += 1;
                continue;
            }
            Turn::Press(question) => question,
        };
        if trace {
            eprintln!("{question}");
        }
        let Ok(agreed) = play(&question, &mut both) else {
            found(counts.presses);
            return report_press(records, question);
        };
        let sets = question.sets(both.desk());
        if agreed.error == 0 {
            history.floor.moved(&agreed.stages);
            if question.chain(&sets).is_none() {
                println!("{whence}: moved without a chain of trust to the owner\n{question}");
                return false;
            }
        }
        counts.count(&question, &agreed, &sets);
    }
    true
}

fn play(question: &Question, both: &mut SideBySide) -> Result<Agreed, PressDifference> {
    let Question { damage, lent } = question;
    match damage {
        None => {
            let (state, desk) = both.parts();
            side_by_side(lent, state, &library, |record| desk.call(record))
        }
        Some(damage) => on_words(lent, damage.apply(both.desk().words()), &library),
    }
}

/// Asks this press, the library's or another, and the plain one, on these words.
pub fn on_words(
    lent: &LentPress,
    mut words: Vec<u16>,
    presser: &Presser,
) -> Result<Agreed, PressDifference> {
    let mut state = Lent::new(&words);
    side_by_side(lent, &mut state, presser, |record| {
        engine::call(&mut words, record)
    })
}

/// The plain press asks the desk, which stands for the same state.
fn side_by_side(
    lent: &LentPress,
    state: &mut Lent,
    presser: &Presser,
    desk: impl FnOnce(&[u8]) -> Answer,
) -> Result<Agreed, PressDifference> {
    let before = state.words().to_vec();
    let given = lent.act(state, presser);
    let mut stages = lent.stages.bytes.clone();
    let mut answer = None;
    let ask = |record: &[u8]| *answer.insert(desk(record));
    let error = act(ask, &lent.owners.bytes, &mut stages, lent.asked);
    let agreed = Agreed {
        error,
        stages,
        answer,
    };
    compare(&given, &agreed, &before, state.words())?;
    Ok(agreed)
}

/// "Only that press's stage byte changes"; the state is compared with what it was.
fn compare(
    given: &GivenPress,
    plain: &Agreed,
    before: &[u16],
    after: &[u16],
) -> Result<(), PressDifference> {
    let same_bytes = given.stages == plain.stages && given.overwritten.is_none();
    if given.error == u64::from(plain.error) && same_bytes && before == after {
        return Ok(());
    }
    Err(PressDifference {
        library: given.error,
        plain: plain.error,
        stage: first_differing(&given.stages, &plain.stages),
        word: first_differing(before, after),
        overwritten: given.overwritten,
    })
}

fn first_differing<T: Copy + PartialEq>(one: &[T], other: &[T]) -> Option<(usize, T, T)> {
    let pairs = one.iter().zip(other).enumerate();
    let mut differing = pairs.filter(|(_, (one, other))| one != other);
    let (place, (one, other)) = differing.next()?;
    Some((place, *one, *other))
}
