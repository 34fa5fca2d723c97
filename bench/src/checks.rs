//! The library and the plain engine must agree, in every number of an answer and in every word.

mod lesser;
mod through;

use crate::active;
use crate::answer::{self, ACCEPTED};
use crate::library;
use crate::random::Random;
use crate::records::{
    lively_journal, random_journal, random_question, random_record, Record, DEACTIVATE,
    SIGN_OF_LIFE,
};
use crate::states::Case;
use crate::words::{self, session, ATTACHMENTS, HELD, PUBLIC, SESSIONS, WORDS};

/// What was compared.
#[derive(Default)]
pub struct Checked {
    pub calls: usize,
    pub refusals: [usize; 15],
    pub verdicts: usize,
    /// Those through a role that isn't active itself.
    pub inherited: usize,
    /// Roles that were activated and that the session's user didn't hold.
    pub lesser: usize,
    /// Active roles that open sessions lost by other calls than deactivation.
    pub dropped: usize,
}

impl Checked {
    /// One record on both engines, from the same words.
    fn plays(&mut self, state: &mut [u16], record: &[u8]) -> u64 {
        let before = state.to_vec();
        let mut other = state.to_vec();
        let answer = library::call(state, record);
        let plain = words::call(&mut other, record);
        assert!(answer == plain, "{record:?}: {answer:#x}, {plain:#x}");
        assert!(state == other, "words after {record:?}");
        self.calls += 1;
        self.refusals[usize::from(answer::refusal(answer))] += 1;
        if answer::verdict(answer) == 1 {
            self.verdicts += 1;
            self.inherited += usize::from(through::is_inherited(state, record, answer));
        }
        if answer == ACCEPTED {
            let new = active::gone(state, &before).into_iter();
            self.lesser += new.filter(|&role| !active::is_held(state, role)).count();
            if record.get(2) != Some(&(DEACTIVATE as u8)) {
                self.dropped += active::gone(&before, state).len();
            }
        }
        answer
    }

    /// Starting on any words of any length.
    fn starts(&mut self, random: &mut Random) {
        for length in [0, 1, WORDS - 1, WORDS, WORDS + 1] {
            let mut state: Vec<u16> = (0..length).map(|_| random.draw() as u16).collect();
            let mut other = state.clone();
            assert_eq!(library::start(&mut state), words::start(&mut other));
            assert!(state == other, "words after starting on {length} words");
            self.plays(&mut state, &random_record(random, 16));
            self.plays(&mut state, &SIGN_OF_LIFE[0]);
        }
    }

    /// The case's own records, random ones, and random ones on spoilt states.
    fn case(&mut self, case: &Case, random: &mut Random) {
        let mut state = case.state.clone();
        for record in records(case) {
            self.plays(&mut state, record);
        }
        assert!(state == case.state, "{} is not left as it was", case.name);
        for _ in 0..2000 {
            self.plays(&mut state, &random_question(random));
        }
        for _ in 0..400 {
            self.plays(&mut state, &random_record(random, 16));
        }
        for (at, bit) in spoilt(case, random) {
            let mut state = case.state.clone();
            state[at] ^= 1 << bit;
            self.plays(&mut state, &random_record(random, 16));
        }
    }
}

/// Words and bits to spoil: any, each public one, one of each session's active roles, and each attachment and held role.
fn spoilt(case: &Case, random: &mut Random) -> Vec<(usize, u8)> {
    let mut places = vec![];
    places.extend((0..400).map(|_| (random.draw() as usize % WORDS, random.below(16))));
    places.extend((0..=255).map(|n: u8| (PUBLIC + usize::from(n / 16), n % 16)));
    places.extend((0..256).map(|n| (session(n / 16, n % 16) + 1, random.below(16))));
    for at in (HELD..HELD + 256).chain(ATTACHMENTS..SESSIONS) {
        let bits = (0..16).filter(|bit| case.state[at] >> bit & 1 == 1);
        places.extend(bits.map(|bit| (at, bit)));
    }
    places
}

fn records(case: &Case) -> impl Iterator<Item = &Record> {
    let questions = case.allowed.iter().chain(&case.denied);
    let changes = case.grants.iter().chain(&case.publications);
    questions
        .chain(changes)
        .chain(&case.detachments)
        .chain(&SIGN_OF_LIFE)
}

/// Compares the engines on random histories and on every case. Panics where they differ.
pub fn compare(cases: &[Case]) -> Checked {
    let mut random = Random::new(1);
    let mut checked = Checked::default();
    checked.starts(&mut random);
    for case in cases {
        checked.case(case, &mut random);
    }
    lesser::compare(&mut checked);
    through::compare(&mut checked);
    for journal in [
        random_journal(&mut random, 4000),
        lively_journal(&mut random, 20_000),
    ] {
        let mut state = vec![0; WORDS];
        library::start(&mut state);
        for record in journal {
            checked.plays(&mut state, &record);
        }
    }
    checked
}
