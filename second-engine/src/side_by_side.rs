//! The library and the second engine side by side: each step is played on both, and all numbers
//! and all words are compared. The role that the library tells with a yes is looked at besides.

use crate::damage::Damage;
use crate::engine::{self, unpacked, Answer, Desk, ACCEPTED};
use crate::library::{Given, Lent};
use crate::places::WORDS;
use crate::sets::Sets;
use crate::through_check::Yes;
use std::fmt;

/// One thing that a journal does.
#[derive(Clone, Debug)]
pub enum Step {
    /// A record on the present state.
    Call(Vec<u8>),
    /// A record on a damaged copy; the present state stays.
    CallOn(Damage, Vec<u8>),
    /// Starting a damaged copy; the present state stays.
    StartOn(Damage),
}

impl fmt::Display for Step {
    fn fmt(&self, out: &mut fmt::Formatter) -> fmt::Result {
        match self {
            Step::Call(record) => write!(out, "{}", hex(record)),
            Step::CallOn(damage, record) => write!(out, "{} ({damage})", hex(record)),
            Step::StartOn(damage) => write!(out, "start ({damage})"),
        }
    }
}

/// Bytes in hex; a long run of equal bytes at the end is counted.
pub fn hex(record: &[u8]) -> String {
    let Some(last) = record.last() else {
        return "(empty)".to_string();
    };
    let equal = record.iter().rev().take_while(|byte| *byte == last).count();
    let shown = if equal > 16 {
        record.len() - equal
    } else {
        record.len()
    };
    let digits = record[..shown].iter().map(|byte| format!("{byte:02X}"));
    let mut text = digits.collect::<Vec<String>>().join(" ");
    if equal > 16 {
        text += &format!(" and {equal} times {last:02X}");
    }
    text
}

/// The numbers of a packed answer; what stands above them only where it isn't 0.
pub fn numbers(packed: u64) -> String {
    let [refusal, verdict, issuer, role, above] = unpacked(packed);
    let mut text = format!("refusal {refusal}, verdict {verdict}, issuer {issuer}, role {role}");
    if above != 0 {
        text += &format!(", above them {above}");
    }
    text
}

/// Where the library and the second engine disagree, or the role of a yes is wrong.
#[derive(Debug)]
pub struct Difference {
    library: u64,
    engine: Answer,
    /// The first differing word: its place, the library's and the second engine's.
    word: Option<(usize, u16, u16)>,
    overwritten: Option<&'static str>,
    /// What is wrong with the role that the library tells.
    wrong_role: Option<String>,
}

impl fmt::Display for Difference {
    fn fmt(&self, out: &mut fmt::Formatter) -> fmt::Result {
        writeln!(out, "library:       {}", numbers(self.library))?;
        write!(out, "second engine: {}", numbers(self.engine.packed()))?;
        if let Some((place, library, engine)) = self.word {
            write!(out, "\nfirst differing word {place}: ")?;
            write!(out, "library {library}, second engine {engine}")?;
        }
        if let Some(what) = self.overwritten {
            write!(out, "\nthe library has overwritten {what}")?;
        }
        if let Some(what) = &self.wrong_role {
            write!(out, "\nthe library's role: {what}")?;
        }
        Ok(())
    }
}

/// Compares what they gave for a record, and looks at the role of the library's yes in the words
/// that the second engine left.
fn compare(
    record: &[u8],
    given: &Given,
    lent: &Lent,
    answer: Answer,
    words: &[u16],
) -> Result<(), Difference> {
    let said_yes = Yes::to(record, given.packed).filter(|_| words.len() == WORDS);
    let wrong_role = said_yes.and_then(|yes| yes.wrong(&Sets::read(words)));
    let same = given.packed == answer.packed() && lent.words() == words;
    if same && given.overwritten.is_none() && wrong_role.is_none() {
        return Ok(());
    }
    let pairs = lent.words().iter().zip(words).enumerate();
    let mut differing = pairs.filter(|(_, (library, engine))| library != engine);
    Err(Difference {
        library: given.packed,
        engine: answer,
        word: differing
            .next()
            .map(|(place, (library, engine))| (place, *library, *engine)),
        overwritten: given.overwritten,
        wrong_role,
    })
}

/// Starting has no record.
const STARTING: &[u8] = &[];

pub struct SideBySide {
    lent: Lent,
    desk: Desk,
    trace: bool,
}

impl SideBySide {
    /// Both started; the library begins with words that are not 0.
    pub fn started(trace: bool) -> Result<SideBySide, Difference> {
        let desk = Desk::started();
        let mut lent = Lent::new(&vec![0xBEEF; desk.words().len()]);
        let given = lent.start();
        compare(STARTING, &given, &lent, ACCEPTED, desk.words())?;
        Ok(SideBySide { lent, desk, trace })
    }

    pub fn desk(&self) -> &Desk {
        &self.desk
    }

    /// The words lent to the library, and the desk.
    pub fn parts(&mut self) -> (&mut Lent, &mut Desk) {
        (&mut self.lent, &mut self.desk)
    }

    /// The words as the library left them.
    pub fn library_words(&self) -> &[u16] {
        self.lent.words()
    }

    pub fn play(&mut self, step: &Step) -> Result<Answer, Difference> {
        if self.trace {
            eprintln!("{step}");
        }
        match step {
            Step::Call(record) => {
                let given = self.lent.call(record);
                let answer = self.desk.call(record);
                compare(record, &given, &self.lent, answer, self.desk.words())?;
                Ok(answer)
            }
            Step::CallOn(damage, record) => {
                let mut words = damage.apply(self.desk.words());
                let mut lent = Lent::new(&words);
                let given = lent.call(record);
                let answer = engine::call(&mut words, record);
                compare(record, &given, &lent, answer, &words)?;
                Ok(answer)
            }
            Step::StartOn(damage) => {
                let mut words = damage.apply(self.desk.words());
                let mut lent = Lent::new(&words);
                let given = lent.start();
                let answer = engine::start(&mut words);
                compare(STARTING, &given, &lent, answer, &words)?;
                Ok(answer)
            }
        }
    }
}

/// Plays the steps from the start: the number of steps up to the first disagreement, and it.
pub fn replay(steps: &[Step]) -> Option<(usize, Difference)> {
    let mut both = match SideBySide::started(false) {
        Ok(both) => both,
        Err(difference) => return Some((0, difference)),
    };
    for (place, step) in steps.iter().enumerate() {
        if let Err(difference) = both.play(step) {
            return Some((place + 1, difference));
        }
    }
    None
}
