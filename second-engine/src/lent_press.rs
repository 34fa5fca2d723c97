//! Lists of owners and stages, lent to a press between guards, and what is asked there.

use crate::guarded::Guarded;
use crate::library::{yermoitu_press, Lent};
use crate::patience::came_back;
use crate::press::Asked;
use std::fmt;

/// A lent list.
#[derive(Clone)]
pub struct List {
    pub bytes: Vec<u8>,
    /// Bytes behind the list that are no part of it: a cut one's rest.
    pub behind: Vec<u8>,
}

impl List {
    /// The places and the bytes that aren't 0.
    pub fn other_than_0(&self) -> Vec<(usize, u8)> {
        let bytes = self.bytes.iter().copied().enumerate();
        bytes.filter(|(_, byte)| *byte != 0).collect()
    }

    fn at(&self, press: u8) -> Option<u8> {
        self.bytes.get(usize::from(press)).copied()
    }
}

/// What a press is handed besides the state.
#[derive(Clone)]
pub struct LentPress {
    pub owners: List,
    pub stages: List,
    pub asked: Asked,
    /// Whether null stands for a list of 0 bytes.
    pub null: bool,
}

/// What a press gave back.
pub struct GivenPress {
    pub error: u64,
    pub stages: Vec<u8>,
    /// What was written that should not have been: a guard or the owners.
    pub overwritten: Option<&'static str>,
}

/// What C hands to a press.
pub struct Handed {
    pub state: *mut u16,
    pub words: usize,
    pub owners: *const u8,
    pub owners_len: usize,
    pub stages: *mut u8,
    pub stages_len: usize,
    pub asked: Asked,
}

/// A press as C calls it.
pub type Presser = dyn Fn(&Handed) -> u64;

/// The library's press.
pub fn library(handed: &Handed) -> u64 {
    let Asked {
        press,
        action,
        issuer,
        session,
    } = handed.asked;
    // `LentPress::act` hands in pointers that have their lengths behind them.
    unsafe {
        yermoitu_press(
            handed.state,
            handed.words,
            handed.owners,
            handed.owners_len,
            handed.stages,
            handed.stages_len,
            press,
            action,
            issuer,
            session,
        )
    }
}

impl LentPress {
    /// The press's owner and its stage, where the lists are long enough.
    pub fn owner(&self) -> Option<u8> {
        self.owners.at(self.asked.press)
    }

    pub fn stage(&self) -> Option<u8> {
        self.stages.at(self.asked.press)
    }

    pub fn act(&self, state: &mut Lent, presser: &Presser) -> GivenPress {
        // Each list lies at an even or an odd place, by the session's numbers.
        let (odd_owners, odd_stages) = (self.asked.issuer % 2 == 1, self.asked.session % 2 == 1);
        let mut owners = Guarded::new(&self.owners.bytes, &self.owners.behind, odd_owners);
        let mut stages = Guarded::new(&self.stages.bytes, &self.stages.behind, odd_stages);

        let error = presser(&Handed {
            words: state.words().len(),
            state: state.lent(),
            owners: owners.lent(self.null),
            owners_len: self.owners.bytes.len(),
            stages: stages.lent(self.null),
            stages_len: self.stages.bytes.len(),
            asked: self.asked,
        });
        came_back();

        let overwritten = if owners.inside() != self.owners.bytes {
            Some("the owners")
        } else if owners.written_beside() {
            Some("bytes beside the owners")
        } else if stages.written_beside() {
            Some("bytes beside the stages")
        } else {
            state.overwritten()
        };
        GivenPress {
            error,
            stages: stages.inside().to_vec(),
            overwritten,
        }
    }
}

impl fmt::Display for LentPress {
    fn fmt(&self, out: &mut fmt::Formatter) -> fmt::Result {
        let Asked {
            press,
            action,
            issuer,
            session,
        } = self.asked;
        write!(out, "press {press}, action {action}, ")?;
        writeln!(out, "session {issuer}/{session}")?;
        writeln!(out, "  owners {}", self.owners)?;
        write!(out, "  stages {}", self.stages)?;
        if self.null && (self.owners.bytes.is_empty() || self.stages.bytes.is_empty()) {
            write!(out, "\n  null lent for no bytes")?;
        }
        Ok(())
    }
}

impl fmt::Display for List {
    fn fmt(&self, out: &mut fmt::Formatter) -> fmt::Result {
        write!(out, "of {} bytes:", self.bytes.len())?;
        for (place, byte) in self.other_than_0() {
            write!(out, " {byte} at {place},")?;
        }
        write!(out, " 0 elsewhere")?;
        if !self.behind.is_empty() {
            write!(out, "; behind them {:?}", self.behind)?;
        }
        Ok(())
    }
}
