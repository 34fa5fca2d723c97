//! The second engine: starting and calling, on any words and any bytes.

use crate::cascades::carry_out;
use crate::lawful::lawful;
use crate::places::WORDS;
use crate::record::{decode, Call, Record};
use crate::refusals::refusal;
use crate::sets::{own, write_started, Role, Sets};
use crate::through::NO_ROLE;

/// "An answer is two numbers: a refusal (0 for accepted) and a verdict." Now it has two more, a
/// role's issuer and its number: "The answer carries both".
#[derive(Clone, Copy, Debug, PartialEq, Eq)]
pub struct Answer {
    pub refusal: u16,
    pub verdict: u16,
    /// The role that gave the yes, or `NO_ROLE`.
    pub through: Role,
}

impl Answer {
    /// As the library packs it: the refusal in bits 0 to 15, the verdict in 16 to 31, the role's
    /// issuer in 32 to 39 and its number in 40 to 47.
    pub fn packed(self) -> u64 {
        let [issuer, role] = [self.through.issuer, self.through.number].map(|n| n as u64);
        let verdict = u64::from(self.verdict);
        u64::from(self.refusal) + (verdict << 16) + (issuer << 32) + (role << 40)
    }
}

/// The four numbers of a packed answer, and what stands above them.
pub fn unpacked(packed: u64) -> [u64; 5] {
    [
        packed % 65536,
        (packed >> 16) % 65536,
        (packed >> 32) % 256,
        (packed >> 40) % 256,
        packed >> 48,
    ]
}

/// An answer without a yes.
pub const fn refused(refusal: u16) -> Answer {
    Answer {
        refusal,
        verdict: 0,
        through: NO_ROLE,
    }
}

/// 0 is no refusal.
pub const ACCEPTED: Answer = refused(0);

/// Accepted, with verdict 1.
pub const fn yes(through: Role) -> Answer {
    Answer {
        refusal: 0,
        verdict: 1,
        through,
    }
}

/// "Starting gives only 0 or 1."
pub fn start(words: &mut [u16]) -> Answer {
    if words.len() != WORDS {
        return refused(1);
    }
    write_started(words);
    ACCEPTED
}

/// Plays one record; the words are read anew.
pub fn call(words: &mut [u16], record: &[u8]) -> Answer {
    // 1: "state not 9,025 words", now 9,041
    if words.len() != WORDS {
        return refused(1);
    }
    // 2: "state not lawful"
    let mut sets = Sets::read(words);
    if !lawful(&sets) {
        return refused(2);
    }
    let answer = play(&mut sets, record);
    if answer.refusal == 0 {
        sets.write(words);
    }
    answer
}

/// Plays one record on lawful sets.
fn play(sets: &mut Sets, record: &[u8]) -> Answer {
    let decoded = match decode(record) {
        // "It is now accepted with verdict 0 and changes no word."
        Record::SignOfLife => return ACCEPTED,
        // 3: "record under 5 bytes", now "1 to 4 bytes", "length field wrong, kind unknown, or
        // length wrong for the kind"
        Record::Undecodable => return refused(3),
        Record::Call(decoded) => decoded,
    };
    let number = refusal(sets, &decoded);
    if number != 0 {
        return refused(number);
    }
    carry_out(sets, &decoded);
    // "The verdict is 1 only for kind 21 when an active role of an open session reaches a
    // role that holds p; else 0."
    let through = match decoded.call {
        Call::MayUse {
            permission,
            issuer,
            session,
        } => sets.through(own(issuer, session), own(decoded.caller, permission)),
        _ => None,
    };
    through.map_or(ACCEPTED, yes)
}

/// A started state and its sets, kept between calls.
#[derive(Clone)]
pub struct Desk {
    words: Vec<u16>,
    sets: Sets,
}

impl Desk {
    pub fn started() -> Desk {
        let mut words = vec![0; WORDS];
        start(&mut words);
        let sets = Sets::default();
        Desk { words, sets }
    }

    pub fn words(&self) -> &[u16] {
        &self.words
    }

    pub fn sets(&self) -> &Sets {
        &self.sets
    }

    /// What `call` does with the desk's words, without reading them anew.
    pub fn call(&mut self, record: &[u8]) -> Answer {
        let answer = play(&mut self.sets, record);
        if answer.refusal == 0 {
            self.sets.write(&mut self.words);
        }
        answer
    }

    /// The kept sets are what the words say, and lawful.
    pub fn sound(&self) -> bool {
        Sets::read(&self.words) == self.sets && lawful(&self.sets)
    }
}
