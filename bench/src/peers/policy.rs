//! What a state says, as pairs of numbers: a role is 16 i + r, and a permission or a session likewise.

use bench::records::{record, Record, MAY_USE};

pub struct Policy {
    /// Sessions and their active roles.
    pub active: Vec<(u16, u16)>,
    /// Seniors and juniors.
    pub attachments: Vec<(u16, u16)>,
    /// Permissions and the roles that hold them.
    pub grants: Vec<(u16, u16)>,
}

impl Policy {
    /// Reads the words of a state.
    pub fn of(state: &[u16]) -> Policy {
        let mut active = vec![];
        for n in 0..256 {
            active.extend(roles(n / 16, state[8514 + 2 * usize::from(n)]).map(|role| (n, role)));
        }
        let attachments = rows(&state[4417..8513]);
        Policy {
            active,
            attachments: attachments
                .map(|(junior, senior)| (senior, junior))
                .collect(),
            grants: rows(&state[321..4417]).collect(),
        }
    }
}

/// The roles of issuer i that are bits of a word.
fn roles(i: u16, word: u16) -> impl Iterator<Item = u16> {
    (0..16)
        .filter(move |r| word >> r & 1 == 1)
        .map(move |r| 16 * i + r)
}

/// The rows of a region with their roles.
fn rows(words: &[u16]) -> impl Iterator<Item = (u16, u16)> + '_ {
    words
        .iter()
        .zip(0..)
        .flat_map(|(&word, at): (_, u16)| roles(at % 16, word).map(move |role| (at / 16, role)))
}

/// Whether a session may use a permission, and the verdict.
#[derive(Debug)]
pub struct Decision {
    pub issuer: u8,
    pub session: u8,
    pub owner: u8,
    pub permission: u8,
    pub verdict: bool,
}

impl Decision {
    pub fn session_number(&self) -> u16 {
        16 * u16::from(self.issuer) + u16::from(self.session)
    }

    pub fn permission_number(&self) -> u16 {
        16 * u16::from(self.owner) + u16::from(self.permission)
    }

    pub fn record(&self) -> Record {
        record(
            MAY_USE,
            self.owner,
            &[self.permission, self.issuer, self.session],
        )
    }
}
