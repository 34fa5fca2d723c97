//! Where each word of the state lies ("The state").

/// "The state gains sixteen words at its end (9,041)."
pub const WORDS: usize = 9041;

/// A session's user word "when closed".
pub const CLOSED: u16 = 65535;

/// Where an issuer's word lies, of those that have one word an issuer.
pub type Place = fn(usize) -> usize;

pub fn trust_word(i: usize) -> usize {
    1 + i
}

pub fn users_word(i: usize) -> usize {
    17 + i
}

pub fn roles_word(i: usize) -> usize {
    33 + i
}

pub fn permissions_word(i: usize) -> usize {
    49 + i
}

pub fn held_word(i: usize, u: usize) -> usize {
    65 + 16 * i + u
}

/// Roles of i that hold j%p.
pub fn grant_word(j: usize, p: usize, i: usize) -> usize {
    321 + 16 * (16 * j + p) + i
}

/// Roles of i that are direct seniors of j#q.
pub fn attachment_word(j: usize, q: usize, i: usize) -> usize {
    4417 + 16 * (16 * j + q) + i
}

/// The session's user; the word after it has the active roles.
pub fn session_word(i: usize, s: usize) -> usize {
    8513 + 2 * (16 * i + s)
}

pub fn public_word(i: usize) -> usize {
    9025 + i
}
