//! Sets of roles, and walks along the attachments from junior to senior.

use super::{held, row, session, State, ATTACHMENTS, GRANTS};

/// A set of roles: bit 16 i + r of 256 for role r of issuer i.
#[derive(Clone, Copy, Default)]
pub struct Roles([u64; 4]);

impl Roles {
    pub const EVERY: Roles = Roles([u64::MAX; 4]);

    /// The roles of sixteen words of the state, one word an issuer.
    pub fn read(words: &[u16; 16]) -> Roles {
        let mut set = [0; 4];
        for (quarter, four) in set.iter_mut().zip(words.chunks_exact(4)) {
            *quarter = u64::from(four[0])
                | u64::from(four[1]) << 16
                | u64::from(four[2]) << 32
                | u64::from(four[3]) << 48;
        }
        Roles(set)
    }

    /// The direct seniors of the n-th role.
    pub fn seniors(state: &State, n: usize) -> Roles {
        Roles::read(sixteen(state, ATTACHMENTS + 16 * n))
    }

    /// The roles of issuer i that are bits of a word.
    pub fn of(i: usize, word: u16) -> Roles {
        let mut set = Roles::default();
        set.0[i / 4] = u64::from(word) << (16 * (i % 4));
        set
    }

    pub fn has(&self, n: usize) -> bool {
        self.0[n / 64] >> (n % 64) & 1 == 1
    }

    pub fn insert(&mut self, n: usize) {
        self.0[n / 64] |= 1 << (n % 64);
    }

    pub fn remove(&mut self, n: usize) {
        self.0[n / 64] &= !(1 << (n % 64));
    }

    pub fn is_empty(&self) -> bool {
        self.0[0] | self.0[1] | self.0[2] | self.0[3] == 0
    }

    pub fn without(&self, other: &Roles) -> Roles {
        Roles(std::array::from_fn(|k| self.0[k] & !other.0[k]))
    }

    pub fn meets(&self, other: &Roles) -> bool {
        (0..4).fold(0, |found, k| found | self.0[k] & other.0[k]) != 0
    }

    pub fn join(&mut self, other: &Roles) {
        for (mine, theirs) in self.0.iter_mut().zip(&other.0) {
            *mine |= theirs;
        }
    }

    /// The word of issuer i.
    pub fn word(&self, i: usize) -> u16 {
        (self.0[i / 4] >> (16 * (i % 4))) as u16
    }

    /// The role of the lowest number.
    pub fn first(&self) -> Option<usize> {
        let k = self.0.iter().position(|&quarter| quarter != 0)?;
        Some(64 * k + self.0[k].trailing_zeros() as usize)
    }
}

/// Sixteen words of the state.
pub fn sixteen(state: &State, at: usize) -> &[u16; 16] {
    state[at..at + 16].try_into().unwrap()
}

/// Adds the n-th role and whatever reaches it to the roles seen, where all that reaches those seen before was seen with them.
/// Whether it stopped at new ones: then those above them are left out.
fn climb(state: &State, n: usize, seen: &mut Roles, stops: impl Fn(&Roles) -> bool) -> bool {
    let mut pending = Roles::of(n / 16, 1 << (n % 16));
    seen.join(&pending);
    while let Some(n) = pending.first() {
        pending.remove(n);
        let new = Roles::seniors(state, n).without(seen);
        seen.join(&new);
        if stops(&new) {
            return true;
        }
        pending.join(&new);
    }
    false
}

/// Whether a role of a set reaches the n-th role: climbs from that one until it meets one of the set.
fn climbs(state: &State, upper: &Roles, n: usize) -> bool {
    upper.has(n) || climb(state, n, &mut Roles::default(), |new| new.meets(upper))
}

/// The roles of i that reach i#r.
pub fn above(state: &State, i: usize, r: usize) -> u16 {
    let mut seen = Roles::default();
    climb(state, 16 * i + r, &mut seen, |_| false);
    seen.word(i)
}

/// Whether a role that i@u holds reaches i#r.
pub fn entitled(state: &State, i: usize, u: usize, r: usize) -> bool {
    let holds = Roles::of(i, state[held(i, u)]);
    climbs(state, &holds, 16 * i + r)
}

/// Whether j#q reaches i#r.
pub fn reaches(state: &State, j: usize, q: usize, i: usize, r: usize) -> bool {
    climbs(state, &Roles::of(j, 1 << q), 16 * i + r)
}

/// The first of the roles that hold j%p and that an active role of i/s reaches: climbs from the holders, in rising order.
/// A holder that was seen is passed over: what reaches it was seen too, and wasn't active.
pub fn through(state: &State, j: usize, p: usize, i: usize, s: usize) -> Option<usize> {
    let active = Roles::of(i, state[session(i, s) + 1]);
    if active.is_empty() {
        return None;
    }
    let holders = Roles::read(sixteen(state, row(GRANTS, j, p)));
    let mut seen = Roles::default();
    while let Some(holder) = holders.without(&seen).first() {
        if active.has(holder) || climb(state, holder, &mut seen, |new| new.meets(&active)) {
            return Some(holder);
        }
    }
    None
}

/// The roles without a senior.
fn tops(state: &State) -> Roles {
    let mut set = Roles::default();
    for (k, quarter) in set.0.iter_mut().enumerate() {
        for n in 0..64 {
            let top = Roles::seniors(state, 64 * k + n).is_empty();
            *quarter |= u64::from(top) << n;
        }
    }
    set
}

/// Whether no role reaches itself by one or more attachments: a search in depth, from junior to senior.
pub fn acyclic(state: &State) -> bool {
    let mut done = tops(state);
    let mut open = Roles::default();
    let mut path = [0; 256];
    while let Some(start) = Roles::EVERY.without(&done).first() {
        let mut depth = 0;
        let mut role = start;
        loop {
            let seniors = Roles::seniors(state, role).without(&done);
            if let Some(senior) = seniors.first() {
                open.insert(role);
                if open.has(senior) {
                    return false;
                }
                path[depth] = role;
                depth += 1;
                role = senior;
                continue;
            }
            done.insert(role);
            open.remove(role);
            if depth == 0 {
                break;
            }
            depth -= 1;
            role = path[depth];
        }
    }
    true
}
