//! States for refusals 1 and 2: the present one or another, with changes that no call makes.

use crate::lawful_states::lawful_sets;
use crate::places::{session_word, trust_word, CLOSED, WORDS};
use crate::random::Random;
use crate::sets::{own, write_started, Attachment, Grant, Held, Role, Sets, Trust};
use crate::ways::{any_way, Way};
use crate::worlds::{Thing, World};
use std::collections::BTreeSet;
use std::fmt;

/// What the changes are made in.
#[derive(Clone, Copy, Debug, PartialEq, Eq)]
pub enum Base {
    /// The state as the journal left it.
    Present,
    /// A state just started.
    Started,
}

/// How to come to the words that are lent: new words in some places, then the length.
#[derive(Clone, Debug)]
pub struct Damage {
    base: Base,
    pub edits: Vec<(usize, u16)>,
    length: usize,
}

impl Damage {
    fn new(base: Base, present: &[u16], words: &[u16], length: usize) -> Damage {
        let from = base_words(base, present);
        let places = (0..WORDS).filter(|&place| words[place] != from[place]);
        let edits = places.map(|place| (place, words[place])).collect();
        Damage {
            base,
            edits,
            length,
        }
    }

    pub fn apply(&self, present: &[u16]) -> Vec<u16> {
        let mut words = base_words(self.base, present);
        for &(place, word) in &self.edits {
            words[place] = word;
        }
        words.resize(self.length, 0);
        words
    }
}

impl fmt::Display for Damage {
    fn fmt(&self, out: &mut fmt::Formatter) -> fmt::Result {
        match self.base {
            Base::Present => write!(out, "on a copy of the state")?,
            Base::Started => write!(out, "on a started copy")?,
        }
        for (place, word) in &self.edits {
            write!(out, ", word {place} := {word}")?;
        }
        if self.length != WORDS {
            write!(out, ", {} words", self.length)?;
        }
        Ok(())
    }
}

fn base_words(base: Base, present: &[u16]) -> Vec<u16> {
    let mut words = present.to_vec();
    if base == Base::Started {
        write_started(&mut words);
    }
    words
}

pub fn any_damage(random: &mut Random, world: &World, present: &[u16]) -> Damage {
    match random.below(200) {
        0 => {
            let noise: Vec<u16> = (0..WORDS).map(|_| random.word()).collect();
            Damage::new(Base::Started, present, &noise, WORDS)
        }
        1..=30 => {
            let mut words = vec![0; WORDS];
            lawful_sets(random).write(&mut words);
            let length = change(random, world, &mut words);
            Damage::new(Base::Started, present, &words, length)
        }
        _ => {
            let mut words = present.to_vec();
            let length = change(random, world, &mut words);
            Damage::new(Base::Present, present, &words, length)
        }
    }
}

/// The issuer trusts nobody but itself, and what needed its trust stays.
pub fn trust_taken(present: &[u16], issuer: usize) -> Damage {
    let mut words = present.to_vec();
    words[trust_word(issuer)] &= 1 << issuer;
    Damage::new(Base::Present, present, &words, WORDS)
}

/// Changes something in the words, or gives another length for them.
fn change(random: &mut Random, world: &World, words: &mut [u16]) -> usize {
    match random.below(22) {
        // a wrong length, also one that is right modulo 65536
        0 => return random.pick(&[0, 1, 9025, 9040, 9042, 9043, 18082, 65536 + WORDS]),
        // nothing
        1 => {}
        // any bits, any word
        2..=4 => {
            for _ in 0..random.between(1, 3) {
                words[random.below(WORDS)] ^= 1 << random.below(16);
            }
        }
        5 => words[random.below(WORDS)] = random.word(),
        // a session's user, also out of range, or its active roles
        6 | 7 => {
            let i = world.name(random, Thing::Issuer);
            let place = session_word(i, world.name(random, Thing::Session));
            let user = world.name(random, Thing::User) as u16;
            let users = [user, user, user + 16, 16, 255, 256, 65534, CLOSED];
            words[place] = random.pick(&users);
        }
        8 => {
            let i = world.name(random, Thing::Issuer);
            let place = session_word(i, world.name(random, Thing::Session));
            words[place + 1] ^= 1 << world.name(random, Thing::Role);
        }
        9 | 10 => {
            let mut sets = Sets::read(words);
            put_circle_in(random, &mut sets);
            sets.write(words);
        }
        // an active role that isn't held, within reach or beyond it
        11 | 12 => {
            let mut sets = Sets::read(words);
            if random.percent(50) {
                put_active_in(random, &mut sets);
            } else {
                cut_way(random, &mut sets);
            }
            sets.write(words);
        }
        // something put in or taken out without its cascade
        _ => {
            let mut sets = Sets::read(words);
            if random.percent(20) {
                undercut(random, &mut sets);
            } else {
                turn_over(random, world, &mut sets);
            }
            sets.write(words);
        }
    }
    WORDS
}

/// Attaches a role above one that reaches it, where no other clause forbids that.
fn put_circle_in(random: &mut Random, sets: &mut Sets) {
    let Some(role) = random.member(&sets.roles) else {
        return;
    };
    // A role below itself is the shortest circle; mostly a longer one is looked for.
    let mut circle = Attachment {
        senior: role,
        junior: role,
    };
    let tries = random.pick(&[0, 8, 8, 8]);
    for _ in 0..tries {
        let Some(junior) = random.member(&sets.roles) else {
            return;
        };
        let below = sets.reached([junior]);
        let fits = |low: &Role| *low != junior && sets.may_link(*low, junior.issuer);
        if let Some(senior) = random.member_where(&below, fits) {
            circle = Attachment { senior, junior };
        }
    }
    sets.attachments.insert(circle);
}

/// Makes a role active that the session's user doesn't hold, within the user's reach or beyond.
fn put_active_in(random: &mut Random, sets: &mut Sets) {
    let open = sets.sessions.keys().copied().collect();
    let Some(name) = random.member(&open) else {
        return;
    };
    let user = own(name.issuer, sets.sessions[&name].user);
    let reach = sets.within_reach(user);
    let within = random.percent(50);
    let not_held = |role: usize| !sets.held.contains(&Held { user, role });
    let fits = |role: &Role| {
        let ours = role.issuer == name.issuer && not_held(role.number);
        ours && reach.contains(&role.number) == within
    };
    let role = random.member_where(&sets.roles, fits);
    let session = sets.sessions.get_mut(&name).expect("it is open");
    session.active.extend(role.map(|role| role.number));
}

/// Cuts a way down to an active role that the user doesn't hold; another may be left.
fn cut_way(random: &mut Random, sets: &mut Sets) {
    let Some(Way { user, held, links }) = any_way(random, sets) else {
        return;
    };
    if random.percent(30) {
        let role = held.number;
        sets.held.remove(&Held { user, role });
    } else {
        sets.attachments.remove(&random.pick(&links));
    }
}

/// Takes away what a link between two estates needs: the trust, or that the role is public.
fn undercut(random: &mut Random, sets: &mut Sets) {
    let links: Vec<(Role, usize)> = sets.links().collect();
    let Some((role, trustee)) = random.pick_where(&links, |(role, owner)| role.issuer != *owner)
    else {
        return;
    };
    let trustor = role.issuer;
    if random.percent(50) {
        sets.trust.remove(&Trust { trustor, trustee });
    } else {
        sets.public.remove(&role);
    }
}

/// Puts one thing of the world in if it is not there, or takes it out if it is.
fn turn_over(random: &mut Random, world: &World, sets: &mut Sets) {
    fn turn<T: Ord>(set: &mut BTreeSet<T>, item: T) {
        if !set.remove(&item) {
            set.insert(item);
        }
    }
    let issuer = world.name(random, Thing::Issuer);
    let other = world.name(random, Thing::Issuer);
    let user = own(issuer, world.name(random, Thing::User));
    let role = own(issuer, world.name(random, Thing::Role));
    let permission = own(other, world.name(random, Thing::Permission));
    let trust = |trustor, trustee| Trust { trustor, trustee };
    match random.below(12) {
        0 => turn(&mut sets.enrolled, issuer),
        1 => turn(&mut sets.trust, trust(issuer, other)),
        2 => turn(&mut sets.trust, trust(issuer, issuer)),
        3 => turn(&mut sets.users, user),
        // its public bit stays, or goes with it
        4 => {
            turn(&mut sets.roles, role);
            if random.percent(50) {
                sets.public.remove(&role);
            }
        }
        5 => turn(&mut sets.permissions, permission),
        6 => {
            let role = role.number;
            turn(&mut sets.held, Held { user, role });
        }
        7 | 8 => turn(&mut sets.grants, Grant { role, permission }),
        9 | 10 => turn(&mut sets.public, role),
        _ => {
            let senior = role;
            let junior = own(other, world.name(random, Thing::Role));
            turn(&mut sets.attachments, Attachment { senior, junior });
        }
    }
}
