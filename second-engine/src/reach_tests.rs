//! Lesser roles, which the user reaches and doesn't hold, on the second engine: every set is
//! compared after each call.

use crate::engine::{call, Desk, ACCEPTED};
use crate::lawful::{broken_laws, Law};
use crate::lawful_states::lawful_sets;
use crate::places::WORDS;
use crate::random::Random;
use crate::record::{decode_call, encode, Call, OPERATOR};
use crate::records::any_record;
use crate::sets::{own, Attachment, Held, Own, Role, Session, Sets, Trust, User};
use crate::tests::in_s;
use crate::worlds::World;
use std::collections::BTreeSet;

fn link(senior: Role, junior: Role) -> Attachment {
    Attachment { senior, junior }
}

fn held(user: User, role: usize) -> Held {
    Held { user, role }
}

fn trust(trustor: usize, trustee: usize) -> Trust {
    Trust { trustor, trustee }
}

fn open(user: usize, active: &[usize]) -> Session {
    let active = active.iter().copied().collect();
    Session { user, active }
}

/// S with 1#1 below 0#2 and 0#3 below 1#1; in 0/4 role 2 is active.
fn chain() -> Sets {
    let mut sets = in_s();
    sets.trust.insert(trust(1, 0));
    sets.roles.insert(own(1, 1));
    sets.public.insert(own(1, 1));
    sets.attachments.insert(link(own(0, 2), own(1, 1)));
    sets.attachments.insert(link(own(1, 1), own(0, 3)));
    sets
}

/// The same, with role 3 active too.
fn lesser() -> Sets {
    let mut sets = chain();
    sets.sessions.insert(own(0, 4), open(3, &[2, 3]));
    sets
}

/// What an accepted record leaves.
fn after(sets: &Sets, record: &[u8]) -> Sets {
    let mut words = vec![0; WORDS];
    sets.write(&mut words);
    assert_eq!(call(&mut words, record), ACCEPTED, "{record:?}");
    let left = Sets::read(&words);
    assert_eq!(broken_laws(&left), [], "{record:?}");
    left
}

fn refusal(sets: &Sets, record: &[u8]) -> u16 {
    let mut words = vec![0; WORDS];
    sets.write(&mut words);
    call(&mut words, record).refusal
}

#[test]
fn a_lesser_role_is_activated() {
    assert_eq!(after(&chain(), &encode(19, 0, &[4, 3])), lesser());
    // case L: without the attachments
    assert_eq!(refusal(&in_s(), &encode(19, 0, &[4, 3])), 11);
    for cut in [link(own(0, 2), own(1, 1)), link(own(1, 1), own(0, 3))] {
        let mut sets = chain();
        sets.attachments.remove(&cut);
        assert_eq!(refusal(&sets, &encode(19, 0, &[4, 3])), 11);
    }
}

/// Every kind of cut: what its own sentence names goes, and role 3 with it.
#[test]
fn each_cut_drops_the_role_and_nothing_else() {
    let upper = link(own(0, 2), own(1, 1));
    let lower = link(own(1, 1), own(0, 3));
    let cut = |record: Vec<u8>, change: &dyn Fn(&mut Sets)| {
        let mut left = lesser();
        change(&mut left);
        left.sessions.insert(own(0, 4), open(3, &[2]));
        assert_eq!(after(&lesser(), &record), left, "{record:?}");
    };
    cut(encode(16, 1, &[1, 0, 2]), &|left| {
        left.attachments.remove(&upper);
    });
    cut(encode(16, 0, &[3, 1, 1]), &|left| {
        left.attachments.remove(&lower);
    });
    cut(encode(4, 0, &[1]), &|left| {
        left.trust.remove(&trust(0, 1));
        left.grants.clear();
        left.attachments.remove(&upper);
    });
    cut(encode(4, 1, &[0]), &|left| {
        left.trust.remove(&trust(1, 0));
        left.attachments.remove(&lower);
    });
    cut(encode(23, 0, &[2]), &|left| {
        left.public.remove(&own(0, 2));
        left.grants.clear();
        left.attachments.remove(&upper);
    });
    cut(encode(23, 1, &[1]), &|left| {
        left.public.remove(&own(1, 1));
        left.attachments.remove(&lower);
    });
    cut(encode(8, 1, &[1]), &|left| {
        left.roles.remove(&own(1, 1));
        left.public.remove(&own(1, 1));
        left.attachments.clear();
    });
    cut(encode(2, OPERATOR, &[1]), &|left| {
        left.enrolled.remove(&1);
        left.trust = BTreeSet::from([trust(0, 0)]);
        left.roles.remove(&own(1, 1));
        left.public.remove(&own(1, 1));
        left.permissions.clear();
        left.grants.clear();
        left.attachments.clear();
    });
}

#[test]
fn taking_the_held_role_drops_it_and_what_it_reached() {
    let mut left = lesser();
    left.held.clear();
    left.sessions.insert(own(0, 4), open(3, &[]));
    assert_eq!(after(&lesser(), &encode(12, 0, &[3, 2])), left);
}

#[test]
fn one_of_two_held_roles_taken_keeps_what_the_other_reaches() {
    let user = own(0, 3);
    let mut sets = lesser();
    sets.roles.insert(own(0, 7));
    sets.held.insert(held(user, 7));
    sets.attachments.insert(link(own(0, 7), own(0, 3)));
    let mut left = sets.clone();
    left.held.remove(&held(user, 2));
    left.sessions.insert(own(0, 4), open(3, &[3]));
    assert_eq!(after(&sets, &encode(12, 0, &[3, 2])), left);

    // The taken role itself stays active where the other one reaches it.
    sets.attachments.insert(link(own(0, 7), own(0, 2)));
    left.attachments.insert(link(own(0, 7), own(0, 2)));
    left.sessions.insert(own(0, 4), open(3, &[2, 3]));
    assert_eq!(after(&sets, &encode(12, 0, &[3, 2])), left);
}

#[test]
fn attaching_again_brings_nothing_back() {
    let cut = after(&lesser(), &encode(16, 1, &[1, 0, 2]));
    assert_eq!(refusal(&cut, &encode(19, 0, &[4, 3])), 11);
    assert_eq!(refusal(&cut, &encode(20, 0, &[4, 3])), 12);
    let again = after(&cut, &encode(15, 1, &[1, 0, 2]));
    assert_eq!(again, chain());
    assert_eq!(after(&again, &encode(19, 0, &[4, 3])), lesser());
}

/// Other sessions, of this issuer and of others, keep the roles that are still reached.
#[test]
fn sessions_whose_reach_stands_are_left() {
    let mut sets = lesser();
    // 0@5 reaches 0#3 by a way of its own.
    sets.users.insert(own(0, 5));
    sets.roles.insert(own(0, 6));
    sets.held.insert(held(own(0, 5), 6));
    sets.attachments.insert(link(own(0, 6), own(0, 3)));
    sets.sessions.insert(own(0, 8), open(5, &[3]));
    // 1@0 holds 1#1 and so reaches 1#2 inside the estate.
    sets.users.insert(own(1, 0));
    sets.roles.insert(own(1, 2));
    sets.held.insert(held(own(1, 0), 1));
    sets.attachments.insert(link(own(1, 1), own(1, 2)));
    sets.sessions.insert(own(1, 4), open(0, &[1, 2]));
    // 2@3 has the numbers of 0@3, and its own way.
    sets.enrolled.insert(2);
    sets.trust.insert(trust(2, 2));
    sets.users.insert(own(2, 3));
    sets.roles.extend([own(2, 2), own(2, 3)]);
    sets.held.insert(held(own(2, 3), 2));
    sets.attachments.insert(link(own(2, 2), own(2, 3)));
    sets.sessions.insert(own(2, 4), open(3, &[3]));
    assert_eq!(broken_laws(&sets), []);

    let mut left = sets.clone();
    left.attachments.remove(&link(own(0, 2), own(1, 1)));
    left.sessions.insert(own(0, 4), open(3, &[2]));
    assert_eq!(after(&sets, &encode(16, 1, &[1, 0, 2])), left);
}

#[test]
fn an_active_role_beyond_reach_is_unlawful() {
    assert_eq!(broken_laws(&lesser()), []);
    for cut in lesser().attachments {
        let mut sets = lesser();
        sets.attachments.remove(&cut);
        assert_eq!(broken_laws(&sets), [Law::ActiveIsReached]);
        assert_eq!(refusal(&sets, &encode(20, 0, &[4, 3])), 2);
    }
    // held by another user of the issuer
    let mut sets = lesser();
    sets.users.insert(own(0, 5));
    sets.held = BTreeSet::from([held(own(0, 5), 2)]);
    assert_eq!(broken_laws(&sets), [Law::ActiveIsReached]);
    // a senior of the held role
    let mut sets = lesser();
    sets.held = BTreeSet::from([held(own(0, 3), 3)]);
    assert_eq!(broken_laws(&sets), [Law::ActiveIsReached]);
    sets.sessions.insert(own(0, 4), open(3, &[3]));
    assert_eq!(broken_laws(&sets), []);
}

/// The way upwards: the user holds the role or reaches one of its seniors.
fn reaches(sets: &Sets, user: User, role: Role) -> bool {
    let Own { issuer, number } = role;
    let holds = issuer == user.issuer && sets.held.contains(&held(user, number));
    let mut above = sets.attachments.iter().filter(|link| link.junior == role);
    holds || above.any(|link| reaches(sets, user, link.senior))
}

/// What was active and is reached stays active; nothing else does, and nothing comes.
fn only_reached_are_left(before: &Sets, after: &Sets, call: Call) {
    for (name, session) in &after.sessions {
        let Some(was) = before.sessions.get(name) else {
            assert!(session.active.is_empty());
            continue;
        };
        let user = own(name.issuer, session.user);
        let mut active = was.active.clone();
        match call {
            Call::Activate { role, .. } if *session != *was => active.insert(role),
            Call::Deactivate { role, .. } if *session != *was => active.remove(&role),
            _ => false,
        };
        active.retain(|&role| reaches(after, user, own(name.issuer, role)));
        assert_eq!(session.active, active, "{call:?}");
    }
}

#[test]
fn random_calls_leave_active_what_is_reached() {
    for seed in 0..12 {
        let mut random = Random::new(seed);
        let mut world = World::new(&mut random);
        let mut desk = Desk::started();
        for _ in 0..800 {
            if random.below(100) == 0 {
                world.change_mood(&mut random);
            }
            let before = desk.sets().clone();
            let record = any_record(&mut random, &world, &before);
            if desk.call(&record).refusal == 0 && !record.is_empty() {
                let call = decode_call(&record).expect("it was accepted").call;
                only_reached_are_left(&before, desk.sets(), call);
            }
        }
    }
}

#[test]
fn both_ways_of_looking_give_the_same_reach() {
    for seed in 0..20 {
        let mut random = Random::new(seed);
        let sets = lawful_sets(&mut random);
        for _ in 0..20 {
            let Some(user) = random.member(&sets.users) else {
                break;
            };
            let number = random.below(16);
            let within = sets.within_reach(user).contains(&number);
            assert_eq!(within, reaches(&sets, user, own(user.issuer, number)));
        }
    }
}
