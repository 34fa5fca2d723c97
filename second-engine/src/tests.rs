//! The second engine on the paper's cases, and on itself.

use crate::cases::{cases, state_s};
use crate::damage::any_damage;
use crate::engine::{call, refused, start, Answer, Desk, ACCEPTED};
use crate::histories::{outsiders, trusts_a_member};
use crate::lawful::{broken_laws, lawful, Law};
use crate::lawful_states::lawful_sets;
use crate::places::{public_word, WORDS};
use crate::random::Random;
use crate::record::{decode_call, encode, OPERATOR};
use crate::records::{any_record, undecodable};
use crate::sets::{own, Attachment, Grant, Held, Session, Sets, Trust};
use crate::shrink::shrink;
use crate::worlds::World;
use std::collections::{BTreeMap, BTreeSet};

fn played(records: &[Vec<u8>]) -> (Vec<u16>, Vec<Answer>) {
    let mut words = vec![0xBEEF; WORDS];
    assert_eq!(start(&mut words), ACCEPTED);
    let answers = records.iter().map(|record| call(&mut words, record));
    let answers = answers.collect();
    (words, answers)
}

pub fn in_s() -> Sets {
    let trust = |trustor, trustee| Trust { trustor, trustee };
    let session = Session {
        user: 3,
        active: BTreeSet::from([2]),
    };
    Sets {
        enrolled: BTreeSet::from([0, 1]),
        trust: BTreeSet::from([trust(0, 0), trust(0, 1), trust(1, 1)]),
        users: BTreeSet::from([own(0, 3)]),
        roles: BTreeSet::from([own(0, 2), own(0, 3)]),
        public: BTreeSet::from([own(0, 2)]),
        permissions: BTreeSet::from([own(1, 5)]),
        held: BTreeSet::from([Held {
            user: own(0, 3),
            role: 2,
        }]),
        grants: BTreeSet::from([Grant {
            role: own(0, 2),
            permission: own(1, 5),
        }]),
        attachments: BTreeSet::new(),
        sessions: BTreeMap::from([(own(0, 4), session)]),
        active_in_closed: BTreeSet::new(),
    }
}

#[test]
fn the_records_build_s() {
    let (words, answers) = played(&state_s());
    assert!(answers.iter().all(|&answer| answer == ACCEPTED));
    assert_eq!(Sets::read(&words), in_s());
    let public: Vec<u16> = (0..16).map(|i| words[public_word(i)]).collect();
    assert_eq!(public, words[9025..]);
    assert_eq!(public, [4, 0, 0, 0, 0, 0, 0, 0, 0, 0, 0, 0, 0, 0, 0, 0]);
}

#[test]
fn the_cases() {
    for case in cases() {
        let mut words = vec![0; WORDS];
        in_s().write(&mut words);
        let (last, before) = case.records.split_last().unwrap();
        for record in before {
            assert_eq!(call(&mut words, record), ACCEPTED, "case {}", case.name);
        }
        let left = words.clone();
        let answer = call(&mut words, last);
        assert!(case.fits(answer), "case {}: {answer:?}", case.name);
        assert_eq!(words, left, "case {}", case.name);
        if case.name == "B" {
            assert!(Sets::read(&words).grants.is_empty());
        }
    }
}

/// The journal program's example: bytes, and the lines without `end 6`.
fn example() -> (Vec<Vec<u8>>, Vec<&'static str>) {
    let records = vec![
        vec![0x06, 0x00, 0x01, 0x00, 0x10, 0x00],
        vec![0x06, 0x00, 0x01, 0x00, 0x10, 0x01],
        vec![0x06, 0x00, 0x07, 0x00, 0x00, 0x02],
        vec![0x08, 0x00, 0x0D, 0x00, 0x01, 0x05, 0x00, 0x02],
        vec![0x06, 0x00, 0x03, 0x00, 0x00, 0x01],
        vec![0x08, 0x00, 0x0D, 0x00, 0x01, 0x05, 0x00, 0x02],
    ];
    let lines = vec![
        "1 1 16 0 0",
        "2 1 16 0 0",
        "3 7 0 0 0",
        "4 13 1 9 0",
        "5 3 0 0 0",
        "6 13 1 10 0",
    ];
    (records, lines)
}

#[test]
fn the_journal_example() {
    let (records, lines) = example();
    let (_, answers) = played(&records);
    for (place, (record, answer)) in records.iter().zip(answers).enumerate() {
        let decoded = decode_call(record).unwrap();
        let line = format!(
            "{} {} {} {} {}",
            place + 1,
            decoded.kind,
            decoded.caller,
            answer.refusal,
            answer.verdict
        );
        assert_eq!(line, lines[place]);
    }
}

#[test]
fn wrong_lengths_are_refused_and_left() {
    for length in [0, 1, 9025, 9040, 9042, 20000] {
        let mut words = vec![7; length];
        assert_eq!(start(&mut words), refused(1));
        assert_eq!(call(&mut words, &state_s()[0]), refused(1));
        assert!(words.iter().all(|&word| word == 7));
    }
}

#[test]
fn any_words_are_read_and_written_back() {
    let mut random = Random::new(1);
    for _ in 0..20 {
        let words: Vec<u16> = (0..WORDS).map(|_| random.word()).collect();
        let mut written = vec![0; WORDS];
        Sets::read(&words).write(&mut written);
        assert_eq!(words, written);
    }
}

#[test]
fn circles_are_found() {
    let chain = [own(0, 2), own(3, 2), own(0, 5), own(9, 15)];
    let mut sets = Sets::default();
    for issuer in [0, 3, 9] {
        sets.enrolled.insert(issuer);
        for trustee in [0, 3, 9] {
            let trustor = issuer;
            sets.trust.insert(Trust { trustor, trustee });
        }
    }
    sets.roles.extend(chain);
    sets.public.extend(chain);
    for ends in chain.windows(2) {
        sets.attachments.insert(Attachment {
            senior: ends[0],
            junior: ends[1],
        });
    }
    assert!(lawful(&sets));
    for senior in chain {
        let mut closed = sets.clone();
        closed.attachments.insert(Attachment {
            senior,
            junior: chain[0],
        });
        assert_eq!(broken_laws(&closed), [Law::NoCircle]);
    }
}

/// S with links of both estates on 0#2: 0%1 and 1%5, and 0#3 and 1#1 below it.
fn linked() -> Sets {
    let mut sets = in_s();
    sets.permissions.insert(own(0, 1));
    sets.roles.insert(own(1, 1));
    sets.grants.insert(Grant {
        role: own(0, 2),
        permission: own(0, 1),
    });
    for junior in [own(0, 3), own(1, 1)] {
        let senior = own(0, 2);
        sets.attachments.insert(Attachment { senior, junior });
    }
    sets
}

#[test]
fn unpublishing_clears_the_links_of_others_and_nothing_else() {
    let mut words = vec![0; WORDS];
    linked().write(&mut words);
    assert_eq!(call(&mut words, &encode(23, 0, &[2])), ACCEPTED);
    let mut left = linked();
    left.public.clear();
    left.grants.retain(|grant| grant.permission == own(0, 1));
    left.attachments.retain(|link| link.junior == own(0, 3));
    assert_eq!(Sets::read(&words), left);
}

#[test]
fn only_public_roles_have_links_of_others() {
    assert_eq!(broken_laws(&linked()), []);
    let absent = own(1, 2);
    let mut sets = linked();
    sets.public.insert(absent);
    assert_eq!(broken_laws(&sets), [Law::PublicIsPresent]);
    let mut sets = linked();
    sets.public.clear();
    assert_eq!(
        broken_laws(&sets),
        [Law::GrantPublic, Law::AttachmentPublic]
    );
    sets.grants.retain(|grant| grant.permission == own(0, 1));
    assert_eq!(broken_laws(&sets), [Law::AttachmentPublic]);
    sets.attachments.retain(|link| link.junior == own(0, 3));
    assert_eq!(broken_laws(&sets), []);
}

#[test]
fn random_lawful_states_are_lawful() {
    for seed in 0..40 {
        let sets = lawful_sets(&mut Random::new(seed));
        assert_eq!(broken_laws(&sets), []);
    }
}

/// The sets kept between calls give the same as words read anew each time.
#[test]
fn kept_sets_and_words_agree() {
    for seed in 0..10 {
        let mut random = Random::new(seed);
        let world = World::new(&mut random);
        let mut desk = Desk::started();
        let mut words = desk.words().to_vec();
        for _ in 0..400 {
            let record = any_record(&mut random, &world, desk.sets());
            assert_eq!(desk.call(&record), call(&mut words, &record));
            assert_eq!(desk.words(), words);
            assert!(desk.sound());
        }
        let damage = any_damage(&mut random, &world, &words);
        let mut damaged = damage.apply(&words);
        let before = damaged.clone();
        if call(&mut damaged, &[0]).refusal != 0 {
            assert_eq!(damaged, before);
        }
    }
}

#[test]
fn undecodable_records_are_refused_with_3_and_are_outsiders() {
    let mut random = Random::new(3);
    let members = (0..16).collect();
    for _ in 0..2000 {
        let world = World::new(&mut random);
        let record = undecodable(&mut random, &world);
        assert_eq!(Desk::started().call(&record), refused(3));
        assert!(outsiders(&members, &record));
    }
    assert!(outsiders(&members, &encode(5, 17, &[0])));
    assert!(!outsiders(&members, &encode(5, 15, &[0])));
    assert!(outsiders(&BTreeSet::new(), &encode(5, 15, &[0])));
    assert!(!outsiders(&BTreeSet::new(), &encode(5, OPERATOR, &[0])));
}

#[test]
fn kinds_22_and_23_are_their_callers_and_give_no_trust() {
    let members = BTreeSet::from([0, 1]);
    for kind in [22, 23] {
        assert!(!outsiders(&members, &encode(kind, 1, &[0])));
        assert!(outsiders(&members, &encode(kind, 2, &[0])));
        assert!(!trusts_a_member(&members, &encode(kind, 2, &[0])));
    }
    assert!(trusts_a_member(&members, &encode(3, 2, &[0])));
    assert!(outsiders(&members, &encode(24, 1, &[0])));
}

#[test]
fn shrinking_keeps_what_fails() {
    let items: Vec<u32> = (0..1000).collect();
    let fails = |list: &[u32]| {
        let first = list.iter().position(|&item| item == 17)?;
        let second = list.iter().position(|&item| item == 801)?;
        Some(first.max(second) + 1)
    };
    assert_eq!(shrink(items, fails), [17, 801]);
}
