//! "The press's sign of life", and records of 1 to 4 bytes, on the second engine.

use crate::cases::state_s;
use crate::damage::any_damage;
use crate::engine::{call, refused, yes, Answer, Desk, ACCEPTED};
use crate::histories::{any_pair, outsiders, trusts_a_member, In};
use crate::lawful::{broken_laws, lawful};
use crate::lawful_states::lawful_sets;
use crate::places::{public_word, session_word, WORDS};
use crate::random::Random;
use crate::record::{decode, encode, Record};
use crate::records::{any_record, undecodable};
use crate::sets::{own, Sets};
use crate::tests::in_s;
use crate::worlds::World;
use std::collections::BTreeSet;

const SIGN_OF_LIFE: &[u8] = &[];

fn words_of(sets: &Sets) -> Vec<u16> {
    let mut words = vec![0; WORDS];
    sets.write(&mut words);
    words
}

/// Started, and the records of S played.
fn desk_s() -> Desk {
    let mut desk = Desk::started();
    for record in state_s() {
        assert_eq!(desk.call(&record), ACCEPTED);
    }
    desk
}

/// The answer; both ways of calling give it, and the words stay.
fn left_by(mut desk: Desk, record: &[u8]) -> Answer {
    let before = desk.words().to_vec();
    let mut words = before.clone();
    let answer = call(&mut words, record);
    assert_eq!(words, before, "{record:?}");
    assert_eq!(desk.call(record), answer, "{record:?}");
    assert_eq!(desk.words(), before, "{record:?}");
    assert!(desk.sound());
    answer
}

/// The answer; the words stay.
fn left_on(words: &[u16], record: &[u8]) -> Answer {
    let mut left = words.to_vec();
    let answer = call(&mut left, record);
    assert_eq!(left, words, "{record:?}");
    answer
}

#[test]
fn a_sign_of_life_is_accepted_and_changes_no_word() {
    assert_eq!(left_by(Desk::started(), SIGN_OF_LIFE), ACCEPTED);
    assert_eq!(left_by(desk_s(), SIGN_OF_LIFE), ACCEPTED);
    assert_eq!(left_on(&words_of(&in_s()), SIGN_OF_LIFE), ACCEPTED);
    for seed in 0..10 {
        let sets = lawful_sets(&mut Random::new(seed));
        assert_eq!(left_on(&words_of(&sets), SIGN_OF_LIFE), ACCEPTED);
    }
}

/// The answers of S after one are the old ones.
#[test]
fn after_a_sign_of_life_the_answers_are_the_same() {
    let mut desk = desk_s();
    for _ in 0..3 {
        assert_eq!(desk.call(SIGN_OF_LIFE), ACCEPTED);
        assert_eq!(desk.call(&encode(21, 1, &[5, 0, 4])), yes(own(0, 2)));
        assert_eq!(desk.call(&encode(22, 0, &[2])), refused(12));
    }
}

/// "States of wrong length or law still give 1 or 2."
#[test]
fn a_sign_of_life_on_a_wrong_length_gives_1() {
    for length in [0, 1, 9025, 9040, 9042, 18082, 65536 + WORDS] {
        let mut words = words_of(&in_s());
        words.resize(length, 0);
        assert_eq!(left_on(&words, SIGN_OF_LIFE), refused(1), "{length} words");
        assert_eq!(left_on(&vec![7; length], SIGN_OF_LIFE), refused(1));
    }
}

#[test]
fn a_sign_of_life_on_an_unlawful_state_gives_2() {
    // no issuer enrolled; 1 doesn't trust itself; 1#0 absent and public; 0/4 open for nobody
    let edits = [(0, 0), (2, 0), (public_word(1), 1), (session_word(0, 4), 5)];
    for (place, word) in edits {
        let mut words = words_of(&in_s());
        words[place] = word;
        assert_ne!(broken_laws(&Sets::read(&words)), []);
        assert_eq!(left_on(&words, SIGN_OF_LIFE), refused(2), "word {place}");
    }
    assert_eq!(left_on(&[65535; WORDS], SIGN_OF_LIFE), refused(2));
}

#[test]
fn signs_of_life_on_damaged_states() {
    let mut random = Random::new(4);
    let present = words_of(&in_s());
    let mut seen = [0; 3];
    for _ in 0..300 {
        let world = World::new(&mut random);
        let words = any_damage(&mut random, &world, &present).apply(&present);
        let expected = if words.len() != WORDS {
            1
        } else if !lawful(&Sets::read(&words)) {
            2
        } else {
            0
        };
        assert_eq!(left_on(&words, SIGN_OF_LIFE), refused(expected as u16));
        seen[expected] += 1;
    }
    assert!(seen.iter().all(|&count| count > 0), "{seen:?}");
}

#[test]
fn one_to_four_bytes_are_refused_with_3() {
    assert_eq!(decode(SIGN_OF_LIFE), Record::SignOfLife);
    for bytes in 1..=4 {
        for field in [0, bytes as u8, 5, 6, 255] {
            let record = &[field, 0, 21, 0][..bytes];
            assert_eq!(decode(record), Record::Undecodable, "{record:?}");
            assert_eq!(left_by(Desk::started(), record), refused(3));
            assert_eq!(left_by(desk_s(), record), refused(3));
            assert_eq!(left_on(&[65535; WORDS], record), refused(2));
            assert_eq!(left_on(&[0; 9040], record), refused(1));
        }
    }
}

/// "the empty one too ... counts as an outsider's"
#[test]
fn a_sign_of_life_is_an_outsiders() {
    let sets: [BTreeSet<usize>; 4] = [
        BTreeSet::new(),
        BTreeSet::from([0]),
        BTreeSet::from([0, 1]),
        (0..16).collect(),
    ];
    for members in sets {
        assert!(outsiders(&members, SIGN_OF_LIFE));
        assert!(!trusts_a_member(&members, SIGN_OF_LIFE));
    }
}

/// Of each number of bytes, with the length field right and wrong; one byte is half a field.
#[test]
fn random_records_are_short_now_and_then() {
    let mut random = Random::new(5);
    let mut seen = BTreeSet::new();
    let mut signs = 0;
    for _ in 0..4000 {
        let world = World::new(&mut random);
        let record = undecodable(&mut random, &world);
        assert_ne!(record, SIGN_OF_LIFE);
        if record.len() < 5 {
            let right = usize::from(record[0]) == record.len();
            seen.insert((record.len(), right));
        }
        let record = any_record(&mut random, &world, &in_s());
        signs += u32::from(record.is_empty());
    }
    for bytes in 1..=4 {
        assert!(seen.contains(&(bytes, true)), "{bytes}");
        assert!(seen.contains(&(bytes, false)), "{bytes}");
    }
    assert!((20..=120).contains(&signs), "{signs}");
}

#[test]
fn random_histories_have_signs_of_life_in_one_only() {
    let (mut first, mut second) = (0, 0);
    for seed in 0..6 {
        let pair = any_pair(&mut Random::new(seed), &mut 0);
        for (place, record) in pair.entries {
            if record.is_empty() {
                assert_ne!(place, In::Both);
                first += u32::from(place == In::First);
                second += u32::from(place == In::Second);
            }
        }
    }
    assert!(first > 0 && second > 0, "{first}, {second}");
}
