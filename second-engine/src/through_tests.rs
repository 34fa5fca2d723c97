//! "Through which role?" on worked examples.

use crate::cases::state_s;
use crate::engine::{call, refused, start, unpacked, yes, Desk, ACCEPTED};
use crate::histories::{In, Pair};
use crate::pairs::{broken_claim, Played};
use crate::places::WORDS;
use crate::record::{encode, OPERATOR};
use crate::sets::{own, Attachment, Grant, Role, Sets};
use crate::side_by_side::numbers;
use crate::tests::in_s;
use crate::through::NO_ROLE;
use crate::through_check::Yes;
use std::collections::BTreeSet;

/// The session and the permission of case A.
const SESSION: Role = own(0, 4);
const PERMISSION: Role = own(1, 5);

fn asked() -> Vec<u8> {
    encode(21, 1, &[5, 0, 4])
}

/// S, where these roles hold 1%5 besides, and these are attached below 0#2.
fn with(holders: &[Role], juniors: &[Role]) -> Sets {
    let mut sets = in_s();
    for &role in holders {
        let permission = PERMISSION;
        sets.grants.insert(Grant { role, permission });
    }
    for &junior in juniors {
        let senior = own(0, 2);
        sets.attachments.insert(Attachment { senior, junior });
    }
    sets
}

fn through(sets: &Sets) -> Option<Role> {
    sets.through(SESSION, PERMISSION)
}

fn wrong(sets: &Sets, told: Role) -> Option<String> {
    let (name, permission) = (SESSION, PERMISSION);
    let yes = Yes {
        name,
        permission,
        told,
    };
    yes.wrong(sets)
}

#[test]
fn answers_are_packed_in_48_bits() {
    assert_eq!(ACCEPTED.packed(), 0xFFFF_0000_0000);
    assert_eq!(refused(14).packed(), 0xFFFF_0000_000E);
    assert_eq!(yes(own(0, 0)).packed(), 0x1_0000);
    assert_eq!(yes(own(0, 2)).packed(), 0x0200_0001_0000);
    assert_eq!(yes(own(2, 0)).packed(), 0x0002_0001_0000);
    assert_eq!(yes(own(15, 15)).packed(), 0x0F0F_0001_0000);
    assert_eq!(unpacked(0x0007_0302_0001_000E), [14, 1, 2, 3, 7]);
}

#[test]
fn a_difference_is_printed_with_all_numbers() {
    let text = "refusal 0, verdict 1, issuer 15, role 3";
    assert_eq!(numbers(yes(own(15, 3)).packed()), text);
    let text = "refusal 9, verdict 0, issuer 255, role 255";
    assert_eq!(numbers(refused(9).packed()), text);
    let text = "refusal 0, verdict 0, issuer 0, role 0, above them 1";
    assert_eq!(numbers(1 << 48), text);
}

#[test]
fn the_lowest_issuer_then_the_lowest_role() {
    assert_eq!(through(&in_s()), Some(own(0, 2)));
    let all = [own(0, 1), own(0, 3), own(1, 0), own(15, 15)];
    assert_eq!(through(&with(&all, &all)), Some(own(0, 1)));
    assert_eq!(through(&with(&all[1..], &all[1..])), Some(own(0, 2)));
    let mut sets = with(&all, &all);
    for told in [own(0, 1), own(0, 2), own(0, 3), own(1, 0), own(15, 15)] {
        assert_eq!(through(&sets), Some(told));
        sets.grants.retain(|grant| grant.role != told);
    }
    assert_eq!(through(&sets), None);
}

#[test]
fn only_reached_roles_that_hold_it() {
    assert_eq!(through(&with(&[own(0, 0)], &[])), Some(own(0, 2)));
    assert_eq!(through(&with(&[], &[own(0, 0)])), Some(own(0, 2)));
    // 0#0 holds permission 5 of issuer 0, and 6 of issuer 1
    let mut sets = with(&[], &[own(0, 0)]);
    for permission in [own(0, 5), own(1, 6)] {
        let role = own(0, 0);
        sets.grants.insert(Grant { role, permission });
    }
    assert_eq!(through(&sets), Some(own(0, 2)));
    sets.sessions.clear();
    assert_eq!(through(&sets), None);
}

#[test]
fn without_a_yes_255_and_255() {
    let mut started = vec![0; WORDS];
    assert_eq!(start(&mut started), ACCEPTED);
    assert_eq!(start(&mut [0; 9]), refused(1));
    assert_eq!((ACCEPTED.verdict, ACCEPTED.through), (0, NO_ROLE));
    assert_eq!(NO_ROLE, own(255, 255));
    let mut words = vec![0; WORDS];
    in_s().write(&mut words);
    // a sign of life; a closed session; refusals 3, 5, 6 and 10
    assert_eq!(call(&mut words, &[]), ACCEPTED);
    assert_eq!(call(&mut words, &encode(21, 1, &[5, 0, 5])), ACCEPTED);
    assert_eq!(call(&mut words, &asked()[..7]), refused(3));
    assert_eq!(call(&mut words, &encode(21, 2, &[5, 0, 4])), refused(5));
    assert_eq!(call(&mut words, &encode(21, 1, &[5, 0, 16])), refused(6));
    assert_eq!(call(&mut words, &encode(21, 1, &[6, 0, 4])), refused(10));
    assert_eq!(call(&mut words, &asked()), yes(own(0, 2)));
    // an unlawful state, and one of wrong length
    words[0] = 1;
    assert_eq!(call(&mut words, &asked()), refused(2));
    assert_eq!(call(&mut words[..9040], &asked()), refused(1));
}

#[test]
fn withdrawn_trust_leaves_the_next_or_none() {
    let mut desk = Desk::started();
    let before = [
        (1, OPERATOR, vec![2]),
        (7, 2, vec![9]),
        (22, 2, vec![9]),
        (3, 2, vec![1]),
        (3, 0, vec![2]),
        (13, 1, vec![5, 2, 9]),
        (15, 2, vec![9, 0, 2]),
    ];
    let before = before.map(|(kind, caller, arguments)| encode(kind, caller, &arguments));
    for record in state_s().iter().chain(&before) {
        assert_eq!(desk.call(record), ACCEPTED);
    }
    assert_eq!(desk.call(&asked()), yes(own(0, 2)));
    assert_eq!(desk.call(&encode(4, 0, &[1])), ACCEPTED);
    assert_eq!(desk.call(&asked()), yes(own(2, 9)));
    assert_eq!(desk.call(&encode(4, 2, &[1])), ACCEPTED);
    assert_eq!(desk.call(&asked()), ACCEPTED);
}

/// Each of the four things that are looked for in the sets.
#[test]
fn wrong_roles_are_found_in_the_sets() {
    let sets = with(&[own(0, 0), own(1, 0)], &[own(0, 1), own(1, 0)]);
    assert_eq!(wrong(&sets, own(0, 2)), None);
    let text = "0#1 doesn't hold the permission";
    assert_eq!(wrong(&sets, own(0, 1)).unwrap(), text);
    let text = "255#255 doesn't hold the permission";
    assert_eq!(wrong(&sets, NO_ROLE).unwrap(), text);
    let text = "no active role reaches 0#0";
    assert_eq!(wrong(&sets, own(0, 0)).unwrap(), text);
    let text = "0#2 is lower than 1#0";
    assert_eq!(wrong(&sets, own(1, 0)).unwrap(), text);
    let mut untrusted = sets.clone();
    untrusted
        .trust
        .retain(|trust| trust.trustor == trust.trustee);
    let text = "the owner of 0#2 doesn't trust the permission's";
    assert_eq!(wrong(&untrusted, own(0, 2)).unwrap(), text);
}

/// Demand 3: "every number of each answer", these two among them.
#[test]
fn demand_3_has_both_numbers() {
    let records = state_s().into_iter().chain([asked()]);
    let pair = Pair {
        members: BTreeSet::from([0, 1]),
        entries: records.map(|record| (In::Both, record)).collect(),
    };
    let played = |told: Role| {
        let mut desk = Desk::started();
        let records = pair.history(In::First).into_iter();
        let mut answers: Vec<u64> = records.map(|record| desk.call(record).packed()).collect();
        answers.pop();
        answers.push(yes(told).packed());
        Played {
            answers,
            words: desk.words().to_vec(),
        }
    };
    let right = played(own(0, 2));
    assert_eq!(broken_claim(&pair, &right, &played(own(0, 2))), None);
    for told in [own(0, 3), own(1, 2)] {
        let broken = broken_claim(&pair, &right, &played(told)).unwrap();
        let (first, second) = (numbers(right.answers[12]), numbers(yes(told).packed()));
        let text = format!("answer 13 of those that remain: {first}; {second}");
        assert_eq!(broken, text);
    }
}
