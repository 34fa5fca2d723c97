//! Demand 3 on random pairs of histories, played on the library and on the second engine.

use crate::histories::{any_pair, outsiders, trusts_a_member, In, Pair};
use crate::library::Lent;
use crate::pair_counts::PairCounts;
use crate::places::{
    attachment_word, grant_word, held_word, permissions_word, public_word, roles_word,
    session_word, trust_word, users_word, WORDS,
};
use crate::random::Random;
use crate::report::{announce, report};
use crate::sets::{own, Attachment, Sets};
use crate::shrink::shrink;
use crate::side_by_side::{hex, numbers, SideBySide, Step};

/// What a history left: the answers, packed, and the words.
pub struct Played {
    pub answers: Vec<u64>,
    pub words: Vec<u16>,
}

/// Plays random pairs. On a disagreement, or where the claim fails, it prints the shortest
/// list or pair that it finds and gives `false`.
pub fn play_pairs(seed: u64, pairs: u64, trace: bool, counts: &mut PairCounts) -> bool {
    let mut seeds = Random::new(!seed);
    while counts.pairs < pairs {
        let mut random = Random::new(seeds.next());
        let pair = any_pair(&mut random, &mut counts.avoided);
        counts.pairs += 1;
        let whence = format!("pair {} of seed {seed}", counts.pairs);
        let mut both = Vec::new();
        for which in [In::First, In::Second] {
            match play_beside_engine(&pair, which, trace, counts) {
                Ok(played) => both.push(played),
                Err(steps) => {
                    announce(&whence);
                    return report(steps);
                }
            }
        }
        if let Some(broken) = broken_claim(&pair, &both[0], &both[1]) {
            println!("DEMAND 3 FAILS in {whence}: {broken}");
            return report_pair(pair);
        }
        counts.count(&pair, &both[0], &both[1]);
    }
    true
}

/// Gives the failing steps where the library and the second engine disagree.
fn play_beside_engine(
    pair: &Pair,
    which: In,
    trace: bool,
    counts: &mut PairCounts,
) -> Result<Played, Vec<Step>> {
    let Ok(mut both) = SideBySide::started(trace) else {
        return Err(Vec::new());
    };
    let mut answers = Vec::new();
    let mut steps = Vec::new();
    for record in pair.history(which) {
        let before = both.desk().sets().sessions.clone();
        steps.push(Step::Call(record.to_vec()));
        let Ok(answer) = both.play(&steps[steps.len() - 1]) else {
            return Err(steps);
        };
        answers.push(answer.packed());
        if answer.refusal == 0 {
            let after = both.desk().sets();
            counts.count_call(&pair.members, record, answer, &before, after);
        }
    }
    let words = both.library_words().to_vec();
    Ok(Played { answers, words })
}

fn play_library(records: &[&[u8]]) -> Played {
    let mut lent = Lent::new(&[0; WORDS]);
    lent.start();
    let answers = records.iter().map(|record| lent.call(record).packed);
    Played {
        answers: answers.collect(),
        words: lent.words().to_vec(),
    }
}

/// Says what of the claim fails. Nothing is claimed where the premise fails.
pub fn broken_claim(pair: &Pair, first: &Played, second: &Played) -> Option<String> {
    if premise_fails(pair, In::First, first) || premise_fails(pair, In::Second, second) {
        return None;
    }
    // "the answers to the records that remain are equal lists, every number of each answer"
    let first_answers = remaining_answers(pair, In::First, first);
    let second_answers = remaining_answers(pair, In::Second, second);
    if first_answers != second_answers {
        let answers = first_answers.iter().zip(&second_answers);
        let equal = answers.take_while(|(a, b)| a == b).count();
        let told = |answers: &[u64]| answers.get(equal).map(|&packed| numbers(packed));
        let both = [told(&first_answers), told(&second_answers)];
        let both = both.map(|told| told.unwrap_or("none".to_string()));
        return Some(format!(
            "answer {} of those that remain: {}",
            equal + 1,
            both.join("; ")
        ));
    }
    let first_sets = Sets::read(&first.words);
    let second_sets = Sets::read(&second.words);
    // "under its premises only members' roles reach a member's"
    let from_outside = |Attachment { senior, junior }: &Attachment| {
        pair.members.contains(&junior.issuer) && !pair.members.contains(&senior.issuer)
    };
    for sets in [&first_sets, &second_sets] {
        if sets.attachments.iter().any(from_outside) {
            return Some("an outsider's role above a member's".to_string());
        }
    }
    for &j in &pair.members {
        // "all that stands in each member's own name is equal bit for bit"
        if own_name(&first.words, j) != own_name(&second.words, j) {
            return Some(format!("the words in issuer {j}'s own name"));
        }
        // "for each session i/s and each permission j%p of a member j, whether the session is
        // open with an active role that reaches a role holding j%p"; and through which one:
        // "demand 3 holds for these two numbers"
        for (i, s, p) in (0..4096).map(|n| (n / 256, n / 16 % 16, n % 16)) {
            let (session, permission) = (own(i, s), own(j, p));
            let first = first_sets.through(session, permission);
            let second = second_sets.through(session, permission);
            if first.is_some() != second.is_some() {
                return Some(format!("whether session {i}/{s} may use {j}%{p}"));
            }
            if first != second {
                return Some(format!("through which role {i}/{s} may use {j}%{p}"));
            }
        }
    }
    None
}

/// The premise: "in neither a kind 3 from an outsider that names a member is accepted".
fn premise_fails(pair: &Pair, which: In, played: &Played) -> bool {
    let records = pair.history(which);
    let mut answered = records.iter().zip(&played.answers);
    answered.any(|(record, answer)| answer % 65536 == 0 && trusts_a_member(&pair.members, record))
}

fn remaining_answers(pair: &Pair, which: In, played: &Played) -> Vec<u64> {
    let records = pair.history(which);
    let answered = records.iter().zip(&played.answers);
    let remaining = answered.filter(|(record, _)| !outsiders(&pair.members, record));
    remaining.map(|(_, answer)| *answer).collect()
}

/// "In j's own name stand its enrolled bit, its trust word, its users, roles, permissions, held
/// words and sessions, and the words of j%p and j#q." Its public word is set by its own calls.
fn own_name(words: &[u16], j: usize) -> Vec<u16> {
    let enrolled = words[0] / (1 << j) % 2;
    let mut places = vec![trust_word(j), users_word(j), roles_word(j)];
    places.extend([permissions_word(j), public_word(j)]);
    for n in 0..16 {
        places.push(held_word(j, n));
        places.extend([session_word(j, n), session_word(j, n) + 1]);
        for i in 0..16 {
            places.extend([grant_word(j, n, i), attachment_word(j, n, i)]);
        }
    }
    let mut standing = vec![enrolled];
    standing.extend(places.into_iter().map(|place| words[place]));
    standing
}

/// Shortens the failing pair and prints it. Gives `false`.
fn report_pair(pair: Pair) -> bool {
    let members = pair.members.clone();
    let with = |entries: &[(In, Vec<u8>)]| Pair {
        members: members.clone(),
        entries: entries.to_vec(),
    };
    let fails = |pair: &Pair| {
        let first = play_library(&pair.history(In::First));
        let second = play_library(&pair.history(In::Second));
        broken_claim(pair, &first, &second)
    };
    let entries = shrink(pair.entries, |entries| {
        fails(&with(entries)).map(|_| entries.len())
    });
    let pair = with(&entries);
    println!("shortest failing pair found, members {:?}:", pair.members);
    for (place, record) in &pair.entries {
        println!("{place:?}: {}", hex(record));
    }
    match fails(&pair) {
        Some(broken) => println!("differing at the end: {broken}"),
        None => println!("played again, it did not fail: the library is not steady"),
    }
    false
}
