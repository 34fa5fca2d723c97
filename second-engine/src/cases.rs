//! "Twelve press-house cases", cases of public roles, of lesser ones and of short records, and
//! those of `through_cases`, as records with the paper's answers.

use crate::engine::Answer;
use crate::record::{encode, OPERATOR};
use crate::sets::Role;
use crate::through::NO_ROLE;
use crate::through_cases::{ThroughRows, THROUGH};

/// The kind, the caller and the arguments of a record.
pub type Row = (usize, usize, &'static [usize]);

/// The refusal and the verdict.
pub type Expected = (u16, u16);

/// A case's name, its records and the answer to the last of them.
type Rows = (&'static str, &'static [Row], Expected);

pub struct Case {
    pub name: &'static str,
    pub records: Vec<Vec<u8>>,
    /// The answer to the last record; the ones before it are accepted.
    pub expected: Expected,
    /// The role that it tells, where the case says so.
    pub through: Option<Role>,
}

impl Case {
    /// Whether the answer to the last record is this one.
    pub fn fits(&self, answer: Answer) -> bool {
        let role = self.through.unwrap_or(answer.through);
        (answer.refusal, answer.verdict) == self.expected && answer.through == role
    }
}

/// Builds S: "issuers 0 and 1 are enrolled, 0 trusts 1, 0@3 holds 0#2, 0#3 is present and
/// unheld, 0/4 is open for 0@3 with role 2 active, and 1%5 is granted to 0#2; nothing else".
/// "In S 0#2 is public."
const S: [Row; 12] = [
    (1, OPERATOR, &[0]),
    (1, OPERATOR, &[1]),
    (3, 0, &[1]),
    (5, 0, &[3]),
    (7, 0, &[2]),
    (7, 0, &[3]),
    (22, 0, &[2]),
    (11, 0, &[3, 2]),
    (17, 0, &[4, 3]),
    (19, 0, &[4, 2]),
    (9, 1, &[5]),
    (13, 1, &[5, 0, 2]),
];

#[rustfmt::skip]
const A_TO_L: [Rows; 12] = [
    ("A", &[(21, 1, &[5, 0, 4])], (0, 1)),
    ("B", &[(4, 0, &[1]), (21, 1, &[5, 0, 4])], (0, 0)),
    ("C", &[(20, 0, &[4, 2]), (21, 1, &[5, 0, 4])], (0, 0)),
    ("D", &[(21, 1, &[6, 0, 4])], (10, 0)),
    ("E", &[(21, 1, &[5, 0, 5])], (0, 0)),
    ("F", &[(13, 1, &[5, 0, 7])], (10, 0)),
    ("G", &[(13, 0, &[0, 1, 0])], (9, 0)),
    ("H", &[(15, 0, &[2, 0, 2])], (13, 0)),
    ("I", &[(3, 0, &[0])], (8, 0)),
    ("J", &[(3, 0, &[16])], (6, 0)),
    ("K", &[(1, OPERATOR, &[0])], (7, 0)),
    ("L", &[(19, 0, &[4, 3])], (11, 0)),
];

/// "Some roles stay indoors": 0#2 is public in S and 0#3 is not. Where 1#1 is attached below 0#2,
/// it holds 1%6.
#[rustfmt::skip]
const PUBLIC_ROLES: [Rows; 33] = [
    ("grant to a private role", &[(13, 1, &[5, 0, 3])], (14, 0)),
    ("ungrant from a private role", &[(14, 1, &[5, 0, 3])], (14, 0)),
    ("attach below a private senior", &[(7, 1, &[1]), (15, 1, &[1, 0, 3])], (14, 0)),
    ("detach from a private senior", &[(7, 1, &[1]), (16, 1, &[1, 0, 3])], (14, 0)),
    ("grant twice, once public", &[
        (22, 0, &[3]), (13, 1, &[5, 0, 3]), (13, 1, &[5, 0, 3]),
    ], (12, 0)),

    ("no trust before not public", &[(4, 0, &[1]), (13, 1, &[5, 0, 3])], (9, 0)),
    ("absent role before not public", &[(22, 0, &[3]), (8, 0, &[3]), (13, 1, &[5, 0, 3])], (10, 0)),
    ("absent permission before not public", &[(13, 1, &[6, 0, 3])], (10, 0)),
    ("absent junior before not public", &[(15, 1, &[1, 0, 3])], (10, 0)),
    ("not public before a circle", &[
        (7, 1, &[1]), (22, 1, &[1]), (3, 1, &[0]), (15, 0, &[3, 1, 1]), (15, 1, &[1, 0, 3]),
    ], (14, 0)),
    ("a circle once public", &[
        (7, 1, &[1]), (22, 1, &[1]), (3, 1, &[0]), (15, 0, &[3, 1, 1]), (22, 0, &[3]),
        (15, 1, &[1, 0, 3]),
    ], (13, 0)),

    ("own grant to a private role", &[
        (23, 0, &[2]), (9, 0, &[1]), (13, 0, &[1, 0, 2]), (21, 0, &[1, 0, 4]),
    ], (0, 1)),
    ("own attachment below a private senior", &[
        (23, 0, &[2]), (9, 0, &[1]), (13, 0, &[1, 0, 3]), (15, 0, &[3, 0, 2]), (21, 0, &[1, 0, 4]),
    ], (0, 1)),
    ("a private junior", &[
        (7, 1, &[1]), (9, 1, &[6]), (13, 1, &[6, 1, 1]), (15, 1, &[1, 0, 2]), (21, 1, &[6, 0, 4]),
    ], (0, 1)),

    ("unpublishing clears a grant", &[(23, 0, &[2]), (21, 1, &[5, 0, 4])], (0, 0)),
    ("publishing brings no grant back", &[
        (23, 0, &[2]), (22, 0, &[2]), (21, 1, &[5, 0, 4]),
    ], (0, 0)),
    ("unpublishing clears an attachment", &[
        (7, 1, &[1]), (9, 1, &[6]), (13, 1, &[6, 1, 1]), (15, 1, &[1, 0, 2]), (23, 0, &[2]),
        (21, 1, &[6, 0, 4]),
    ], (0, 0)),
    ("unpublishing leaves an own grant", &[
        (9, 0, &[1]), (13, 0, &[1, 0, 2]), (23, 0, &[2]), (21, 0, &[1, 0, 4]),
    ], (0, 1)),
    ("unpublishing leaves an own attachment", &[
        (9, 0, &[1]), (13, 0, &[1, 0, 3]), (15, 0, &[3, 0, 2]), (23, 0, &[2]), (21, 0, &[1, 0, 4]),
    ], (0, 1)),
    ("unpublishing leaves seniors", &[
        (7, 1, &[1]), (22, 1, &[1]), (9, 1, &[6]), (13, 1, &[6, 1, 1]), (15, 1, &[1, 0, 2]),
        (23, 1, &[1]), (21, 1, &[6, 0, 4]),
    ], (0, 1)),
    ("unpublishing leaves sessions", &[
        (23, 0, &[2]), (22, 0, &[2]), (13, 1, &[5, 0, 2]), (21, 1, &[5, 0, 4]),
    ], (0, 1)),

    ("publish an absent role", &[(22, 0, &[7])], (10, 0)),
    ("publish twice", &[(22, 0, &[2])], (12, 0)),
    ("unpublish an absent role", &[(23, 0, &[7])], (10, 0)),
    ("unpublish a private role", &[(23, 0, &[3])], (12, 0)),
    ("publish as the operator", &[(22, OPERATOR, &[2])], (4, 0)),
    ("unpublish, not enrolled", &[(23, 2, &[16])], (5, 0)),
    ("publish role 16", &[(22, 0, &[16])], (6, 0)),
    ("publish with two arguments", &[(22, 0, &[2, 0])], (3, 0)),
    ("kind 24", &[(24, 0, &[2])], (3, 0)),

    ("a role removed and added", &[(8, 0, &[2]), (7, 0, &[2]), (13, 1, &[5, 0, 2])], (14, 0)),
    ("an issuer struck and enrolled", &[
        (2, OPERATOR, &[0]), (1, OPERATOR, &[0]), (3, 0, &[1]), (7, 0, &[2]), (13, 1, &[5, 0, 2]),
    ], (14, 0)),
    ("trust withdrawn and given", &[
        (4, 0, &[1]), (3, 0, &[1]), (13, 1, &[5, 0, 2]), (21, 1, &[5, 0, 4]),
    ], (0, 1)),
];

/// "A cellar master works as a press hand": from S, where 0@3 holds 0#2 and not 0#3.
#[rustfmt::skip]
const LESSER_ROLES: [Rows; 7] = [
    ("a junior", &[(15, 0, &[3, 0, 2]), (19, 0, &[4, 3]), (19, 0, &[4, 3])], (12, 0)),
    ("a junior's junior", &[
        (7, 0, &[7]), (15, 0, &[7, 0, 2]), (15, 0, &[3, 0, 7]), (19, 0, &[4, 3]), (19, 0, &[4, 3]),
    ], (12, 0)),
    ("a senior", &[(15, 0, &[2, 0, 3]), (19, 0, &[4, 3])], (11, 0)),
    ("another user's role", &[(5, 0, &[5]), (11, 0, &[5, 3]), (19, 0, &[4, 3])], (11, 0)),
    ("a junior detached before", &[
        (15, 0, &[3, 0, 2]), (16, 0, &[3, 0, 2]), (19, 0, &[4, 3]),
    ], (11, 0)),
    ("a junior removed", &[(15, 0, &[3, 0, 2]), (8, 0, &[3]), (19, 0, &[4, 3])], (10, 0)),
    ("a junior, session closed", &[(15, 0, &[3, 0, 2]), (19, 0, &[5, 3])], (10, 0)),
];

/// "The press's sign of life": the only record, from S.
#[rustfmt::skip]
const SHORT_RECORDS: [(&str, &[u8], Expected); 9] = [
    ("a sign of life", &[], (0, 0)),
    ("1 byte", &[1], (3, 0)),
    ("1 byte, length 0", &[0], (3, 0)),
    ("2 bytes", &[2, 0], (3, 0)),
    ("2 bytes, length 0", &[0, 0], (3, 0)),
    ("3 bytes", &[3, 0, 21], (3, 0)),
    ("4 bytes", &[4, 0, 21, 0], (3, 0)),
    ("4 bytes, length 0", &[0, 0, 0, 0], (3, 0)),
    ("5 bytes, length 0", &[0, 0, 0, 0, 0], (3, 0)),
];

/// From S: 0#3 is active in 0/4; it is below 1#1, which is below 0#2.
const WAY: [Row; 6] = [
    (7, 1, &[1]),
    (22, 1, &[1]),
    (3, 1, &[0]),
    (15, 1, &[1, 0, 2]),
    (15, 0, &[3, 1, 1]),
    (19, 0, &[4, 3]),
];

/// After `WAY`: deactivating 0#3 gives 12 where it was dropped, activating it where it was not.
#[rustfmt::skip]
const ON_THE_WAY: [Rows; 27] = [
    ("a way through another estate", &[(19, 0, &[4, 3])], (12, 0)),
    ("another estate detaches", &[(16, 1, &[1, 0, 2]), (20, 0, &[4, 3])], (12, 0)),
    ("the issuer detaches", &[(16, 0, &[3, 1, 1]), (20, 0, &[4, 3])], (12, 0)),
    ("trust withdrawn by the issuer", &[(4, 0, &[1]), (20, 0, &[4, 3])], (12, 0)),
    ("trust withdrawn by the other", &[(4, 1, &[0]), (20, 0, &[4, 3])], (12, 0)),
    ("senior unpublished", &[(23, 0, &[2]), (20, 0, &[4, 3])], (12, 0)),
    ("role between unpublished", &[(23, 1, &[1]), (20, 0, &[4, 3])], (12, 0)),
    ("role between removed", &[(8, 1, &[1]), (20, 0, &[4, 3])], (12, 0)),
    ("estate between struck", &[(2, OPERATOR, &[1]), (20, 0, &[4, 3])], (12, 0)),
    ("held role removed", &[(8, 0, &[2]), (20, 0, &[4, 3])], (12, 0)),
    ("held role taken", &[(12, 0, &[3, 2]), (20, 0, &[4, 3])], (12, 0)),
    ("held role taken, itself", &[(12, 0, &[3, 2]), (20, 0, &[4, 2])], (12, 0)),
    ("user removed", &[(6, 0, &[3]), (20, 0, &[4, 3])], (10, 0)),

    ("beyond reach", &[(16, 1, &[1, 0, 2]), (19, 0, &[4, 3])], (11, 0)),
    ("attaching again brings nothing back", &[
        (16, 1, &[1, 0, 2]), (15, 1, &[1, 0, 2]), (20, 0, &[4, 3]),
    ], (12, 0)),
    ("attached and activated again", &[
        (16, 1, &[1, 0, 2]), (15, 1, &[1, 0, 2]), (19, 0, &[4, 3]), (19, 0, &[4, 3]),
    ], (12, 0)),

    ("the held role stays", &[(16, 1, &[1, 0, 2]), (19, 0, &[4, 2])], (12, 0)),
    ("the held role deactivated", &[(20, 0, &[4, 2]), (19, 0, &[4, 3])], (12, 0)),
    ("another way left", &[
        (15, 0, &[3, 0, 2]), (16, 1, &[1, 0, 2]), (19, 0, &[4, 3]),
    ], (12, 0)),
    ("held by now", &[(11, 0, &[3, 3]), (16, 1, &[1, 0, 2]), (19, 0, &[4, 3])], (12, 0)),
    ("held and taken, still reached", &[
        (11, 0, &[3, 3]), (12, 0, &[3, 3]), (19, 0, &[4, 3]),
    ], (12, 0)),
    ("one of two held roles taken", &[
        (7, 0, &[7]), (11, 0, &[3, 7]), (15, 0, &[3, 0, 7]), (12, 0, &[3, 2]), (19, 0, &[4, 3]),
    ], (12, 0)),
    ("both held roles taken", &[
        (7, 0, &[7]), (11, 0, &[3, 7]), (15, 0, &[3, 0, 7]), (12, 0, &[3, 2]), (12, 0, &[3, 7]),
        (20, 0, &[4, 3]),
    ], (12, 0)),
    ("taken below another held role", &[
        (7, 0, &[7]), (11, 0, &[3, 7]), (15, 0, &[2, 0, 7]), (12, 0, &[3, 2]), (19, 0, &[4, 2]),
    ], (12, 0)),

    ("the lesser role alone", &[(20, 0, &[4, 2]), (21, 1, &[5, 0, 4])], (0, 0)),
    ("what the lesser role holds", &[
        (9, 0, &[1]), (13, 0, &[1, 0, 3]), (20, 0, &[4, 2]), (21, 0, &[1, 0, 4]),
    ], (0, 1)),
    ("what the dropped role held", &[
        (9, 0, &[1]), (13, 0, &[1, 0, 3]), (16, 1, &[1, 0, 2]), (21, 0, &[1, 0, 4]),
    ], (0, 0)),
];

fn records(rows: &[Row]) -> Vec<Vec<u8>> {
    let row = |&(kind, caller, arguments): &Row| encode(kind, caller, arguments);
    rows.iter().map(row).collect()
}

pub fn state_s() -> Vec<Vec<u8>> {
    records(&S)
}

/// All cases, each from S.
pub fn cases() -> Vec<Case> {
    let from_s = A_TO_L.into_iter().chain(PUBLIC_ROLES).chain(LESSER_ROLES);
    let from_s = from_s.map(|rows| case(&[], rows));
    let on_the_way = ON_THE_WAY.into_iter().map(|rows| case(&WAY, rows));
    let short = SHORT_RECORDS
        .into_iter()
        .map(|(name, record, expected)| Case {
            name,
            records: vec![record.to_vec()],
            expected,
            through: without_a_yes(expected),
        });
    let through = THROUGH.into_iter().map(through_case);
    from_s
        .chain(on_the_way)
        .chain(short)
        .chain(through)
        .collect()
}

fn case(before: &[Row], (name, rows, expected): Rows) -> Case {
    Case {
        name,
        records: records(&[before, rows].concat()),
        expected,
        through: without_a_yes(expected),
    }
}

fn through_case((name, rows, role): ThroughRows) -> Case {
    Case {
        name,
        records: records(rows),
        expected: (0, u16::from(role != NO_ROLE)),
        through: Some(role),
    }
}

/// "without a yes they are 255 and 255"
fn without_a_yes((_, verdict): Expected) -> Option<Role> {
    (verdict == 0).then_some(NO_ROLE)
}
