//! Random sheets of the form: what their rows mean, and how they are written.

use crate::random::Random;
use crate::record::Call;

/// The words, and how many arguments stand behind each.
pub const WORDS: [(&str, usize); 7] = [
    ("user", 1),
    ("role", 1),
    ("perm", 1),
    ("trust", 1),
    ("give", 2),
    ("grant", 3),
    ("attach", 3),
];

/// What a row means.
#[derive(Clone, Debug)]
pub struct Meant {
    pub word: &'static str,
    pub arguments: Vec<usize>,
}

impl Meant {
    fn any(random: &mut Random) -> Meant {
        let (word, count) = random.pick(&WORDS);
        let arguments = (0..count).map(|_| random.below(16)).collect();
        Meant { word, arguments }
    }

    /// "the matching call", with its arguments in the order of "The call record".
    #[rustfmt::skip]
    pub fn call(&self) -> Call {
        match (self.word, self.arguments.as_slice()) {
            ("trust", &[trustee]) => Call::GiveTrust { trustee },
            ("user", &[user]) => Call::AddUser { user },
            ("role", &[role]) => Call::AddRole { role },
            ("perm", &[permission]) => Call::AddPermission { permission },
            ("give", &[user, role]) => Call::GiveRole { user, role },
            ("grant", &[permission, issuer, role]) => Call::Grant { permission, issuer, role },
            ("attach", &[junior, issuer, senior]) => Call::Attach { junior, issuer, senior },
            _ => unreachable!("no such row is made"),
        }
    }

    /// The length of its record.
    pub fn bytes(&self) -> usize {
        5 + self.arguments.len()
    }
}

/// A row as it is written: its fields, quoted or not, and its end.
#[derive(Clone)]
pub struct Row {
    pub fields: Vec<Vec<u8>>,
    pub end: &'static [u8],
}

impl Row {
    pub fn of(fields: &[&str]) -> Row {
        let fields = fields.iter().map(|field| field.as_bytes().to_vec());
        Row {
            fields: fields.collect(),
            end: b"\r\n",
        }
    }

    /// Each field is quoted by this chance of a hundred.
    fn written(random: &mut Random, meant: &Meant, quoted: usize) -> Row {
        let mut row = Row::of(&[meant.word]);
        let numbers = meant.arguments.iter();
        row.fields
            .extend(numbers.map(|number| number.to_string().into_bytes()));
        for field in &mut row.fields {
            if random.percent(quoted) {
                *field = in_quotes(field);
            }
        }
        row
    }
}

pub fn in_quotes(text: &[u8]) -> Vec<u8> {
    [b"\"", text, b"\""].concat()
}

#[derive(Clone)]
pub struct Sheet {
    pub meant: Vec<Meant>,
    pub rows: Vec<Row>,
}

impl Sheet {
    /// A sheet of so many rows, with the last CRLF or without it.
    pub fn any(random: &mut Random, length: usize) -> Sheet {
        let quoted = random.pick(&[0, 0, 10, 50, 50, 100]);
        let meant: Vec<Meant> = (0..length).map(|_| Meant::any(random)).collect();
        let rows = meant.iter().map(|row| Row::written(random, row, quoted));
        let mut rows: Vec<Row> = rows.collect();
        if let Some(last) = rows.last_mut() {
            last.end = random.pick(&[b"\r\n", b""]);
        }
        Sheet { meant, rows }
    }

    pub fn csv(&self) -> Vec<u8> {
        let mut csv = Vec::new();
        for row in &self.rows {
            for (place, field) in row.fields.iter().enumerate() {
                if place > 0 {
                    csv.push(b',');
                }
                csv.extend(field);
            }
            csv.extend(row.end);
        }
        csv
    }

    /// The length of its records.
    pub fn bytes(&self) -> usize {
        self.meant.iter().map(Meant::bytes).sum()
    }
}

/// How many rows a sheet has: few, mostly; now and then hundreds or thousands.
pub fn any_length(random: &mut Random) -> usize {
    match random.below(1000) {
        0..=29 => 0,
        30..=229 => 1,
        230..=799 => random.between(2, 8),
        800..=949 => random.between(9, 60),
        950..=995 => random.between(100, 600),
        _ => random.between(1000, 4000),
    }
}
