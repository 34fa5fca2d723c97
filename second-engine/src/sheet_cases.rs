//! Random sheets to convert, good and damaged, and what is known of them beforehand.

use crate::lent_sheet::LentSheet;
use crate::random::Random;
use crate::record::decode_call;
use crate::sheet::Told;
use crate::sheet_damage::DAMAGES;
use crate::sheet_rough::{any_behind, ROUGH};
use crate::sheet_rows::{any_length, Meant, Sheet};
use crate::sheet_spots::Spot;

/// What is known of a sheet since it was made so.
#[derive(Clone)]
pub enum Form {
    /// It is of the form, and its rows mean this.
    Good(Vec<Meant>),
    /// The row at this line, from 1, is the first that isn't.
    Bad(usize),
    Unknown,
}

/// The name of more than one damage.
pub const SEVERAL: &str = "several";

pub struct SheetCase {
    pub lent: LentSheet,
    pub form: Form,
    /// The name of its damage.
    pub damage: Option<&'static str>,
}

pub fn any_case(random: &mut Random) -> SheetCase {
    let length = any_length(random);
    let mut sheet = Sheet::any(random, length);
    let bytes = sheet.bytes();
    let mut behind = any_behind(random);
    let mut csv;
    let mut damage = None;
    let form;
    match random.below(100) {
        45..=84 if length > 0 => {
            let (name, spoilt) = spoil(random, &mut sheet);
            csv = sheet.csv();
            damage = Some(name);
            form = Form::Bad(spoilt + 1);
        }
        85..=99 if length > 0 => {
            let several = random.percent(20);
            if several {
                spoil(random, &mut sheet);
            }
            csv = sheet.csv();
            let (name, rough) = random.pick(&ROUGH);
            behind = rough(random, &mut csv);
            damage = Some(if several { SEVERAL } else { name });
            form = Form::Unknown;
        }
        _ => {
            csv = sheet.csv();
            form = Form::Good(sheet.meant);
        }
    }
    let caller = any_caller(random);
    let room = any_room(random, bytes);
    let lent = lent(random, csv, behind, caller, room);
    SheetCase { lent, form, damage }
}

/// A sheet whose last line has a number above 65,535: of the form, with a byte too little for
/// its records, and with the last row spoilt.
pub fn large_cases(random: &mut Random) -> [SheetCase; 3] {
    let length = random.between(65_540, 66_000);
    let sheet = Sheet::any(random, length);
    let mut cut = sheet.clone();
    cut.rows[length - 1].fields.pop();
    let (csv, bytes) = (sheet.csv(), sheet.bytes());
    let good = Form::Good(sheet.meant);
    let cases = [
        (csv.clone(), bytes + 1, good.clone()),
        (csv, bytes - 1, good),
        (cut.csv(), bytes, Form::Bad(length)),
    ];
    cases.map(|(csv, room, form)| SheetCase {
        lent: lent(random, csv, Vec::new(), 15, room),
        form,
        damage: None,
    })
}

fn lent(random: &mut Random, csv: Vec<u8>, behind: Vec<u8>, caller: u8, room: usize) -> LentSheet {
    LentSheet {
        csv,
        behind,
        caller,
        out: (0..room).map(|_| random.byte()).collect(),
        null: random.percent(50),
    }
}

/// Damages one row; gives the damage's name and the place of the row that is spoilt.
fn spoil(random: &mut Random, sheet: &mut Sheet) -> (&'static str, usize) {
    let last = sheet.rows.len() - 1;
    let any = random.between(0, last);
    let row = random.pick(&[0, any, any, last]);
    let (name, damage) = random.pick(&DAMAGES);
    let spoilt = damage(&mut Spot { random, sheet, row });
    (name, spoilt)
}

fn any_caller(random: &mut Random) -> u8 {
    let any = random.byte();
    match random.below(100) {
        0 | 1 => 16,
        2 | 3 => random.pick(&[17, 31, 32, 128, 255]),
        4 => any,
        _ => any % 16,
    }
}

/// A length for the output buffer, where the records of the undamaged sheet have so many bytes.
fn any_room(random: &mut Random, bytes: usize) -> usize {
    match random.below(20) {
        0..=5 => bytes,
        6 | 7 => bytes + 1,
        8..=11 => bytes + random.between(2, 100),
        12 => bytes * 2,
        13..=15 => bytes.saturating_sub(1),
        16 => bytes.saturating_sub(random.between(2, 8)),
        17 | 18 => random.between(0, bytes),
        _ => 0,
    }
}

impl SheetCase {
    /// Whether this was told, and these bytes left, as the sheet was made. The converter that
    /// it is compared with is not asked.
    pub fn as_meant(&self, told: Told, out: &[u8]) -> bool {
        let caller = self.lent.caller;
        let room = self.lent.out.len();
        let error = |error, line| Told {
            error,
            line,
            bytes: 0,
        };
        match &self.form {
            _ if caller > 15 => told == error(15, 0),
            Form::Unknown => true,
            Form::Bad(line) => told == error(15, *line),
            Form::Good(meant) => {
                let bytes = meant.iter().map(Meant::bytes).sum();
                if room < bytes {
                    return told == error(16, 0);
                }
                told.error == 0 && told.bytes == bytes && says(&out[..bytes], caller, meant)
            }
        }
    }
}

/// Whether the bytes, read as a journal, are these rows' calls from this caller.
fn says(journal: &[u8], caller: u8, meant: &[Meant]) -> bool {
    let Some(records) = split(journal) else {
        return false;
    };
    let decoded = records.iter().map(|record| decode_call(record));
    let said = decoded.map(|call| call.map(|decoded| (decoded.caller, decoded.call)));
    said.eq(meant
        .iter()
        .map(|row| Some((usize::from(caller), row.call()))))
}

/// The records of a journal, end to end; `None` where it is broken.
pub fn split(mut journal: &[u8]) -> Option<Vec<&[u8]>> {
    let mut records = Vec::new();
    while let [low, high, ..] = *journal {
        let length = usize::from(u16::from_le_bytes([low, high]));
        if length < 5 || length > journal.len() {
            return None;
        }
        let (record, rest) = journal.split_at(length);
        records.push(record);
        journal = rest;
    }
    journal.is_empty().then_some(records)
}
