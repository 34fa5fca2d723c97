//! What the random sheets have reached.

use crate::record::decode_call;
use crate::sheet::Told;
use crate::sheet_cases::{split, Form, SheetCase, SEVERAL};
use crate::sheet_damage::DAMAGES;
use crate::sheet_rough::ROUGH;
use crate::sheet_rows::WORDS;
use std::collections::BTreeMap;

/// The kind of each of `WORDS`, in their order.
const WORD_KINDS: [usize; WORDS.len()] = [5, 7, 9, 3, 11, 13, 15];

#[derive(Default)]
pub struct SheetCounts {
    pub sheets: u64,
    /// Error 0. By the number of rows, the last row's end and the room left.
    converted: u64,
    empty: u64,
    of_one_row: u64,
    of_hundreds: u64,
    of_thousands: u64,
    large: u64,
    last_ended: u64,
    last_not_ended: u64,
    exact: u64,
    /// Damaged, and of the form still or again.
    still_good: u64,
    records: [u64; WORDS.len()],
    quoted_fields: u64,
    /// Error 15 by the caller; of them those with a row that isn't of the form, and those with
    /// an output buffer shorter than the records.
    by_caller: u64,
    by_caller_and_row: u64,
    by_caller_and_room: u64,
    /// Error 15 by a row.
    at_line_1: u64,
    at_later_line: u64,
    at_large_line: u64,
    at_last_line: u64,
    /// Those of them where the rows before it alone don't fit.
    by_row_and_room: u64,
    /// Error 16.
    short: u64,
    short_by_one: u64,
    without_room: u64,
    /// A null pointer for a sheet, and for an output buffer, of 0 bytes.
    null_sheets: u64,
    null_outs: u64,
    /// Error 15 by a row, by the name of the damage.
    damaged: BTreeMap<&'static str, u64>,
}

impl SheetCounts {
    pub fn count(&mut self, case: &SheetCase, told: Told, out: &[u8]) {
        let lent = &case.lent;
        self.sheets += 1;
        self.null_sheets += u64::from(lent.null && lent.csv.is_empty());
        self.null_outs += u64::from(lent.null && lent.out.is_empty());
        match told {
            Told { error: 0, .. } => self.converted(case, &out[..told.bytes]),
            Told { error: 16, .. } => self.short(case),
            Told { line: 0, .. } => self.bad_caller(case),
            _ => self.bad_row(case, told.line),
        }
    }

    fn converted(&mut self, case: &SheetCase, written: &[u8]) {
        let csv = &case.lent.csv;
        let records = split(written).unwrap_or_default();
        self.converted += 1;
        match records.len() {
            0 => self.empty += 1,
            1 => self.of_one_row += 1,
            100..=999 => self.of_hundreds += 1,
            1000..=65_535 => self.of_thousands += 1,
            65_536.. => self.large += 1,
            _ => {}
        }
        if csv.ends_with(b"\r\n") {
            self.last_ended += 1;
        } else if !csv.is_empty() {
            self.last_not_ended += 1;
        }
        self.exact += u64::from(case.lent.out.len() == written.len() && !csv.is_empty());
        self.still_good += u64::from(case.damage.is_some());
        for record in records {
            let kind = decode_call(record).map(|decoded| decoded.kind);
            let place = WORD_KINDS.iter().position(|&of| Some(of) == kind);
            if let Some(place) = place {
                self.records[place] += 1;
            }
        }
        // In a sheet of the form no quote stands within a field.
        let quotes = csv.iter().filter(|&&byte| byte == b'"').count();
        self.quoted_fields += quotes as u64 / 2;
    }

    fn short(&mut self, case: &SheetCase) {
        let room = case.lent.out.len();
        self.short += 1;
        self.short_by_one += u64::from(needed(case) == Some(room + 1));
        self.without_room += u64::from(room == 0);
    }

    fn bad_caller(&mut self, case: &SheetCase) {
        let room = case.lent.out.len();
        self.by_caller += 1;
        self.by_caller_and_row += u64::from(matches!(case.form, Form::Bad(_)));
        self.by_caller_and_room += u64::from(needed(case).is_some_and(|bytes| room < bytes));
    }

    fn bad_row(&mut self, case: &SheetCase, line: usize) {
        let lent = &case.lent;
        if line == 1 {
            self.at_line_1 += 1;
        } else {
            self.at_later_line += 1;
        }
        self.at_large_line += u64::from(line > 65_535);
        self.at_last_line += u64::from(is_last(&lent.csv, line));
        // No record has under 6 bytes.
        self.by_row_and_room += u64::from(lent.out.len() < 6 * (line - 1));
        if let Some(name) = case.damage {
            *self.damaged.entry(name).or_default() += 1;
        }
    }

    fn lines(&self) -> [(&'static str, u64); 25] {
        [
            ("sheets", self.sheets),
            ("sheets converted", self.converted),
            ("  empty", self.empty),
            ("  of one row", self.of_one_row),
            ("  of hundreds of rows", self.of_hundreds),
            ("  of thousands of rows", self.of_thousands),
            ("  of over 65,535 rows", self.large),
            ("  with the last CRLF", self.last_ended),
            ("  without the last CRLF", self.last_not_ended),
            ("  without room left", self.exact),
            ("  damaged and still good", self.still_good),
            ("quoted fields read", self.quoted_fields),
            ("error 15 by the caller", self.by_caller),
            ("  and by a row too", self.by_caller_and_row),
            ("  and 16 too", self.by_caller_and_room),
            ("error 15 at line 1", self.at_line_1),
            ("error 15 at a later line", self.at_later_line),
            ("  above 65,535", self.at_large_line),
            ("  no room for rows before", self.by_row_and_room),
            ("error 15 at the last line", self.at_last_line),
            ("error 16", self.short),
            ("  one byte missing", self.short_by_one),
            ("  output of 0 bytes", self.without_room),
            ("null for no sheet", self.null_sheets),
            ("null for no output", self.null_outs),
        ]
    }

    fn word_lines(&self) -> impl Iterator<Item = (&'static str, u64)> {
        WORDS.iter().map(|&(word, _)| word).zip(self.records)
    }

    fn damage_lines(&self) -> impl Iterator<Item = (&'static str, u64)> + '_ {
        let rows = DAMAGES.iter().map(|&(name, _)| name);
        let bytes = ROUGH.iter().map(|&(name, _)| name);
        let names = rows.chain(bytes).chain([SEVERAL]);
        names.map(|name| (name, self.damaged.get(name).copied().unwrap_or(0)))
    }

    /// Whatever was never reached.
    pub fn missing(&self) -> Vec<String> {
        let lines = self.lines().into_iter();
        let lines = lines.chain(self.word_lines()).chain(self.damage_lines());
        let never = lines.filter(|(_, count)| *count == 0);
        never
            .map(|(name, _)| format!("sheets, {}", name.trim()))
            .collect()
    }

    pub fn print(&self) {
        for (name, count) in self.lines() {
            println!("{name:25} {count}");
        }
        println!("word: records made");
        for (word, count) in self.word_lines() {
            println!("  {word:6}: {count:6}");
        }
        println!("damage: error 15 by a row");
        for (name, count) in self.damage_lines() {
            println!("  {name}: {count}");
        }
    }
}

/// The length of the records of a sheet that was made of the form.
fn needed(case: &SheetCase) -> Option<usize> {
    match &case.form {
        Form::Good(meant) => Some(meant.iter().map(|row| row.bytes()).sum()),
        _ => None,
    }
}

/// Whether no row follows the one at this line, before which each line is a row of the form.
fn is_last(csv: &[u8], line: usize) -> bool {
    let mut breaks = csv.windows(2).enumerate().filter(|(_, two)| two == b"\r\n");
    let end = breaks.nth(line - 1);
    end.is_none_or(|(place, _)| place + 2 == csv.len())
}
