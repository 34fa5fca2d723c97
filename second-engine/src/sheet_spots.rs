//! The place in a sheet that a damage is done to, and the ways to change it.

use crate::random::Random;
use crate::sheet_rows::{in_quotes, Row, Sheet};

/// A row of a sheet, and random numbers to damage it with.
pub struct Spot<'a> {
    pub random: &'a mut Random,
    pub sheet: &'a mut Sheet,
    pub row: usize,
}

impl Spot<'_> {
    /// The sheet's last row.
    pub fn last(&mut self) -> &mut Self {
        self.row = self.sheet.rows.len() - 1;
        self
    }

    pub fn end(&mut self, ends: &[&'static str]) -> usize {
        self.sheet.rows[self.row].end = self.random.pick(ends).as_bytes();
        self.row
    }

    /// A row more, of this field.
    pub fn insert(&mut self, place: usize, field: &str) -> usize {
        self.sheet.rows.insert(place, Row::of(&[field]));
        place
    }

    pub fn fields(&mut self) -> &mut Vec<Vec<u8>> {
        &mut self.sheet.rows[self.row].fields
    }

    /// Another writing for any field, made of its text.
    pub fn field(&mut self, change: fn(&mut Random, &mut Vec<u8>)) -> usize {
        let fields = &mut self.sheet.rows[self.row].fields;
        let place = self.random.below(fields.len());
        unquote(&mut fields[place]);
        change(self.random, &mut fields[place]);
        self.row
    }

    /// Another text for the word, quoted or not.
    pub fn word(&mut self, change: fn(&mut Random, &mut Vec<u8>)) -> usize {
        let field = &mut self.sheet.rows[self.row].fields[0];
        unquote(field);
        change(self.random, field);
        *field = any_writing(self.random, field);
        self.row
    }

    /// Another text for any argument, quoted or not.
    pub fn argument(&mut self, text: &str) -> usize {
        let fields = &mut self.sheet.rows[self.row].fields;
        let place = self.random.between(1, fields.len() - 1);
        fields[place] = any_writing(self.random, text.as_bytes());
        self.row
    }

    pub fn number(&mut self, before: &str, numbers: &[usize]) -> usize {
        let number = self.random.pick(numbers);
        self.argument(&format!("{before}{number}"))
    }

    /// One of the bytes at any place of any field, within the quotes or beside them.
    pub fn put(&mut self, bytes: &[u8]) -> usize {
        let fields = &mut self.sheet.rows[self.row].fields;
        let place = self.random.below(fields.len());
        let field = &mut fields[place];
        let byte = self.random.pick(bytes);
        field.insert(self.random.below(field.len() + 1), byte);
        self.row
    }

    /// One of the pieces at any place between the quotes of any field.
    pub fn put_in_quotes(&mut self, pieces: &[&str]) -> usize {
        let fields = &mut self.sheet.rows[self.row].fields;
        let place = self.random.below(fields.len());
        let field = &mut fields[place];
        unquote(field);
        let piece = self.random.pick(pieces).bytes();
        let place = self.random.below(field.len() + 1);
        field.splice(place..place, piece);
        *field = in_quotes(field);
        self.row
    }
}

pub fn unquote(field: &mut Vec<u8>) {
    field.retain(|&byte| byte != b'"');
}

pub fn any_writing(random: &mut Random, text: &[u8]) -> Vec<u8> {
    if random.percent(30) {
        return in_quotes(text);
    }
    text.to_vec()
}
