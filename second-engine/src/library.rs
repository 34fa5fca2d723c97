//! The library under test. Words and records are lent to it between guards, which it must
//! leave as they were; sheets and output buffers too, in `lent_sheet`, and the lists of owners
//! and stages, in `lent_press`.

use crate::patience::came_back;

#[link(name = "yermoitu", kind = "static")]
extern "C" {
    fn yermoitu_start(state: *mut u16, words: usize) -> u64;
    fn yermoitu_call(state: *mut u16, words: usize, record: *const u8, bytes: usize) -> u64;
    pub fn yermoitu_sheet(
        csv: *const u8,
        csv_bytes: usize,
        caller: u8,
        out: *mut u8,
        out_bytes: usize,
    ) -> u64;
    pub fn yermoitu_press(
        state: *mut u16,
        words: usize,
        owners: *const u8,
        owners_len: usize,
        stages: *mut u8,
        stages_len: usize,
        press: u8,
        action: u8,
        issuer: u8,
        session: u8,
    ) -> u64;
}

pub const GUARD: usize = 64;

fn guard_word(place: usize) -> u16 {
    0xA5C3 ^ (place as u16)
}

pub fn guard_byte(place: usize) -> u8 {
    0x5A ^ (place as u8)
}

/// Words between guards.
pub struct Lent {
    cells: Vec<u16>,
    words: usize,
}

/// What one call of the library gave back.
pub struct Given {
    pub packed: u64,
    /// What was written that should not have been: a guard or the record.
    pub overwritten: Option<&'static str>,
}

impl Lent {
    pub fn new(words: &[u16]) -> Lent {
        let mut cells: Vec<u16> = (0..GUARD).map(guard_word).collect();
        cells.extend(words);
        cells.extend((GUARD..2 * GUARD).map(guard_word));
        let words = words.len();
        Lent { cells, words }
    }

    pub fn words(&self) -> &[u16] {
        &self.cells[GUARD..GUARD + self.words]
    }

    /// Where the words begin.
    pub fn lent(&mut self) -> *mut u16 {
        self.cells.as_mut_ptr().wrapping_add(GUARD)
    }

    pub fn start(&mut self) -> Given {
        let lent = self.lent();
        // The pointer has `words` words behind it that nobody else uses.
        let packed = unsafe { yermoitu_start(lent, self.words) };
        came_back();
        let overwritten = self.overwritten();
        Given {
            packed,
            overwritten,
        }
    }

    pub fn call(&mut self, record: &[u8]) -> Given {
        // The record lies at an even or an odd place, by its length.
        let before = GUARD + record.len() / 2 % 2;
        let mut bytes: Vec<u8> = (0..before).map(guard_byte).collect();
        bytes.extend(record);
        bytes.extend((0..GUARD).map(guard_byte));

        let lent = self.lent();
        let held = bytes.as_mut_ptr().wrapping_add(before);
        // Both pointers have their lengths behind them, and nobody else uses them meanwhile.
        let packed = unsafe { yermoitu_call(lent, self.words, held, record.len()) };
        came_back();

        let after = before + record.len();
        let overwritten = if bytes[before..after] != *record {
            Some("the record")
        } else if !whole_bytes(&bytes[..before]) || !whole_bytes(&bytes[after..]) {
            Some("bytes beside the record")
        } else {
            self.overwritten()
        };
        Given {
            packed,
            overwritten,
        }
    }

    /// Whether a guard was written.
    pub fn overwritten(&self) -> Option<&'static str> {
        let before = &self.cells[..GUARD];
        let after = &self.cells[GUARD + self.words..];
        let mut cells = before.iter().chain(after).enumerate();
        let whole = cells.all(|(n, &cell)| cell == guard_word(n));
        (!whole).then_some("words beside the state")
    }
}

fn whole_bytes(guard: &[u8]) -> bool {
    let mut cells = guard.iter().enumerate();
    cells.all(|(n, &cell)| cell == guard_byte(n))
}
