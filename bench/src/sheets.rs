//! An estate's sheet turned into records, by the library and by the second engine's plain converter.

// Written once, there.
#[path = "../../second-engine/src/sheet.rs"]
mod sheet;

use std::hint::black_box;
use std::time::Instant;

use crate::library;
use crate::random::Random;
use crate::timing::{median, ratio};

/// The caller whose sheets these are.
const CALLER: u8 = 3;

/// A sheet, a caller and an output buffer. The answer is the error, and 65536 times the bytes or the line.
type Converter = fn(&[u8], u8, &mut [u8]) -> u64;

const CONVERTERS: [Converter; 2] = [library::sheet, plain];

fn plain(csv: &[u8], caller: u8, out: &mut [u8]) -> u64 {
    sheet::convert(csv, caller, out).packed()
}

/// The fields of a row.
type Row = Vec<String>;

fn row(word: &str, arguments: &[u8]) -> Row {
    let numbers = arguments.iter().map(|number| number.to_string());
    [word.to_string()].into_iter().chain(numbers).collect()
}

/// All users, roles, permissions, trust and roles given, and half of all grants and attachments.
fn estate(random: &mut Random) -> Vec<Row> {
    let mut rows = vec![];
    for word in ["user", "role", "perm"] {
        rows.extend((0..16).map(|n| row(word, &[n])));
    }
    let others = (0..16).filter(|&j| j != CALLER);
    rows.extend(others.map(|j| row("trust", &[j])));
    rows.extend((0..=255).map(|n: u8| row("give", &[n / 16, n % 16])));
    for word in ["grant", "attach"] {
        for (own, n) in (0..16).flat_map(|own| (0..=255).map(move |n: u8| (own, n))) {
            if random.once_in(2) {
                rows.push(row(word, &[own, n / 16, n % 16]));
            }
        }
    }
    rows
}

fn csv(rows: &[Row]) -> Vec<u8> {
    let lines = rows.iter().map(|row| row.join(",") + "\r\n");
    lines.collect::<String>().into_bytes()
}

fn quoted(rows: &[Row]) -> Vec<Row> {
    let quote = |row: &Row| row.iter().map(|field| format!("\"{field}\"")).collect();
    rows.iter().map(quote).collect()
}

/// The last row's last number has a leading zero.
fn spoilt(rows: &[Row]) -> Vec<Row> {
    let mut rows = rows.to_vec();
    let field = rows.last_mut().and_then(|row| row.last_mut());
    field.expect("there are rows").insert(0, '0');
    rows
}

/// A sheet converted by both.
pub struct SheetTask {
    pub name: &'static str,
    pub csv: Vec<u8>,
    pub rows: usize,
    // The length of the rows' records, and whether the last row is none of the form.
    bytes: usize,
    bad: bool,
    outs: [Vec<u8>; 2],
    // Nanoseconds of a conversion, a number for each round.
    times: [Vec<f64>; 2],
}

impl SheetTask {
    fn new(name: &'static str, rows: &[Row], bad: bool) -> SheetTask {
        let csv = csv(rows);
        // No row is shorter than its record.
        let out = vec![0; csv.len()];
        SheetTask {
            name,
            rows: rows.len(),
            bytes: rows.iter().map(|row| 4 + row.len()).sum(),
            bad,
            outs: [out.clone(), out],
            csv,
            times: [vec![], vec![]],
        }
    }

    /// Both converters with an output buffer of this length: the answer, which is the same, and so are all bytes.
    fn compared(&self, room: usize, random: &mut Random) -> u64 {
        let before: Vec<u8> = (0..room).map(|_| random.draw() as u8).collect();
        let mut outs = [before.clone(), before];
        let answers = [0, 1].map(|n| CONVERTERS[n](&self.csv, CALLER, &mut outs[n]));
        assert_eq!(answers[0], answers[1], "{}, {room} bytes", self.name);
        assert!(outs[0] == outs[1], "{}, {room} bytes", self.name);
        answers[0]
    }

    /// Compares the converters with room enough, just enough, and a byte too little. Panics where they differ.
    fn compare(&self, random: &mut Random) {
        let good = 65536 * self.bytes as u64;
        let bad = 15 + 65536 * self.rows as u64;
        let (fitting, short) = if self.bad { (bad, bad) } else { (good, 16) };
        assert_eq!(self.compared(self.csv.len(), random), fitting);
        assert_eq!(self.compared(self.bytes, random), fitting);
        assert_eq!(self.compared(self.bytes - 1, random), short);
    }

    /// Nanoseconds of one conversion, and its answer.
    fn convert(&mut self, converter: usize) -> (f64, u64) {
        let convert = CONVERTERS[converter];
        let out = &mut self.outs[converter];
        let begin = Instant::now();
        let answer = convert(black_box(&self.csv), CALLER, black_box(out));
        (begin.elapsed().as_nanos() as f64, answer)
    }

    /// A conversion by each; which goes first changes from round to round. One before it warms the caches.
    fn round(&mut self, number: usize) {
        let mut answers = [0; 2];
        for turn in 0..2 {
            let converter = (number + turn) % 2;
            self.convert(converter);
            let (time, answer) = self.convert(converter);
            self.times[converter].push(time);
            answers[converter] = answer;
        }
        assert_eq!(answers[0], answers[1], "the converters differ");
    }

    /// The median of the rounds' ratios of the library's time to the plain converter's.
    pub fn ratio(&self) -> f64 {
        ratio(&self.times[0], &self.times[1])
    }

    /// Bytes of the sheet a second, by the converter's median time.
    pub fn rate(&self, converter: usize) -> f64 {
        let seconds = median(self.times[converter].clone()) / 1e9;
        self.csv.len() as f64 / seconds
    }
}

/// The estate's sheet, the same with each field in quotes, and the same with a bad last row: compared, then measured in turn.
pub fn measured(rounds: usize) -> Vec<SheetTask> {
    let mut random = Random::new(5);
    let rows = estate(&mut random);
    let mut tasks = vec![
        SheetTask::new("whole estate", &rows, false),
        SheetTask::new("every field quoted", &quoted(&rows), false),
        SheetTask::new("last row bad", &spoilt(&rows), true),
    ];
    for task in &tasks {
        task.compare(&mut random);
    }
    for number in 0..rounds {
        for task in &mut tasks {
            task.round(number);
        }
    }
    tasks
}
