//! Random sheets on the library and on the plain converter.

use crate::lent_sheet::{library, Converter, GivenSheet, LentSheet, LONG};
use crate::random::Random;
use crate::report::announce;
use crate::sheet::{convert, Told};
use crate::sheet_cases::{any_case, large_cases, SheetCase};
use crate::sheet_counts::SheetCounts;
use crate::shrink::shrink;
use std::fmt;

/// What the library and the plain converter agree on.
pub struct Agreed {
    pub told: Told,
    /// The output buffer, as it is then.
    pub out: Vec<u8>,
}

/// Where they disagree.
pub struct SheetDifference {
    library: u64,
    plain: Told,
    /// The first differing byte of the output buffer: its place, the library's and the plain
    /// converter's.
    byte: Option<(usize, u8, u8)>,
    overwritten: Option<&'static str>,
}

impl fmt::Display for SheetDifference {
    fn fmt(&self, out: &mut fmt::Formatter) -> fmt::Result {
        let (error, above) = (self.library % 65536, self.library / 65536);
        let what = if error == 15 { "line" } else { "bytes" };
        writeln!(out, "library:         error {error}, {what} {above}")?;
        let Told { error, line, bytes } = self.plain;
        write!(out, "plain converter: error {error}, line {line}, ")?;
        write!(out, "bytes {bytes}")?;
        if let Some((place, library, plain)) = self.byte {
            write!(out, "\nfirst differing byte of the output buffer {place}: ")?;
            write!(out, "library {library}, plain converter {plain}")?;
        }
        if let Some(what) = self.overwritten {
            write!(out, "\nthe library has overwritten {what}")?;
        }
        Ok(())
    }
}

/// Converts random sheets, and large ones at last. On a disagreement it prints the shortest
/// failing sheet that it finds and gives `false`.
pub fn play_sheets(seed: u64, sheets: u64, trace: bool, counts: &mut SheetCounts) -> bool {
    let mut seeds = Random::new(seed.rotate_left(32));
    while counts.sheets < sheets {
        let case = any_case(&mut Random::new(seeds.next()));
        if !play(&case, seed, trace, counts) {
            return false;
        }
    }
    let large = large_cases(&mut seeds);
    large.iter().all(|case| play(case, seed, trace, counts))
}

fn play(case: &SheetCase, seed: u64, trace: bool, counts: &mut SheetCounts) -> bool {
    if trace {
        eprintln!("{}", case.lent);
    }
    let whence = format!("sheet {} of seed {seed}", counts.sheets + 1);
    let Ok(Agreed { told, out }) = side_by_side(&case.lent, &library) else {
        announce(&format!("{whence}, after {} sheets", counts.sheets));
        return report(&case.lent);
    };
    if !case.as_meant(told, &out) {
        println!("{whence}: both converters say {told:?}, and it was made otherwise");
        println!("{}", case.lent);
        return false;
    }
    counts.count(case, told, &out);
    true
}

/// Lends the sheet to this converter, the library's or another, and to the plain one.
pub fn side_by_side(lent: &LentSheet, converter: &Converter) -> Result<Agreed, SheetDifference> {
    let given = lent.convert(converter);
    let mut out = lent.out.clone();
    let told = convert(&lent.csv, lent.caller, &mut out);
    compare(&given, told, &out)?;
    Ok(Agreed { told, out })
}

fn compare(given: &GivenSheet, told: Told, out: &[u8]) -> Result<(), SheetDifference> {
    if given.packed == told.packed() && given.out == out && given.overwritten.is_none() {
        return Ok(());
    }
    let pairs = given.out.iter().zip(out).enumerate();
    let mut differing = pairs.filter(|(_, (library, plain))| library != plain);
    Err(SheetDifference {
        library: given.packed,
        plain: told,
        byte: differing
            .next()
            .map(|(place, (library, plain))| (place, *library, *plain)),
        overwritten: given.overwritten,
    })
}

/// Shortens the failing sheet and prints it. Gives `false`.
fn report(lent: &LentSheet) -> bool {
    let lent = shortened(lent, &library);
    println!("shortest failing sheet found, bytes {}:", lent.csv.len());
    println!("{lent}");
    match side_by_side(&lent, &library) {
        Err(difference) => println!("{difference}"),
        Ok(_) => println!("converted again, it did not fail: the library is not steady"),
    }
    false
}

/// As few lines and bytes of the sheet, and bytes behind it, as can be found to fail.
pub fn shortened(lent: &LentSheet, converter: &Converter) -> LentSheet {
    if lent.csv.len() > LONG {
        return lent.clone();
    }
    let fails = |lent: &LentSheet| side_by_side(lent, converter).is_err();
    let lines: Vec<&[u8]> = lent.csv.split_inclusive(|&byte| byte == b'\n').collect();
    let lines = shrink(lines, |lines| {
        fails(&with_csv(lent, &lines.concat())).then_some(lines.len())
    });
    let csv = shrink(lines.concat(), |csv| {
        fails(&with_csv(lent, csv)).then_some(csv.len())
    });
    let mut short = with_csv(lent, &csv);
    let behind = shrink(short.behind.clone(), |behind| {
        let mut other = short.clone();
        other.behind = behind.to_vec();
        fails(&other).then_some(behind.len())
    });
    short.behind = behind;
    short
}

/// Another sheet, with as much room more than its records, or less, as there was.
fn with_csv(lent: &LentSheet, csv: &[u8]) -> LentSheet {
    let needed = |csv: &[u8]| {
        let mut room = vec![0; csv.len()];
        convert(csv, 0, &mut room).bytes
    };
    let room = (lent.out.len() + needed(csv)).saturating_sub(needed(&lent.csv));
    let mut out = lent.out.clone();
    out.resize(room, 0x77);
    LentSheet {
        csv: csv.to_vec(),
        out,
        ..lent.clone()
    }
}
