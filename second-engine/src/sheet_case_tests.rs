//! The random sheets tell wrong converters from right ones.

use crate::lent_sheet::{Converter, LentSheet};
use crate::random::Random;
use crate::sheet::convert;
use crate::sheet_cases::{any_case, large_cases, Form, SheetCase};
use crate::sheet_counts::SheetCounts;
use crate::sheet_wrong::{plain, READERS, TELLERS, WRITERS};
use crate::sheets::{shortened, side_by_side, Agreed};
use std::slice;

/// A converter in Rust, called as C calls it.
fn lent(converter: impl Fn(&[u8], u8, &mut [u8]) -> u64 + 'static) -> Box<Converter> {
    Box::new(move |csv, bytes, caller, out, room| {
        // What has no bytes may be null. All else has its length behind it.
        let csv = match bytes {
            0 => &[],
            _ => unsafe { slice::from_raw_parts(csv, bytes) },
        };
        let out = match room {
            0 => &mut [],
            _ => unsafe { slice::from_raw_parts_mut(out, room) },
        };
        converter(csv, caller, out)
    })
}

fn random_cases() -> Vec<SheetCase> {
    let mut random = Random::new(6);
    let mut cases: Vec<SheetCase> = (0..12_000).map(|_| any_case(&mut random)).collect();
    cases.extend(large_cases(&mut random));
    cases
}

fn wrong_converters() -> Vec<(&'static str, Box<Converter>)> {
    let mut wrong = Vec::new();
    for (name, read) in READERS {
        let converter =
            move |csv: &[u8], caller: u8, out: &mut [u8]| plain(&read(csv), caller, out);
        wrong.push((name, lent(converter)));
    }
    for (name, tell) in TELLERS {
        let converter = move |csv: &[u8], caller: u8, out: &mut [u8]| {
            let mut told = convert(csv, caller, out);
            tell(&mut told);
            told.packed()
        };
        wrong.push((name, lent(converter)));
    }
    for (name, converter) in WRITERS {
        wrong.push((name, lent(converter)));
    }
    wrong
}

/// The right converter agrees on each sheet, and it is as the sheet was made; all that is
/// counted is reached.
#[test]
fn random_sheets_are_as_they_were_made() {
    let mut counts = SheetCounts::default();
    let right = lent(plain);
    for case in random_cases() {
        let Ok(Agreed { told, out }) = side_by_side(&case.lent, &*right) else {
            panic!("{}", case.lent);
        };
        assert!(case.as_meant(told, &out), "{told:?}, {}", case.lent);
        counts.count(&case, told, &out);
    }
    assert_eq!(counts.missing(), [""; 0]);
}

#[test]
fn wrong_converters_are_told_apart() {
    let cases = random_cases();
    for (name, wrong) in wrong_converters() {
        let mut lent = cases.iter().map(|case| &case.lent);
        assert!(
            lent.any(|lent| side_by_side(lent, &*wrong).is_err()),
            "{name}"
        );
    }
}

/// Were the two converters wrong in the same way, what is known of the sheets would tell.
#[test]
fn wrong_answers_are_not_as_the_sheets_were_made() {
    let cases = random_cases();
    for (name, tell) in TELLERS {
        let mut differing = cases.iter().filter(|case| {
            let mut out = case.lent.out.clone();
            let mut told = convert(&case.lent.csv, case.lent.caller, &mut out);
            tell(&mut told);
            !case.as_meant(told, &out)
        });
        assert!(differing.next().is_some(), "{name}");
    }
}

#[test]
fn records_that_say_something_else_are_told_apart() {
    let mut bytes = 0;
    for case in random_cases().iter().take(500) {
        let mut out = case.lent.out.clone();
        let told = convert(&case.lent.csv, case.lent.caller, &mut out);
        if !matches!(case.form, Form::Good(_)) || told.bytes > 100 {
            continue;
        }
        for place in 0..told.bytes {
            out[place] ^= 1;
            assert!(!case.as_meant(told, &out), "{place}, {}", case.lent);
            out[place] ^= 1;
            bytes += 1;
        }
    }
    assert!(bytes > 1000, "{bytes}");
}

#[test]
fn what_is_overwritten_is_told() {
    let sheet = LentSheet {
        csv: b"user,3\r\n".to_vec(),
        behind: b"role".to_vec(),
        caller: 1,
        out: vec![7; 10],
        null: false,
    };
    let overwritten = |in_sheet: bool, place: isize| {
        let converter: Box<Converter> = Box::new(move |csv, _, _, out, _| {
            let begin = if in_sheet { csv.cast_mut() } else { out };
            // The guards on either side have 64 bytes.
            unsafe { *begin.offset(place) ^= 1 };
            0
        });
        sheet.convert(&*converter).overwritten
    };
    for place in [0, 7] {
        assert_eq!(overwritten(true, place), Some("the sheet"));
    }
    for place in [-64, -1, 8, 11, 12, 75] {
        assert_eq!(overwritten(true, place), Some("bytes beside the sheet"));
    }
    let beside = Some("bytes beside the output buffer");
    for place in [-64, -1, 10, 73] {
        assert_eq!(overwritten(false, place), beside);
    }
    for place in [0, 9] {
        assert_eq!(overwritten(false, place), None);
    }
}

/// A converter that reads behind the sheet finds what would change its answer.
#[test]
fn bytes_behind_the_sheet_matter() {
    let reads_on: Box<Converter> = Box::new(|csv, bytes, caller, out, room| {
        if bytes == 0 || room == 0 {
            return 0;
        }
        // The guard behind the sheet has 64 bytes.
        let csv = unsafe { slice::from_raw_parts(csv, bytes + 1) };
        let out = unsafe { slice::from_raw_parts_mut(out, room) };
        let right = convert(&csv[..bytes], caller, out);
        match right.error {
            15 => plain(csv, caller, out),
            _ => right.packed(),
        }
    });
    let cases = random_cases();
    let mut lent = cases.iter().map(|case| &case.lent);
    let reads = |lent: &LentSheet| lent.csv.len() > 1 && !lent.out.is_empty();
    assert!(lent.any(|lent| reads(lent) && side_by_side(lent, &*reads_on).is_err()));
}

/// Where a line above 255 is needed, there stay so many lines.
#[test]
fn failing_sheets_are_shortened() {
    let cases = random_cases();
    for (name, wrong) in wrong_converters() {
        let fails = |lent: &LentSheet| side_by_side(lent, &*wrong).is_err();
        let mut lent = cases.iter().map(|case| &case.lent);
        let found = lent.find(|lent| fails(lent)).expect(name);
        let short = shortened(found, &*wrong);
        assert!(fails(&short), "{name}");
        match name {
            "the line in two bytes" | "the bytes in two bytes" => {}
            "the line in one byte" => assert!(short.csv.len() < 4000, "{name}"),
            _ => assert!(short.csv.len() <= 32, "{name}: {short}"),
        }
    }
}
