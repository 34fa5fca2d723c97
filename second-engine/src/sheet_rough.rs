//! Damage to a sheet's bytes, blind to its rows: what comes of it may be of the form or not.

use crate::random::Random;
use crate::sheet_rows::WORDS;

/// Damages the bytes of a sheet, which has some; gives what lies behind it then.
pub type Rough = fn(&mut Random, &mut Vec<u8>) -> Vec<u8>;

pub const ROUGH: [(&str, Rough); 8] = [
    ("byte changed", |random, csv| byte_changed(random, csv)),
    ("byte put in", byte_put_in),
    ("byte left out", byte_left_out),
    ("bytes exchanged", |random, csv| {
        bytes_exchanged(random, csv)
    }),
    ("piece repeated", piece_repeated),
    ("cut off", cut_off),
    ("any pieces", any_pieces),
    ("any bytes", any_bytes),
];

fn byte_changed(random: &mut Random, csv: &mut [u8]) -> Vec<u8> {
    let place = random.below(csv.len());
    match random.below(3) {
        0 => csv[place] ^= 1 << random.below(8),
        1 => csv[place] = random.byte(),
        _ => csv[place] = any_byte(random),
    }
    any_behind(random)
}

fn byte_put_in(random: &mut Random, csv: &mut Vec<u8>) -> Vec<u8> {
    let byte = any_byte(random);
    csv.insert(random.below(csv.len() + 1), byte);
    any_behind(random)
}

fn byte_left_out(random: &mut Random, csv: &mut Vec<u8>) -> Vec<u8> {
    csv.remove(random.below(csv.len()));
    any_behind(random)
}

fn bytes_exchanged(random: &mut Random, csv: &mut [u8]) -> Vec<u8> {
    let place = random.below(csv.len());
    let other = random.below(csv.len()).min(place + 1);
    csv.swap(place, other);
    any_behind(random)
}

/// Up to 16 bytes, put in once more behind themselves.
fn piece_repeated(random: &mut Random, csv: &mut Vec<u8>) -> Vec<u8> {
    let begin = random.below(csv.len());
    let end = csv.len().min(begin + random.between(1, 16));
    let piece = csv[begin..end].to_vec();
    csv.splice(end..end, piece);
    any_behind(random)
}

/// The rest lies directly behind, as if it were still read.
fn cut_off(random: &mut Random, csv: &mut Vec<u8>) -> Vec<u8> {
    let rest = csv.split_off(random.below(csv.len()));
    rest[..rest.len().min(40)].to_vec()
}

/// A few rows of fields, which are words, numbers, quotes and others end to end.
fn any_pieces(random: &mut Random, csv: &mut Vec<u8>) -> Vec<u8> {
    csv.clear();
    for _ in 0..random.between(1, 4) {
        let (word, count) = random.pick(&WORDS);
        let fields = random.pick(&[count, count, count, 0, 1, 2, 3, 4]);
        for place in 0..=fields {
            let number = random.below(18).to_string();
            let text = if place == 0 { word } else { &number };
            let (before, after) = random.pick(&[
                ("", ""),
                ("", ""),
                ("", ""),
                ("\"", "\""),
                ("\"", "\""),
                ("\"", "\""),
                ("\"", ""),
                ("", "\""),
                ("\"\"", "\"\""),
                ("\"\"\"", "\"\"\""),
                ("\"\"", ""),
                (" ", ""),
                ("\"", "\" "),
            ]);
            let comma = if place == 0 { "" } else { "," };
            csv.extend([comma, before, text, after].concat().bytes());
        }
        let ends = ["\r\n", "\r\n", "\r\n", "\r\n", "\r", "\n", "\r\n\r\n", ""];
        csv.extend(random.pick(&ends).bytes());
    }
    any_behind(random)
}

fn any_bytes(random: &mut Random, csv: &mut Vec<u8>) -> Vec<u8> {
    let length = random.between(1, 20);
    let likely = random.percent(50);
    csv.clear();
    for _ in 0..length {
        let byte = random.byte();
        csv.push(if likely { any_byte(random) } else { byte });
    }
    any_behind(random)
}

/// A byte that sheets have, mostly.
fn any_byte(random: &mut Random) -> u8 {
    let any = random.byte();
    random.pick(&[
        b'"', b'"', b',', b',', b'\r', b'\n', b' ', b'0', b'1', b'5', b'6', b'9', b'e', b'r', any,
    ])
}

/// What lies behind a sheet, and would matter if it were read.
pub fn any_behind(random: &mut Random) -> Vec<u8> {
    let pieces = ["", "", "\r\n", "\n", "\"", "\"\"", ",1", "0", "5", "user,1"];
    random.pick(&pieces).into()
}
