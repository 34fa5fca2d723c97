//! Damage after which a sheet isn't of the form any more: which row is spoilt is known.

use crate::random::Random;
use crate::sheet_rows::{in_quotes, Sheet, WORDS};
use crate::sheet_spots::{any_writing, unquote, Spot};

/// Gives the place of the row that is spoilt, from 0. All rows before it are of the form.
pub type Damage = fn(&mut Spot) -> usize;

pub const DAMAGES: [(&str, Damage); 45] = [
    ("bare LF", |spot| spot.end(&["\n", "\n\r", "\n\n"])),
    ("bare CR", |spot| spot.end(&["\r", "\r\r\n"])),
    ("LF at the file's end", |spot| spot.last().end(&["\n"])),
    ("CR at the file's end", |spot| spot.last().end(&["\r"])),
    ("lone quote", lone_quote),
    ("unclosed quote", |spot| {
        spot.field(|_, text| text.insert(0, b'"'))
    }),
    ("doubled quote", |spot| spot.put_in_quotes(&["\"\""])),
    ("quoted comma", |spot| spot.put_in_quotes(&[","])),
    ("quoted line break", |spot| {
        spot.put_in_quotes(&["\r\n", "\n", "\r"])
    }),
    ("part in quotes", part_in_quotes),
    ("row in quotes", row_in_quotes),
    ("text after quotes", text_after_quotes),
    ("blank line at the start", |spot| spot.insert(0, "")),
    ("blank line between rows", blank_between),
    ("blank line at the end", blank_at_the_end),
    ("nothing but a blank line", nothing_but_blank),
    ("row of spaces", |spot| spot.insert(spot.row, " ")),
    ("header row", |spot| spot.insert(0, "word")),
    ("space", |spot| spot.put(b" ")),
    ("tab or the like", |spot| spot.put(b"\t\x0B\x0C\x1A\x7F")),
    ("byte 0", |spot| spot.put(b"\0")),
    ("byte 128 to 255", |spot| {
        let byte = spot.random.byte() | 128;
        spot.put(&[byte])
    }),
    ("byte order mark", byte_order_mark),
    ("leading zero", |spot| spot.number("0", &[0, 1, 9, 10, 15])),
    ("two leading zeros", |spot| spot.number("00", &[0, 5, 15])),
    ("16", |spot| spot.number("", &[16])),
    ("17 to 99", |spot| spot.number("", &[17, 19, 20, 51, 99])),
    ("100 to 255", |spot| spot.number("", &[100, 115, 151, 255])),
    ("256 and more", above_a_byte),
    ("plus", |spot| spot.number("+", &[0, 1, 15])),
    ("minus", |spot| spot.number("-", &[0, 1, 15])),
    ("no decimal", no_decimal),
    ("empty field", |spot| {
        spot.field(|random, text| *text = any_writing(random, b""))
    }),
    ("field missing", field_missing),
    ("field too many", field_too_many),
    ("trailing comma", trailing_comma),
    ("leading comma", leading_comma),
    ("word behind a number", word_behind_a_number),
    ("another separator", another_separator),
    ("upper case", |spot| {
        spot.word(|random, word| upper_case(random, word))
    }),
    ("cut word", |spot| spot.word(cut)),
    ("longer word", |spot| spot.word(lengthen)),
    ("unknown word", |spot| spot.word(unknown)),
    ("word of other arguments", other_arguments),
    ("CRLF missing", sheets_joined),
];

/// In a field that doesn't begin with it.
fn lone_quote(spot: &mut Spot) -> usize {
    spot.field(|random, text| text.insert(random.between(1, text.len()), b'"'))
}

/// Quotes around the first part of a field, or around the last; that part may be empty.
fn part_in_quotes(spot: &mut Spot) -> usize {
    spot.field(|random, text| {
        let first = random.percent(50);
        let place = random.below(text.len()) + usize::from(!first);
        let (head, tail) = text.split_at(place);
        *text = if first {
            [&in_quotes(head), tail].concat()
        } else {
            [head, &in_quotes(tail)].concat()
        };
    })
}

/// One pair of quotes around the whole row.
fn row_in_quotes(spot: &mut Spot) -> usize {
    let mut row = spot.fields().join(&b',');
    unquote(&mut row);
    *spot.fields() = vec![in_quotes(&row)];
    spot.row
}

fn text_after_quotes(spot: &mut Spot) -> usize {
    spot.field(|random, text| {
        *text = in_quotes(text);
        text.push(random.pick(b" x0'\t;"));
    })
}

fn blank_between(spot: &mut Spot) -> usize {
    if spot.sheet.rows.len() == 1 {
        spot.end(&["\r\n"]);
        spot.sheet.rows.push(spot.sheet.rows[0].clone());
    }
    let place = spot.random.between(1, spot.sheet.rows.len() - 1);
    spot.insert(place, "")
}

fn blank_at_the_end(spot: &mut Spot) -> usize {
    let last = spot.last().end(&["\r\n"]);
    spot.insert(last + 1, "")
}

fn nothing_but_blank(spot: &mut Spot) -> usize {
    spot.sheet.rows.clear();
    spot.insert(0, "")
}

fn byte_order_mark(spot: &mut Spot) -> usize {
    spot.row = 0;
    spot.fields()[0].splice(0..0, *b"\xEF\xBB\xBF");
    spot.row
}

/// A number that is 0 to 15 in fewer bits.
fn above_a_byte(spot: &mut Spot) -> usize {
    let bits = spot.random.pick(&[8, 16, 32, 64]);
    let number = (1u128 << bits) + spot.random.below(16) as u128;
    spot.argument(&number.to_string())
}

/// What some would read as a number; the bytes beside the digits too.
fn no_decimal(spot: &mut Spot) -> usize {
    let text = spot.random.pick(&[
        "/", ":", "1/", "1:", "/1", ":1", "x", "one", "0x3", "3.0", "3.", "1e1", "A", "f", "1_0",
        "\u{661}", "\u{FF11}",
    ]);
    spot.argument(text)
}

fn field_missing(spot: &mut Spot) -> usize {
    let place = spot.random.below(spot.sheet.rows[spot.row].fields.len());
    spot.fields().remove(place);
    spot.row
}

fn field_too_many(spot: &mut Spot) -> usize {
    let number = spot.random.below(16).to_string();
    let field = any_writing(spot.random, number.as_bytes());
    let place = spot
        .random
        .between(1, spot.sheet.rows[spot.row].fields.len());
    spot.fields().insert(place, field);
    spot.row
}

fn trailing_comma(spot: &mut Spot) -> usize {
    spot.fields().push(Vec::new());
    spot.row
}

fn leading_comma(spot: &mut Spot) -> usize {
    spot.fields().insert(0, Vec::new());
    spot.row
}

fn word_behind_a_number(spot: &mut Spot) -> usize {
    let place = spot
        .random
        .between(1, spot.sheet.rows[spot.row].fields.len() - 1);
    spot.fields().swap(0, place);
    spot.row
}

fn another_separator(spot: &mut Spot) -> usize {
    let separator = spot.random.pick(b";\t |:.");
    *spot.fields() = vec![spot.fields().join(&separator)];
    spot.row
}

fn upper_case(random: &mut Random, word: &mut [u8]) {
    let place = random.below(word.len());
    match random.below(3) {
        0 => word.make_ascii_uppercase(),
        1 => word[0].make_ascii_uppercase(),
        _ => word[place].make_ascii_uppercase(),
    }
}

fn cut(random: &mut Random, word: &mut Vec<u8>) {
    word.truncate(random.between(1, word.len() - 1));
}

fn lengthen(random: &mut Random, word: &mut Vec<u8>) {
    word.extend(random.pick(&["s", "0", "r", "user"]).bytes());
}

/// A letter changed, as no two words differ in one only, or another word.
fn unknown(random: &mut Random, word: &mut Vec<u8>) {
    if random.percent(50) {
        let others = ["permission", "withdraw", "detach", "publish", "enrol", "5"];
        *word = random.pick(&others).into();
    } else {
        let place = random.below(word.len());
        let letters: Vec<u8> = (b'a'..=b'z').filter(|&byte| byte != word[place]).collect();
        word[place] = random.pick(&letters);
    }
}

/// One of the words, but with another number of arguments behind it.
fn other_arguments(spot: &mut Spot) -> usize {
    let count = spot.fields().len() - 1;
    let other = spot.random.pick_where(&WORDS, |&(_, other)| other != count);
    let (other, _) = other.expect("there are words with other numbers of arguments");
    spot.fields()[0] = any_writing(spot.random, other.as_bytes());
    spot.row
}

/// Another sheet directly behind the last row.
fn sheets_joined(spot: &mut Spot) -> usize {
    let length = spot.random.between(1, 4);
    let other = Sheet::any(spot.random, length);
    let spoilt = spot.last().end(&[""]);
    spot.sheet.rows.extend(other.rows);
    spoilt
}
