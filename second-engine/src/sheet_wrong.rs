//! Converters that are wrong in one thing each, made of the plain one.

use crate::sheet::{convert, Told};

type Reader = fn(&[u8]) -> Vec<u8>;

/// They take the sheet for another one, and convert that.
pub const READERS: [(&str, Reader); 26] = [
    ("leading zeros taken", without_leading_zeros),
    ("16 taken", |csv| replaced(csv, ",16", ",15")),
    ("256 taken for 0", |csv| replaced(csv, ",256", ",0")),
    ("a colon taken for 10", |csv| replaced(csv, ",:", ",10")),
    ("a plus taken", |csv| replaced(csv, ",+", ",")),
    ("a bare LF taken", |csv| {
        replaced(&replaced(csv, "\r\n", "\n"), "\n", "\r\n")
    }),
    ("a bare CR taken", |csv| {
        replaced(&replaced(csv, "\r\n", "\r"), "\r", "\r\n")
    }),
    ("CR at the end taken", |csv| without_end(csv, "\r")),
    ("LF at the end taken", |csv| match csv {
        [.., b'\r', b'\n'] => csv.to_vec(),
        _ => without_end(csv, "\n"),
    }),
    ("doubled quotes lost", |csv| replaced(csv, "\"\"", "")),
    ("all quotes lost", |csv| replaced(csv, "\"", "")),
    ("quotes not read", |csv| replaced(csv, "\"", "'")),
    ("a space after quotes taken", |csv| {
        replaced(csv, "\" ", "\"")
    }),
    ("quoted commas part fields", |csv| {
        replaced(csv, ",", "\",\"")
    }),
    ("an unclosed quote taken", with_a_quote),
    ("blank lines passed over", |csv| {
        replaced(csv, "\r\n\r\n", "\r\n")
    }),
    ("a blank line at the end taken", |csv| match csv {
        [rows @ .., b'\r', b'\n', b'\r', b'\n'] => rows.to_vec(),
        _ => csv.to_vec(),
    }),
    ("a blank line alone taken", |csv| match csv {
        b"\r\n" => Vec::new(),
        _ => csv.to_vec(),
    }),
    ("spaces passed over", |csv| replaced(csv, " ", "")),
    ("tabs passed over", |csv| replaced(csv, "\t", "")),
    ("semicolons taken", |csv| replaced(csv, ";", ",")),
    ("trailing commas taken", |csv| {
        replaced(csv, ",\r\n", "\r\n")
    }),
    ("upper case taken", |csv| csv.to_ascii_lowercase()),
    ("a longer word taken", |csv| {
        replaced(csv, "users,", "user,")
    }),
    ("only 7 bits looked at", |csv| {
        csv.iter().map(|byte| byte % 128).collect()
    }),
    ("two words exchanged", |csv| {
        let csv = replaced(csv, "user", "\0");
        replaced(&replaced(&csv, "role", "user"), "\0", "role")
    }),
];

type Teller = fn(&mut Told);

/// They tell something else of the sheet.
pub const TELLERS: [(&str, Teller); 7] = [
    ("the line from 0", |told| {
        told.line = told.line.saturating_sub(1)
    }),
    ("the line off by one", |told| {
        told.line += usize::from(told.line > 0)
    }),
    ("the line in one byte", |told| told.line %= 256),
    ("the line in two bytes", |told| told.line %= 65536),
    ("a line with the caller's 15", |told| {
        told.line += usize::from(told.error == 15 && told.line == 0)
    }),
    ("a line with 16", |told| {
        told.line += usize::from(told.error == 16)
    }),
    ("the bytes in two bytes", |told| told.bytes %= 65536),
];

/// A converter in Rust; the answer is packed.
pub type Safe = fn(&[u8], u8, &mut [u8]) -> u64;

/// They do something else with what they have read right.
pub const WRITERS: [(&str, Safe); 11] = [
    ("caller 16 taken", |csv, caller, out| {
        plain(csv, if caller == 16 { 15 } else { caller }, out)
    }),
    ("the caller looked at last", |csv, caller, out| {
        let told = convert(csv, caller.min(15), &mut out.to_vec());
        if told.error != 0 {
            return told.packed();
        }
        plain(csv, caller, out)
    }),
    ("the caller not written", |csv, caller, out| {
        plain(csv, if caller > 15 { caller } else { 0 }, out)
    }),
    ("16 before 15", |csv, caller, out| {
        if caller < 16 && out.len() < first_records(csv).len() {
            return 16;
        }
        plain(csv, caller, out)
    }),
    ("a byte more asked for", |csv, caller, out| {
        let room = out.len().saturating_sub(1);
        plain(csv, caller, &mut out[..room])
    }),
    ("a byte less asked for", |csv, caller, out| {
        let mut more = [out, &[0][..]].concat();
        let packed = plain(csv, caller, &mut more);
        out.copy_from_slice(&more[..out.len()]);
        packed
    }),
    ("written before a bad row", |csv, caller, out| {
        let told = convert(csv, caller, out);
        if told.line > 0 {
            write_what_fits(&first_records(csv), out);
        }
        told.packed()
    }),
    ("written where it is too short", |csv, caller, out| {
        let told = convert(csv, caller, out);
        if told.error == 16 {
            write_what_fits(&first_records(csv), out);
        }
        told.packed()
    }),
    ("the first byte cleared first", |csv, caller, out| {
        out.iter_mut().take(1).for_each(|byte| *byte = 0);
        plain(csv, caller, out)
    }),
    ("the rest cleared", |csv, caller, out| {
        let told = convert(csv, caller, out);
        if told.error == 0 {
            out[told.bytes..].fill(0);
        }
        told.packed()
    }),
    ("the last CRLF asked for", |csv, caller, out| {
        let told = convert(csv, caller, &mut out.to_vec());
        let rows = csv.split(|&byte| byte == b'\n').count();
        if told.error == 0 && !csv.is_empty() && !csv.ends_with(b"\r\n") {
            return 15 + 65536 * rows as u64;
        }
        plain(csv, caller, out)
    }),
];

/// The right one.
pub fn plain(csv: &[u8], caller: u8, out: &mut [u8]) -> u64 {
    convert(csv, caller, out).packed()
}

fn replaced(csv: &[u8], old: &str, new: &str) -> Vec<u8> {
    let mut text = Vec::new();
    let mut rest = csv;
    while let Some(&byte) = rest.first() {
        if let Some(after) = rest.strip_prefix(old.as_bytes()) {
            text.extend(new.bytes());
            rest = after;
        } else {
            text.push(byte);
            rest = &rest[1..];
        }
    }
    text
}

fn without_end(csv: &[u8], end: &str) -> Vec<u8> {
    csv.strip_suffix(end.as_bytes()).unwrap_or(csv).to_vec()
}

fn without_leading_zeros(csv: &[u8]) -> Vec<u8> {
    let mut text = Vec::new();
    for (place, &byte) in csv.iter().enumerate() {
        let leads = matches!(text.last(), Some(b',' | b'"')) && byte == b'0';
        let followed = matches!(csv.get(place + 1), Some(b'0'..=b'9'));
        if !(leads && followed) {
            text.push(byte);
        }
    }
    text
}

/// With a quote at the end, where the sheet isn't of the form without.
fn with_a_quote(csv: &[u8]) -> Vec<u8> {
    if convert(csv, 0, &mut []).error == 15 {
        return [csv, b"\""].concat();
    }
    csv.to_vec()
}

/// The records of the rows before the first that isn't of the form, from caller 0.
fn first_records(csv: &[u8]) -> Vec<u8> {
    let mut records = vec![0; csv.len()];
    let told = convert(csv, 0, &mut records);
    let mut bytes = told.bytes;
    if told.line > 1 {
        let mut breaks = csv.windows(2).enumerate().filter(|(_, two)| two == b"\r\n");
        let (end, _) = breaks.nth(told.line - 2).expect("a row before it");
        bytes = convert(&csv[..end], 0, &mut records).bytes;
    }
    records.truncate(bytes);
    records
}

fn write_what_fits(records: &[u8], out: &mut [u8]) {
    let bytes = records.len().min(out.len());
    out[..bytes].copy_from_slice(&records[..bytes]);
}
