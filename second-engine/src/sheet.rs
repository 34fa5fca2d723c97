//! A plain converter: an estate's sheet, CSV as RFC 4180 has it, to call records. Written from
//! Card 5 and the standard's grammar alone. The benchmark takes this file too.

use std::borrow::Cow;

/// What is told of a sheet.
#[derive(Clone, Copy, Debug, PartialEq, Eq)]
pub struct Told {
    /// 0, 15 or 16.
    pub error: u16,
    /// With error 15, the first row that isn't of the form, from 1; else 0.
    pub line: usize,
    /// With error 0, how many bytes were written; else 0.
    pub bytes: usize,
}

impl Told {
    fn error(error: u16, line: usize) -> Told {
        Told {
            error,
            line,
            bytes: 0,
        }
    }

    /// The error in bits 0 to 15, and above them the bytes or the line: one of them is 0.
    pub fn packed(self) -> u64 {
        u64::from(self.error) + 65536 * (self.line + self.bytes) as u64
    }
}

/// Makes call records of the sheet, from this caller, in the output buffer.
pub fn convert(csv: &[u8], caller: u8, out: &mut [u8]) -> Told {
    // "15, a caller above 15"
    if caller > 15 {
        return Told::error(15, 0);
    }
    let records = match records_of(csv, caller) {
        Ok(records) => records,
        // "else the first row that isn't of this form, its line from 1 told"
        Err(line) => return Told::error(15, line),
    };
    let bytes = records.len();
    // "16, output shorter than the records, after 15"
    if out.len() < bytes {
        return Told::error(16, 0);
    }
    // "all rows become records, the bytes written are told and the rest of the output buffer
    // stays"
    out[..bytes].copy_from_slice(&records);
    Told {
        error: 0,
        line: 0,
        bytes,
    }
}

/// The records of all rows, or the line of the first row that isn't of the form.
fn records_of(csv: &[u8], caller: u8) -> Result<Vec<u8>, usize> {
    let mut records = Vec::new();
    let mut fields = Vec::new();
    let mut rest = csv;
    let mut line: usize = 1;
    // "An empty file gives no records."
    while !rest.is_empty() {
        rest = read_row(rest, &mut fields).ok_or(line)?;
        add_record(&fields, caller, &mut records).ok_or(line)?;
        line += 1;
    }
    Ok(records)
}

/// TEXTDATA = %x20-21 / %x23-2B / %x2D-7E
fn textdata(byte: u8) -> bool {
    matches!(byte, 0x20..=0x21 | 0x23..=0x2B | 0x2D..=0x7E)
}

/// record = field *(COMMA field), and the CRLF behind it, which the last row may lack. Fills in
/// the fields' texts and gives what follows the row.
fn read_row<'a>(mut rest: &'a [u8], fields: &mut Vec<Cow<'a, [u8]>>) -> Option<&'a [u8]> {
    fields.clear();
    loop {
        let (text, after) = match rest {
            [b'"', inside @ ..] => read_escaped(inside)?,
            _ => read_non_escaped(rest),
        };
        fields.push(text);
        match after {
            [] => return Some(after),
            [b'\r', b'\n', next @ ..] => return Some(next),
            [b',', next @ ..] => rest = next,
            // a bare CR or LF, a lone quote, or text after a closing quote
            _ => return None,
        }
    }
}

/// non-escaped = *TEXTDATA. Gives the field's text, and what follows it.
fn read_non_escaped(rest: &[u8]) -> (Cow<'_, [u8]>, &[u8]) {
    let end = rest.iter().position(|&byte| !textdata(byte));
    let (text, after) = rest.split_at(end.unwrap_or(rest.len()));
    (Cow::Borrowed(text), after)
}

/// escaped = DQUOTE *(TEXTDATA / COMMA / CR / LF / 2DQUOTE) DQUOTE, read from behind the first
/// quote. Gives the field's text, each doubled quote as one, and what follows the last quote.
fn read_escaped(inside: &[u8]) -> Option<(Cow<'_, [u8]>, &[u8])> {
    let mut end = 0;
    let mut doubled = false;
    loop {
        match inside[end..] {
            [b'"', b'"', ..] => {
                doubled = true;
                end += 2;
            }
            [b'"', ..] => break,
            [b',' | b'\r' | b'\n', ..] => end += 1,
            [byte, ..] if textdata(byte) => end += 1,
            // not closed, or a byte that the standard doesn't have
            _ => return None,
        }
    }
    let (written, after) = (&inside[..end], &inside[end + 1..]);
    let text = if doubled {
        Cow::Owned(without_doubling(written))
    } else {
        Cow::Borrowed(written)
    };
    Some((text, after))
}

/// The text with one quote for each two.
fn without_doubling(written: &[u8]) -> Vec<u8> {
    let mut text = Vec::new();
    let mut bytes = written.iter();
    while let Some(&byte) = bytes.next() {
        text.push(byte);
        if byte == b'"' {
            bytes.next();
        }
    }
    text
}

/// "Each row is a word ... and then the matching call's arguments". Adds the call's record.
fn add_record(fields: &[Cow<[u8]>], caller: u8, records: &mut Vec<u8>) -> Option<()> {
    let (word, arguments) = fields.split_first()?;
    let (kind, count): (u16, u16) = match word.as_ref() {
        b"trust" => (3, 1),
        b"user" => (5, 1),
        b"role" => (7, 1),
        b"perm" => (9, 1),
        b"give" => (11, 2),
        b"grant" => (13, 3),
        b"attach" => (15, 3),
        _ => return None,
    };
    if arguments.len() != usize::from(count) {
        return None;
    }
    // The length counts the whole record; it and the kind are 2 bytes little-endian.
    let length = 5 + count;
    records.extend(length.to_le_bytes());
    records.extend(kind.to_le_bytes());
    records.push(caller);
    for argument in arguments {
        records.push(read_decimal(argument)?);
    }
    Some(())
}

/// "decimals 0 to 15 without leading zeros"
fn read_decimal(text: &[u8]) -> Option<u8> {
    match *text {
        [ones @ b'0'..=b'9'] => Some(ones - b'0'),
        [b'1', ones @ b'0'..=b'5'] => Some(10 + ones - b'0'),
        _ => None,
    }
}
