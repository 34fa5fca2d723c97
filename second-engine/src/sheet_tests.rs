//! The plain converter on worked examples of the card and of the standard.

use crate::record::encode;
use crate::sheet::{convert, Told};

const CALLER: u8 = 3;

/// What the output buffer holds before.
const BEFORE: [u8; 40] = [0xEE; 40];

/// The sheet becomes these calls, kind and arguments, and nothing else is written.
fn good(csv: &str, calls: &[(usize, &[usize])]) {
    let records = calls
        .iter()
        .map(|(kind, arguments)| encode(*kind, usize::from(CALLER), arguments));
    let records: Vec<u8> = records.flatten().collect();
    let bytes = records.len();
    for room in [bytes, bytes + 1, BEFORE.len()] {
        let mut out = BEFORE[..room].to_vec();
        let told = convert(csv.as_bytes(), CALLER, &mut out);
        let expected = Told {
            error: 0,
            line: 0,
            bytes,
        };
        assert_eq!(told, expected, "{csv:?}");
        assert_eq!(told.packed(), 65536 * bytes as u64);
        assert_eq!(out[..bytes], records, "{csv:?}");
        assert_eq!(out[bytes..], BEFORE[bytes..room], "{csv:?}");
    }
    for room in 0..bytes {
        assert_eq!(error(csv.as_bytes(), CALLER, room), (16, 0), "{csv:?}");
    }
}

/// The row at this line is the first that isn't of the form, whatever the room.
fn bad(csv: &str, line: usize) {
    bad_bytes(csv.as_bytes(), line);
}

fn bad_bytes(csv: &[u8], line: usize) {
    for room in 0..=BEFORE.len() {
        let shown = csv.escape_ascii();
        assert_eq!(error(csv, CALLER, room), (15, line), "{shown}");
    }
}

/// The error and the line; nothing is written.
fn error(csv: &[u8], caller: u8, room: usize) -> (u16, usize) {
    let mut out = BEFORE[..room].to_vec();
    let Told { error, line, bytes } = convert(csv, caller, &mut out);
    assert_ne!(error, 0, "{}", csv.escape_ascii());
    assert_eq!(bytes, 0);
    assert_eq!(out, BEFORE[..room]);
    (error, line)
}

#[test]
fn each_word() {
    good("trust,1\r\n", &[(3, &[1])]);
    good("user,3\r\n", &[(5, &[3])]);
    good("role,2\r\n", &[(7, &[2])]);
    good("perm,5\r\n", &[(9, &[5])]);
    good("give,3,2\r\n", &[(11, &[3, 2])]);
    good("grant,5,0,2\r\n", &[(13, &[5, 0, 2])]);
    good("attach,4,1,7\r\n", &[(15, &[4, 1, 7])]);
}

/// The bytes of two rows, written out.
#[test]
fn two_rows_in_bytes() {
    let mut out = BEFORE;
    let told = convert(b"user,10\r\ngrant,5,0,15", 2, &mut out);
    assert_eq!(told.packed(), 14 << 16);
    let records = [6, 0, 5, 0, 2, 10, 8, 0, 13, 0, 2, 5, 0, 15];
    assert_eq!(out[..14], records);
    assert_eq!(out[14..], BEFORE[14..]);
}

#[test]
fn each_number() {
    for number in 0..=15 {
        good(&format!("user,{number}\r\n"), &[(5, &[number])]);
        good(&format!("give,15,{number}"), &[(11, &[15, number])]);
        bad(&format!("user,0{number}\r\n"), 1);
    }
    for number in 16..=1200 {
        bad(&format!("user,{number}\r\n"), 1);
    }
    for number in [
        "", "-1", "+1", "1.", "1e0", "0x1", "/", ":", "1/", "1:", "a", "001",
    ] {
        bad(&format!("user,{number}\r\n"), 1);
    }
}

/// "The last record in the file may or may not have an ending line break."
#[test]
fn line_ends() {
    good("", &[]);
    good("user,3", &[(5, &[3])]);
    good("user,3\r\nrole,2", &[(5, &[3]), (7, &[2])]);
    good("user,3\r\nrole,2\r\n", &[(5, &[3]), (7, &[2])]);
    bad("user,3\n", 1);
    bad("user,3\r", 1);
    bad("user,3\n\r", 1);
    bad("user,3\r\r\n", 1);
    bad("user,3\nrole,2\r\n", 1);
    bad("user,3\r\nrole,2\n", 2);
    bad("user,3\r\nrole,2\r", 2);
    bad("\n", 1);
    bad("\r", 1);
}

#[test]
fn blank_lines() {
    bad("\r\n", 1);
    bad("\r\n\r\n", 1);
    bad("\r\nuser,3\r\n", 1);
    bad("user,3\r\n\r\n", 2);
    bad("user,3\r\n\r\nrole,2\r\n", 2);
    bad("user,3\r\nrole,2\r\n\r\n", 3);
    bad("user,3\r\n ", 2);
    bad(" \r\n", 1);
}

/// "Each field may or may not be enclosed in double quotes."
#[test]
fn quoted_fields() {
    good("\"user\",3\r\n", &[(5, &[3])]);
    good("user,\"3\"\r\n", &[(5, &[3])]);
    good("user,\"15\"", &[(5, &[15])]);
    good(
        "\"give\",\"3\",\"2\"\r\n\"role\",2",
        &[(11, &[3, 2]), (7, &[2])],
    );
    bad("user,\"03\"\r\n", 1);
    bad("user,\"16\"\r\n", 1);
    bad("user,\"\"\r\n", 1);
    bad("\"\",3\r\n", 1);
    bad("\" user\",3\r\n", 1);
    bad("\"User\",3\r\n", 1);
}

/// "If double-quotes are used to enclose fields, then a double-quote appearing inside a field
/// must be escaped by preceding it with another double quote."
#[test]
fn quotes_inside() {
    bad("\"us\"\"er\",3\r\n", 1);
    bad("\"\"\"user\",3\r\n", 1);
    bad("\"user\"\"\",3\r\n", 1);
    bad("\"\"\"user\"\"\",3\r\n", 1);
    bad("user,\"\"\"3\"\"\"\r\n", 1);
    bad("user,\"\"\"\"\r\n", 1);
    bad("user,3\r\nuser,\"1\"\"5\"\r\n", 2);
}

/// "If fields are not enclosed with double quotes, then double quotes may not appear inside the
/// fields."
#[test]
fn quotes_where_none_may_be() {
    bad("us\"er,3\r\n", 1);
    bad("user\",3\r\n", 1);
    bad("user,3\"\r\n", 1);
    bad("\"\"user\"\",3\r\n", 1);
    bad("us\"er\",3\r\n", 1);
    bad("\"us\"er,3\r\n", 1);
    bad("\"user\"s,3\r\n", 1);
    bad("\"user\" ,3\r\n", 1);
    bad(" \"user\",3\r\n", 1);
    bad("user,\"1\"5\r\n", 1);
    bad("user,\"3\"\n", 1);
    bad("user,\"3\"\r", 1);
}

#[test]
fn quotes_never_closed() {
    bad("\"", 1);
    bad("\"user,3\r\n", 1);
    bad("user,\"3", 1);
    bad("user,\"3\r\n", 1);
    bad("user,\"3\"\"", 1);
    bad("user,3\r\nrole,\"2\r\nperm,5\r\n", 2);
    bad("user,\"3\r\nrole,\"2\"\r\n", 1);
}

/// "Fields containing line breaks (CRLF), double quotes, and commas should be enclosed in
/// double-quotes." Such a field is no word and no number; its row is told at its first line.
#[test]
fn commas_and_line_breaks_in_quotes() {
    bad("\"user,3\"\r\n", 1);
    bad("user,\"1,5\"\r\n", 1);
    bad("user,\"3\r\n\"\r\n", 1);
    bad("user,\"\r\n3\"\r\n", 1);
    bad("user,\"3\n\"\r\n", 1);
    bad("user,\"3\r\"\r\n", 1);
    bad("user,1\r\nuser,\"3\r\n\r\n\",\r\nuser,2\r\n", 2);
}

#[test]
fn wrong_numbers_of_fields() {
    bad("user", 1);
    bad("user\r\n", 1);
    bad("user,\r\n", 1);
    bad("user,3,\r\n", 1);
    bad(",user,3\r\n", 1);
    bad("user,3,2\r\n", 1);
    bad("give,3\r\n", 1);
    bad("give,3,2,1\r\n", 1);
    bad("grant,5,0\r\n", 1);
    bad("attach,4,1,7,0\r\n", 1);
    bad("3\r\n", 1);
    bad(",", 1);
    bad("user,3\r\nuser,,3\r\n", 2);
}

#[test]
fn wrong_words() {
    let words = [
        "User",
        "USER",
        "useR",
        "use",
        "users",
        "",
        "u",
        "permission",
        "kind",
        "5",
        "word",
    ];
    for word in words {
        bad(&format!("{word},3\r\n"), 1);
        bad(&format!("role,1\r\nrole,2\r\n{word},3\r\n"), 3);
    }
    for form in ["user;3\r\n", "user 3\r\n", "user\t3\r\n", "3,user\r\n"] {
        bad(form, 1);
    }
}

/// Spaces "are considered part of a field and should not be ignored".
#[test]
fn spaces() {
    for csv in [
        " user,3", "user ,3", "user, 3", "user,3 ", "user,1 5", "user,\t3",
    ] {
        bad(csv, 1);
        bad(&format!("role,2\r\n{csv}\r\n"), 2);
    }
}

#[test]
fn bytes_that_no_field_has() {
    for byte in (0..=31).chain(127..=255) {
        bad_bytes(&[b'u', b's', b'e', b'r', b',', b'3', byte], 1);
        bad_bytes(&[b'u', b's', b'e', b'r', b',', b'"', b'3', byte, b'"'], 1);
        bad_bytes(&[byte, b'u', b's', b'e', b'r', b',', b'3'], 1);
    }
    bad_bytes(b"\xEF\xBB\xBFuser,3\r\n", 1);
}

/// "15, a caller above 15, else the first row", "line 0 in every other answer"
#[test]
fn callers() {
    for caller in 0..=15 {
        let mut out = BEFORE;
        let told = convert(b"role,2", caller, &mut out);
        assert_eq!(told.packed(), 6 << 16);
        assert_eq!(out[..6], [6, 0, 7, 0, caller, 2]);
    }
    for caller in 16..=255 {
        for csv in ["", "user,3\r\n", "user,3\r\nuser,16\r\n", "\n"] {
            assert_eq!(error(csv.as_bytes(), caller, 0), (15, 0));
            assert_eq!(error(csv.as_bytes(), caller, 40), (15, 0));
        }
    }
}

/// "16, output shorter than the records, after 15"
#[test]
fn the_first_bad_row_is_told_whatever_the_room() {
    bad("user,1\r\nuser,2\r\nuser,x\r\nuser,y\r\n", 3);
    bad("user,1\r\nuser,2\r\nuser,3\r\nuser,16", 4);
    let csv = "user,1\r\n".repeat(300) + "user,01\r\n";
    bad(&csv, 301);
}
