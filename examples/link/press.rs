// The story of press.c, told from Rust.
// From the repository's root:
//
//     scripts/library
//     rustc --edition 2021 -O -D warnings -L native=target/staticlib -l static=yermoitu examples/link/press.rs -o target/press-rs
//     target/press-rs

extern "C" {
    fn yermoitu_start(state: *mut u16, words: usize) -> u64;
    fn yermoitu_call(state: *mut u16, words: usize, record: *const u8, bytes: usize) -> u64;
    fn yermoitu_sheet(csv: *const u8, csv_bytes: usize, caller: u8, out: *mut u8, out_bytes: usize) -> u64;
}

// A slice is valid for its length and a `&mut` overlaps nothing: all that the functions ask.
fn start(state: &mut [u16]) -> u64 {
    unsafe { yermoitu_start(state.as_mut_ptr(), state.len()) }
}

fn call(state: &mut [u16], record: &[u8]) -> u64 {
    unsafe { yermoitu_call(state.as_mut_ptr(), state.len(), record.as_ptr(), record.len()) }
}

fn sheet(csv: &[u8], caller: u8, out: &mut [u8]) -> u64 {
    unsafe { yermoitu_sheet(csv.as_ptr(), csv.len(), caller, out.as_mut_ptr(), out.len()) }
}

// Its refusal and its verdict, and with a yes the role that gave it: 0#2 is role 2 of estate 0.
fn show(says: &str, answer: u64) {
    let (refusal, verdict) = (answer & 0xffff, answer >> 16 & 0xffff);
    print!("{says:<36} refusal {refusal} verdict {verdict}");
    if verdict == 1 {
        print!(" through {}#{}", answer >> 32 & 0xff, answer >> 40 & 0xff);
    }
    println!();
}

fn main() {
    let mut state = vec![0; 9041];
    show("start", start(&mut state));
    let story: [(&str, &[u8]); 22] = [
        ("the operator enrols 0", &[6, 0, 1, 0, 16, 0]),
        ("the operator enrols 1", &[6, 0, 1, 0, 16, 1]),
        ("0 adds role 2", &[6, 0, 7, 0, 0, 2]),
        ("0 adds user 3", &[6, 0, 5, 0, 0, 3]),
        ("0 gives user 3 role 2", &[7, 0, 11, 0, 0, 3, 2]),
        ("0 opens session 4 for user 3", &[7, 0, 17, 0, 0, 4, 3]),
        ("0 activates role 2 in session 4", &[7, 0, 19, 0, 0, 4, 2]),
        ("1 adds permission 5", &[6, 0, 9, 0, 1, 5]),
        ("1 grants 5 to 0's role 2, untrusted", &[8, 0, 13, 0, 1, 5, 0, 2]),
        ("0 trusts 1", &[6, 0, 3, 0, 0, 1]),
        ("0 publishes role 2", &[6, 0, 22, 0, 0, 2]),
        ("1 grants 5 to 0's role 2", &[8, 0, 13, 0, 1, 5, 0, 2]),
        ("may 0's session 4 use 5?", &[8, 0, 21, 0, 1, 5, 0, 4]),
        ("1 adds role 7", &[6, 0, 7, 0, 1, 7]),
        ("1 grants 5 to its own role 7", &[8, 0, 13, 0, 1, 5, 1, 7]),
        ("1 attaches role 7 below 0's role 2", &[8, 0, 15, 0, 1, 7, 0, 2]),
        ("may 0's session 4 use 5?", &[8, 0, 21, 0, 1, 5, 0, 4]),
        ("1 ungrants 5 from 0's role 2", &[8, 0, 14, 0, 1, 5, 0, 2]),
        ("may 0's session 4 use 5?", &[8, 0, 21, 0, 1, 5, 0, 4]),
        ("0 withdraws its trust in 1", &[6, 0, 4, 0, 0, 1]),
        ("may 0's session 4 use 5?", &[8, 0, 21, 0, 1, 5, 0, 4]),
        ("a press's sign of life", &[]),
    ];
    for (says, record) in story {
        show(says, call(&mut state, record));
    }

    let csv = b"user,6\r\n\"role\",7\r\ngive,6,7\r\n";
    let mut records = vec![0; csv.len()];
    let made = sheet(csv, 0, &mut records);
    println!("{:<36} error {}, {} bytes", "0's sheet", made & 0xffff, made >> 16);
    records.truncate((made >> 16) as usize);
    let mut left = &records[..];
    while !left.is_empty() {
        let (record, rest) = left.split_at(left[0].into());
        show("a row of it", call(&mut state, record));
        left = rest;
    }
}
