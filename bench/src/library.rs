//! The proved monitor, from its static library.

use crate::answer;

extern "C" {
    fn yermoitu_start(state: *mut u16, words: usize) -> u64;
    fn yermoitu_call(state: *mut u16, words: usize, record: *const u8, bytes: usize) -> u64;
    fn yermoitu_sheet(
        csv: *const u8,
        csv_bytes: usize,
        caller: u8,
        out: *mut u8,
        out_bytes: usize,
    ) -> u64;
    fn yermoitu_press(
        state: *mut u16,
        words: usize,
        owners: *const u8,
        owners_len: usize,
        stages: *mut u8,
        stages_len: usize,
        press: u8,
        action: u8,
        issuer: u8,
        session: u8,
    ) -> u64;
}

/// Starting. The module `answer` takes its number apart, and that of a call.
pub fn start(state: &mut [u16]) -> u64 {
    // SAFETY: the pointer and the length are those of one slice, and so below.
    unsafe { yermoitu_start(state.as_mut_ptr(), state.len()) }
}

/// A record played on a state.
pub fn call(state: &mut [u16], record: &[u8]) -> u64 {
    // SAFETY: the record is only read, and the two slices don't overlap.
    unsafe {
        yermoitu_call(
            state.as_mut_ptr(),
            state.len(),
            record.as_ptr(),
            record.len(),
        )
    }
}

/// A sheet's records in the output buffer: the answer is the error, and 65536 times the bytes or the line.
pub fn sheet(csv: &[u8], caller: u8, out: &mut [u8]) -> u64 {
    // SAFETY: the sheet is only read, and the two slices don't overlap.
    unsafe { yermoitu_sheet(csv.as_ptr(), csv.len(), caller, out.as_mut_ptr(), out.len()) }
}

/// The verdict of a kind 21.
pub fn verdict(state: &mut [u16], record: &[u8]) -> u64 {
    answer::verdict(call(state, record)).into()
}

/// The same for permission 0 to 4, where an action on a press of the caller's puts the question.
pub fn press(state: &mut [u16], record: &[u8]) -> u64 {
    const RIGHT: [u8; 5] = [0, 1, 2, 3, 1];
    let &[_, _, _, _, owner, action, issuer, session] = record else {
        panic!("no kind 21: {record:?}")
    };
    let owners = [owner; 32];
    let mut stages = [RIGHT[usize::from(action)]; 32];
    // SAFETY: the owners are only read, and the slices don't overlap.
    let error = unsafe {
        yermoitu_press(
            state.as_mut_ptr(),
            state.len(),
            owners.as_ptr(),
            owners.len(),
            stages.as_mut_ptr(),
            stages.len(),
            7,
            action,
            issuer,
            session,
        )
    };
    assert!(error == 0 || error == 18, "error {error} of {record:?}");
    u64::from(error == 0)
}
