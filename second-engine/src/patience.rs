//! Ends the run where a call of the library doesn't come back.

use std::process;
use std::sync::atomic::{AtomicU64, Ordering::Relaxed};
use std::thread;
use std::time::Duration;

/// How many calls, starts, sheets and presses came back, those played again for a shorter list
/// among them.
static CAME_BACK: AtomicU64 = AtomicU64::new(0);

pub fn came_back() {
    CAME_BACK.fetch_add(1, Relaxed);
}

/// From now on the run ends where nothing comes back in so many seconds.
pub fn watch(seconds: u64) {
    thread::spawn(move || {
        let mut before = CAME_BACK.load(Relaxed);
        loop {
            thread::sleep(Duration::from_secs(seconds));
            let now = CAME_BACK.load(Relaxed);
            if now == before {
                println!(
                    "NO END: {now} calls, starts, sheets and presses came back, and the next one did not"
                );
                process::exit(1);
            }
            before = now;
        }
    });
}
