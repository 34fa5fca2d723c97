//! A sheet and an output buffer, lent to a converter between guards.

use crate::guarded::Guarded;
use crate::library::yermoitu_sheet;
use crate::patience::came_back;
use std::fmt;

/// Sheets with more bytes are not shortened, and only their begin and their end are shown.
pub const LONG: usize = 100_000;

/// What a converter is handed.
#[derive(Clone)]
pub struct LentSheet {
    pub csv: Vec<u8>,
    /// Bytes behind the sheet that are no part of it: a cut one's rest, or what would end it.
    pub behind: Vec<u8>,
    pub caller: u8,
    /// The output buffer, as it is before.
    pub out: Vec<u8>,
    /// Whether null stands for a sheet or an output buffer of 0 bytes.
    pub null: bool,
}

/// What a converter gave back.
pub struct GivenSheet {
    pub packed: u64,
    pub out: Vec<u8>,
    /// What was written that should not have been: a guard or the sheet.
    pub overwritten: Option<&'static str>,
}

/// A converter as C calls it: the sheet, its bytes, the caller, the output buffer, its bytes.
pub type Converter = dyn Fn(*const u8, usize, u8, *mut u8, usize) -> u64;

/// The library's converter.
pub fn library(csv: *const u8, bytes: usize, caller: u8, out: *mut u8, room: usize) -> u64 {
    // `LentSheet::convert` hands in pointers that have their lengths behind them.
    unsafe { yermoitu_sheet(csv, bytes, caller, out, room) }
}

impl LentSheet {
    pub fn convert(&self, converter: &Converter) -> GivenSheet {
        let LentSheet { csv, out, .. } = self;
        // Each lies at an even or an odd place, by its length.
        let mut sheet = Guarded::new(csv, &self.behind, csv.len() / 2 % 2 == 1);
        let mut buffer = Guarded::new(out, &[], out.len() / 2 % 2 == 1);

        let lent_csv = sheet.lent(self.null);
        let lent_out = buffer.lent(self.null);
        let packed = converter(lent_csv, csv.len(), self.caller, lent_out, out.len());
        came_back();

        let overwritten = if sheet.inside() != csv {
            Some("the sheet")
        } else if sheet.written_beside() {
            Some("bytes beside the sheet")
        } else if buffer.written_beside() {
            Some("bytes beside the output buffer")
        } else {
            None
        };
        GivenSheet {
            packed,
            out: buffer.inside().to_vec(),
            overwritten,
        }
    }
}

impl fmt::Display for LentSheet {
    fn fmt(&self, text: &mut fmt::Formatter) -> fmt::Result {
        let LentSheet {
            csv, behind, out, ..
        } = self;
        if csv.len() > LONG {
            let (begin, end) = (&csv[..1000], &csv[csv.len() - 1000..]);
            write!(text, "\"{}\" and so on", begin.escape_ascii())?;
            write!(text, " to \"{}\"", end.escape_ascii())?;
        } else {
            write!(text, "\"{}\"", csv.escape_ascii())?;
        }
        write!(text, " ({} bytes, caller {}", csv.len(), self.caller)?;
        write!(text, ", output buffer of {} bytes", out.len())?;
        if !behind.is_empty() {
            write!(text, ", behind the sheet \"{}\"", behind.escape_ascii())?;
        }
        if self.null && (csv.is_empty() || out.is_empty()) {
            write!(text, ", null lent for no bytes")?;
        }
        write!(text, ")")
    }
}
