//! Memory that is lent to the library: whatever is touched that should not be shows.
use crate::split::{Answer, Step};
use std::ops::Deref;
use std::ptr;
use std::sync::OnceLock;

/// Entries on either side that are not lent.
const AROUND: usize = 16;

/// Something that can be lent, and a row of entries that are told from what is written over them.
pub trait Entry: Copy + PartialEq + std::fmt::Debug + 'static {
    fn marks() -> &'static [Self];
}

/// No byte of a sheet has the highest bit.
impl Entry for u8 {
    fn marks() -> &'static [u8] {
        static MARKS: OnceLock<Vec<u8>> = OnceLock::new();
        MARKS.get_or_init(|| (0..33_000).map(|k| 128 | (k * 37 % 127) as u8).collect())
    }
}

/// No event is above 63.
impl Entry for Step {
    fn marks() -> &'static [Step] {
        static MARKS: OnceLock<Vec<Step>> = OnceLock::new();
        let mark = |k: usize| Step { source: (k * 41) as u8, event: 64 | k as u8, target: !(k * 41) as u8 };
        MARKS.get_or_init(|| (0..1200).map(mark).collect())
    }
}

pub const UNSPOILT: &str = "all entries as they should be";

/// The answer with so many entries lent, and whether those that are filled come first and all others keep their marks.
pub fn lend<T: Entry>(
    lent: usize,
    null: bool,
    filled: &[T],
    function: impl FnOnce(*mut T, usize) -> Answer,
) -> (Answer, String) {
    let mut row = T::marks()[..lent + 2 * AROUND].to_vec();
    let mut expected = row.clone();
    expected[AROUND..][..filled.len()].copy_from_slice(filled);
    let out = if null && lent == 0 { ptr::null_mut() } else { row[AROUND..].as_mut_ptr() };
    let answer = function(out, lent);
    let spoilt = if row == expected { None } else { (0..row.len()).find(|k| row[*k] != expected[*k]) };
    let shown = |k: usize| format!("entry {} is {:?}, not {:?}", k as isize - AROUND as isize, row[k], expected[k]);
    (answer, spoilt.map_or(UNSPOILT.to_string(), shown))
}

/// Bytes that others follow, which would be read as more of the same.
pub struct Among {
    bytes: Vec<u8>,
    size: usize,
}

impl Among {
    pub fn others(bytes: &[u8]) -> Among {
        let next: &[u8] = if bytes.ends_with(b"\n") { b"(machine (0))\n" } else { b"\n(machine (0))\n" };
        Among { bytes: [bytes, next].concat(), size: bytes.len() }
    }

    /// A sheet, and the line of its next machine.
    pub fn machines(sheet: &[u8]) -> Among {
        let number = sheet.iter().filter(|b| **b == b'\n').count().saturating_sub(1);
        let end = if sheet.ends_with(b"\n") { "" } else { "\n" };
        let next = format!("{end}(machine {number} (places 1) (start 0))\n");
        Among { bytes: [sheet, next.as_bytes()].concat(), size: sheet.len() }
    }
}

impl Deref for Among {
    type Target = [u8];

    fn deref(&self) -> &[u8] {
        &self.bytes[..self.size]
    }
}
