//! The C calls on slices. All `unsafe` of the crate stands here, and nothing else does.
#![allow(unsafe_code)]

use troymantle_sys as sys;

/// An answer: its number, and up to three values.
#[derive(Clone, Copy)]
pub struct Word(u64);

impl Word {
    pub fn number(self) -> u16 {
        self.0 as u16
    }

    pub fn values(self) -> [u16; 3] {
        [16, 32, 48].map(|bits| (self.0 >> bits) as u16)
    }
}

/// A sheet as every call takes it: the source, areas 1 to 5 and their counts.
#[derive(Clone)]
pub struct SheetBytes {
    pub source: Vec<u8>,
    pub areas: [Vec<u8>; 5],
    pub counts: [u16; 6],
}

/// Calls a function with a sheet in front of its other arguments; `$pointer` is of area 2, which a link writes.
// SAFETY: every pointer goes with the length of its own slice, the arrays have as many numbers as is declared, and what a
// call may write is borrowed mutably, so that it overlaps nothing.
macro_rules! on_sheet {
    ($name:ident, $pointer:ident, $sheet:expr, $($argument:expr),*) => {{
        let SheetBytes { source, areas: [one, two, three, four, five], counts } = $sheet;
        Word(unsafe {
            sys::$name(
                source.as_ptr(), source.len(), one.as_ptr(), one.len(), two.$pointer(), two.len(),
                three.as_ptr(), three.len(), four.as_ptr(), four.len(), five.as_ptr(), five.len(), counts, $($argument),*
            )
        })
    }};
}

#[rustfmt::skip] // a slice beside its length
pub fn parse(source: &[u8], flags: u64, verdicts: &[u8], areas: &mut [Vec<u8>; 6], counts: &mut [u16; 6]) -> Word {
    let [one, two, three, four, five, six] = areas;
    // SAFETY: as above.
    Word(unsafe {
        sys::troymantle_parse(
            source.as_ptr(), source.len(), flags, verdicts.as_ptr(), verdicts.len(), one.as_mut_ptr(), one.len(),
            two.as_mut_ptr(), two.len(), three.as_mut_ptr(), three.len(), four.as_mut_ptr(), four.len(),
            five.as_mut_ptr(), five.len(), six.as_mut_ptr(), six.len(), counts,
        )
    })
}

pub fn pattern(sheet: &SheetBytes, rule: u64) -> Word {
    on_sheet!(troymantle_pattern, as_ptr, sheet, rule)
}

pub fn pattern_test(sheet: &SheetBytes, rule: u64) -> Word {
    on_sheet!(troymantle_pattern_test, as_ptr, sheet, rule)
}

#[rustfmt::skip] // a slice beside its length
pub fn link(sheet: &mut SheetBytes, names: &[u8], entries: &[u8], area7: &mut [u8], area8: &mut [u8]) -> Word {
    on_sheet!(
        troymantle_link, as_mut_ptr, sheet,
        names.as_ptr(), names.len(), entries.as_ptr(), entries.len(), area7.as_mut_ptr(), area7.len(),
        area8.as_mut_ptr(), area8.len()
    )
}

pub fn start(kind: u64, n: u64, text: &[u8], run: &mut [u16; 5], stack: &mut [u8]) -> Word {
    // SAFETY: as above.
    Word(unsafe { sys::troymantle_start(kind, n, text.as_ptr(), text.len(), run, stack.as_mut_ptr(), stack.len()) })
}

#[rustfmt::skip] // a slice beside its length
pub fn step(sheet: &SheetBytes, text: &[u8], run: &mut [u16; 5], stack: &mut [u8], row: &[u8]) -> Word {
    on_sheet!(
        troymantle_step, as_ptr, sheet,
        text.as_ptr(), text.len(), run, stack.as_mut_ptr(), stack.len(), row.as_ptr(), row.len()
    )
}

pub fn line_column(source: &[u8], offset: u64, place: &mut [u32; 2]) -> Word {
    // SAFETY: as above.
    Word(unsafe { sys::troymantle_line_column(source.as_ptr(), source.len(), offset, place) })
}

pub fn offset_at(source: &[u8], line: u64, column: u64) -> Word {
    // SAFETY: as above.
    Word(unsafe { sys::troymantle_offset_at(source.as_ptr(), source.len(), line, column) })
}
