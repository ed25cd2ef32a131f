//! The C functions of Troymantle: for each its type, and the function of the library that is linked. They are those of
//! `include/troymantle.h`, line by line; `tools/declarations` holds both to the Rattle source. The crate `troymantle` has
//! them without `unsafe`.
//!
//! # Safety
//!
//! Each pointer is not null and points to as many bytes or numbers as stand beside it, also where that is none; what a
//! call may write overlaps nothing else that it is lent. Nothing else is asked: a call ends on every input.
#![no_std]

/// Declares for each function its type and, where the library is linked, the function.
macro_rules! functions {
    ($($(#[$about:meta])* fn $name:ident as $type_name:ident($($parameter:ident: $type:ty),* $(,)?);)*) => {$(
        $(#[$about])*
        pub type $type_name = unsafe extern "C" fn($($parameter: $type),*) -> u64;

        #[cfg(feature = "linked")]
        unsafe extern "C" {
            $(#[$about])*
            pub fn $name($($parameter: $type),*) -> u64;
        }
    )*};
}

functions! {
    /// Reads a lex file into six areas.
    fn troymantle_parse as Parse(
        source: *const u8, source_length: usize,
        flags: u64,
        verdicts: *const u8, verdicts_length: usize,
        area1: *mut u8, area1_length: usize,
        area2: *mut u8, area2_length: usize,
        area3: *mut u8, area3_length: usize,
        area4: *mut u8, area4_length: usize,
        area5: *mut u8, area5_length: usize,
        area6: *mut u8, area6_length: usize,
        counts: *mut [u16; 6],
    );

    /// Where the text of a rule's pattern stands.
    fn troymantle_pattern as Pattern(
        source: *const u8, source_length: usize,
        area1: *const u8, area1_length: usize,
        area2: *const u8, area2_length: usize,
        area3: *const u8, area3_length: usize,
        area4: *const u8, area4_length: usize,
        area5: *const u8, area5_length: usize,
        counts: *const [u16; 6],
        rule: u64,
    );

    /// Whether a rule has a text.
    fn troymantle_pattern_test as PatternTest(
        source: *const u8, source_length: usize,
        area1: *const u8, area1_length: usize,
        area2: *const u8, area2_length: usize,
        area3: *const u8, area3_length: usize,
        area4: *const u8, area4_length: usize,
        area5: *const u8, area5_length: usize,
        counts: *const [u16; 6],
        rule: u64,
    );

    /// Gives the named rules of a sheet the ids of a map.
    fn troymantle_link as Link(
        source: *const u8, source_length: usize,
        area1: *const u8, area1_length: usize,
        area2: *mut u8, area2_length: usize,
        area3: *const u8, area3_length: usize,
        area4: *const u8, area4_length: usize,
        area5: *const u8, area5_length: usize,
        counts: *const [u16; 6],
        names: *const u8, names_length: usize,
        entries: *const u8, entries_length: usize,
        area7: *mut u8, area7_length: usize,
        area8: *mut u8, area8_length: usize,
    );

    /// Begins a run of a kind of caller over an entry of n bytes, of which the text is lent.
    fn troymantle_start as Start(
        kind: u64,
        n: u64,
        text: *const u8, text_length: usize,
        run: *mut [u16; 5],
        stack: *mut u8, stack_length: usize,
    );

    /// Moves a run on by a row; the text is that of the start.
    fn troymantle_step as Step(
        source: *const u8, source_length: usize,
        area1: *const u8, area1_length: usize,
        area2: *const u8, area2_length: usize,
        area3: *const u8, area3_length: usize,
        area4: *const u8, area4_length: usize,
        area5: *const u8, area5_length: usize,
        counts: *const [u16; 6],
        text: *const u8, text_length: usize,
        run: *mut [u16; 5],
        stack: *mut u8, stack_length: usize,
        row: *const u8, row_length: usize,
    );

    /// The line and the column of an offset.
    fn troymantle_line_column as LineColumn(
        source: *const u8, source_length: usize,
        offset: u64,
        place: *mut [u32; 2],
    );

    /// The offset that has this line and column.
    fn troymantle_offset_at as OffsetAt(
        source: *const u8, source_length: usize,
        line: u64,
        column: u64,
    );
}
