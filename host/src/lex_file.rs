//! The parse of a lex file.

use crate::calls::{self, SheetBytes};
use crate::numbers::{
    ACCEPTED, AREA_FULL, AREA1_BYTES, AREA2_BYTES, AREA3_BYTES, AREA4_BYTES, AREA5_BYTES, AREA6_BYTES, FAULTY_FILE,
    FLAG_COMMENTS, FLAG_POSIX_ESCAPES, LIST_WIDTH, MOST_SOURCE, RULE_WIDTH,
};
use crate::{Fault, Refusal, Sheet};
use std::ops::BitOr;

/// How a lex file is read.
#[derive(Clone, Copy, Debug, Default, PartialEq, Eq)]
pub struct Flags(u64);

impl Flags {
    /// Neither of the flags.
    pub const NONE: Flags = Flags(0);
    /// `//` skips a line: before `%%` also behind whitespace, among the rules at a line's first byte.
    pub const COMMENTS: Flags = Flags(FLAG_COMMENTS);
    /// `\b` in a pattern becomes `\x08`, the backspace of POSIX; without it the regex engine gives it its meaning.
    pub const POSIX_ESCAPES: Flags = Flags(FLAG_POSIX_ESCAPES);

    /// Flags by their number, as a host reads them from a setting. A parse refuses numbers above 3.
    pub fn from_number(number: u64) -> Flags {
        Flags(number)
    }
}

impl BitOr for Flags {
    type Output = Flags;

    fn bitor(self, other: Flags) -> Flags {
        Flags(self.0 | other.0)
    }
}

/// A lex file, and how it is to be read.
#[derive(Clone, Debug)]
pub struct LexFile<'a> {
    source: &'a [u8],
    flags: Flags,
    verdicts: Vec<u8>,
}

impl<'a> LexFile<'a> {
    /// The file with these bytes, without flags or verdicts.
    pub fn new(source: &'a (impl AsRef<[u8]> + ?Sized)) -> LexFile<'a> {
        LexFile { source: source.as_ref(), flags: Flags::NONE, verdicts: vec![] }
    }

    /// The same file, read with these flags.
    pub fn with_flags(self, flags: Flags) -> LexFile<'a> {
        LexFile { flags, ..self }
    }

    /// The same file, read with what the regex engine says of the patterns: the one of rule k is refused where `refused`
    /// has true at k.
    pub fn with_verdicts(self, refused: impl IntoIterator<Item = bool>) -> LexFile<'a> {
        LexFile { verdicts: refused.into_iter().map(u8::from).collect(), ..self }
    }

    /// Parses the file. The areas are made as large as the file needs, up to the limits.
    ///
    /// # Errors
    ///
    /// [`Refusal::LongFile`], [`Refusal::UnknownFlag`], [`Refusal::InvalidUtf8`], [`Refusal::AreaFull`] where a limit is
    /// passed, or [`Refusal::FaultyFile`] with the faults.
    pub fn parse(&self) -> Result<Sheet, Refusal> {
        let mut areas = estimate(self.source.len()).map(|length| vec![0; length]);
        loop {
            let mut counts = [0; 6];
            let word = calls::parse(self.source, self.flags.0, &self.verdicts, &mut areas, &mut counts);
            let [value, ..] = word.values();
            match word.number() {
                ACCEPTED => {
                    let [one, two, three, four, five, _] = areas;
                    let areas = [one, two, three, four, five];
                    return Ok(Sheet::parsed(SheetBytes { source: self.source.to_vec(), areas, counts }));
                }
                AREA_FULL if grow(&mut areas, value) => {}
                AREA_FULL => return Err(Refusal::AreaFull(value)),
                FAULTY_FILE => {
                    let [.., six] = areas;
                    return Err(Refusal::FaultyFile(Fault::listed(self.source, &six, usize::from(value))));
                }
                number => return Err(Refusal::of(number)),
            }
        }
    }

    /// Parses the file, asks of each rule's position and pattern whether the regex engine takes it, and parses the file again
    /// with these verdicts where it refuses one.
    ///
    /// # Errors
    ///
    /// Those of [`LexFile::parse`]; a pattern that the engine refuses is a fault of the kind
    /// [`RegexError`](crate::FaultKind::RegexError).
    pub fn parse_judged(&self, mut takes: impl FnMut(usize, &str) -> bool) -> Result<Sheet, Refusal> {
        let sheet = self.parse()?;
        let mut refused = vec![];
        for rule in 0..sheet.rule_count() {
            refused.push(!takes(rule, &sheet.pattern(rule)?));
        }
        if refused.contains(&true) { self.clone().with_verdicts(refused).parse() } else { Ok(sheet) }
    }
}

/// The bytes of each area that hold whatever the limits allow.
const MOST: [usize; 6] = [AREA1_BYTES, AREA2_BYTES, AREA3_BYTES, AREA4_BYTES, AREA5_BYTES, AREA6_BYTES];

/// Enough for most files of that many bytes: a rule in 16 bytes, and a quarter of the file rewritten.
fn estimate(bytes: usize) -> [usize; 6] {
    let bytes = bytes.min(MOST_SOURCE);
    let rules = bytes / 16 + 1;
    let wanted = [AREA1_BYTES, RULE_WIDTH * rules, LIST_WIDTH * rules, bytes / 4, 64, 256];
    let mut lengths = MOST;
    lengths.iter_mut().zip(wanted).for_each(|(length, wanted)| *length = wanted.min(*length));
    lengths
}

/// Makes the area of that number larger, and says whether it could.
fn grow(areas: &mut [Vec<u8>; 6], number: u16) -> bool {
    let place = usize::from(number).wrapping_sub(1);
    match (areas.get_mut(place), MOST.get(place)) {
        (Some(area), Some(most)) if area.len() < *most => {
            area.resize((2 * area.len()).clamp(64, *most), 0);
            true
        }
        _ => false,
    }
}
