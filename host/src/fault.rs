//! What is wrong in a lex file.

use crate::Place;
use crate::numbers;
use crate::records::records;
use std::fmt;
use std::ops::Range;

/// A fault of a lex file.
#[derive(Clone, Debug, PartialEq, Eq)]
pub struct Fault {
    /// What is wrong.
    pub kind: FaultKind,
    /// Where, in bytes of the file. A repeated name has a span for each time that it stands there, the first one first; any
    /// other fault has one span, which is empty where only a place is known.
    pub spans: Vec<Range<usize>>,
    /// The line and column: for a repeated name those of its first repeat, for any other where it starts.
    pub place: Place,
}

impl Fault {
    /// The byte of the file that has this place.
    pub fn offset(&self) -> usize {
        offset(&self.spans)
    }

    /// The faults that area 6 has of a file.
    pub(crate) fn listed(source: &[u8], area: &[u8], spans: usize) -> Vec<Fault> {
        let listed = spans_of_faults(area, spans).into_iter();
        listed.map(|(kind, spans)| Fault { kind, place: place(source, offset(&spans)), spans }).collect()
    }
}

/// The place of a fault's offset. Faults start at edges between characters; were one inside a character, it would have the
/// place of that character, so that no fault is lost.
fn place(source: &[u8], offset: usize) -> Place {
    (offset.saturating_sub(3)..=offset).rev().find_map(|at| Place::of(source, at).ok()).unwrap_or(Place::FIRST)
}

fn offset(spans: &[Range<usize>]) -> usize {
    spans.get(1).or(spans.first()).map_or(0, |span| span.start)
}

/// The spans of one fault stand one behind the other and have its number.
fn spans_of_faults(area: &[u8], spans: usize) -> Vec<(FaultKind, Vec<Range<usize>>)> {
    let mut faults: Vec<(FaultKind, Vec<Range<usize>>)> = vec![];
    let mut last = None;
    for [number, kind, start, end] in records(area, spans) {
        let span = Range { start: usize::from(start), end: usize::from(end) };
        match faults.last_mut() {
            Some((_, spans)) if last == Some(number) => spans.push(span),
            _ => faults.push((FaultKind::of(kind), vec![span])),
        }
        last = Some(number);
    }
    faults
}

/// `line:column: kind's words (kind's name)`; a host puts the file's name and a colon before it.
impl fmt::Display for Fault {
    fn fmt(&self, f: &mut fmt::Formatter) -> fmt::Result {
        write!(f, "{}: {} ({})", self.place, self.kind, self.kind.name())
    }
}

impl std::error::Error for Fault {}

macro_rules! kinds {
    ($($(#[$about:meta])* $kind:ident = $number:ident: $words:literal;)*) => {
        /// What a fault is about. A number that this crate does not know is `Other`.
        #[derive(Clone, Copy, Debug, PartialEq, Eq, Hash)]
        #[non_exhaustive]
        pub enum FaultKind {
            $($(#[$about])* $kind,)*
            /// A kind of a library that is newer than this crate.
            Other(u16),
        }

        impl FaultKind {
            /// Every kind that this crate knows, by its number.
            pub const ALL: &[FaultKind] = &[$(FaultKind::$kind),*];

            pub(crate) fn of(number: u16) -> FaultKind {
                match number {
                    $(numbers::$number => FaultKind::$kind,)*
                    other => FaultKind::Other(other),
                }
            }

            /// The kind's number in area 6.
            pub fn number(self) -> u16 {
                match self {
                    $(FaultKind::$kind => numbers::$number,)*
                    FaultKind::Other(number) => number,
                }
            }

            /// The kind's name, as grmtools' `LexErrorKind` has it.
            pub fn name(self) -> &'static str {
                match self {
                    $(FaultKind::$kind => stringify!($kind),)*
                    FaultKind::Other(_) => "Other",
                }
            }

            /// What is wrong, in words.
            pub fn words(self) -> &'static str {
                match self {
                    $(FaultKind::$kind => $words,)*
                    FaultKind::Other(_) => "a fault that this program has no words for",
                }
            }
        }
    };
}

kinds! {
    /// The file ends in its declarations.
    PrematureEnd = PREMATURE_END: "the file ends before its `%%`";
    /// There is more than whitespace behind a second `%%`.
    RoutinesNotSupported = ROUTINES_NOT_SUPPORTED: "nothing may follow a second `%%`";
    /// A declaration's first word is not known, or names are missing behind it.
    UnknownDeclaration = UNKNOWN_DECLARATION: "unknown declaration";
    /// A rule has no blank between pattern and name.
    MissingSpace = MISSING_SPACE: "no blank between pattern and name";
    /// A name has not equal quotes at both ends.
    InvalidName = INVALID_NAME: "a name needs equal quotes around it";
    /// A state that no declaration has.
    UnknownStartState = UNKNOWN_START_STATE: "this state is not declared";
    /// A state is declared twice.
    DuplicateStartState = DUPLICATE_START_STATE: "this state is declared already";
    /// A `<` is not closed.
    InvalidStartState = INVALID_START_STATE: "`<` without its `>`";
    /// A state's name has not the form of one.
    InvalidStartStateName = INVALID_START_STATE_NAME: "a state's name is a letter, then letters, digits, `_` and `.`";
    /// Two rules have one name.
    DuplicateName = DUPLICATE_NAME: "another rule has this name already";
    /// The regex engine refuses the pattern.
    RegexError = REGEX_ERROR: "the regex engine refuses this pattern";
    /// A line among the rules starts with whitespace.
    VerbatimNotSupported = VERBATIM_NOT_SUPPORTED: "a line among the rules must not start with whitespace";
}

impl fmt::Display for FaultKind {
    fn fmt(&self, f: &mut fmt::Formatter) -> fmt::Result {
        f.write_str(self.words())
    }
}
