//! 01 in plain Rust, written from its words: everything that the original does not keep is derived here and nowhere else.
//!
//! A parse is the list of what it writes into its areas, in order. Without limits the list gives the records that are
//! compared with the original; written into areas of given lengths it gives the answer of the call, number 4 included.
//! A reading with a misreading is for the self-test only.

mod areas;
mod characters;
mod declarations;
mod patterns;
mod rules;

pub use areas::{Records, answer, records};

use crate::case::{Case, FLAG_COMMENTS, FLAG_POSIX_ESCAPES};
use crate::misreadings::Misreading;

/// How 01 is read: right, or with one deliberate misreading.
#[derive(Clone, Copy, Debug, PartialEq, Eq)]
pub struct Reading(Option<Misreading>);

impl Reading {
    pub const RIGHT: Reading = Reading(None);

    pub fn wrong(misreading: Misreading) -> Reading {
        Reading(Some(misreading))
    }

    fn has(self, misreading: Misreading) -> bool {
        self.0 == Some(misreading)
    }

    fn choose<T>(self, misreading: Misreading, wrong: T, right: T) -> T {
        if self.has(misreading) { wrong } else { right }
    }
}

#[derive(Clone, Copy, Debug, PartialEq, Eq)]
pub struct Span {
    pub start: usize,
    pub end: usize,
}

impl Span {
    fn empty(at: usize) -> Span {
        Span { start: at, end: at }
    }
}

#[derive(Clone, Debug, PartialEq, Eq)]
pub struct State {
    pub name: Span,
    pub exclusive: bool,
}

/// 01's fields of a rule, in its order.
#[derive(Clone, Debug, PartialEq, Eq, Default)]
pub struct Rule {
    pub has_id: bool,
    pub id: usize,
    pub named: bool,
    pub span_start: usize,
    pub span_end: usize,
    pub name_from: usize,
    pub name_length: usize,
    pub place: usize,
    pub text_from: usize,
    pub text_length: usize,
    pub list_from: usize,
    pub list_count: usize,
    pub operation: usize,
    pub target: usize,
}

/// Kinds of faults, by their positions in the original's `LexErrorKind`.
#[derive(Clone, Copy, Debug, PartialEq, Eq)]
pub enum Kind {
    PrematureEnd,
    RoutinesNotSupported,
    UnknownDeclaration,
    MissingSpace,
    InvalidName,
    UnknownStartState,
    DuplicateStartState,
    InvalidStartState,
    InvalidStartStateName,
    DuplicateName,
    RegexError,
    VerbatimNotSupported,
}

/// One thing that a parse writes. Each fits its area as a whole or not at all.
#[derive(Clone, Debug, PartialEq, Eq)]
pub enum Write {
    State(State),
    Rule(Rule),
    ListEntry(usize),
    Text(Vec<u8>),
    ExpectedName(Span),
    /// A new fault; the first repeat of a name makes one of two spans.
    Fault {
        kind: Kind,
        first: Span,
        second: Option<Span>,
    },
    /// A further span of the fault of that number.
    Repeat {
        fault: usize,
        kind: Kind,
        span: Span,
    },
}

/// A fault has ended parsing; it is already written.
struct Ended;

type Step<T> = Result<T, Ended>;

/// A parse under way.
struct Walk<'a> {
    text: &'a str,
    reading: Reading,
    comments: bool,
    posix_escapes: bool,
    verdicts: &'a [u8],
    states: Vec<State>,
    rules: Vec<Rule>,
    rules_dropped: usize,
    list_entries: usize,
    text_bytes: usize,
    /// Kind and first span of each fault.
    faults: Vec<(Kind, Span)>,
    writes: Vec<Write>,
}

/// What a parse of the text writes, in order.
pub fn walk(text: &str, case: &Case, reading: Reading) -> Vec<Write> {
    let (comments, posix_escapes) = (case.flags & FLAG_COMMENTS != 0, case.flags & FLAG_POSIX_ESCAPES != 0);
    let swapped = reading.has(Misreading::FlagsSwapped);
    let mut walk = Walk {
        text,
        reading,
        comments: if swapped { posix_escapes } else { comments },
        posix_escapes: if swapped { comments } else { posix_escapes },
        verdicts: &case.verdicts,
        states: vec![],
        rules: vec![],
        rules_dropped: 0,
        list_entries: 0,
        text_bytes: 0,
        faults: vec![],
        writes: vec![],
    };
    let _ = walk.file();
    walk.writes
}

impl Walk<'_> {
    fn file(&mut self) -> Step<()> {
        self.add_state(State { name: Span::empty(0), exclusive: false });
        let at = self.declarations()?;
        let at = self.rule_lines(at)?;
        self.routines(at)
    }

    fn add_state(&mut self, state: State) {
        self.states.push(state.clone());
        self.writes.push(Write::State(state));
    }

    fn add_rule(&mut self, rule: Rule) {
        self.rules.push(rule.clone());
        self.writes.push(Write::Rule(rule));
    }

    fn add_fault(&mut self, kind: Kind, span: Span) {
        self.faults.push((kind, span));
        self.writes.push(Write::Fault { kind, first: span, second: None });
    }

    fn end_with<T>(&mut self, kind: Kind, at: usize) -> Step<T> {
        self.add_fault(kind, Span::empty(at));
        Err(Ended)
    }

    /// A name that stands first at one span is repeated at another. The same fault is the one of the same kind whose first
    /// span is the first name's.
    fn add_repeat(&mut self, kind: Kind, first: Span, again: Span) {
        let shared = self.reading.has(Misreading::RepeatsShareAFault);
        let is_same = |fault: &(Kind, Span)| fault.0 == kind && (fault.1 == first || shared);
        let known = self.faults.iter().position(is_same);
        match known {
            Some(fault) if !self.reading.has(Misreading::EachRepeatIsAFault) => {
                self.writes.push(Write::Repeat { fault, kind, span: again });
            }
            _ if self.reading.has(Misreading::FirstRepeatHasOneSpan) => {
                self.faults.push((kind, first));
                self.writes.push(Write::Fault { kind, first: again, second: None });
            }
            _ => {
                self.faults.push((kind, first));
                self.writes.push(Write::Fault { kind, first, second: Some(again) });
            }
        }
    }

    fn state_name(&self, id: usize) -> &str {
        let Span { start, end } = self.states[id].name;
        if id == 0 { "INITIAL" } else { &self.text[start..end] }
    }

    fn state_of_name(&self, name: &str) -> Option<usize> {
        let id = (0..self.states.len()).find(|id| self.state_name(*id) == name)?;
        Some(id + self.reading.choose(Misreading::StateIdOneHigher, 1, 0))
    }

    // Scanners. Offsets are bytes; characters are whole.

    fn starts_with(&self, at: usize, prefix: &str) -> bool {
        self.text[at..].starts_with(prefix)
    }

    /// Past all characters from there on that pass the test.
    fn skip(&self, at: usize, test: impl Fn(char) -> bool) -> usize {
        self.find(at, self.text.len(), |character| !test(character))
    }

    /// The first character in the part that passes the test, or the part's end.
    fn find(&self, start: usize, end: usize, test: impl Fn(char) -> bool) -> usize {
        self.text[start..end].find(test).map_or(end, |offset| start + offset)
    }

    fn line_end(&self, at: usize) -> usize {
        self.find(at, self.text.len(), |character| self.reading.is_line_end(character))
    }

    fn comment_end(&self, at: usize) -> usize {
        match self.reading.has(Misreading::CommentEndsAtLineFeedOnly) {
            true => self.find(at, self.text.len(), |character| character == '\n'),
            false => self.line_end(at),
        }
    }

    fn skip_whitespace(&self, at: usize) -> usize {
        self.skip(at, |character| self.reading.is_whitespace(character))
    }

    /// Where the part ends without its trailing whitespace.
    fn trim_end(&self, start: usize, end: usize) -> usize {
        start + self.text[start..end].trim_end_matches(|character| self.reading.is_whitespace(character)).len()
    }

    fn trim(&self, start: usize, end: usize) -> Span {
        let start = self.find(start, end, |character| !self.reading.is_whitespace(character));
        Span { start, end: self.trim_end(start, end) }
    }
}
