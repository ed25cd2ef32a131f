//! Stand-in for the regex engine, as 01 has it: it neither compiles nor matches. Whether a pattern is accepted is
//! byte k of a lent list of verdicts, k being the rules held so far; how much a rule matches is lent too.

use std::cell::RefCell;

#[derive(Default)]
struct Lent {
    verdicts: Vec<u8>,
    rules_held: usize,
    /// The lengths of all rules at the place where that many bytes are left.
    rows_by_bytes_left: Vec<Vec<usize>>,
}

thread_local! {
    static LENT: RefCell<Lent> = RefCell::default();
}

/// Call it before each parse: the next rule is the first.
pub(crate) fn lend_verdicts(verdicts: &[u8]) {
    LENT.with_borrow_mut(|lent| {
        lent.verdicts.clear();
        lent.verdicts.extend_from_slice(verdicts);
        lent.rules_held = 0;
    });
}

pub(crate) fn lend_rows(rows_by_bytes_left: Vec<Vec<usize>>) {
    LENT.with_borrow_mut(|lent| lent.rows_by_bytes_left = rows_by_bytes_left);
}

#[derive(Debug, Clone)]
pub(crate) struct Regex {
    rule: usize,
}

pub(crate) struct Match {
    end: usize,
}

impl Match {
    pub(crate) fn end(&self) -> usize {
        self.end
    }
}

impl Regex {
    pub(crate) fn find(&self, rest: &str) -> Option<Match> {
        let end = LENT.with_borrow(|lent| lent.rows_by_bytes_left[rest.len()][self.rule]);
        Some(Match { end })
    }
}

pub(crate) struct RegexBuilder;

macro_rules! ignored_options {
    ($($name:ident: $value:ty),*) => {
        $(pub(crate) fn $name(&mut self, _: $value) -> &mut Self { self })*
    };
}

impl RegexBuilder {
    pub(crate) fn new(_pattern: &str) -> RegexBuilder {
        RegexBuilder
    }

    ignored_options!(
        octal: bool, multi_line: bool, dot_matches_new_line: bool, ignore_whitespace: bool, unicode: bool,
        case_insensitive: bool, swap_greed: bool, size_limit: usize, dfa_size_limit: usize, nest_limit: u32
    );

    /// Each accepted rule is held, since the parser keeps every rule that it can build.
    pub(crate) fn build(&self) -> Result<Regex, regex::Error> {
        LENT.with_borrow_mut(|lent| {
            let rule = lent.rules_held;
            if lent.verdicts.get(rule).is_some_and(|verdict| *verdict != 0) {
                return Err(regex::Error::Syntax("refused by the list of verdicts".to_string()));
            }
            lent.rules_held += 1;
            Ok(Regex { rule })
        })
    }
}
