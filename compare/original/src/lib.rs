//! The original parser, linker and lexer loop, compiled from the original's own text, behind plain data.

// The original reaches its neighbours by crate name; this crate stands in for all of them.
extern crate self as cfgrammar;
extern crate self as lrpar;
extern crate self as regex_syntax;

mod engine;
mod stand_ins;

pub use lexer::definition::{Definition, Lexed, Linked, lend_rows};
pub use newlinecache::NewlineCache;
pub use span::Span;
pub use stand_ins::{LexError, Lexeme, LexerTypes, is_meta_character};

use defaults::DefaultLexerTypes;
use header::HeaderErrorKind;
use lexer::DEFAULT_LEX_FLAGS;
use parser::{LexParser, StartStateOperation};
use yacc::parser::SpansKind;

#[allow(dead_code)]
mod span {
    include!(env!("ORIGINAL_SPAN"));
}

#[allow(dead_code, clippy::new_without_default)]
mod newlinecache {
    include!(env!("ORIGINAL_NEWLINES"));

    impl NewlineCache {
        /// Where the line starts: the original's `line_num_to_byte`, which is private.
        pub fn line_byte_of(&self, line_num: usize) -> Option<usize> {
            self.line_num_to_byte(line_num)
        }
    }
}

#[allow(dead_code)]
mod defaults {
    include!(env!("ORIGINAL_DEFAULTS"));
}

#[allow(dead_code)]
mod header {
    include!(concat!(env!("OUT_DIR"), "/header.rs"));
}

#[allow(dead_code)]
mod yacc {
    pub(crate) mod parser {
        include!(concat!(env!("OUT_DIR"), "/yacc_parser.rs"));
    }
}

#[allow(dead_code, clippy::type_complexity)]
mod lexer {
    use crate::engine::{Regex, RegexBuilder};
    use crate::parser::{StartState, StartStateOperation};
    use crate::{LRLexError, NewlineCache, Span, StartStateId};
    use lrpar::{Lexeme, LexerTypes};
    use num_traits::{AsPrimitive, PrimInt, Unsigned};
    use std::collections::{HashMap, HashSet};
    use std::fmt::Debug;
    use std::hash::Hash;
    use std::marker::PhantomData;
    use std::slice::Iter;
    use std::str::FromStr;

    include!(concat!(env!("OUT_DIR"), "/lexer.rs"));

    /// A child, since the methods that were cut from a trait's impl are private here.
    pub(crate) mod definition;
}

#[allow(dead_code)]
mod parser {
    include!(env!("ORIGINAL_PARSER"));

    /// `new_with_lex_flags` drops what it holds when the file has faults. This reads the file in the same way and keeps
    /// the states, rules and expected names that were there when parsing ended.
    pub(crate) mod keeping {
        use super::*;

        pub(crate) fn parse<LexerTypesT: LexerTypes>(
            src: String,
            lex_flags: LexFlags,
        ) -> (LexParser<LexerTypesT>, Vec<LexBuildError>)
        where
            usize: AsPrimitive<LexerTypesT::StorageT>,
            LexerTypesT::StorageT: TryFrom<usize>,
        {
            let initial = StartState::new(0, INITIAL_START_STATE_NAME, false, Span::new(0, 0));
            let mut parser = LexParser {
                src,
                rules: vec![],
                lex_flags,
                start_states: vec![initial],
                expected_missing_tokens: vec![],
            };
            let faults = parser.parse().err().unwrap_or_default();
            (parser, faults)
        }
    }
}

include!(concat!(env!("OUT_DIR"), "/root.rs"));

/// Token ids of 16 bits, as 01 has them.
type Types = DefaultLexerTypes<u16>;

pub const ENGINE: &str = env!("ORIGINAL_ENGINE");

#[derive(Debug, Clone, PartialEq, Eq)]
pub struct State {
    pub id: usize,
    pub name: String,
    pub start: usize,
    pub end: usize,
    pub exclusive: bool,
}

#[derive(Debug, Clone, PartialEq, Eq)]
pub struct Rule {
    pub id: Option<u16>,
    pub name: Option<String>,
    pub span_start: usize,
    pub span_end: usize,
    pub text: String,
    pub list: Vec<usize>,
    /// 01's operation and target, both 0 where the rule has no target.
    pub operation: u16,
    pub target: usize,
}

#[derive(Debug, Clone, PartialEq, Eq)]
pub struct Fault {
    pub kind: u16,
    pub spans: Vec<(usize, usize)>,
}

/// What the original holds at the end of parsing. The file is accepted if there are no faults.
#[derive(Debug, Clone, PartialEq, Eq)]
pub struct Held {
    pub states: Vec<State>,
    pub rules: Vec<Rule>,
    pub expected_names: Vec<String>,
    pub faults: Vec<Fault>,
}

/// The reference: `LexParser::new_with_lex_flags`, with 01's flags and verdicts.
pub fn parse(source: &str, comments: bool, posix_escapes: bool, verdicts: &[u8]) -> Held {
    match accept(source.to_string(), comments, posix_escapes, verdicts) {
        Ok(parser) => held(parser, vec![]),
        Err(faults) => {
            engine::lend_verdicts(verdicts);
            let (parser, faults_again) =
                parser::keeping::parse::<Types>(source.to_string(), flags(comments, posix_escapes));
            let faults = faults_of(faults);
            assert_eq!(faults, faults_of(faults_again), "a second parse of the same file has other faults");
            held(parser, faults)
        }
    }
}

/// What a parse gave, held as it is: what the bench measures.
pub struct Parsed(LexBuildResult<LexParser<Types>>);

impl Parsed {
    pub fn is_accepted(&self) -> bool {
        self.0.is_ok()
    }
}

pub fn parse_only(source: String, comments: bool, posix_escapes: bool) -> Parsed {
    Parsed(accept(source, comments, posix_escapes, &[]))
}

fn accept(source: String, comments: bool, posix_escapes: bool, verdicts: &[u8]) -> LexBuildResult<LexParser<Types>> {
    engine::lend_verdicts(verdicts);
    LexParser::new_with_lex_flags(source, flags(comments, posix_escapes))
}

fn flags(comments: bool, posix_escapes: bool) -> lexer::LexFlags {
    let mut flags = DEFAULT_LEX_FLAGS;
    flags.allow_wholeline_comments = Some(comments);
    flags.posix_escapes = Some(posix_escapes);
    flags
}

fn held(parser: LexParser<Types>, faults: Vec<Fault>) -> Held {
    let states = parser.start_states.iter().map(state_of).collect();
    let rules = parser.rules.iter().map(rule_of).collect();
    Held { states, rules, expected_names: parser.expected_missing_tokens, faults }
}

fn state_of(state: &parser::StartState) -> State {
    let span = state.name_span();
    State {
        id: state.id,
        name: state.name().to_string(),
        start: span.start(),
        end: span.end(),
        exclusive: state.exclusive,
    }
}

fn rule_of(rule: &lexer::Rule<u16>) -> Rule {
    let (operation, target) = match rule.target_state() {
        None => (0, 0),
        Some((target, StartStateOperation::ReplaceStack)) => (1, target),
        Some((target, StartStateOperation::Push)) => (2, target),
        Some((target, StartStateOperation::Pop)) => (3, target),
    };
    Rule {
        id: rule.tok_id(),
        name: rule.name().map(str::to_string),
        span_start: rule.name_span().start(),
        span_end: rule.name_span().end(),
        text: rule.re_str().to_string(),
        list: rule.start_states().to_vec(),
        operation,
        target,
    }
}

fn faults_of(errors: Vec<LexBuildError>) -> Vec<Fault> {
    errors
        .iter()
        .map(|error| Fault {
            kind: kind_of(&error.kind),
            spans: error.spans.iter().map(|span| (span.start(), span.end())).collect(),
        })
        .collect()
}

/// 01's kinds are the positions in `LexErrorKind`.
fn kind_of(kind: &LexErrorKind) -> u16 {
    match kind {
        LexErrorKind::PrematureEnd => 0,
        LexErrorKind::RoutinesNotSupported => 1,
        LexErrorKind::UnknownDeclaration => 2,
        LexErrorKind::MissingSpace => 3,
        LexErrorKind::InvalidName => 4,
        LexErrorKind::UnknownStartState => 5,
        LexErrorKind::DuplicateStartState => 6,
        LexErrorKind::InvalidStartState => 7,
        LexErrorKind::InvalidStartStateName => 8,
        LexErrorKind::DuplicateName => 9,
        LexErrorKind::RegexError(_) => 10,
        LexErrorKind::VerbatimNotSupported => 11,
        LexErrorKind::Header(..) => unreachable!("the header is cut off before the parser"),
    }
}

#[cfg(test)]
mod tests {
    use super::*;

    #[test]
    fn a_refused_pattern_is_a_fault() {
        let held = parse("%%\na 'A'\nb 'B'\n", false, false, &[0, 1]);
        assert_eq!(held.faults, [Fault { kind: 10, spans: vec![(9, 9)] }]);
        assert_eq!(held.rules.len(), 1);
    }
}
