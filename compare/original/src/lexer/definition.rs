//! Linking and running a parsed file by the original's `set_rule_ids_spanned` and `lexer`.

use super::LRNonStreamingLexerDef;
use crate::defaults::DefaultLexeme;
use crate::{LRLexError, Lexeme, Types, accept, engine};
use lrpar::LexError;
use std::collections::HashMap;

/// A parsed file without faults.
pub struct Definition {
    definition: LRNonStreamingLexerDef<Types>,
}

/// What a link gives: the ids of all rules by position, and two sets of names, each sorted.
#[derive(Debug, Clone, PartialEq, Eq)]
pub struct Linked {
    pub ids: Vec<Option<u16>>,
    pub rules_without_entry: Vec<String>,
    pub entries_without_rule: Vec<String>,
}

/// One answer of the original's lexer loop. It says nothing of a skip.
#[derive(Debug, Clone, Copy, PartialEq, Eq)]
pub enum Lexed {
    Token {
        id: u16,
        start: usize,
        length: usize,
    },
    /// No live rule matches: 01's 'stopped'. The loop tells the current state.
    Stopped {
        at: usize,
        state: usize,
    },
    /// The winner is named and has no id: 01's 'unlinked'.
    Unlinked {
        at: usize,
    },
}

impl Definition {
    /// None where the file has faults.
    pub fn new(source: &str, comments: bool, posix_escapes: bool, verdicts: &[u8]) -> Option<Definition> {
        let parser = accept(source.to_string(), comments, posix_escapes, verdicts).ok()?;
        let definition = LRNonStreamingLexerDef::from_rules(parser.start_states, parser.rules);
        Some(Definition { definition })
    }

    /// The entries have distinct names.
    pub fn link(&mut self, entries: &[(&str, u16)]) -> Linked {
        let map = entries.iter().copied().collect();
        let (unused, missing) = self.definition.set_rule_ids_spanned(&map);
        let entries_without_rule = sorted(unused.into_iter().flatten());
        let rules_without_entry = sorted(missing.into_iter().flatten().map(|(name, _)| name));
        let ids = self.definition.iter_rules().map(|rule| rule.tok_id()).collect();
        Linked { ids, rules_without_entry, entries_without_rule }
    }

    /// Links and drops the result: what the bench measures.
    pub fn link_only(&mut self, map: &HashMap<&str, u16>) {
        self.definition.set_rule_ids_spanned(map);
    }

    /// The lexer loop over an entry. `rows[p]` has the lengths of all rules at position p.
    pub fn run(&self, entry: &str, rows: &[Vec<usize>]) -> Vec<Lexed> {
        lend_rows(&rows[..entry.len()]);
        self.definition.lexer(entry).lexemes.iter().map(lexed).collect()
    }

    /// The lexer loop on rows that were lent before, for the number of its lexemes: what the bench measures.
    pub fn run_only(&self, entry: &str) -> usize {
        self.definition.lexer(entry).lexemes.len()
    }
}

/// The rows of an entry with that many bytes.
pub fn lend_rows(rows: &[Vec<usize>]) {
    engine::lend_rows([vec![]].into_iter().chain(rows.iter().rev().cloned()).collect());
}

fn sorted<'a>(names: impl Iterator<Item = &'a str>) -> Vec<String> {
    let mut names: Vec<String> = names.map(str::to_string).collect();
    names.sort();
    names
}

fn lexed(answer: &Result<DefaultLexeme<u16>, LRLexError>) -> Lexed {
    let error = match answer {
        Ok(lexeme) => {
            let span = lexeme.span();
            return Lexed::Token { id: lexeme.tok_id(), start: span.start(), length: span.len() };
        }
        Err(error) => error,
    };
    let at = error.span().start();
    match error.lexing_state() {
        Some(state) => Lexed::Stopped { at, state: state._id },
        None => Lexed::Unlinked { at },
    }
}

#[cfg(test)]
mod tests {
    use super::*;

    fn definition(source: &str) -> Definition {
        Definition::new(source, false, false, &[]).expect("the file has no faults")
    }

    #[test]
    fn links_by_name() {
        let linked = definition("%%\na 'A'\nb 'B'\nc ;\n").link(&[("B", 7), ("C", 8)]);
        assert_eq!(linked.ids, [None, Some(7), Some(2)]);
        assert_eq!(linked.rules_without_entry, ["A"]);
        assert_eq!(linked.entries_without_rule, ["C"]);
    }

    #[test]
    fn runs_on_lent_lengths() {
        let mut definition = definition("%x S\n%%\na <+S>'A'\n<S>b <-S>;\nc 'C'\n");
        definition.link(&[("A", 5)]);
        // a token that enters S, a skip that leaves it, then a rule without id
        let rows = [vec![2, 9, 1], vec![], vec![9, 1, 9], vec![0, 1, 1]];
        let answers = definition.run("aaaa", &rows);
        assert_eq!(answers, [Lexed::Token { id: 5, start: 0, length: 2 }, Lexed::Unlinked { at: 3 }]);
        assert_eq!(definition.run("a", &[vec![0, 1, 0]]), [Lexed::Stopped { at: 0, state: 0 }]);
    }
}
