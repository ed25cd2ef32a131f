//! 01, Declarations.

use super::{Ended, Kind, Span, State, Step, Walk, Write};
use crate::misreadings::Misreading as M;

impl Walk<'_> {
    /// Up to the first `%%` and past the blanks behind it.
    pub(super) fn declarations(&mut self) -> Step<usize> {
        let mut at = 0;
        loop {
            at = self.skip_whitespace(at);
            if self.is_comment_before_percents(at) {
                at = self.comment_end(at);
            } else if at == self.text.len() {
                let at = self.reading.choose(M::PrematureEndAtStart, 0, at);
                return self.end_with(Kind::PrematureEnd, at);
            } else if self.starts_with(at, "%%") {
                return Ok(self.after_percents(at + 2));
            } else {
                at = self.declaration(at)?;
            }
        }
    }

    fn is_comment_before_percents(&self, at: usize) -> bool {
        let starts_line = || self.text[..at].chars().next_back().is_none_or(|before| self.reading.is_line_end(before));
        self.comments && self.starts_with(at, "//") && (!self.reading.has(M::CommentsOnlyAtLineStart) || starts_line())
    }

    fn after_percents(&self, at: usize) -> usize {
        if self.reading.has(M::BlanksNotSkippedAfterPercents) {
            at
        } else if self.reading.has(M::AllWhitespaceSkippedAfterPercents) {
            self.skip_whitespace(at)
        } else if self.reading.has(M::RuleNotOnPercentsLine) {
            self.line_end(at)
        } else {
            self.skip(at, |character| self.reading.is_blank(character))
        }
    }

    fn declaration(&mut self, at: usize) -> Step<usize> {
        let end = self.line_end(at);
        let trimmed = self.trim_end(at, end);
        let word_end = self.find(at, trimmed, |character| self.reading.is_whitespace(character));
        // a line that is only the word once trimmed has no names, whatever whitespace ends it
        let read_to_end = self.reading.has(M::BareExpectedWordReadToLineEnd);
        let names_from = if word_end == trimmed && !read_to_end { end } else { word_end };
        let word = &self.text[at..word_end];
        if let Some(exclusive) = self.declares_states(word) {
            self.declared_states(at, names_from, end, exclusive)
        } else if self.declares_expected_names(word) {
            self.expected_names(at, names_from, end)
        } else {
            let at = self.reading.choose(M::UnknownDeclarationAtWordEnd, word_end, at);
            self.end_with(Kind::UnknownDeclaration, at)
        }
    }

    /// Whether the word declares states, and then whether they are exclusive.
    fn declares_states(&self, word: &str) -> Option<bool> {
        let mut characters = word.chars();
        let exclusive = match (characters.next()?, characters.next()?) {
            ('%', 's') => false,
            ('%', 'x') => true,
            ('%', letter @ ('S' | 'X')) if !self.reading.has(M::CapitalsDeclareNothing) => letter == 'X',
            _ => return None,
        };
        let rest = characters.as_str();
        let rest_fits = if self.reading.has(M::StateWordIsTwoBytes) {
            rest.is_empty()
        } else {
            self.reading.has(M::StateWordTakesAnything) || rest.bytes().all(|byte| byte.is_ascii_alphanumeric())
        };
        rest_fits.then_some(exclusive != self.reading.has(M::ExclusiveSwapped))
    }

    fn declares_expected_names(&self, word: &str) -> bool {
        match self.reading.has(M::ExpectedWordExact) {
            true => word == "%expect-missing",
            false => word.starts_with("%expect-missing"),
        }
    }

    fn declared_states(&mut self, line: usize, start: usize, end: usize, exclusive: bool) -> Step<usize> {
        let names = self.trim(start, end);
        if names.start == names.end {
            return match self.reading.has(M::StateLineWithoutNames) {
                true => Ok(end),
                false => self.end_with(Kind::UnknownDeclaration, line),
            };
        }
        let names = self.split_state_names(names, end);
        self.bad_state_name_first(&names)?;
        for name in names {
            self.declare_state(line, name, exclusive)?;
        }
        Ok(end)
    }

    /// At each single whitespace character.
    fn split_state_names(&self, names: Span, line_end: usize) -> Vec<Span> {
        let reading = self.reading;
        let end = reading.choose(M::StateNamesNotTrimmed, line_end, names.end);
        let separates = |character| match reading.has(M::StateNamesSplitAtBlanksOnly) {
            true => reading.is_blank(character),
            false => reading.is_whitespace(character),
        };
        let mut spans = self.split(names.start, end, separates);
        spans.retain(|span| span.start < span.end || !reading.has(M::StateNamesSplitAtRuns));
        spans
    }

    pub(super) fn split(&self, start: usize, end: usize, separates: impl Fn(char) -> bool) -> Vec<Span> {
        let mut spans = vec![];
        let mut from = start;
        for part in self.text[start..end].split_inclusive(&separates) {
            let name = part.strip_suffix(&separates);
            spans.push(Span { start: from, end: from + name.unwrap_or(part).len() });
            from += part.len();
        }
        if self.text[start..end].is_empty() || self.text[start..end].ends_with(&separates) {
            spans.push(Span::empty(end));
        }
        spans
    }

    fn bad_state_name_first(&mut self, names: &[Span]) -> Step<()> {
        if self.reading.has(M::BadStateNamesFirst) {
            for name in names {
                if !self.reading.is_state_name(&self.text[name.start..name.end]) {
                    return self.end_with(Kind::InvalidStartStateName, name.start);
                }
            }
        }
        Ok(())
    }

    fn declare_state(&mut self, line: usize, name: Span, exclusive: bool) -> Step<()> {
        let text = &self.text[name.start..name.end];
        if !self.reading.is_state_name(text) {
            let at = self.reading.choose(M::BadStateNameAtLine, line, name.start);
            return self.end_with(Kind::InvalidStartStateName, at);
        }
        let first = self.reading.choose(M::InitialMayBeDeclared, 1, 0);
        match (first..self.states.len()).find(|id| self.state_name(*id) == text) {
            None => self.add_state(State { name, exclusive }),
            Some(id) => {
                self.add_repeat(Kind::DuplicateStartState, self.states[id].name, name);
                if self.reading.has(M::RepeatedStateEndsParsing) {
                    return Err(Ended);
                }
            }
        }
        Ok(())
    }

    /// In double quotes, split at runs of ASCII whitespace.
    fn expected_names(&mut self, line: usize, start: usize, end: usize) -> Step<usize> {
        for name in self.split(start, end, |character| self.reading.is_ascii_whitespace(character)) {
            if name.start < name.end {
                self.expected_name(line, name)?;
            }
        }
        Ok(end)
    }

    fn expected_name(&mut self, line: usize, name: Span) -> Step<()> {
        let reading = self.reading;
        let text = &self.text[name.start..name.end];
        let inner = match text.strip_prefix('"').and_then(|rest| rest.strip_suffix('"')) {
            Some("") if reading.has(M::EmptyExpectedNameRefused) => None,
            Some(inner) if inner.contains('"') && reading.has(M::ExpectedNamesHoldNoQuotes) => None,
            Some(_) => Some(Span { start: name.start + 1, end: name.end - 1 }),
            None if text == "\"" && reading.has(M::LoneQuoteIsEmptyName) => Some(Span::empty(name.end)),
            None => None,
        };
        match inner {
            Some(inner) => {
                self.writes.push(Write::ExpectedName(reading.choose(M::ExpectedNamesKeepQuotes, name, inner)))
            }
            None => {
                return self.end_with(Kind::InvalidName, reading.choose(M::BadExpectedNameAtName, name.start, line));
            }
        }
        Ok(())
    }
}
