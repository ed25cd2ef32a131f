//! 01, Rules: lines, targets, names, state lists, the verdict and the record.

use super::{Ended, Kind, Rule, Span, Step, Walk, Write};
use crate::misreadings::Misreading as M;

/// A line among the rules, cut at its last blank.
#[derive(Clone, Copy)]
struct Line {
    start: usize,
    blank: usize,
    /// Without trailing whitespace.
    trimmed: usize,
    end: usize,
}

/// What stands behind the blank before the name.
struct Target {
    operation: usize,
    state: usize,
    /// Where the name with its quotes starts.
    label: usize,
}

/// Where a rule's text is.
struct Text {
    place: usize,
    from: usize,
    length: usize,
}

impl Walk<'_> {
    /// Up to a later `%%` or the end.
    pub(super) fn rule_lines(&mut self, start: usize) -> Step<usize> {
        let mut at = start;
        loop {
            at = self.skip(at, |character| self.reading.is_line_end(character));
            let end = self.line_end(at);
            if self.comments && self.starts_with(at, "//") {
                at = self.comment_end(at);
            } else if self.text[at..].starts_with(|character| self.reading.is_whitespace(character)) {
                match self.whitespace_line(at, end)? {
                    WhitespaceLine::Passed => at = end,
                    WhitespaceLine::LaterPercents(percents) => return Ok(percents),
                }
            } else if at == self.text.len() || self.starts_with(at, "%%") {
                return Ok(at);
            } else {
                at = self.rule_line(at, end)?;
            }
        }
    }

    fn whitespace_line(&mut self, at: usize, end: usize) -> Step<WhitespaceLine> {
        let reading = self.reading;
        let first = self.trim(at, end).start;
        let is_comment = self.comments && self.starts_with(first, "//");
        if is_comment && reading.has(M::CommentsAfterWhitespaceInRules)
            || first == end && reading.has(M::WhitespaceLineIgnored)
        {
            return Ok(WhitespaceLine::Passed);
        }
        if self.starts_with(first, "%%") && reading.has(M::LaterPercentsAfterWhitespace) {
            return Ok(WhitespaceLine::LaterPercents(first));
        }
        let covered = reading.choose(M::VerbatimTrimmed, self.trim_end(at, end), end);
        self.add_fault(Kind::VerbatimNotSupported, Span { start: at, end: covered });
        if reading.has(M::VerbatimEndsParsing) { Err(Ended) } else { Ok(WhitespaceLine::Passed) }
    }

    /// Behind a later `%%` only whitespace may follow.
    pub(super) fn routines(&mut self, at: usize) -> Step<()> {
        if at == self.text.len() {
            return Ok(());
        }
        let mut after = self.skip_whitespace(at + 2);
        if self.reading.has(M::LaterPercentsBeforeComment) && self.comments && self.starts_with(after, "//") {
            after = self.skip_whitespace(self.line_end(after));
        }
        if after == self.text.len() && !self.reading.has(M::LaterPercentsAtEndRefused) {
            return Ok(());
        }
        self.end_with(Kind::RoutinesNotSupported, self.reading.choose(M::RoutinesAtText, after, at))
    }

    fn rule_line(&mut self, start: usize, end: usize) -> Step<usize> {
        let is_blank = |character| self.reading.is_blank(character);
        let trimmed = match self.reading.has(M::LineTrimmedOfBlanksOnly) {
            true => start + self.text[start..end].trim_end_matches(is_blank).len(),
            false => self.trim_end(start, end),
        };
        let blank = match self.reading.has(M::FirstBlankSplits) {
            true => self.text[start..trimmed].find(is_blank),
            false => self.text[start..trimmed].rfind(is_blank),
        };
        match blank {
            None => self.end_with(Kind::MissingSpace, self.reading.choose(M::MissingSpaceAtLineEnd, trimmed, start)),
            Some(offset) => self.rule(Line { start, blank: start + offset, trimmed, end }),
        }
    }

    fn rule(&mut self, line: Line) -> Step<usize> {
        if self.reading.has(M::NameBeforeTarget) {
            let label =
                self.text[line.blank + 1..line.trimmed].find('>').map_or(line.blank, |close| line.blank + 1 + close);
            self.name(line, Target { operation: 0, state: 0, label: label + 1 })?;
        }
        let target = self.target(line)?;
        let rule = self.name(line, target)?;
        if rule.named && self.drop_repeated(&rule)? {
            if self.reading.has(M::RepeatedRuleRead) {
                self.pattern(line)?;
            }
            return Ok(line.end);
        }
        let list_from = self.list_entries;
        let text = self.pattern(line)?;
        let with_list = self.list_entries > list_from;
        self.verdict(line, with_list)?;
        self.record(Rule {
            place: text.place,
            text_from: text.from,
            text_length: text.length,
            list_from: if with_list || !self.reading.has(M::ListFromZeroWithoutList) { list_from } else { 0 },
            list_count: self.list_entries - list_from,
            ..rule
        });
        Ok(line.end)
    }

    fn target(&mut self, line: Line) -> Step<Target> {
        let Line { blank, trimmed, .. } = line;
        let behind = &self.text[blank + 1..trimmed];
        if !behind.starts_with('<') {
            return Ok(Target { operation: 0, state: 0, label: blank + 1 });
        }
        let close = if self.reading.has(M::TargetClosesAtLast) { behind.rfind('>') } else { behind.find('>') };
        let Some(close) = close else {
            let at = self.reading.choose(M::UnclosedTargetAfterBlank, blank + 1, blank);
            return self.end_with(Kind::InvalidStartState, at);
        };
        let (push, pop) = self.reading.choose(M::PushAndPopSwapped, (3, 2), (2, 3));
        let inside = &behind[1..close];
        let (operation, name) = match (inside.strip_prefix('+'), inside.strip_prefix('-')) {
            (Some(name), _) => (push, name),
            (_, Some(name)) => (pop, name),
            _ => (self.reading.choose(M::ReplaceIsNone, 0, 1), inside),
        };
        let name = self.reading.choose(M::TargetNameTrimmed, name.trim(), name);
        match self.state_of_name(name) {
            Some(state) => Ok(Target { operation, state, label: blank + 1 + close + 1 }),
            None => {
                let at = self.reading.choose(M::UnknownTargetAtBlank, blank, blank + 1);
                self.end_with(Kind::UnknownStartState, at)
            }
        }
    }

    /// The rule's fields for target and name; the others are still 0.
    fn name(&mut self, line: Line, target: Target) -> Step<Rule> {
        let reading = self.reading;
        let label = &self.text[target.label..line.trimmed];
        let rule = Rule { operation: target.operation, target: target.state, ..Rule::default() };
        let no_name = match label {
            ";" => true,
            "\"\"" | "''" => !reading.has(M::EmptyQuotesAreBad),
            "\"" | "'" => reading.has(M::LoneQuoteIsNoName),
            _ => false,
        };
        if no_name {
            let at = reading.choose(M::NoNameSpanAfterTarget, target.label, line.blank + 1);
            return Ok(Rule { span_start: at, span_end: at, ..rule });
        }
        if label.len() <= 2 || !self.has_quotes(label) {
            let at = reading.choose(M::InvalidNameAtLine, line.start, line.blank + 1);
            return self.end_with(Kind::InvalidName, at);
        }
        // the original leaves the target out of the span's place, and 01 keeps that
        let before_label = reading.choose(M::NameSpanAfterTargetSetRight, target.label - 1, line.blank);
        let span = Span { start: before_label + 2, end: before_label + label.len() };
        Ok(Rule {
            named: true,
            span_start: span.start,
            span_end: span.end,
            name_from: reading.choose(M::NameFromIsSpanStart, span.start, target.label + 1),
            name_length: reading.choose(M::NameLengthWithQuotes, label.len(), label.len() - 2),
            ..rule
        })
    }

    fn has_quotes(&self, label: &str) -> bool {
        let quotes = ['\'', '"'];
        let equal = quotes.iter().any(|quote| label.starts_with(*quote) && label.ends_with(*quote));
        equal || self.reading.has(M::NameNeedsNoEqualQuotes) && label.starts_with(quotes) && label.ends_with(quotes)
    }

    fn name_of(&self, rule: &Rule) -> &str {
        // with its quotes where the misreading compares them
        let widen = self.reading.choose(M::RepeatNeedsSameQuotes, 1, 0);
        self.text.get(rule.name_from - widen..rule.name_from + rule.name_length + widen).unwrap_or("")
    }

    /// Whether the name is repeated and the rule therefore dropped.
    fn drop_repeated(&mut self, rule: &Rule) -> Step<bool> {
        let name = self.name_of(rule);
        let Some(first) = self.rules.iter().find(|held| held.named && self.name_of(held) == name) else {
            return Ok(false);
        };
        let first = Span { start: first.span_start, end: first.span_end };
        self.add_repeat(Kind::DuplicateName, first, Span { start: rule.span_start, end: rule.span_end });
        self.rules_dropped += 1;
        match self.reading.has(M::RepeatedNameEndsParsing) {
            true => Err(Ended),
            false => Ok(!self.reading.has(M::RepeatedRuleKept)),
        }
    }

    /// Writes the state list or the rewritten text.
    fn pattern(&mut self, line: Line) -> Step<Text> {
        let end = self.trimmed_pattern(line.start, line.blank);
        if !self.text[line.start..end].starts_with('<') {
            return Ok(self.escapes(line.start, end));
        }
        let Some(close) = self.text[line.start..end].find('>') else {
            let at = self.reading.choose(M::UnclosedListAtBlank, line.blank, line.start);
            return self.end_with(Kind::InvalidStartState, at);
        };
        let close = line.start + close;
        self.state_list(line.start, close)?;
        match self.reading.has(M::EscapesRewrittenAfterList) {
            true => Ok(self.escapes(close + 1, end)),
            false => Ok(Text { place: 0, from: close + 1, length: end - (close + 1) }),
        }
    }

    fn escapes(&mut self, start: usize, end: usize) -> Text {
        let Some(text) = self.rewritten(start, end) else {
            let end = self.without_lone_backslash(start, end);
            return Text { place: 0, from: start, length: end - start };
        };
        let from = self.reading.choose(M::TextFromZero, 0, self.text_bytes);
        let length = text.len();
        self.text_bytes += length;
        self.writes.push(Write::Text(text));
        Text { place: 1, from, length }
    }

    /// The names between `<` at the line's start and `>`, each written in turn.
    fn state_list(&mut self, line: usize, close: usize) -> Step<()> {
        let reading = self.reading;
        if close == line + 1 && reading.has(M::EmptyListAccepted) {
            return Ok(());
        }
        let separates =
            |character| character == ',' || reading.has(M::ListSplitAtWhitespace) && reading.is_whitespace(character);
        let mut ids: Vec<usize> = vec![];
        for part in self.split(line + 1, close, separates) {
            let name = match reading.has(M::ListNamesNotTrimmed) {
                true => part,
                false => self.trim(part.start, part.end),
            };
            let Some(id) = self.state_of_name(&self.text[name.start..name.end]) else {
                let at = reading.choose(M::UnknownListNameAtName, name.start, line);
                return self.end_with(Kind::UnknownStartState, at);
            };
            let dropped = reading.has(M::ListRepeatsDropped) && ids.contains(&id);
            if !dropped {
                ids.push(id);
                self.list_entries += 1;
                if !reading.has(M::ListCheckedBeforeWritten) {
                    self.writes.push(Write::ListEntry(id));
                }
            }
        }
        if reading.has(M::ListCheckedBeforeWritten) {
            self.writes.extend(ids.into_iter().map(Write::ListEntry));
        }
        Ok(())
    }

    /// Byte k of the list, k being the rules held so far; past the end it passes.
    fn verdict(&mut self, line: Line, with_list: bool) -> Step<()> {
        let reading = self.reading;
        let dropped = reading.choose(M::VerdictCountsDroppedRules, self.rules_dropped, 0);
        let index = self.rules.len() + dropped + reading.choose(M::VerdictOneLater, 1, 0);
        let refused = match self.verdicts.get(index) {
            None => reading.has(M::VerdictPastTheEndRefuses),
            Some(verdict) if reading.has(M::VerdictOneOnlyRefuses) => *verdict == 1,
            Some(verdict) => *verdict != 0,
        };
        if !refused || with_list && reading.has(M::NoVerdictAfterList) {
            return Ok(());
        }
        if reading.has(M::VerdictBeforeText) {
            self.writes.pop_if(|write| matches!(write, Write::Text(_)));
        }
        self.end_with(Kind::RegexError, reading.choose(M::RegexErrorAtBlank, line.blank, line.start))
    }

    /// The id is the rule's position.
    fn record(&mut self, rule: Rule) {
        let reading = self.reading;
        let id = match reading.has(M::IdsCountNamedRules) {
            true => self.rules.iter().filter(|held| held.named).count(),
            false => self.rules.len() + reading.choose(M::IdsFromOne, 1, 0),
        };
        let has_id = rule.named || !reading.has(M::UnnamedRulesHaveNoId);
        self.add_rule(Rule { has_id, id: if has_id { id } else { 0 }, ..rule });
    }
}

enum WhitespaceLine {
    Passed,
    /// By misreading only.
    LaterPercents(usize),
}
