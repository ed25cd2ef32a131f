//! What a parse yields: states and rules.

use crate::calls::{self, SheetBytes};
use crate::numbers::{
    ACCEPTED, AREA_FULL, DONE, EXPECTED_WIDTH, NUMBER_WIDTH, POP, PUSH, REPLACE, RULE_WIDTH, SELLER, STATE_WIDTH,
};
use crate::records::{record, records};
use crate::{Caller, Map, Refusal, Run};
use std::borrow::Cow;
use std::fmt;
use std::ops::Range;

/// What a lex file becomes: its states and rules. Every sheet passes the library's sheet check.
///
/// Texts are read as UTF-8. In a sheet that was made by hand they may be none; what is not is shown as U+FFFD.
#[derive(Clone)]
pub struct Sheet {
    bytes: SheetBytes,
}

/// A sheet as bytes: what a host stores, or makes by hand.
#[derive(Clone, Debug, PartialEq, Eq)]
pub struct Parts {
    /// The file.
    pub source: Vec<u8>,
    /// Areas 1 to 5.
    pub areas: [Vec<u8>; 5],
    /// How many records the areas have; the sixth, of fault spans, is 0 after an accepted parse, and no call reads it.
    pub counts: [u16; 6],
}

/// A state of a sheet.
#[derive(Clone, Debug, PartialEq, Eq)]
pub struct State<'a> {
    /// Its number; 0 is `INITIAL`.
    pub id: u16,
    /// Its name.
    pub name: Cow<'a, str>,
    /// Where the name stands in the file, in bytes; `INITIAL` stands nowhere, at 0.
    pub span: Range<usize>,
    /// Whether rules without a list of states are left out in it.
    pub exclusive: bool,
}

/// A rule of a sheet.
#[derive(Clone, Debug, PartialEq, Eq)]
pub struct Rule<'a> {
    /// Its number, from 0.
    pub position: usize,
    /// Its name; what a rule without one matches is skipped.
    pub name: Option<Cow<'a, str>>,
    /// The id of its tokens: its position after a parse, and the map's after a link.
    pub id: Option<u16>,
    /// The span that grmtools gives the name: behind a target it stands before the name.
    pub span: Range<usize>,
    /// Where the name itself stands in the file, in bytes; empty where there is none.
    pub name_range: Range<usize>,
    /// The states in which it is live; none for all that are not exclusive.
    pub states: Vec<u16>,
    /// What it does to the stack of states.
    pub operation: Operation,
}

/// What a rule does to the stack of states when it wins.
#[derive(Clone, Copy, Debug, PartialEq, Eq)]
pub enum Operation {
    /// Nothing.
    None,
    /// The state is left alone on the stack.
    Replace(u16),
    /// The state is put on the stack.
    Push(u16),
    /// The top of the stack goes. It is written with a state, which says nothing.
    Pop(u16),
}

/// What has no partner after a link.
#[derive(Clone, Debug, Default, PartialEq, Eq)]
pub struct Linked {
    /// Positions of the named rules that the map does not have (area 7). A run that comes to one is
    /// [`Unlinked`](crate::Step::Unlinked).
    pub unmapped: Vec<usize>,
    /// Numbers of the map's entries that no rule names (area 8).
    pub unused: Vec<usize>,
}

impl Sheet {
    /// What an accepted parse left; the areas are cut behind their records.
    pub(crate) fn parsed(mut bytes: SheetBytes) -> Sheet {
        let widths = [STATE_WIDTH, RULE_WIDTH, NUMBER_WIDTH, 1, EXPECTED_WIDTH];
        for ((area, width), count) in bytes.areas.iter_mut().zip(widths).zip(bytes.counts) {
            area.truncate(width * usize::from(count));
            area.shrink_to_fit();
        }
        Sheet { bytes }
    }

    /// A sheet by its bytes.
    ///
    /// # Errors
    ///
    /// [`Refusal::BrokenSheet`] where it fails the sheet check.
    pub fn from_parts(parts: Parts) -> Result<Sheet, Refusal> {
        let Parts { source, areas, counts } = parts;
        let bytes = SheetBytes { source, areas, counts };
        // a run over no bytes at all is done at once on any sheet that passes the check
        let (mut run, mut stack) = ([0; 5], [0; 2]);
        calls::start(SELLER.into(), 0, &[], &mut run, &mut stack);
        match calls::step(&bytes, &[], &mut run, &mut stack, &[]).number() {
            DONE => Ok(Sheet { bytes }),
            number => Err(Refusal::of(number)),
        }
    }

    /// The sheet's bytes.
    pub fn into_parts(self) -> Parts {
        let SheetBytes { source, areas, counts } = self.bytes;
        Parts { source, areas, counts }
    }

    pub(crate) fn bytes(&self) -> &SheetBytes {
        &self.bytes
    }

    /// The file.
    pub fn source(&self) -> &[u8] {
        &self.bytes.source
    }

    /// How many states there are, from 1 to 64.
    pub fn state_count(&self) -> usize {
        let [count, ..] = self.bytes.counts;
        usize::from(count)
    }

    /// The state of that number, if there is one.
    pub fn state(&self, id: u16) -> Option<State<'_>> {
        let number = usize::from(id);
        if number >= self.state_count() {
            return None;
        }
        let [area, ..] = &self.bytes.areas;
        let [start, end, exclusive] = record(area, number)?;
        let span = usize::from(start)..usize::from(end);
        let name = if id == 0 { Cow::Borrowed("INITIAL") } else { self.text(&span) };
        Some(State { id, name, span, exclusive: exclusive == 1 })
    }

    /// All states, by number.
    pub fn states(&self) -> impl Iterator<Item = State<'_>> {
        (0..).map_while(|id| self.state(id))
    }

    /// How many rules there are, at most 2,048.
    pub fn rule_count(&self) -> usize {
        let [_, count, ..] = self.bytes.counts;
        usize::from(count)
    }

    /// The rule at that position, if there is one.
    pub fn rule(&self, position: usize) -> Option<Rule<'_>> {
        if position >= self.rule_count() {
            return None;
        }
        let [_, rules, lists, ..] = &self.bytes.areas;
        let fields: [u16; 14] = record(rules, position)?;
        let [has_id, id, named, start, end, from, length, _, _, _, list_from, list_count, operation, target] = fields;
        let name_range = range(from, length);
        let list = range(list_from, list_count);
        Some(Rule {
            position,
            name: (named == 1).then(|| self.text(&name_range)),
            id: (has_id == 1).then_some(id),
            span: usize::from(start)..usize::from(end),
            name_range,
            states: list.filter_map(|number| record(lists, number)).map(|[state]: [u16; 1]| state).collect(),
            operation: match operation {
                REPLACE => Operation::Replace(target),
                PUSH => Operation::Push(target),
                POP => Operation::Pop(target),
                _ => Operation::None,
            },
        })
    }

    /// All rules, by position.
    pub fn rules(&self) -> impl Iterator<Item = Rule<'_>> {
        (0..).map_while(|position| self.rule(position))
    }

    /// The rule whose tokens have that id: the first one.
    pub fn rule_of_id(&self, id: u16) -> Option<Rule<'_>> {
        self.rules().find(|rule| rule.name.is_some() && rule.id == Some(id))
    }

    /// The text of a rule's pattern, with its escapes rewritten: what the regex engine is given.
    ///
    /// # Errors
    ///
    /// [`Refusal::BrokenSheet`] where there is no rule at that position.
    pub fn pattern(&self, rule: usize) -> Result<Cow<'_, str>, Refusal> {
        let word = calls::pattern(&self.bytes, rule as u64);
        if word.number() != ACCEPTED {
            return Err(Refusal::of(word.number()));
        }
        let [place, from, length] = word.values();
        let [_, _, _, rewritten, _] = &self.bytes.areas;
        let text = if place == 1 { rewritten } else { &self.bytes.source };
        Ok(text_of(text, &range(from, length)))
    }

    /// Whether there is a rule at that position.
    pub fn has_pattern(&self, rule: usize) -> bool {
        calls::pattern_test(&self.bytes, rule as u64).number() == ACCEPTED
    }

    /// The names that `%expect-missing` declares.
    pub fn expected_names(&self) -> impl Iterator<Item = Cow<'_, str>> {
        let [.., expected] = &self.bytes.areas;
        let [_, _, _, _, count, _] = self.bytes.counts;
        records(expected, usize::from(count)).map(|[start, end]| self.text(&(usize::from(start)..usize::from(end))))
    }

    /// Gives each named rule the id that the map has for its name, or none.
    ///
    /// # Errors
    ///
    /// [`Refusal::BrokenMap`]; the sheet is then as it was.
    pub fn link(&mut self, map: &Map) -> Result<Linked, Refusal> {
        let mut unmapped = vec![0; NUMBER_WIDTH * self.rule_count()];
        let mut unused = vec![0; NUMBER_WIDTH * map.len()];
        let word = calls::link(&mut self.bytes, map.names(), map.entries(), &mut unmapped, &mut unused);
        let [first, second, _] = word.values();
        match word.number() {
            ACCEPTED => Ok(Linked { unmapped: numbers(&unmapped, first), unused: numbers(&unused, second) }),
            AREA_FULL => Err(Refusal::AreaFull(first)),
            number => Err(Refusal::of(number)),
        }
    }

    /// Begins a run of a caller, a seller or a kiosk, over an entry.
    ///
    /// # Errors
    ///
    /// [`Refusal::StartRefused`] where it has more than [`Caller::most_bytes`], and [`Refusal::TextMismatch`] where it is not UTF-8.
    pub fn start<'a>(&'a self, caller: Caller, entry: &'a (impl AsRef<[u8]> + ?Sized)) -> Result<Run<'a>, Refusal> {
        Run::start(self, caller, entry.as_ref())
    }

    fn text(&self, range: &Range<usize>) -> Cow<'_, str> {
        text_of(&self.bytes.source, range)
    }
}

impl fmt::Debug for Sheet {
    fn fmt(&self, f: &mut fmt::Formatter) -> fmt::Result {
        f.debug_struct("Sheet")
            .field("states", &self.states().collect::<Vec<_>>())
            .field("rules", &self.rules().collect::<Vec<_>>())
            .finish()
    }
}

fn range(from: u16, length: u16) -> Range<usize> {
    let from = usize::from(from);
    from..from + usize::from(length)
}

fn text_of<'a>(bytes: &'a [u8], range: &Range<usize>) -> Cow<'a, str> {
    String::from_utf8_lossy(bytes.get(range.clone()).unwrap_or_default())
}

fn numbers(area: &[u8], count: u16) -> Vec<usize> {
    records(area, usize::from(count)).map(|[number]: [u16; 1]| usize::from(number)).collect()
}
