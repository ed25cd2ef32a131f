//! A run over an entry.

use crate::calls;
use crate::numbers::{ACCEPTED, DONE, NUMBER_WIDTH, SKIP, STOPPED, TOKEN, UNLINKED};
use crate::records::{bytes, records};
use crate::{Caller, Refusal, Sheet};
use std::ops::Range;

/// A run over an entry: how far it has come, its stack of states, and the kind of caller that started it. It borrows its sheet
/// and the entry's text, so that nothing but its steps changes anything while it runs, and each step is given the text of the
/// start. That is what the library's theorem about whole runs supposes, beside a sheet that was parsed and linked and a run that
/// was started here.
#[derive(Clone, Debug)]
pub struct Run<'a> {
    sheet: &'a Sheet,
    text: &'a [u8],
    numbers: [u16; 5],
    stack: Vec<u8>,
}

/// What a step did.
#[derive(Clone, Debug, PartialEq, Eq)]
pub enum Step {
    /// A named rule won.
    Token {
        /// The rule's id.
        id: u16,
        /// The bytes of the entry that it covers.
        range: Range<usize>,
    },
    /// A rule without a name won.
    Skip {
        /// The bytes of the entry that it covers.
        range: Range<usize>,
    },
    /// The entry is at its end; nothing changed.
    Done,
    /// No live rule matches; nothing changed.
    Stopped,
    /// The winner has a name that the map does not have; nothing changed.
    Unlinked,
}

/// For each rule how many bytes of the entry its pattern matches from the position on, 0 where it does not match. Each must end at
/// the edge of a character, as what a regex engine matches in a `&str` does; what one for bytes matches need not.
#[derive(Clone, Debug, Default, PartialEq, Eq)]
pub struct Row {
    bytes: Vec<u8>,
}

impl Row {
    /// A row without lengths.
    pub fn new() -> Row {
        Row::default()
    }

    /// A row by its bytes, two for each rule, the low one first. The step judges them.
    pub fn from_bytes(bytes: Vec<u8>) -> Row {
        Row { bytes }
    }

    /// Adds the length of the next rule. One above 65,535 counts as 65,535, which no entry has.
    pub fn push(&mut self, length: usize) {
        self.bytes.extend(bytes([u16::try_from(length).unwrap_or(u16::MAX)]));
    }

    /// Takes all lengths out, for the row of the next position.
    pub fn clear(&mut self) {
        self.bytes.clear();
    }
}

impl FromIterator<usize> for Row {
    fn from_iter<I: IntoIterator<Item = usize>>(lengths: I) -> Row {
        let mut row = Row::new();
        lengths.into_iter().for_each(|length| row.push(length));
        row
    }
}

impl<'a> Run<'a> {
    pub(crate) fn start(sheet: &'a Sheet, caller: Caller, text: &'a [u8]) -> Result<Run<'a>, Refusal> {
        let n = text.len();
        let stack = vec![0; NUMBER_WIDTH * (n.min(caller.most_bytes()) + 1)];
        let mut run = Run { sheet, text, numbers: [0; 5], stack };
        match calls::start(caller.kind().into(), n as u64, text, &mut run.numbers, &mut run.stack).number() {
            ACCEPTED => Ok(run),
            number => Err(Refusal::of(number)),
        }
    }

    /// A run by its entry, its numbers (n, position, depth, moves, and the caller's kind: 0 for a seller, 1 for a kiosk) and its
    /// stack's bytes, as [`Run::into_parts`] gave them. Each step judges them; that it is the entry of the start it cannot tell, only
    /// whether it is UTF-8 and n bytes long.
    pub fn from_parts(
        sheet: &'a Sheet,
        entry: &'a (impl AsRef<[u8]> + ?Sized),
        numbers: [u16; 5],
        stack: Vec<u8>,
    ) -> Run<'a> {
        Run { sheet, text: entry.as_ref(), numbers, stack }
    }

    /// The run's numbers (n, position, depth, moves, the caller's kind) and its stack's bytes, to go on with later on the same
    /// sheet and entry.
    pub fn into_parts(self) -> ([u16; 5], Vec<u8>) {
        (self.numbers, self.stack)
    }

    /// Moves on by the rule that wins: of those that are live in the current state the one with the greatest length, and of
    /// several the earliest.
    ///
    /// # Errors
    ///
    /// [`Refusal::RowMismatch`]; and of a run that was made by hand [`Refusal::TextMismatch`] and [`Refusal::BrokenRun`]. The run is
    /// then as it was.
    pub fn step(&mut self, row: &Row) -> Result<Step, Refusal> {
        let start = self.position();
        let word = calls::step(self.sheet.bytes(), self.text, &mut self.numbers, &mut self.stack, &row.bytes);
        let range = start..self.position();
        match word.number() {
            TOKEN => {
                let [id, ..] = word.values();
                Ok(Step::Token { id, range })
            }
            SKIP => Ok(Step::Skip { range }),
            DONE => Ok(Step::Done),
            STOPPED => Ok(Step::Stopped),
            UNLINKED => Ok(Step::Unlinked),
            number => Err(Refusal::of(number)),
        }
    }

    /// The sheet that it runs on.
    pub fn sheet(&self) -> &'a Sheet {
        self.sheet
    }

    /// The entry.
    pub fn text(&self) -> &'a [u8] {
        self.text
    }

    /// What is left of the entry, for the matcher that makes the next row.
    pub fn rest(&self) -> &'a [u8] {
        self.text.get(self.position()..).unwrap_or_default()
    }

    /// How many bytes the entry has.
    pub fn n(&self) -> usize {
        let [n, ..] = self.numbers;
        usize::from(n)
    }

    /// How many bytes tokens and skips have covered: whole characters, but for a run that was made by hand.
    pub fn position(&self) -> usize {
        let [_, position, ..] = self.numbers;
        usize::from(position)
    }

    /// How many tokens and skips there were.
    pub fn moves(&self) -> usize {
        let [_, _, _, moves, _] = self.numbers;
        usize::from(moves)
    }

    /// The kind of caller that started it. Only a run that was made by hand can have an unknown one.
    pub fn caller(&self) -> Option<Caller> {
        let [.., kind] = self.numbers;
        Caller::of_kind(kind)
    }

    /// The stack of states, the current one last.
    pub fn states(&self) -> Vec<u16> {
        let [_, _, depth, ..] = self.numbers;
        records(&self.stack, usize::from(depth)).map(|[state]: [u16; 1]| state).collect()
    }

    /// The current state. Only a run that was made by hand can be without one.
    pub fn state(&self) -> Option<u16> {
        self.states().pop()
    }
}
