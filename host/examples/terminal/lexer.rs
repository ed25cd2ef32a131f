//! A run over one entry, as the library has it.

use crate::entries::Entry;
use crate::load::Loaded;
use regex::Regex;
use std::ops::Range;
use troymantle::{Caller, Refusal, Row, Rule, Run, Sheet, State, Step};

/// What entries are read by.
pub struct Lexer<'a> {
    /// Who types them.
    pub caller: Caller,
    pub sheet: &'a Sheet,
    unlinked: &'a Sheet,
    pub rules: Vec<Rule<'a>>,
    pub states: Vec<State<'a>>,
    patterns: &'a [Regex],
}

/// What became of an entry.
pub struct Reading {
    pub moves: Vec<Move>,
    pub end: End,
    /// Where it ended, and the states at that place, the current one last.
    pub position: usize,
    pub stack: Vec<u16>,
}

/// A token or a skip.
pub struct Move {
    /// The name and id of a token.
    pub token: Option<(String, u16)>,
    pub range: Range<usize>,
    /// The states after it, the current one last.
    pub stack: Vec<u16>,
}

#[derive(Debug, PartialEq, Eq)]
pub enum End {
    Done,
    Stopped,
    /// The rule's name, and how many bytes it matches.
    Unlinked(String, usize),
    /// The entry is too long, or not UTF-8 from the position on. A row is not refused: what the engine matches in a text ends at
    /// the edge of a character.
    Refused(Refusal),
}

impl<'a> Lexer<'a> {
    pub fn new(loaded: &'a Loaded, caller: Caller) -> Lexer<'a> {
        let Loaded { sheet, unlinked, patterns, .. } = loaded;
        Lexer { caller, sheet, unlinked, rules: sheet.rules().collect(), states: sheet.states().collect(), patterns }
    }

    /// The name of a state; every state of a run is declared.
    pub fn state_name(&self, id: u16) -> &str {
        self.states.get(usize::from(id)).map_or("", |state| &state.name)
    }

    /// Reads an entry to its end, or as far as it goes.
    pub fn read(&self, entry: &Entry) -> Reading {
        // the whole entry, or what stands before the first byte that is not UTF-8
        let text = entry.bytes.utf8_chunks().next().map_or("", |chunk| chunk.valid());
        let mut run = match self.sheet.start(self.caller, &entry.bytes) {
            Ok(run) => run,
            Err(refusal) => {
                let position = if refusal == Refusal::TextMismatch { text.len() } else { 0 };
                return Reading { moves: vec![], end: End::Refused(refusal), position, stack: vec![] };
            }
        };
        let mut moves = vec![];
        loop {
            match self.step(text, &mut run) {
                Ok(made) => moves.push(made),
                Err(end) => return Reading { moves, end, position: run.position(), stack: run.states() },
            }
        }
    }

    fn step(&self, text: &str, run: &mut Run) -> Result<Move, End> {
        let rest = text.get(run.position()..).unwrap_or_default();
        let row: Row = self.patterns.iter().map(|pattern| length(pattern, rest)).collect();
        let (name, length) = self.winner(run, &row);
        match run.step(&row).map_err(End::Refused)? {
            Step::Token { id, range } => Ok(Move { token: Some((name, id)), range, stack: run.states() }),
            Step::Skip { range } => Ok(Move { token: None, range, stack: run.states() }),
            Step::Done => Err(End::Done),
            Step::Stopped => Err(End::Stopped),
            Step::Unlinked => Err(End::Unlinked(name, length)),
        }
    }

    /// The name of the rule that a step by this row goes by, and how many bytes it matches. The step tells an id, which several
    /// rules may have or the winner may lack; the same step on the sheet before its link tells the position.
    fn winner(&self, run: &Run, row: &Row) -> (String, usize) {
        let (numbers, stack) = run.clone().into_parts();
        let mut unlinked = Run::from_parts(self.unlinked, run.text(), numbers, stack);
        let Ok(Step::Token { id: position, range }) = unlinked.step(row) else {
            return Default::default();
        };
        let name = self.rules.get(usize::from(position)).and_then(|rule| rule.name.as_deref());
        (name.unwrap_or_default().to_string(), range.len())
    }
}

/// How many bytes a pattern matches at the start of a text. One such as `x)|(?:b` leaves its anchor and may match behind it.
fn length(pattern: &Regex, text: &str) -> usize {
    pattern.find(text).filter(|found| found.start() == 0).map_or(0, |found| found.end())
}

#[cfg(test)]
mod tests {
    use super::*;
    use troymantle::{LexFile, Map};

    fn loaded(file: &str, map: &[(&str, u16)]) -> Loaded {
        let mut patterns = vec![];
        let parsed = LexFile::new(file).parse_judged(|_, pattern| {
            patterns.push(Regex::new(&format!(r"\A(?:{pattern})")).unwrap());
            true
        });
        let unlinked = parsed.unwrap();
        let mut sheet = unlinked.clone();
        sheet.link(&Map::of(map.iter().copied()).unwrap()).unwrap();
        Loaded { sheet, unlinked, patterns, name: String::new(), sample: "", warnings: vec![] }
    }

    #[test]
    fn names_are_told_apart_where_ids_are_not() {
        let loaded =
            loaded("%x S\n%%\n<S>aa 'X'\na <+S>'A'\na+ 'B'\n<S>b <-S>'C'\né 'E'\n", &[("A", 7), ("B", 7), ("C", 7)]);
        let lexer = Lexer::new(&loaded, Caller::Seller);
        let reading = lexer.read(&Entry::new("abaaé".into()));
        let tokens: Vec<_> = reading.moves.iter().map(|made| made.token.clone().unwrap()).collect();
        assert_eq!(tokens, [("A", 7), ("C", 7), ("B", 7)].map(|(name, id)| (name.to_string(), id)));
        assert_eq!(reading.moves[0].stack, [0, 1]);
        assert_eq!((reading.end, reading.position), (End::Unlinked("E".to_string(), 2), 4));
        assert_eq!(lexer.state_name(1), "S");
    }

    #[test]
    fn a_token_has_what_its_pattern_matches_at_its_place() {
        let loaded = loaded("%%\nx)|(?:b 'A'\n[a-z] 'L'\n", &[("A", 1), ("L", 2)]);
        let reading = Lexer::new(&loaded, Caller::Seller).read(&Entry::new("aab".into()));
        let tokens: Vec<_> =
            reading.moves.iter().map(|made| (made.token.clone().unwrap().1, made.range.clone())).collect();
        assert_eq!(tokens, [(2, 0..1), (2, 1..2), (1, 2..3)]);
    }

    #[test]
    fn entries_are_text() {
        let loaded = loaded("%%\na+ ;\n", &[]);
        let lexer = Lexer::new(&loaded, Caller::Seller);
        for (bytes, position) in [(b"aa\xff".to_vec(), 2), (b"\xe2\x82".to_vec(), 0), (b"a\xc3\xa9\xc3a".to_vec(), 3)] {
            let reading = lexer.read(&Entry::new(bytes));
            let ended = (reading.end, reading.position, reading.moves.len());
            assert_eq!(ended, (End::Refused(Refusal::TextMismatch), position, 0));
        }
    }

    #[test]
    fn long_entries_are_refused() {
        let loaded = loaded("%%\na+ ;\n", &[]);
        for (caller, most) in [(Caller::Seller, 4_096), (Caller::Kiosk, 512)] {
            let lexer = Lexer::new(&loaded, caller);
            let end = |bytes: Vec<u8>| lexer.read(&Entry::new(bytes)).end;
            assert_eq!(end(vec![b'a'; most]), End::Done);
            assert_eq!(end(vec![b'a'; most + 1]), End::Refused(Refusal::StartRefused));
            assert_eq!(end(vec![255; most + 1]), End::Refused(Refusal::StartRefused));
            let kept = vec![b'a'; 4_097];
            assert_eq!(lexer.read(&Entry { bytes: kept, length: usize::MAX }).end, End::Refused(Refusal::StartRefused));
            assert_eq!(end(vec![]), End::Done);
        }
    }
}
