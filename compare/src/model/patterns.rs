//! 01, Rules: the pattern's end and its escapes.

use super::Walk;
use crate::misreadings::Misreading as M;

/// A pattern in pieces: text between escapes, whole escapes, and a backslash that nothing follows.
enum Piece<'a> {
    Plain(&'a str),
    Escape { whole: &'a str, character: char, kept: bool },
    LoneBackslash,
}

impl Walk<'_> {
    /// Where the pattern ends: without trailing whitespace, but one character stays after an odd number of backslashes.
    pub(super) fn trimmed_pattern(&self, start: usize, blank: usize) -> usize {
        let trimmed = self.trim_end(start, blank);
        if self.reading.has(M::PatternNotTrimmed) || trimmed == blank {
            return blank;
        }
        let pattern = &self.text[start..trimmed];
        let backslashes = pattern.len() - pattern.trim_end_matches('\\').len();
        let escaped = backslashes % 2 == 1 || backslashes > 0 && self.reading.has(M::EvenBackslashesKeepBlank);
        if !escaped || self.reading.has(M::EscapedBlankTrimmed) {
            return trimmed;
        }
        match self.reading.has(M::EscapedWhitespaceAllKept) {
            true => blank,
            false => trimmed + self.text[trimmed..blank].chars().next().map_or(0, char::len_utf8),
        }
    }

    /// The rewritten text, or none if every escape is of the kept kind.
    pub(super) fn rewritten(&self, start: usize, end: usize) -> Option<Vec<u8>> {
        let reading = self.reading;
        let pieces = self.pieces(&self.text[start..end]);
        let rewrites = |piece: &Piece| match piece {
            Piece::Escape { character: 'b', .. } if reading.has(M::BackspaceHasPlaceZero) => self.posix_escapes,
            Piece::Escape { kept, .. } => !kept || reading.has(M::AlwaysRewritten),
            _ => false,
        };
        if !pieces.iter().any(rewrites) {
            return None;
        }
        let mut text = vec![];
        let left = self.pieces_left(&pieces);
        for (position, piece) in pieces[..left].iter().enumerate() {
            match piece {
                Piece::Escape { whole, character: 'x' | 'u' | 'U', .. }
                    if position + 1 == left && left < pieces.len() && reading.has(M::HexDigitMustStay) =>
                {
                    text.extend_from_slice(&whole.as_bytes()[1..]);
                }
                _ => self.push_piece(&mut text, piece),
            }
        }
        Some(text)
    }

    fn pieces<'a>(&self, pattern: &'a str) -> Vec<Piece<'a>> {
        let mut pieces = vec![];
        let mut rest = pattern;
        while !rest.is_empty() {
            let (piece, length) = self.piece(rest);
            pieces.push(piece);
            rest = &rest[length..];
        }
        pieces
    }

    fn piece<'a>(&self, rest: &'a str) -> (Piece<'a>, usize) {
        let plain = rest.find('\\').unwrap_or(rest.len());
        if plain > 0 {
            return (Piece::Plain(&rest[..plain]), plain);
        }
        let mut characters = rest[1..].chars();
        let Some(character) = characters.next() else {
            return (Piece::LoneBackslash, 1);
        };
        let length = 1 + character.len_utf8();
        let kept = self.reading.is_kept_escape(character, characters.next());
        (Piece::Escape { whole: &rest[..length], character, kept }, length)
    }

    /// A lone last backslash drops everything after the last whole escape.
    fn pieces_left(&self, pieces: &[Piece]) -> usize {
        if !matches!(pieces.last(), Some(Piece::LoneBackslash)) || self.reading.has(M::LoneBackslashKept) {
            return pieces.len();
        }
        if self.reading.has(M::LoneBackslashAloneDropped) {
            return pieces.len() - 1;
        }
        let rewritten_only = self.reading.has(M::LoneBackslashBackToRewritten);
        let last = pieces.iter().rposition(|piece| match piece {
            Piece::Escape { kept, .. } => !(rewritten_only && *kept),
            _ => false,
        });
        last.map_or(0, |last| last + 1)
    }

    fn push_piece(&self, text: &mut Vec<u8>, piece: &Piece) {
        match piece {
            Piece::Plain(plain) => text.extend_from_slice(plain.as_bytes()),
            Piece::LoneBackslash => text.push(b'\\'),
            Piece::Escape { whole, character: 'b', .. } => text.extend_from_slice(self.backspace(whole).as_bytes()),
            Piece::Escape { whole, kept: true, .. } => text.extend_from_slice(whole.as_bytes()),
            Piece::Escape { whole, kept: false, .. } => {
                let end = self.reading.choose(M::EscapeIsOneByte, 2, whole.len());
                text.extend_from_slice(&whole.as_bytes()[1..end]);
            }
        }
    }

    fn backspace<'a>(&self, whole: &'a str) -> &'a str {
        if self.reading.has(M::BackspaceLosesBackslash) {
            &whole[1..]
        } else if self.posix_escapes || self.reading.has(M::BackspaceAlwaysRewritten) {
            "\\x08"
        } else {
            whole
        }
    }

    /// The end of a text that stays in the source; only a misreading drops anything there.
    pub(super) fn without_lone_backslash(&self, start: usize, end: usize) -> usize {
        let is_lone = || matches!(self.pieces(&self.text[start..end]).last(), Some(Piece::LoneBackslash));
        if self.reading.has(M::LoneBackslashDroppedInPlaceZero) && is_lone() { end - 1 } else { end }
    }
}
