//! 01, Characters.

use super::Reading;
use crate::misreadings::Misreading as M;

impl Reading {
    pub fn is_whitespace(self, character: char) -> bool {
        match character {
            '\u{9}'..='\u{d}' | ' ' | '\u{2028}' | '\u{2029}' => true,
            '\u{85}' => !self.has(M::NextLineIsNoWhitespace),
            '\u{200e}' => !self.has(M::LeftToRightMarkIsNoWhitespace),
            '\u{200f}' => !self.has(M::RightToLeftMarkIsNoWhitespace),
            '\u{a0}' => self.has(M::NoBreakSpaceIsWhitespace),
            '\u{feff}' => self.has(M::ByteOrderMarkIsWhitespace),
            _ => false,
        }
    }

    pub fn is_line_end(self, character: char) -> bool {
        match character {
            '\u{a}' => true,
            '\u{b}' => !self.has(M::VerticalTabEndsNoLine),
            '\u{d}' => !self.has(M::CarriageReturnEndsNoLine),
            '\u{2028}' => !self.has(M::LineSeparatorEndsNoLine),
            '\u{2029}' => !self.has(M::ParagraphSeparatorEndsNoLine),
            '\u{c}' => self.has(M::FormFeedEndsLine),
            '\u{85}' => self.has(M::NextLineEndsLine),
            _ => false,
        }
    }

    pub fn is_blank(self, character: char) -> bool {
        match character {
            ' ' => true,
            '\t' => !self.has(M::TabIsNoBlank),
            '\u{c}' => self.has(M::FormFeedIsBlank),
            _ => false,
        }
    }

    /// What separates expected names.
    pub fn is_ascii_whitespace(self, character: char) -> bool {
        match character {
            '\t' | '\n' | '\r' | ' ' => true,
            '\u{c}' => !self.has(M::ExpectedNamesNotSplitAtFormFeed),
            '\u{85}' => self.has(M::ExpectedNamesSplitAtNextLine),
            _ => false,
        }
    }

    fn is_meta(self, character: char) -> bool {
        match character {
            '\\' | '.' | '+' | '*' | '?' | '(' | ')' | '|' | '[' | ']' | '{' | '}' | '^' | '$' | '#' | '&' => true,
            '-' => !self.has(M::MetaWithoutHyphen),
            '~' => !self.has(M::MetaWithoutTilde),
            '<' => self.has(M::MetaWithAngle),
            '"' => self.has(M::MetaWithQuote),
            '/' => self.has(M::MetaWithSlash),
            _ => false,
        }
    }

    fn is_escape_digit(self, character: char) -> bool {
        match character {
            '0'..='7' => true,
            '8' | '9' => !self.has(M::DigitsAreOctal),
            _ => false,
        }
    }

    fn is_escape_letter(self, character: char) -> bool {
        match character {
            'z' => !self.has(M::EscapeLettersWithoutZ),
            'B' => self.has(M::EscapeLettersWithCapitalB),
            _ => "afnrtvpPdDsSwWA".contains(character),
        }
    }

    fn is_hex_digit(self, character: char) -> bool {
        match character {
            'A'..='F' => !self.has(M::HexDigitsLowerCaseOnly),
            _ => character.is_ascii_hexdigit(),
        }
    }

    /// Whether the escape of this character, before that one, is of the kept kind.
    pub fn is_kept_escape(self, character: char, next: Option<char>) -> bool {
        let before_hex_digit =
            self.has(M::HexEscapeNeedsNoDigit) || next.is_some_and(|character| self.is_hex_digit(character));
        match character {
            'x' | 'u' => before_hex_digit,
            'U' => before_hex_digit && !self.has(M::CapitalUIsNoHexEscape),
            _ => self.is_meta(character) || self.is_escape_digit(character) || self.is_escape_letter(character),
        }
    }

    pub fn is_state_name(self, name: &str) -> bool {
        let is_letter = |character: char| match self.has(M::StateNameBeyondAscii) {
            true => character.is_alphabetic(),
            false => character.is_ascii_alphabetic(),
        };
        let is_first =
            |character| is_letter(character) || self.has(M::StateNameMayStartWithDigit) && character.is_ascii_digit();
        let is_later = |character: char| {
            is_letter(character)
                || character.is_ascii_digit()
                || character == '_'
                || character == '.' && !self.has(M::StateNameWithoutDot)
        };
        name.starts_with(is_first) && name.chars().skip(1).all(is_later)
    }
}
