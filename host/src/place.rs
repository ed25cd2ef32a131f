//! Lines and columns.

use crate::Refusal;
use crate::calls;
use crate::numbers::ACCEPTED;
use std::fmt;

/// A place in a text as editors show it, of a lex file for example. Line and column count from 1, the column in characters.
/// A line ends at U+000A, which is its last character.
///
/// ```
/// use troymantle::Place;
///
/// let text = "%%\n€ 'EURO'\n";
/// let place = Place::of(text, 7)?;
/// assert_eq!((place, place.to_string()), (Place { line: 2, column: 3 }, "2:3".to_string()));
/// assert_eq!(place.offset(text)?, 7);
/// # Ok::<(), troymantle::Refusal>(())
/// ```
#[derive(Clone, Copy, Debug, PartialEq, Eq, PartialOrd, Ord, Hash)]
pub struct Place {
    /// The line.
    pub line: u32,
    /// The column.
    pub column: u32,
}

impl Place {
    /// Where every text starts.
    pub(crate) const FIRST: Place = Place { line: 1, column: 1 };

    /// The place of an offset in bytes; the text's length has one too. This passes over the whole text.
    ///
    /// # Errors
    ///
    /// [`Refusal::LongFile`]; [`Refusal::InvalidUtf8`]; [`Refusal::NoSuchPlace`] where the offset is above the text's length
    /// or inside a character.
    pub fn of(text: &(impl AsRef<[u8]> + ?Sized), offset: usize) -> Result<Place, Refusal> {
        let mut place = [0; 2];
        let word = calls::line_column(text.as_ref(), offset as u64, &mut place);
        let [line, column] = place;
        match word.number() {
            ACCEPTED => Ok(Place { line, column }),
            number => Err(Refusal::of(number)),
        }
    }

    /// The offset in bytes that has this place.
    ///
    /// # Errors
    ///
    /// [`Refusal::LongFile`]; [`Refusal::InvalidUtf8`]; [`Refusal::NoSuchPlace`] where no offset has this place.
    pub fn offset(self, text: &(impl AsRef<[u8]> + ?Sized)) -> Result<usize, Refusal> {
        let word = calls::offset_at(text.as_ref(), u64::from(self.line), u64::from(self.column));
        let [offset, ..] = word.values();
        match word.number() {
            ACCEPTED => Ok(usize::from(offset)),
            number => Err(Refusal::of(number)),
        }
    }
}

/// `line:column`.
impl fmt::Display for Place {
    fn fmt(&self, f: &mut fmt::Formatter) -> fmt::Result {
        write!(f, "{}:{}", self.line, self.column)
    }
}
