//! How many columns of a terminal a text takes.

use std::ops::RangeInclusive;

/// The blocks whose characters take two columns: those of Korea, China and Japan, and pictures.
const WIDE: [RangeInclusive<char>; 14] = [
    '\u{1100}'..='\u{115f}',
    '\u{2e80}'..='\u{303e}',
    '\u{3041}'..='\u{4dbf}',
    '\u{4e00}'..='\u{a4cf}',
    '\u{a960}'..='\u{a97c}',
    '\u{ac00}'..='\u{d7a3}',
    '\u{f900}'..='\u{faff}',
    '\u{fe30}'..='\u{fe6b}',
    '\u{ff01}'..='\u{ff60}',
    '\u{ffe0}'..='\u{ffe6}',
    '\u{1f300}'..='\u{1f64f}',
    '\u{1f680}'..='\u{1f6ff}',
    '\u{1f900}'..='\u{1f9ff}',
    '\u{20000}'..='\u{3fffd}',
];

/// The blocks whose characters stand on the one before them and take none.
const JOINED: [RangeInclusive<char>; 6] = [
    '\u{300}'..='\u{36f}',
    '\u{1ab0}'..='\u{1aff}',
    '\u{1dc0}'..='\u{1dff}',
    '\u{20d0}'..='\u{20ff}',
    '\u{fe00}'..='\u{fe0f}',
    '\u{fe20}'..='\u{fe2f}',
];

/// The columns of a text that has no controls; a tab counts as one.
pub fn of(text: &str) -> usize {
    text.chars().map(of_character).sum()
}

pub fn of_character(c: char) -> usize {
    let is_in = |blocks: &[RangeInclusive<char>]| blocks.iter().any(|block| block.contains(&c));
    if is_in(&JOINED) { 0 } else { 1 + usize::from(is_in(&WIDE)) }
}

/// A text with as many blanks behind it as so many columns need.
pub fn padded(text: &str, width: usize) -> String {
    format!("{text}{}", " ".repeat(width.saturating_sub(of(text))))
}

#[cfg(test)]
mod tests {
    use super::*;

    #[test]
    fn characters_take_no_one_or_two_columns() {
        let texts = ["", "aé€", "😀", "日本", "한", "e\u{301}", "\u{fffd}\u{2400}", "\t"];
        assert_eq!(texts.map(of), [0, 3, 2, 4, 2, 1, 2, 1]);
        assert_eq!(["é", "😀", "日本"].map(|text| padded(text, 3)), ["é  ", "😀 ", "日本"]);
    }
}
