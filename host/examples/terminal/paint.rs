//! Colours.

/// What is painted.
#[derive(Clone, Copy)]
pub enum Style {
    Bold,
    Dim,
    Good,
    Bad,
    Doubtful,
    State,
    Mark,
}

impl Style {
    /// The number of ANSI's escape sequence.
    fn number(self) -> &'static str {
        match self {
            Style::Bold => "1",
            Style::Dim => "2",
            Style::Good => "32",
            Style::Bad => "1;31",
            Style::Doubtful => "1;33",
            Style::State => "36",
            Style::Mark => "1;32",
        }
    }
}

/// Whether one of the two outputs is painted.
#[derive(Clone, Copy)]
pub struct Paint {
    pub on: bool,
}

impl Paint {
    /// The text in that style.
    pub fn paint(self, style: Style, text: &str) -> String {
        if self.on && !text.is_empty() { format!("\x1b[{}m{text}\x1b[0m", style.number()) } else { text.to_string() }
    }
}

#[cfg(test)]
mod tests {
    use super::*;

    #[test]
    fn only_what_is_on_is_painted() {
        assert_eq!(Paint { on: true }.paint(Style::Bad, "x"), "\x1b[1;31mx\x1b[0m");
        assert_eq!(Paint { on: true }.paint(Style::Bad, ""), "");
        assert_eq!(Paint { on: false }.paint(Style::Bad, "x"), "x");
    }
}
