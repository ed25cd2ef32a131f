//! What is wrong with files and options: told as compilers do, or as JSON.

use crate::json::Object;
use crate::paint::{Paint, Style};
use crate::source::{Excerpt, Source};
use std::fmt::Write;
use std::ops::Range;

/// How bad it is.
#[derive(Clone, Copy, Debug, PartialEq, Eq)]
pub enum Level {
    /// Nothing can be run.
    Error,
    /// It runs all the same.
    Warning,
    /// It belongs to the message before it.
    Note,
}

/// Something to tell.
#[derive(Clone, Debug)]
pub struct Message {
    level: Level,
    words: String,
    place: Place,
    /// A fault of a lex file: the number and name of its kind.
    kind: Option<(u16, &'static str)>,
    /// The number by which a call was refused, and where it is 4 the area.
    number: Option<u16>,
    area: Option<u16>,
    /// The name that it is about.
    name: Option<String>,
    /// The regex engine's own words.
    engine: Option<String>,
    notes: Vec<Message>,
}

/// Where it is.
#[derive(Clone, Debug)]
enum Place {
    Nowhere,
    File(String),
    Part(Excerpt),
}

impl Message {
    fn new(level: Level, place: Place, words: impl Into<String>) -> Message {
        let words = words.into();
        Message { level, words, place, kind: None, number: None, area: None, name: None, engine: None, notes: vec![] }
    }

    /// About the command line.
    pub fn error(words: impl Into<String>) -> Message {
        Message::new(Level::Error, Place::Nowhere, words)
    }

    /// About a whole file.
    pub fn of_file(file: &str, words: impl Into<String>) -> Message {
        Message::new(Level::Error, Place::File(file.to_string()), words)
    }

    /// About a part of a file.
    pub fn at(level: Level, source: &Source, span: &Range<usize>, words: impl Into<String>) -> Message {
        let place = source.excerpt(span).map_or_else(|| Place::File(source.name.clone()), Place::Part);
        Message::new(level, place, words)
    }

    /// A word of help for the message before it.
    pub fn hint(words: impl Into<String>) -> Message {
        Message::new(Level::Note, Place::Nowhere, words)
    }

    pub fn with_kind(self, number: u16, name: &'static str) -> Message {
        Message { kind: Some((number, name)), ..self }
    }

    pub fn with_number(self, number: u16, area: Option<u16>) -> Message {
        Message { number: Some(number), area, ..self }
    }

    pub fn with_name(self, name: &str) -> Message {
        Message { name: Some(name.to_string()), ..self }
    }

    pub fn with_engine(self, engine: Option<String>) -> Message {
        Message { engine, ..self }
    }

    pub fn with_note(mut self, note: Message) -> Message {
        self.notes.push(note);
        self
    }

    /// Lines for a person, the last one ended.
    pub fn lines(&self, paint: Paint) -> String {
        let mut text = String::new();
        let place = match &self.place {
            Place::Nowhere if self.level == Level::Note => String::new(),
            Place::Nowhere => "terminal: ".to_string(),
            Place::File(file) => format!("{file}: "),
            Place::Part(part) => format!("{}:{}: ", part.file, part.place),
        };
        let (level, style) = match self.level {
            Level::Error => ("error: ", Style::Bad),
            Level::Warning => ("warning: ", Style::Doubtful),
            Level::Note => ("note: ", Style::State),
        };
        let (place, level) = (paint.paint(Style::Bold, &place), paint.paint(style, level));
        // writing to a String does not fail
        let _ = writeln!(text, "{place}{level}{}", self.words);
        if let Place::Part(part) = &self.place {
            let _ = writeln!(text, "    {}\n    {}", part.shown, painted_marks(&part.marks, paint));
        }
        for line in self.engine.iter().flat_map(|words| words.lines()) {
            let _ = writeln!(text, "    {line}");
        }
        text.extend(self.notes.iter().map(|note| note.lines(paint)));
        text
    }

    /// The same as an object.
    pub fn object(&self) -> Object {
        let event = match self.level {
            Level::Error if self.kind.is_some() => "fault",
            Level::Error => "error",
            Level::Warning => "warning",
            Level::Note => "note",
        };
        let mut object = Object::of(event);
        object = match &self.place {
            Place::Nowhere => object,
            Place::File(file) => object.text("file", file),
            Place::Part(part) => object
                .text("file", &part.file)
                .number("line", part.place.line as usize)
                .number("column", part.place.column as usize)
                .number("start", part.start)
                .number("length", part.length),
        };
        if let Some((number, name)) = self.kind {
            object = object.number("kind", usize::from(number)).text("kind_name", name);
        }
        for (key, number) in [("number", self.number), ("area", self.area)] {
            object = number.iter().fold(object, |object, number| object.number(key, usize::from(*number)));
        }
        object = self.name.iter().fold(object, |object, name| object.text("name", name));
        object = object.text("message", &self.words);
        object = self.engine.iter().fold(object, |object, engine| object.text("engine", engine));
        if self.notes.is_empty() { object } else { object.objects("notes", self.notes.iter().map(Message::object)) }
    }
}

/// The marks of an excerpt, without painting what stands before them.
pub fn painted_marks(marks: &str, paint: Paint) -> String {
    let (before, marks) = marks.split_at_checked(marks.find('^').unwrap_or(0)).unwrap_or_default();
    format!("{before}{}", paint.paint(Style::Mark, marks))
}

#[cfg(test)]
mod tests {
    use super::*;

    fn message() -> Message {
        let source = Source::new("f.l", b"%x A\n%x A\n".to_vec());
        let first = Message::at(Level::Note, &source, &(3..4), "first here");
        let message = Message::at(Level::Error, &source, &(8..9), "again");
        message.with_kind(6, "DuplicateStartState").with_note(first)
    }

    #[test]
    fn lines_are_as_of_compilers() {
        let lines = "f.l:2:4: error: again\n    %x A\n       ^\nf.l:1:4: note: first here\n    %x A\n       ^\n";
        assert_eq!(message().lines(Paint { on: false }), lines);
        assert_eq!(Message::error("no").lines(Paint { on: false }), "terminal: error: no\n");
        let painted = Message::of_file("f", "no").lines(Paint { on: true });
        assert_eq!(painted, "\x1b[1mf: \x1b[0m\x1b[1;31merror: \x1b[0mno\n");
    }

    #[test]
    fn the_engines_words_stand_below() {
        let lines = Message::of_file("f", "no").with_engine(Some("a\n  b".to_string())).lines(Paint { on: false });
        assert_eq!(lines, "f: error: no\n    a\n      b\n");
    }

    #[test]
    fn objects_have_every_field() {
        let text = message().object().finish();
        let head = r#"{"event":"fault","file":"f.l","line":2,"column":4,"start":8,"length":1,"kind":6,"#;
        let rest = r#""kind_name":"DuplicateStartState","message":"again","notes":[{"event":"note","#;
        assert!(text.starts_with(&format!("{head}{rest}")), "{text}");
        let text = Message::of_file("f", "no").with_number(4, Some(1)).with_name("N").object().finish();
        assert_eq!(text, r#"{"event":"error","file":"f","number":4,"area":1,"name":"N","message":"no"}"#);
    }
}
