//! What became of an entry: lines for a person, or JSON.

use crate::entries::Entry;
use crate::json::Object;
use crate::lexer::{End, Lexer, Move, Reading};
use crate::message::painted_marks;
use crate::paint::{Paint, Style};
use crate::source::{grouped, marked, visible};
use crate::width::{self, padded};
use std::io::{self, Write};
use troymantle::{Caller, Refusal};

/// Names, states and texts that are longer than this are not waited for by the columns.
const WIDEST: usize = 24;
/// How many characters of an entry that is too long are shown.
const MOST_SHOWN: usize = 60;

/// How wide the columns are: those of a lexer are the same for all entries.
pub struct Columns {
    name: usize,
    id: usize,
    state: usize,
}

impl Columns {
    pub fn new(lexer: &Lexer) -> Columns {
        let names = lexer.rules.iter().filter_map(|rule| rule.name.as_deref());
        let ids = lexer.rules.iter().filter_map(|rule| rule.id.filter(|_| rule.name.is_some()));
        Columns {
            name: widest(names.map(|name| width::of(&visible(name)))),
            id: widest(ids.map(|id| id.to_string().len())),
            state: widest(lexer.states.iter().map(|state| state.name.len())),
        }
    }
}

fn widest(widths: impl Iterator<Item = usize>) -> usize {
    widths.filter(|width| *width <= WIDEST).max().unwrap_or(0)
}

/// The entry as it stands behind a prompt.
pub fn echo(lexer: &Lexer, entry: &Entry) -> String {
    let text = visible(&String::from_utf8_lossy(&entry.bytes));
    if entry.length <= lexer.caller.most_bytes() {
        return text;
    }
    format!("{}... ({} bytes)", text.chars().take(MOST_SHOWN).collect::<String>(), grouped(entry.length))
}

/// Writes the lines of an entry.
pub fn lines(
    out: &mut impl Write,
    lexer: &Lexer,
    columns: &Columns,
    paint: Paint,
    entry: &Entry,
    reading: &Reading,
) -> io::Result<()> {
    let text = String::from_utf8_lossy(&entry.bytes);
    let texts: Vec<_> = reading.moves.iter().map(|made| format!("{:?}", part(&text, made))).collect();
    let text_width = widest(texts.iter().map(|text| width::of(text)));
    for (made, quoted) in reading.moves.iter().zip(&texts) {
        writeln!(out, "{}", move_line(lexer, columns, text_width, paint, made, quoted))?;
    }
    let (word, words) = end_words(lexer, entry, reading);
    let style = if reading.end == End::Done { Style::Good } else { Style::Bad };
    match words {
        None => writeln!(out, "  {}", paint.paint(style, word))?,
        Some(words) => writeln!(out, "  {}: {words}", paint.paint(style, word))?,
    }
    if let Some(length) = marked_length(reading) {
        let (left, rest) = text.split_at_checked(reading.position).unwrap_or_default();
        let (shown, marks) = marked(left, rest, length);
        writeln!(out, "    {shown}\n    {}", painted_marks(&marks, paint))?;
    }
    Ok(())
}

/// Writes the objects of an entry.
pub fn objects(out: &mut impl Write, lexer: &Lexer, number: usize, entry: &Entry, reading: &Reading) -> io::Result<()> {
    let text = String::from_utf8_lossy(&entry.bytes);
    for made in &reading.moves {
        writeln!(out, "{}", move_object(lexer, number, part(&text, made), made).finish())?;
    }
    writeln!(out, "{}", end_object(lexer, number, entry, reading).finish())
}

/// The text of a token or skip.
fn part<'a>(text: &'a str, made: &Move) -> &'a str {
    text.get(made.range.clone()).unwrap_or_default()
}

/// One line, e.g. `  token  RACE      256  "R5"  POOL`.
fn move_line(lexer: &Lexer, columns: &Columns, text_width: usize, paint: Paint, made: &Move, text: &str) -> String {
    let Columns { name: name_width, id: id_width, state: state_width } = columns;
    let current = made.stack.last().map_or("", |state| lexer.state_name(*state));
    let stack = stack_words(lexer, &made.stack);
    let (state_width, text) = (if stack.is_empty() { &0 } else { state_width }, padded(text, text_width));
    let state = paint.paint(Style::State, &format!("{current:state_width$}"));
    let stack = if stack.is_empty() { stack } else { format!("  {}", paint.paint(Style::Dim, &stack)) };
    match &made.token {
        Some((name, id)) => {
            let name = paint.paint(Style::Bold, &padded(&visible(name), *name_width));
            format!("  token  {name}  {id:id_width$}  {text}  {state}{stack}")
        }
        None => {
            let skipped = paint.paint(Style::Dim, &format!("skip   {:name_width$}  {:id_width$}  {text}", "", ""));
            format!("  {skipped}  {state}{stack}")
        }
    }
}

/// The whole stack where it is deeper than 1; equal states that follow one another are counted.
fn stack_words(lexer: &Lexer, stack: &[u16]) -> String {
    if stack.len() < 2 {
        return String::new();
    }
    let equal = stack.chunk_by(|one, other| one == other);
    let words = equal.filter_map(|states| {
        let name = lexer.state_name(*states.first()?);
        Some(if states.len() > 1 { format!("{name} x {}", grouped(states.len())) } else { name.to_string() })
    });
    words.collect::<Vec<_>>().join(" > ")
}

/// How an entry ended: a word for it, and what happened.
pub fn end_words(lexer: &Lexer, entry: &Entry, reading: &Reading) -> (&'static str, Option<String>) {
    let state = reading.stack.last().map_or("", |state| lexer.state_name(*state));
    match &reading.end {
        End::Done => ("done", None),
        End::Stopped => ("stopped", Some(format!("no rule of state {state} matches here"))),
        End::Unlinked(name, _) => ("unlinked", Some(format!("rule {} is not in the map", visible(name)))),
        End::Refused(refusal) => ("refused", Some(refusal_words(lexer.caller, entry, refusal))),
    }
}

fn refusal_words(caller: Caller, entry: &Entry, refusal: &Refusal) -> String {
    let reason = match refusal {
        Refusal::StartRefused => too_long(caller, entry.length),
        Refusal::TextMismatch => "the entry is not UTF-8 from here on".to_string(),
        refusal => return refusal.to_string(),
    };
    format!("{} ({}): {reason}", refusal.words(), refusal.number())
}

/// Which limit an entry of so many bytes passes.
fn too_long(caller: Caller, length: usize) -> String {
    let whose = match caller {
        Caller::Seller => "a seller's",
        Caller::Kiosk => "a kiosk's",
    };
    format!("the entry has {} bytes, and {whose} at most {}", grouped(length), grouped(caller.most_bytes()))
}

/// How many bytes at the position are marked, where an entry was not read to its end.
fn marked_length(reading: &Reading) -> Option<usize> {
    match reading.end {
        End::Done | End::Refused(Refusal::StartRefused) => None,
        End::Stopped | End::Refused(_) => Some(0),
        End::Unlinked(_, length) => Some(length),
    }
}

fn move_object(lexer: &Lexer, number: usize, text: &str, made: &Move) -> Object {
    let object = match &made.token {
        Some((name, id)) => {
            Object::of("token").number("entry", number).text("name", name).number("id", usize::from(*id))
        }
        None => Object::of("skip").number("entry", number),
    };
    let object = object.number("start", made.range.start).number("length", made.range.len()).text("text", text);
    with_states(object, lexer, &made.stack)
}

fn end_object(lexer: &Lexer, number: usize, entry: &Entry, reading: &Reading) -> Object {
    let (word, words) = end_words(lexer, entry, reading);
    let object = Object::of(word).number("entry", number);
    let object = match &reading.end {
        End::Done => with_states(object.number("length", entry.length), lexer, &reading.stack),
        End::Stopped => with_states(object.number("start", reading.position), lexer, &reading.stack),
        End::Unlinked(name, length) => {
            let text = String::from_utf8_lossy(&entry.bytes);
            let text = text.get(reading.position..reading.position + length).unwrap_or_default();
            let object = object.text("name", name).number("start", reading.position).number("length", *length);
            with_states(object.text("text", text), lexer, &reading.stack)
        }
        End::Refused(refusal) => {
            let is_whole = *refusal == Refusal::StartRefused;
            let object = if is_whole { object } else { object.number("start", reading.position) };
            object.number("length", entry.length).number("number", usize::from(refusal.number()))
        }
    };
    words.iter().fold(object, |object, words| object.text("message", words))
}

fn with_states(object: Object, lexer: &Lexer, stack: &[u16]) -> Object {
    let current = stack.last().map_or("", |state| lexer.state_name(*state));
    object.text("state", current).texts("stack", stack.iter().map(|state| lexer.state_name(*state)))
}

#[cfg(test)]
mod tests {
    use super::*;
    use troymantle::LexFile;

    /// What the engine matches in a text always fits; a refused row would be told as this.
    #[test]
    fn a_refused_row_is_told_where_the_run_stands() {
        let sheet = LexFile::new("%%\n. ;\n").parse().unwrap();
        let (unlinked, name) = (sheet.clone(), String::new());
        let loaded = crate::load::Loaded { sheet, unlinked, patterns: vec![], name, sample: "", warnings: vec![] };
        let (lexer, entry) = (Lexer::new(&loaded, Caller::Seller), Entry::new("😀é".into()));
        let reading = Reading { moves: vec![], end: End::Refused(Refusal::RowMismatch), position: 4, stack: vec![0] };
        let (mut told, mut object) = (vec![], vec![]);
        lines(&mut told, &lexer, &Columns::new(&lexer), Paint { on: false }, &entry, &reading).unwrap();
        objects(&mut object, &lexer, 1, &entry, &reading).unwrap();
        let words = Refusal::RowMismatch.to_string();
        assert_eq!(String::from_utf8_lossy(&told), format!("  refused: {words}\n    😀é\n      ^\n"));
        let fields = r#""event":"refused","entry":1,"start":4,"length":6,"number":10"#;
        assert_eq!(String::from_utf8_lossy(&object), format!("{{{fields},\"message\":\"{words}\"}}\n"));
    }
}
