//! From the two files to a linked sheet with its patterns compiled; or what is wrong with them.

use crate::map_file::{self, MapFile};
use crate::message::{Level, Message};
use crate::options::Options;
use crate::source::{Source, grouped, shortened, visible};
use regex::{Regex, RegexBuilder};
use std::ops::Range;
use std::path::Path;
use troymantle::numbers::{FLAG_COMMENTS, MOST_SOURCE};
use troymantle::{Fault, FaultKind, LexFile, Linked, Refusal, Sheet};

/// A linked sheet, and its patterns by the rules' positions.
pub struct Loaded {
    pub sheet: Sheet,
    /// The same before the link: the id of each rule is its position.
    pub unlinked: Sheet,
    pub patterns: Vec<Regex>,
    /// The lex file's name.
    pub name: String,
    /// What whoever types may type, where it is known.
    pub sample: &'static str,
    pub warnings: Vec<Message>,
}

/// Loads the files that the options name; where they are of no use, everything that is wrong.
pub fn load(options: &Options) -> Result<Loaded, Vec<Message>> {
    let (lex, map) = sources(options)?;
    let ((unlinked, patterns), map_file) = both(parse(&lex, options), map_file::read(&map))?;
    let mut sheet = unlinked.clone();
    let linked = sheet.link(&map_file.map).map_err(|refusal| vec![refused(&map, &refusal)])?;
    let unmapped = unmapped(&lex, &sheet, &linked);
    let warnings = unused(&map, &map_file, &linked);
    if unmapped.is_empty() {
        let sample = if options.files.is_none() { ", as R5 W 3 $10," } else { "" };
        Ok(Loaded { sheet, unlinked, patterns, name: lex.name, sample, warnings })
    } else {
        Err([unmapped, warnings].concat())
    }
}

/// The files that the options name.
fn sources(options: &Options) -> Result<(Source, Source), Vec<Message>> {
    let Some((lex, map)) = &options.files else {
        let lex = Source::new("tote.l", include_bytes!("../tote/tote.l").to_vec());
        return Ok((lex, Source::new("tote.map", include_bytes!("../tote/tote.map").to_vec())));
    };
    both(source(lex, MOST_SOURCE), source(map, map_file::MOST_BYTES))
}

/// What comes of the two files; where either is wrong, what is wrong with both.
fn both<L, M>(lex: Result<L, Vec<Message>>, map: Result<M, Vec<Message>>) -> Result<(L, M), Vec<Message>> {
    match (lex, map) {
        (Ok(lex), Ok(map)) => Ok((lex, map)),
        (lex, map) => Err([lex.err(), map.err()].into_iter().flatten().flatten().collect()),
    }
}

fn source(path: &Path, most: usize) -> Result<Source, Vec<Message>> {
    let name = visible(&path.to_string_lossy());
    Source::read(path, most).map_err(|error| vec![Message::of_file(&name, error.to_string())])
}

/// Parses the file and compiles its patterns.
fn parse(lex: &Source, options: &Options) -> Result<(Sheet, Vec<Regex>), Vec<Message>> {
    let mut patterns = vec![];
    let mut refused_pattern = None;
    let mut room = PATTERN_ROOM;
    let parsed = LexFile::new(&lex.bytes).with_flags(options.flags()).parse_judged(|_, pattern| {
        match compile_within(&mut room, pattern) {
            Ok(compiled) => {
                patterns.push(compiled);
                true
            }
            Err(error) => {
                // the parse ends at the first one
                refused_pattern.get_or_insert(error);
                false
            }
        }
    });
    match parsed {
        Ok(sheet) => Ok((sheet, patterns)),
        Err(Refusal::FaultyFile(faults)) => {
            let engine = refused_pattern.map(words);
            Err(faults.iter().map(|fault| faulty(lex, fault, engine.as_deref(), options)).collect())
        }
        Err(refusal) => Err(vec![refused(lex, &refusal)]),
    }
}

/// How many bytes the patterns of a file may take together: without a limit 2,048 of them would take all memory.
const PATTERN_ROOM: usize = 268_435_456;
/// How many bytes a pattern is given, one after the other until it is compiled; the last is what the engine gives by itself.
const PATTERN_SIZES: [usize; 5] = [65_536, 262_144, 1_048_576, 4_194_304, 10_485_760];
/// How many bytes the engine may keep of each pattern while it matches, twice.
const CACHE_SIZE: usize = 65_536;

/// Compiles a pattern in what is left of the room.
fn compile_within(room: &mut usize, pattern: &str) -> Result<Regex, regex::Error> {
    let mut compiled = Err(regex::Error::CompiledTooBig(0));
    for size in PATTERN_SIZES.map(|size| size.min(*room)) {
        compiled = compile(pattern, size);
        match compiled {
            Err(regex::Error::CompiledTooBig(_)) => {}
            Err(_) => break,
            Ok(_) => {
                *room -= size;
                break;
            }
        }
    }
    compiled
}

/// The engine's words, and where there is no room the limit that is not the engine's.
fn words(error: regex::Error) -> String {
    match error {
        regex::Error::CompiledTooBig(_) => {
            format!("{error}\nThe patterns of a file may take {} bytes together.", grouped(PATTERN_ROOM))
        }
        _ => error.to_string(),
    }
}

/// As lrlex compiles a pattern, in so many bytes.
fn compile(pattern: &str, size: usize) -> Result<Regex, regex::Error> {
    let mut builder = RegexBuilder::new(&format!("\\A(?:{pattern})"));
    builder.octal(true).multi_line(true).dot_matches_new_line(true).size_limit(size).dfa_size_limit(CACHE_SIZE).build()
}

/// A fault with every place that it has: that of a repeat, then that of the first time, then those of further repeats.
fn faulty(lex: &Source, fault: &Fault, engine: Option<&str>, options: &Options) -> Message {
    let kind = fault.kind;
    let mut spans =
        fault.spans.iter().map(|span| if kind == FaultKind::DuplicateName { name(lex, span) } else { span.clone() });
    let (first, again) = (spans.next().unwrap_or_default(), spans.next());
    let place = again.clone().unwrap_or(first.clone());
    let engine = engine.filter(|_| kind == FaultKind::RegexError).map(visible_lines);
    let mut message = Message::at(Level::Error, lex, &place, kind.words());
    message = message.with_kind(kind.number(), kind.name()).with_engine(engine);
    if again.is_some() {
        message = message.with_note(Message::at(Level::Note, lex, &first, "first here"));
    }
    for span in spans {
        message = message.with_note(Message::at(Level::Note, lex, &span, "and here once more"));
    }
    if options.flags & FLAG_COMMENTS == 0 && is_in_comment(lex, &place) {
        message = message.with_note(Message::hint("with --comments, // skips a line"));
    }
    message
}

fn is_in_comment(lex: &Source, place: &Range<usize>) -> bool {
    let (left, right) = lex.line(place.start);
    [left, right].concat().trim_start().starts_with("//")
}

/// Where a rule's name itself stands, of which grmtools has a span: behind a target it is as if there were none.
fn name(lex: &Source, span: &Range<usize>) -> Range<usize> {
    // the byte before the span is taken for the name's quote; where there is a target it is its `<`
    let text = span.start.checked_sub(1).and_then(|quote| lex.text.get(quote..));
    let target = text.and_then(|text| text.strip_prefix('<')).and_then(|text| text.find('>'));
    let shift = target.map_or(0, |at| at + 2);
    span.start + shift..span.end + shift
}

/// What the engine says, in lines that can be read: it repeats the pattern, which may be long.
fn visible_lines(text: &str) -> String {
    text.lines().map(|line| visible(&shortened(line))).collect::<Vec<_>>().join("\n")
}

/// A file that the library refuses by a number.
fn refused(source: &Source, refusal: &Refusal) -> Message {
    let (number, area) = (refusal.number(), if let Refusal::AreaFull(area) = refusal { Some(*area) } else { None });
    let words = match area {
        Some(area) => format!("{refusal} (area {area})"),
        None => refusal.to_string(),
    };
    let message = match (refusal, source.invalid_utf8()) {
        (Refusal::UnknownFlag, _) => Message::error(words),
        (Refusal::InvalidUtf8, Some(place)) => Message::at(Level::Error, source, &place, words),
        _ => Message::of_file(&source.name, words),
    };
    message.with_number(number, area)
}

/// Rules whose names the map does not have, but for those that the file expects to be missing.
fn unmapped(lex: &Source, sheet: &Sheet, linked: &Linked) -> Vec<Message> {
    let expected: Vec<_> = sheet.expected_names().collect();
    let rules = linked.unmapped.iter().filter_map(|position| sheet.rule(*position));
    let named = rules.filter_map(|rule| Some((rule.name?, rule.name_range)));
    let missing = named.filter(|(name, _)| !expected.contains(name));
    let told = missing.map(|(name, range)| {
        let words = format!("rule {} is not in the map", visible(&name));
        Message::at(Level::Error, lex, &range, words).with_name(&name)
    });
    let mut messages: Vec<_> = told.collect();
    if let Some(last) = messages.pop() {
        messages.push(last.with_note(Message::hint("a rule that may be missing is named in %expect-missing")));
    }
    messages
}

/// Entries of the map that no rule names.
fn unused(map: &Source, file: &MapFile, linked: &Linked) -> Vec<Message> {
    let entries =
        linked.unused.iter().filter_map(|number| Some((file.map.entry(*number)?.0, file.names.get(*number)?)));
    let told = entries.map(|(name, span)| {
        let words = format!("no rule has the name {}", visible(&name));
        Message::at(Level::Warning, map, span, words).with_name(&name)
    });
    told.collect()
}

#[cfg(test)]
mod tests {
    use super::*;
    use crate::paint::Paint;

    fn messages(text: &str, flags: u64) -> String {
        let options = Options { flags, ..Options::default() };
        let messages = parse(&Source::new("f", text.as_bytes().to_vec()), &options).err().unwrap_or_default();
        messages.iter().map(|message| message.lines(Paint { on: false })).collect()
    }

    #[test]
    fn every_repeat_of_a_name_is_told_where_the_name_stands() {
        let text = "%x S\n%%\na 'N'\nb <+S>'N'\ncc <-S>'N'\n";
        let lines = "f:4:8: error: another rule has this name already\n    b <+S>'N'\n           ^\n\
                     f:3:4: note: first here\n    a 'N'\n       ^\n\
                     f:5:9: note: and here once more\n    cc <-S>'N'\n            ^\n";
        assert_eq!(messages(text, 0), lines);
        // a first name behind a target, and none
        let text = "%x S\n%%\nb <S>'N'\na 'N'\n";
        assert!(messages(text, 0).ends_with("f:3:7: note: first here\n    b <S>'N'\n          ^\n"));
    }

    #[test]
    fn the_engines_words_are_told() {
        let lines = messages("%%\na 'A'\n(b 'B'\n", 0);
        assert!(
            lines.starts_with("f:3:1: error: the regex engine refuses this pattern\n    (b 'B'\n    ^\n    regex ")
        );
        assert!(lines.ends_with("error: unclosed group\n"));
    }

    #[test]
    fn patterns_share_their_room() {
        let mut room = 1_114_112;
        let mut left = |pattern| compile_within(&mut room, pattern).map(|_| room).map_err(words);
        assert_eq!(left("[a-z]+"), Ok(1_048_576));
        assert_eq!(left(r"\w{9}"), Ok(0));
        let told = "Compiled regex exceeds size limit of 0 bytes.\nThe patterns of a file may take 268,435,456 bytes together.";
        assert_eq!(left("[a-z]+"), Err(told.to_string()));
        let most = "%%\n".to_string() + &"[a-z]+ ;\n".repeat(2_048);
        assert_eq!(messages(&most, 0), "");
    }

    #[test]
    fn a_comment_without_its_flag_has_a_hint() {
        let text = "// bets\n%%\na 'A'\n";
        let hint = "note: with --comments, // skips a line\n";
        assert_eq!(messages(text, 0), format!("f:1:1: error: unknown declaration\n    // bets\n    ^\n{hint}"));
        assert_eq!(messages(text, 1), "");
        let long = format!("%%\n// {}bets\n", "long ".repeat(40));
        assert!(messages(&long, 0).ends_with(&format!("    ^\n{hint}")));
    }

    #[test]
    fn flags_are_refused_by_their_number() {
        assert_eq!(messages("%%\n", 4), "terminal: error: stray flag (2): the flags are above 3\n");
    }
}
