//! The command line.

use std::ffi::{OsStr, OsString};
use std::os::unix::ffi::{OsStrExt, OsStringExt};
use std::path::PathBuf;
use troymantle::numbers::{FLAG_COMMENTS, FLAG_POSIX_ESCAPES};
use troymantle::{Caller, Flags};

pub const HELP: &str = include_str!("help.txt");

/// What the command line asks for.
#[derive(Debug, PartialEq, Eq)]
pub enum Command {
    Help,
    Version,
    Run(Options),
}

#[derive(Debug, Default, PartialEq, Eq)]
pub struct Options {
    /// The lex file and the map file; none for the worked example.
    pub files: Option<(PathBuf, PathBuf)>,
    /// What the parse is given; it refuses what it does not know.
    pub flags: u64,
    /// Entries of the command line. Where there are none, standard input is read.
    pub entries: Vec<Vec<u8>>,
    /// Whether they are typed at a kiosk.
    pub kiosk: bool,
    pub json: bool,
    pub color: Color,
}

#[derive(Clone, Copy, Debug, Default, PartialEq, Eq)]
pub enum Color {
    Always,
    Never,
    #[default]
    Auto,
}

impl Options {
    pub fn flags(&self) -> Flags {
        Flags::from_number(self.flags)
    }

    pub fn caller(&self) -> Caller {
        if self.kiosk { Caller::Kiosk } else { Caller::Seller }
    }
}

/// Whether messages about the command line itself are to be JSON: it may be wrong before or behind `--json`.
pub fn asks_for_json(arguments: &[OsString]) -> bool {
    arguments.iter().take_while(|word| *word != "--").any(|word| word == "--json")
}

/// Reads the command line, without the program's name.
pub fn read(arguments: Vec<OsString>) -> Result<Command, String> {
    let mut words = arguments.into_iter();
    let mut options = Options::default();
    let mut files = vec![];
    let mut demo = false;
    while let Some(word) = words.next() {
        let (name, given) = name_and_value(&word);
        match name {
            "--help" | "-h" | "--version" | "--demo" | "--kiosk" | "--comments" | "--posix-escapes" | "--json"
                if given.is_some() =>
            {
                return Err(format!("{name} takes no value"));
            }
            "--help" | "-h" => return Ok(Command::Help),
            "--version" => return Ok(Command::Version),
            "--demo" => demo = true,
            "--kiosk" => options.kiosk = true,
            "--comments" => options.flags |= FLAG_COMMENTS,
            "--posix-escapes" => options.flags |= FLAG_POSIX_ESCAPES,
            "--json" => options.json = true,
            "--flags" => options.flags |= flags(&value(name, given, &mut words)?)?,
            "--color" => options.color = color(&value(name, given, &mut words)?)?,
            "--entry" => options.entries.push(value(name, given, &mut words)?.into_vec()),
            "--" => files.extend(words.by_ref().map(PathBuf::from)),
            _ if is_option(&word) => return Err(format!("there is no option {}", word.to_string_lossy())),
            _ => files.push(PathBuf::from(word)),
        }
    }
    options.files = two_files(files, demo)?;
    // the worked example has comments
    options.flags |= if demo { FLAG_COMMENTS } else { 0 };
    Ok(Command::Run(options))
}

/// A lone `-` is a file's name.
fn is_option(word: &OsStr) -> bool {
    word.len() > 1 && word.as_bytes().starts_with(b"-")
}

/// The two parts of `--name=value`, or the word alone. A value need not be UTF-8; another word that is not is unknown.
fn name_and_value(word: &OsStr) -> (&str, Option<OsString>) {
    let mut parts = word.as_bytes().splitn(2, |byte| *byte == b'=');
    match (parts.next(), parts.next()) {
        (Some(name), Some(value)) if name.starts_with(b"--") => {
            (std::str::from_utf8(name).unwrap_or_default(), Some(OsStr::from_bytes(value).to_os_string()))
        }
        _ => (word.to_str().unwrap_or_default(), None),
    }
}

fn value(name: &str, given: Option<OsString>, words: &mut impl Iterator<Item = OsString>) -> Result<OsString, String> {
    given.or_else(|| words.next()).ok_or_else(|| format!("{name} needs a value behind it"))
}

/// A number of flags; the parse judges it. One that 64 bits do not hold is as wrong as the greatest that they do.
fn flags(value: &OsStr) -> Result<u64, String> {
    match value.to_str() {
        Some(digits) if !digits.is_empty() && digits.bytes().all(|byte| byte.is_ascii_digit()) => {
            Ok(digits.parse().unwrap_or(u64::MAX))
        }
        _ => Err(format!("--flags needs a number from 0 to 3, and {} is none", value.to_string_lossy())),
    }
}

fn color(value: &OsStr) -> Result<Color, String> {
    match value.to_str() {
        Some("always") => Ok(Color::Always),
        Some("never") => Ok(Color::Never),
        Some("auto") => Ok(Color::Auto),
        _ => Err(format!("--color needs always, never or auto, and {} is none", value.to_string_lossy())),
    }
}

fn two_files(files: Vec<PathBuf>, demo: bool) -> Result<Option<(PathBuf, PathBuf)>, String> {
    let mut files = files.into_iter();
    match (files.next(), files.next(), files.next()) {
        (None, _, _) if demo => Ok(None),
        _ if demo => Err("--demo takes the place of LEX and MAP".to_string()),
        (Some(lex), Some(map), None) => Ok(Some((lex, map))),
        (None, ..) => Err("a lex file and a map file are needed".to_string()),
        (Some(_), None, _) => Err("a map file is needed behind the lex file".to_string()),
        (.., Some(third)) => Err(format!("LEX and MAP are all, and {} is more", third.display())),
    }
}

#[cfg(test)]
mod tests {
    use super::*;

    fn run(line: &[&str]) -> Result<Command, String> {
        read(line.iter().map(OsString::from).collect())
    }

    fn options(line: &[&str]) -> Options {
        match run(line) {
            Ok(Command::Run(options)) => options,
            other => panic!("{other:?}"),
        }
    }

    #[test]
    fn options_stand_anywhere() {
        let read = options(&["--json", "a", "--entry", "--x", "b", "--entry=y=z", "--flags=2", "--comments"]);
        assert_eq!(read.files, Some(("a".into(), "b".into())));
        assert_eq!(read.entries, [b"--x".to_vec(), b"y=z".to_vec()]);
        assert_eq!((read.flags, read.json, read.color), (3, true, Color::Auto));
        assert_eq!(options(&["--color", "never", "--", "-", "--json"]).files, Some(("-".into(), "--json".into())));
        assert_eq!(options(&["--demo"]), Options { flags: 1, ..Options::default() });
    }

    #[test]
    fn entries_are_a_sellers_or_a_kiosks() {
        assert_eq!(options(&["a", "b"]).caller(), Caller::Seller);
        assert_eq!(options(&["a", "--kiosk", "b"]).caller(), Caller::Kiosk);
        assert_eq!(run(&["--kiosk=1", "a", "b"]), Err("--kiosk takes no value".to_string()));
    }

    #[test]
    fn help_and_version_need_no_files() {
        assert_eq!(run(&["--help"]), Ok(Command::Help));
        assert_eq!(run(&["a", "--version", "--unknown"]), Ok(Command::Version));
    }

    #[test]
    fn wrong_words_are_told() {
        assert_eq!(run(&["--jsno", "a", "b"]), Err("there is no option --jsno".to_string()));
        assert_eq!(run(&["--json=1", "a", "b"]), Err("--json takes no value".to_string()));
        assert_eq!(run(&["a", "b", "--entry"]), Err("--entry needs a value behind it".to_string()));
        assert_eq!(
            run(&["a", "b", "--flags", "x"]),
            Err("--flags needs a number from 0 to 3, and x is none".to_string())
        );
        assert_eq!(
            run(&["a", "b", "--color=red"]),
            Err("--color needs always, never or auto, and red is none".to_string())
        );
        assert_eq!(run(&[]), Err("a lex file and a map file are needed".to_string()));
        assert_eq!(run(&["a"]), Err("a map file is needed behind the lex file".to_string()));
        assert_eq!(run(&["a", "b", "c"]), Err("LEX and MAP are all, and c is more".to_string()));
        assert_eq!(run(&["--demo", "a", "b"]), Err("--demo takes the place of LEX and MAP".to_string()));
    }

    #[test]
    fn flags_are_for_the_parse_to_judge() {
        assert_eq!(options(&["a", "b", "--flags", "4"]).flags, 4);
        assert_eq!(options(&["a", "b", "--flags", "99999999999999999999999"]).flags, u64::MAX);
    }

    #[test]
    fn entries_need_not_be_utf8() {
        let words = ["a", "b", "--entry"].map(OsString::from);
        let joined = OsString::from_vec(b"--entry=\xff=".to_vec());
        let Ok(Command::Run(options)) = read([&words[..], &[OsString::from_vec(vec![0xfe]), joined]].concat()) else {
            panic!("the entries are not read");
        };
        assert_eq!(options.entries, [b"\xfe".to_vec(), b"\xff=".to_vec()]);
    }

    #[test]
    fn json_is_seen_wherever_it_stands() {
        let words = |line: &[&str]| line.iter().map(OsString::from).collect::<Vec<_>>();
        assert!(asks_for_json(&words(&["--wrong", "--json"])));
        assert!(!asks_for_json(&words(&["--wrong", "--", "--json"])));
    }

    #[test]
    fn the_help_fits_and_has_every_option() {
        assert!(HELP.lines().all(|line| line.chars().count() <= 80));
        let all = [
            "--entry",
            "--demo",
            "--kiosk",
            "--comments",
            "--posix-escapes",
            "--flags",
            "--json",
            "--color",
            "--help",
            "--version",
        ];
        assert!(all.iter().all(|option| HELP.contains(option)));
    }
}
