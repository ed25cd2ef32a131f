//! The arguments of a command: options, which are pairs of name and value, and words where the command takes some.

use crate::generators::{self, Generator};
use std::path::{Path, PathBuf};

#[derive(Debug)]
pub struct Options {
    pairs: Vec<(String, String)>,
    pub words: Vec<String>,
}

impl Options {
    pub fn read(arguments: &[String], known: &[&str]) -> Result<Options, String> {
        let options = Options::read_with_words(arguments, known)?;
        match options.words.first() {
            Some(word) => Err(unknown(word)),
            None => Ok(options),
        }
    }

    pub fn read_with_words(arguments: &[String], known: &[&str]) -> Result<Options, String> {
        let mut options = Options { pairs: vec![], words: vec![] };
        let mut rest = arguments.iter();
        while let Some(argument) = rest.next() {
            if !argument.starts_with('-') {
                options.words.push(argument.clone());
                continue;
            }
            if !known.contains(&argument.as_str()) {
                return Err(unknown(argument));
            }
            let value = rest.next().ok_or_else(|| format!("`{argument}` needs a value."))?;
            options.pairs.push((argument.clone(), value.clone()));
        }
        Ok(options)
    }

    fn value(&self, name: &str) -> Option<&str> {
        self.pairs.iter().find(|(given, _)| given == name).map(|(_, value)| value.as_str())
    }

    pub fn number(&self, name: &str, default: u64) -> Result<u64, String> {
        match self.value(name) {
            None => Ok(default),
            Some(value) => value.replace(',', "").parse().map_err(|_| format!("{name} wants a number, not `{value}`.")),
        }
    }

    pub fn path(&self, name: &str) -> Option<PathBuf> {
        self.value(name).map(PathBuf::from)
    }

    /// The file of recorded answers.
    pub fn answers(&self, name: &str) -> PathBuf {
        self.path(name).unwrap_or_else(|| repository().join("crates/replay/data/answers"))
    }

    pub fn generator(&self) -> Result<Generator, String> {
        let wanted = self.value("--generator").unwrap_or("mix");
        let found = generators::NAMES.iter().find(|(name, ..)| *name == wanted);
        found.map(|(_, generator, _)| *generator).ok_or_else(|| format!("There is no generator `{wanted}`."))
    }
}

fn unknown(argument: &str) -> String {
    format!("There is no option `{argument}` here; `compare --help` lists them.")
}

pub fn repository() -> &'static Path {
    Path::new(env!("CARGO_MANIFEST_DIR")).parent().unwrap_or(Path::new(""))
}

#[cfg(test)]
mod tests {
    use super::*;

    fn arguments(words: &str) -> Vec<String> {
        words.split_whitespace().map(str::to_string).collect()
    }

    fn read(words: &str) -> Result<Options, String> {
        Options::read(&arguments(words), &["--cases", "--seed"])
    }

    #[test]
    fn options_are_pairs_of_a_known_name_and_a_value() {
        let options = read("--cases 10,000").unwrap_or_else(|told| panic!("{told}"));
        assert_eq!(options.number("--cases", 1), Ok(10_000));
        assert_eq!(options.number("--seed", 1), Ok(1));
        assert!(read("--cases").is_err());
        assert!(read("--first 1").is_err());
        assert!(read("-h").is_err());
        assert!(read("cases 1").is_err());
        assert!(read("--seed x").is_ok_and(|options| options.number("--seed", 1).is_err()));
    }

    #[test]
    fn words_may_stand_before_and_behind_options() {
        let options = Options::read_with_words(&arguments("step --before a.a link"), &["--before"]);
        let options = options.unwrap_or_else(|told| panic!("{told}"));
        assert_eq!(options.words, ["step", "link"]);
        assert_eq!(options.path("--before"), Some(PathBuf::from("a.a")));
        assert_eq!(options.path("--library"), None);
        let told = Options::read_with_words(&arguments("step --layout 3"), &["--layouts"]);
        assert!(told.is_err_and(|told| told.contains("`--layout`")));
    }
}
