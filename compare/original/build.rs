//! Finds the original Rust and cuts from it the items that can be compiled without the files that are missing.
//! The cut text goes to cargo's output directory; none of it is kept in the repository.

use std::path::{Path, PathBuf};
use std::{env, fs, process};

const VARIABLE: &str = "TROYMANTLE_RUST_SOURCE";

const PARSER: &str = "lrlex/src/lib/parser.rs";
const LEXER: &str = "lrlex/src/lib/lexer.rs";
const ROOT: &str = "lrlex/src/lib/mod.rs";
const DEFAULTS: &str = "lrlex/src/lib/defaults.rs";
const SPAN: &str = "cfgrammar/src/lib/span.rs";
const NEWLINES: &str = "cfgrammar/src/lib/newlinecache.rs";
const HEADER: &str = "cfgrammar/src/lib/header.rs";
const YACC: &str = "cfgrammar/src/lib/yacc/parser.rs";

/// Files that are compiled whole, and the variable through which `src/lib.rs` includes each.
const WHOLE: [(&str, &str); 4] = [
    ("ORIGINAL_PARSER", PARSER),
    ("ORIGINAL_DEFAULTS", DEFAULTS),
    ("ORIGINAL_SPAN", SPAN),
    ("ORIGINAL_NEWLINES", NEWLINES),
];

/// The methods below are cut out of two impl blocks that also hold methods which need missing files.
const DEFINITION_IMPL: &str = "impl<StorageT, LexerTypesT> LRNonStreamingLexerDef<LexerTypesT>\n\
    where\n\
    StorageT: 'static + Debug + Hash + PrimInt + Unsigned + TryFrom<usize>,\n\
    LexerTypesT: LexerTypes<StorageT = StorageT>,\n\
    usize: AsPrimitive<StorageT>,\n\
    {";

fn main() {
    println!("cargo:rerun-if-env-changed={VARIABLE}");
    println!("cargo:rerun-if-changed=build.rs");
    let directory = source_directory();
    for (variable, file) in WHOLE {
        let path = directory.join(file);
        read(&path);
        println!("cargo:rustc-env={variable}={}", path.display());
    }
    println!("cargo:rustc-env=ORIGINAL_ENGINE=regex {}", regex_version());
    write("root.rs", &root_items(&directory));
    write("lexer.rs", &lexer_items(&directory));
    write("header.rs", &cut(&directory, HEADER, &["pub enum HeaderErrorKind {"]));
    write("yacc_parser.rs", &cut(&directory, YACC, &["pub enum SpansKind {"]));
}

/// The version of the regex crate that was built, from the workspace's lock file.
fn regex_version() -> String {
    let lock = read(&manifest_directory().join("../Cargo.lock"));
    let mut lines = lock.lines().skip_while(|line| *line != "name = \"regex\"").skip(1);
    let version = lines.next().and_then(|line| line.strip_prefix("version = \"")?.strip_suffix('"'));
    version.unwrap_or_else(|| refuse("Cargo.lock does not name the version of regex.")).to_string()
}

fn root_items(directory: &Path) -> String {
    cut(
        directory,
        ROOT,
        &[
            "pub type LexBuildResult<T> = Result<T, Vec<LexBuildError>>;",
            "pub struct LexBuildError {",
            "pub enum LexErrorKind {",
            "impl LexErrorKind {",
            "pub struct StartStateId {",
            "impl StartStateId {",
            "pub struct LRLexError {",
            "impl lrpar::LexError for LRLexError {",
            "impl LRLexError {",
            "pub mod unstable_api {",
        ],
    )
}

fn lexer_items(directory: &Path) -> String {
    let items = cut(
        directory,
        LEXER,
        &[
            "pub struct LexFlags {",
            "pub const DEFAULT_LEX_FLAGS: LexFlags = LexFlags {",
            "pub struct Rule<StorageT> {",
            "impl<StorageT: PrimInt> Rule<StorageT> {",
            "pub struct LRNonStreamingLexerDef<LexerTypesT: LexerTypes>",
            "pub struct LRNonStreamingLexer<'lexer, 'input: 'lexer, LexerTypesT: LexerTypes>",
            "> LRNonStreamingLexer<'lexer, 'input, LexerTypesT>",
        ],
    );
    let methods = cut(
        directory,
        LEXER,
        &[
            "    fn from_rules(",
            "    fn get_rule(&self, idx: usize) -> Option<&Rule<LexerTypesT::StorageT>> {",
            "    fn set_rule_ids_spanned<'a>(",
            "    fn iter_rules(&self) -> Iter<'_, Rule<LexerTypesT::StorageT>> {",
            "    pub fn lexer<'lexer, 'input: 'lexer>(",
            "    fn state_matches(state: &StartState, rule_states: &[usize]) -> bool {",
            "    fn get_start_state_by_id(&self, id: usize) -> Option<&StartState> {",
        ],
    );
    format!("{items}\n{DEFINITION_IMPL}\n{methods}\n}}\n")
}

fn manifest_directory() -> PathBuf {
    PathBuf::from(env::var("CARGO_MANIFEST_DIR").expect("cargo sets CARGO_MANIFEST_DIR"))
}

fn source_directory() -> PathBuf {
    let directory = match env::var_os(VARIABLE) {
        Some(named) => PathBuf::from(named),
        None => manifest_directory().join("../../../shared/docs/src"),
    };
    if !directory.join(PARSER).is_file() {
        refuse(&format!(
            "The original Rust is not there: {} has no {PARSER}. Put its files at ../shared/docs/src beside the repository, or name their directory in {VARIABLE}.",
            directory.display()
        ));
    }
    directory.canonicalize().unwrap_or(directory)
}

fn read(path: &Path) -> String {
    println!("cargo:rerun-if-changed={}", path.display());
    fs::read_to_string(path).unwrap_or_else(|error| refuse(&format!("{} cannot be read: {error}.", path.display())))
}

fn write(name: &str, text: &str) {
    let directory = PathBuf::from(env::var("OUT_DIR").expect("cargo sets OUT_DIR"));
    fs::write(directory.join(name), text).expect("cargo's output directory can be written");
}

fn refuse(message: &str) -> ! {
    eprintln!("{message}");
    process::exit(1)
}

fn cut(directory: &Path, file: &str, markers: &[&str]) -> String {
    let text = read(&directory.join(file));
    let lines: Vec<&str> = text.lines().collect();
    let items: Vec<String> = markers.iter().map(|marker| cut_item(&lines, marker, file)).collect();
    items.join("\n\n")
}

/// The item whose line is the marker: from its attributes to the closing brace at its own indentation.
/// A trait's declaration of a method has the same first line as the method; it ends in `;` and is passed over.
fn cut_item(lines: &[&str], marker: &str, file: &str) -> String {
    let found: Vec<(usize, usize)> = lines
        .iter()
        .enumerate()
        .filter(|(_, line)| **line == marker)
        .filter_map(|(at, _)| item_end(lines, at).map(|end| (item_start(lines, at), end)))
        .collect();
    match found[..] {
        [(start, end)] => lines[start..=end].join("\n"),
        _ => refuse(&format!(
            "{file} is not the file that this comparison was written for: the line `{marker}` starts {} items in it, not 1.",
            found.len()
        )),
    }
}

fn item_start(lines: &[&str], marker: usize) -> usize {
    // `> Type {` ends the head of an impl that starts lines before it
    let mut start = marker;
    if lines[marker].starts_with('>') {
        while start > 0 && lines[start] != "impl<" {
            start -= 1;
        }
    }
    while start > 0 && ["#[", "///"].iter().any(|mark| lines[start - 1].trim_start().starts_with(mark)) {
        start -= 1;
    }
    start
}

fn item_end(lines: &[&str], marker: usize) -> Option<usize> {
    let line = lines[marker];
    if line.ends_with(';') {
        return Some(marker);
    }
    let indentation = &line[..line.len() - line.trim_start().len()];
    for (end, line) in lines.iter().enumerate().skip(marker) {
        let Some(rest) = line.strip_prefix(indentation) else { continue };
        if rest.starts_with(')') && rest.ends_with(';') {
            return None;
        }
        if rest == "}" || rest == "};" {
            return Some(end);
        }
    }
    None
}
