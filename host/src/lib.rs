//! Lex files that end on every input.
//!
//! A lex file says what each stroke of a seller's shorthand means. This crate reads lex files as grmtools' lrlex does, gives
//! their rules token ids, and runs them over what is typed. It is a safe face of the library Troymantle, in which every
//! function is proved to meet its contract: each call ends on every input, refuses bad input by number, and otherwise gives
//! exactly what the specification says.
//!
//! The library matches no patterns: the host's regex engine does. So a host
//!
//! 1. parses a file ([`LexFile`]) and asks its engine which patterns it takes,
//! 2. links the [`Sheet`] to a [`Map`] of names and token ids,
//! 3. starts a [`Run`] over an entry of a [`Caller`], which is UTF-8, and at each place hands the step a [`Row`]: how many bytes
//!    each pattern matches there, whole characters.
//!
//! ```
//! use regex::Regex;
//! use troymantle::{Caller, LexFile, Map, Row, Step};
//!
//! # fn main() -> Result<(), Box<dyn std::error::Error>> {
//! let file = "%%\n[0-9]+ 'NUMBER'\nwin 'WIN'\n[ ]+ ;\n";
//!
//! // parse, with every pattern compiled by the engine, anchored at the place where it is tried
//! let mut patterns = vec![];
//! let mut sheet = LexFile::new(file).parse_judged(|_, pattern| {
//!     let compiled = Regex::new(&format!(r"\A(?:{pattern})"));
//!     let taken = compiled.is_ok();
//!     patterns.extend(compiled);
//!     taken
//! })?;
//!
//! // link
//! let map = Map::of([("NUMBER", 7), ("WIN", 8)])?;
//! let linked = sheet.link(&map)?;
//! assert!(linked.unmapped.is_empty());
//!
//! // run
//! let entry = "win 12";
//! let mut tokens = vec![];
//! let mut run = sheet.start(Caller::Seller, entry)?;
//! loop {
//!     let rest = &entry[run.position()..];
//!     let at_start = |pattern: &Regex| pattern.find(rest).filter(|found| found.start() == 0);
//!     let row: Row = patterns.iter().map(|pattern| at_start(pattern).map_or(0, |found| found.end())).collect();
//!     match run.step(&row)? {
//!         Step::Token { id, range } => tokens.push((id, &entry[range])),
//!         Step::Skip { .. } => {}
//!         Step::Done => break,
//!         Step::Stopped | Step::Unlinked => return Err("nothing matches here".into()),
//!     }
//! }
//! assert_eq!(tokens, [(8, "win"), (7, "12")]);
//! # Ok(())
//! # }
//! ```
//!
//! A call that is refused answers a [`Refusal`] and changes nothing; the faults of a file are [`Fault`]s, each with the
//! [`Place`] that an editor shows. No input makes this crate panic.

mod caller;
mod calls;
mod fault;
mod lex_file;
mod map;
pub mod numbers;
mod place;
mod records;
mod refusal;
mod run;
mod sheet;

pub use caller::Caller;
pub use fault::{Fault, FaultKind};
pub use lex_file::{Flags, LexFile};
pub use map::{Map, NamesTooLong};
pub use place::Place;
pub use refusal::Refusal;
pub use run::{Row, Run, Step};
pub use sheet::{Linked, Operation, Parts, Rule, Sheet, State};

/// The program on the repository's first page.
#[cfg(doctest)]
#[doc = include_str!("../../README.md")]
struct FirstPage;

/// The programs for whoever writes a host.
#[cfg(doctest)]
#[doc = include_str!("../../docs/HOST.md")]
struct HostPage;
