//! Entries, one after the other.

use crate::entries::{Entry, next_line};
use crate::lexer::{End, Lexer};
use crate::load::Loaded;
use crate::options::Options;
use crate::output::{Failure, Output};
use crate::paint::Style;
use crate::show::{self, Columns};
use crate::source::grouped;
use std::io::{self, IsTerminal, StdinLock, Write};

const PROMPT: &str = "> ";

/// Where entries come from, and how they are asked for.
struct Session<'a> {
    given: std::slice::Iter<'a, Vec<u8>>,
    input: Option<StdinLock<'static>>,
    prompt: Prompt,
}

/// Where a prompt is written.
#[derive(Clone, Copy, PartialEq, Eq)]
enum Prompt {
    /// Nowhere: nobody types.
    None,
    /// On standard output, among the results.
    Output,
    /// On standard error: the results go elsewhere.
    Message,
}

/// How many entries ended in which way.
#[derive(Default)]
struct Counts {
    all: usize,
    done: usize,
    stopped: usize,
    unlinked: usize,
    refused: usize,
}

/// Reads every entry. `stopped` is set where one is not read to its end.
pub fn run(options: &Options, loaded: &Loaded, output: &mut Output, stopped: &mut bool) -> Result<(), Failure> {
    let lexer = Lexer::new(loaded, options.caller());
    let columns = Columns::new(&lexer);
    let mut session = Session::new(options);
    let mut counts = Counts::default();
    loaded.warnings.iter().try_for_each(|warning| output.message(warning))?;
    session.greet(&lexer, loaded, output)?;
    while let Some(entry) = session.next(output)? {
        let reading = lexer.read(&entry);
        counts.add(&reading.end);
        *stopped |= reading.end != End::Done;
        let paint = output.paint;
        output.write(|mut out| {
            if options.json {
                return show::objects(&mut out, &lexer, counts.all, &entry, &reading);
            }
            if session.prompt != Prompt::Output {
                writeln!(out, "{}{}", paint.paint(Style::Bold, PROMPT), show::echo(&lexer, &entry))?;
            }
            show::lines(&mut out, &lexer, &columns, paint, &entry, &reading)
        })?;
        output.flush()?;
    }
    if counts.all > 1 && session.prompt == Prompt::None && !options.json {
        output.write(|out| writeln!(out, "{}", counts.words()))?;
    }
    output.flush()
}

impl<'a> Session<'a> {
    fn new(options: &'a Options) -> Session<'a> {
        let input = if options.entries.is_empty() { Some(io::stdin().lock()) } else { None };
        let prompt = match &input {
            Some(stdin) if stdin.is_terminal() && !options.json && io::stdout().is_terminal() => Prompt::Output,
            Some(stdin) if stdin.is_terminal() => Prompt::Message,
            _ => Prompt::None,
        };
        Session { given: options.entries.iter(), input, prompt }
    }

    /// Says to whoever types what was loaded.
    fn greet(&self, lexer: &Lexer, loaded: &Loaded, output: &mut Output) -> Result<(), Failure> {
        if self.prompt != Prompt::Output {
            return Ok(());
        }
        let (states, rules) = (counted(lexer.states.len(), "state"), counted(lexer.rules.len(), "rule"));
        let Loaded { name, sample, .. } = loaded;
        output.write(|out| writeln!(out, "{name}: {states}, {rules}. Type an entry{sample} and Enter; Ctrl-D ends."))
    }

    /// The next entry, if there is one; whoever types is asked for it.
    fn next(&mut self, output: &mut Output) -> Result<Option<Entry>, Failure> {
        let Some(input) = &mut self.input else {
            return Ok(self.given.next().map(|bytes| Entry::new(bytes.clone())));
        };
        ask(self.prompt, PROMPT, output)?;
        let read = next_line(input);
        let entry = read.map_err(|error| Failure::Input(format!("standard input cannot be read: {error}")))?;
        if entry.is_none() {
            // the prompt's line is still open
            ask(self.prompt, "\n", output)?;
        }
        Ok(entry)
    }
}

fn ask(prompt: Prompt, text: &str, output: &mut Output) -> Result<(), Failure> {
    let painted = output.paint.paint(Style::Bold, text);
    match prompt {
        Prompt::None => Ok(()),
        Prompt::Output => {
            output.write(|out| out.write_all(painted.as_bytes()))?;
            output.flush()
        }
        Prompt::Message => {
            output.flush()?;
            // where standard error cannot be written there is nobody to ask
            let _ = io::stderr().write_all(text.as_bytes());
            Ok(())
        }
    }
}

impl Counts {
    fn add(&mut self, end: &End) {
        self.all += 1;
        *match end {
            End::Done => &mut self.done,
            End::Stopped => &mut self.stopped,
            End::Unlinked(..) => &mut self.unlinked,
            End::Refused(_) => &mut self.refused,
        } += 1;
    }

    /// `12 entries: 9 done, 2 stopped, 1 refused`.
    fn words(&self) -> String {
        let ways =
            [(self.done, "done"), (self.stopped, "stopped"), (self.unlinked, "unlinked"), (self.refused, "refused")];
        let told = ways.iter().filter(|(count, _)| *count > 0).map(|(count, way)| format!("{} {way}", grouped(*count)));
        format!("{} entries: {}", grouped(self.all), told.collect::<Vec<_>>().join(", "))
    }
}

/// `1 state`, `2 states`.
fn counted(number: usize, thing: &str) -> String {
    format!("{} {thing}{}", grouped(number), if number == 1 { "" } else { "s" })
}

#[cfg(test)]
mod tests {
    use super::*;
    use troymantle::Refusal;

    #[test]
    fn ends_are_counted() {
        let mut counts = Counts::default();
        let [long, no_text] = [Refusal::StartRefused, Refusal::TextMismatch].map(End::Refused);
        [End::Done, End::Stopped, End::Done, long, no_text].iter().for_each(|end| counts.add(end));
        assert_eq!(counts.words(), "5 entries: 2 done, 1 stopped, 2 refused");
        assert_eq!([counted(1, "state"), counted(1_000, "rule")], ["1 state", "1,000 rules"]);
    }
}
