//! Standard output and standard error.

use crate::message::Message;
use crate::options::Color;
use crate::paint::Paint;
use std::io::{self, BufWriter, IsTerminal, StdoutLock, Write};

/// Where results and messages go.
pub struct Output {
    out: BufWriter<StdoutLock<'static>>,
    json: bool,
    /// Colours of standard output, and of standard error.
    pub paint: Paint,
    message_paint: Paint,
}

/// Why the program ends before its time.
#[derive(Debug)]
pub enum Failure {
    /// Nobody reads standard output any more.
    Unread,
    /// It cannot be written, in the operating system's words.
    Output(String),
    /// Standard input cannot be read.
    Input(String),
}

impl From<io::Error> for Failure {
    fn from(error: io::Error) -> Failure {
        match error.kind() {
            io::ErrorKind::BrokenPipe => Failure::Unread,
            _ => Failure::Output(format!("standard output cannot be written: {error}")),
        }
    }
}

impl Output {
    pub fn new(json: bool, color: Color) -> Output {
        let stdout = io::stdout();
        let paint = Paint { on: !json && is_painted(color, stdout.is_terminal()) };
        let message_paint = Paint { on: is_painted(color, io::stderr().is_terminal()) };
        Output { out: BufWriter::new(stdout.lock()), json, paint, message_paint }
    }

    pub fn write(&mut self, write: impl FnOnce(&mut dyn Write) -> io::Result<()>) -> Result<(), Failure> {
        Ok(write(&mut self.out)?)
    }

    pub fn flush(&mut self) -> Result<(), Failure> {
        Ok(self.out.flush()?)
    }

    /// Tells a message: with `--json` on standard output, otherwise on standard error.
    pub fn message(&mut self, message: &Message) -> Result<(), Failure> {
        if self.json {
            return Ok(writeln!(self.out, "{}", message.object().finish())?);
        }
        self.flush()?;
        self.complain(message);
        Ok(())
    }

    /// Tells a message on standard error; where that cannot be written there is nobody to tell.
    pub fn complain(&self, message: &Message) {
        let _ = io::stderr().write_all(message.lines(self.message_paint).as_bytes());
    }
}

fn is_painted(color: Color, terminal: bool) -> bool {
    match color {
        Color::Always => true,
        Color::Never => false,
        Color::Auto => terminal && !is_set("NO_COLOR") && std::env::var_os("TERM").is_none_or(|term| term != "dumb"),
    }
}

fn is_set(variable: &str) -> bool {
    std::env::var_os(variable).is_some_and(|value| !value.is_empty())
}
