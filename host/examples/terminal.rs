//! A terminal: loads a lex file and a map, reads what is typed, and shows each token, skip and state.
//!
//! `tools/terminal` builds and starts it; `tools/terminal --help` says how it is used.

#[path = "terminal/entries.rs"]
mod entries;
#[path = "terminal/json.rs"]
mod json;
#[path = "terminal/lexer.rs"]
mod lexer;
#[path = "terminal/load.rs"]
mod load;
#[path = "terminal/map_file.rs"]
mod map_file;
#[path = "terminal/message.rs"]
mod message;
#[path = "terminal/options.rs"]
mod options;
#[path = "terminal/output.rs"]
mod output;
#[path = "terminal/paint.rs"]
mod paint;
#[path = "terminal/places.rs"]
mod places;
#[path = "terminal/session.rs"]
mod session;
#[path = "terminal/show.rs"]
mod show;
#[path = "terminal/source.rs"]
mod source;
#[path = "terminal/width.rs"]
mod width;

use message::Message;
use options::{Color, Command, Options};
use output::{Failure, Output};
use std::ffi::OsString;
use std::process::ExitCode;

/// Some entry was not read to its end.
const SOME_STOPPED: u8 = 1;
/// Options or files are of no use.
const NO_USE: u8 = 2;

fn main() -> ExitCode {
    let arguments: Vec<OsString> = std::env::args_os().skip(1).collect();
    let json = options::asks_for_json(&arguments);
    let status = match options::read(arguments) {
        Ok(Command::Help) => print(options::HELP),
        Ok(Command::Version) => print(concat!("terminal of troymantle ", env!("CARGO_PKG_VERSION"), "\n")),
        Ok(Command::Run(options)) => run(&options),
        Err(words) => {
            let hint = Message::hint("--help tells of all options; --demo tries a worked example");
            tell(&mut Output::new(json, Color::Auto), &[Message::error(source::visible(&words)).with_note(hint)])
        }
    };
    ExitCode::from(status)
}

fn print(text: &str) -> u8 {
    let mut output = Output::new(false, Color::Never);
    let printed = output.write(|out| out.write_all(text.as_bytes())).and_then(|()| output.flush());
    status_of(&mut output, printed, 0)
}

fn run(options: &Options) -> u8 {
    let mut output = Output::new(options.json, options.color);
    match load::load(options) {
        Ok(loaded) => {
            let mut stopped = false;
            let ended = session::run(options, &loaded, &mut output, &mut stopped);
            status_of(&mut output, ended, if stopped { SOME_STOPPED } else { 0 })
        }
        Err(messages) => tell(&mut output, &messages),
    }
}

/// Tells what is wrong with the files or the options.
fn tell(output: &mut Output, messages: &[Message]) -> u8 {
    let told = messages.iter().try_for_each(|message| output.message(message)).and_then(|()| output.flush());
    status_of(output, told, NO_USE)
}

/// The status where nothing failed, or where nobody reads the output any more.
fn status_of(output: &mut Output, ended: Result<(), Failure>, status: u8) -> u8 {
    match ended {
        Ok(()) | Err(Failure::Unread) => status,
        Err(Failure::Output(words)) => {
            output.complain(&Message::error(words));
            NO_USE
        }
        Err(Failure::Input(words)) => tell(output, &[Message::error(words)]),
    }
}
