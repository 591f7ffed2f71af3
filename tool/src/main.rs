//! The bench tool `braid`: what the library can do, for people and for scripts. Every answer comes from a call of the library.
mod arguments;
mod chains;
mod commands;
mod end;
mod explain;
mod files;
mod help;
mod output;
mod sha256;
mod tables;

use arguments::Asked;
use end::{Done, End, REFUSED, WRONG};
use std::io::Write;
use std::process::ExitCode;

/// The versions of the tool, and of the library with its specification.
fn version() -> String {
    format!("braid {}, library and specification {}.{}\n", env!("CARGO_PKG_VERSION"), braid::VERSION.0, braid::VERSION.1)
}

/// Writes to standard output; a pipe that nobody reads ends the tool quietly.
fn put(text: &str) -> Done<()> {
    let mut out = std::io::stdout();
    match out.write_all(text.as_bytes()).and_then(|()| out.flush()) {
        Err(what) if what.kind() != std::io::ErrorKind::BrokenPipe => Err(End::Wrong(format!("standard output cannot be written: {what}"))),
        _ => Ok(()),
    }
}

fn run() -> Done<u8> {
    let (command, arguments) = match arguments::read(std::env::args_os().skip(1))? {
        Asked::Help(command) => return put(&help::text(command)).map(|()| 0),
        Asked::Version => return put(&version()).map(|()| 0),
        Asked::Run(command, arguments) => (command, arguments),
    };
    match commands::run(command.name, &arguments) {
        Ok(answer) => {
            let text = if arguments.json && answer.text.as_deref() != Some("") { answer.json() } else { answer.lines() };
            put(&text).map(|()| answer.status)
        }
        Err(End::Refused(refusal, lines)) => {
            put(&output::refusal(refusal, arguments.json))?;
            lines.iter().for_each(|line| eprintln!("{line}"));
            Ok(REFUSED)
        }
        Err(end) => Err(end),
    }
}

fn main() -> ExitCode {
    match run() {
        Ok(status) => ExitCode::from(status),
        Err(End::Wrong(what)) => {
            eprintln!("{what}");
            ExitCode::from(WRONG)
        }
        Err(End::Refused(..)) => ExitCode::from(REFUSED),
    }
}
