//! Commands for people over the proved library. Each is a subcommand of this program and a module of its own; bin/NAME
//! of the repository builds the program and runs it:
//!
//!     boltmarrow profile FILE             bin/profile
//!     boltmarrow rows FILE [RULE]         bin/rows
//!     boltmarrow widths FILE              bin/widths
//!
//! What all of them share: the words behind the command (words.rs); a grammar with its names, from a block file or a
//! readable text (input.rs, text.rs, names.rs); what is printed (output.rs); how a command ends (failure.rs).
#![deny(unsafe_code)]

mod failure;
mod input;
mod names;
mod output;
mod profile;
mod rows;
mod text;
mod widths;
mod words;

use std::env;
use std::ffi::OsString;
use std::fmt::Display;
use std::io::{self, Write};
use std::process::exit;

use failure::Failure;
use output::Output;
use words::Words;

/// A subcommand.
pub struct Command {
    name: &'static str,
    /// What `--help` prints.
    help: &'static str,
    /// How many words it takes, at least and at most.
    words: (usize, usize),
    run: fn(&[OsString], &mut Output) -> Result<Ending, Failure>,
}

/// How a command ends that has printed its answer.
#[derive(Clone, Copy)]
pub enum Ending {
    Answered = 0,
    /// The grammar clashes: an answer, but one that a script is to stop at.
    Clash = 1,
}

const COMMANDS: &[Command] = &[profile::COMMAND, rows::COMMAND, widths::COMMAND];

fn run(command: &Command, words: impl Iterator<Item = OsString>) -> Result<Ending, Failure> {
    let mut output = Output::new();
    let ending = match Words::read(words, command.words)? {
        Words::Help => output.line(command.help).map(|()| Ending::Answered)?,
        Words::Given(words) => (command.run)(&words, &mut output)?,
    };
    output.flush()?;
    Ok(ending)
}

/// Says what went wrong, and how the command is used where that is what is wrong; the status.
fn failed(command: &Command, failure: &Failure) -> i32 {
    say(format!("{}: {failure}", command.name));
    if let Failure::Use(_) = failure {
        say(command.help);
    }
    failure.status()
}

/// To standard error. Where that can't be written the status tells.
fn say(words: impl Display) {
    let _ = writeln!(io::stderr(), "{words}");
}

fn main() {
    let mut words = env::args_os().skip(1);
    let name = words.next().unwrap_or_default();
    exit(match COMMANDS.iter().find(|command| name == command.name) {
        Some(command) => run(command, words).map_or_else(|failure| failed(command, &failure), |ending| ending as i32),
        None => {
            let names: Vec<_> = COMMANDS.iter().map(|command| command.name).collect();
            say(format!("use: boltmarrow COMMAND ..; the commands: {}", names.join(", ")));
            2
        }
    })
}
