//! Standard output, in large pieces; that it can't be written is an error: a full disk, a pipe that nobody reads. That it
//! is closed only the script that starts the program can tell.
use std::fmt::Display;
use std::io::{self, BufWriter, StdoutLock, Write};

use crate::failure::Failure;

const PIECE: usize = 1 << 16;

pub struct Output(BufWriter<StdoutLock<'static>>);

fn unwritten(error: io::Error) -> Failure {
    Failure::File(format!("standard output can't be written: {error}"))
}

impl Output {
    pub fn new() -> Output {
        Output(BufWriter::with_capacity(PIECE, io::stdout().lock()))
    }

    pub fn line(&mut self, words: impl Display) -> Result<(), Failure> {
        writeln!(self.0, "{words}").map_err(unwritten)
    }

    /// A line of parts with one space between.
    pub fn parts(&mut self, parts: impl Iterator<Item = impl Display>) -> Result<(), Failure> {
        for (k, part) in parts.enumerate() {
            write!(self.0, "{}{part}", if k == 0 { "" } else { " " }).map_err(unwritten)?;
        }
        writeln!(self.0).map_err(unwritten)
    }

    /// Writes what is held back.
    pub fn flush(&mut self) -> Result<(), Failure> {
        self.0.flush().map_err(unwritten)
    }
}
