//! A grammar from a file: a block file, or the readable text of bin/blocks, which has names.
use std::ffi::{OsStr, OsString};
use std::fmt::Display;
use std::fs::File;
use std::io::{self, Read};

use boltmarrow::{Grammar, RIdx};

use crate::failure::Failure;
use crate::names::Names;
use crate::text::Text;

/// No text is longer; block files are far shorter.
const LONGEST: u64 = 16 << 20;

/// A grammar, its names, and what its file is called.
#[derive(Debug)]
pub struct Input {
    pub grammar: Grammar,
    pub names: Names,
    pub file: String,
}

/// The bytes of a file, at most one more than the longest has; `-` is standard input.
fn load(file: &OsStr) -> io::Result<Vec<u8>> {
    let mut bytes = vec![];
    if file == "-" {
        io::stdin().lock().take(LONGEST + 1).read_to_end(&mut bytes)?;
    } else {
        File::open(file)?.take(LONGEST + 1).read_to_end(&mut bytes)?;
    }
    Ok(bytes)
}

impl Input {
    pub fn read(file: &OsStr) -> Result<Input, Failure> {
        let shown = if file == "-" { "standard input".into() } else { file.to_string_lossy().into_owned() };
        let bytes = load(file).map_err(|error| Failure::File(format!("{shown} can't be read: {error}")))?;
        let (grammar, names) = understood(&bytes).map_err(|failure| match failure {
            Failure::Refused(words) => Failure::Refused(format!("{shown}: {words}")),
            Failure::Use(words) | Failure::File(words) => Failure::File(format!("{shown}: {words}")),
        })?;
        Ok(Input { grammar, names, file: shown })
    }

    /// What is refused of this file.
    pub fn refused(&self, words: impl Display) -> Failure {
        Failure::Refused(format!("{}: {words}", self.file))
    }

    /// The rule of that name or number; the start if none is given.
    pub fn rule(&self, word: Option<&OsString>) -> Result<RIdx, Failure> {
        let found =
            word.map_or(Ok(self.grammar.start_rule_idx()), |word| self.names.find_rule(&word.to_string_lossy()));
        found.map_err(|failure| match failure {
            Failure::Refused(words) => self.refused(words),
            failure => failure,
        })
    }
}

/// Every block file has a byte 0, in the number of its first block, and no text has one: a file without is a text, unless
/// it is empty.
fn understood(bytes: &[u8]) -> Result<(Grammar, Names), Failure> {
    if bytes.is_empty() || bytes.contains(&0) {
        let grammar = Grammar::from_blocks(bytes).map_err(|refusal| Failure::Refused(refusal.to_string()))?;
        return Ok((grammar, Names::default()));
    }
    if bytes.len() as u64 > LONGEST {
        return Err(Failure::File("the text is longer than 16 MiB".to_string()));
    }
    let text = std::str::from_utf8(bytes).map_err(|error| {
        Failure::File(format!("neither a block file nor a text: byte {} is not UTF-8", error.valid_up_to()))
    })?;
    let said = Text::read(text).map_err(Failure::File)?;
    let grammar = said.grammar().map_err(|refusal| Failure::Refused(refusal.to_string()))?;
    Ok((grammar, said.names))
}
