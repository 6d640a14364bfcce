//! Prints what a reader needs to decide whether a comma is a decimal comma or ends the field:
//!
//!     comma FILE DECIMAL FIELD
//!
//! FILE is a block file, DECIMAL and FIELD are the numbers of its two comma tokens. There is a line for each rule that
//! a comma touches. Where a rule begins with a decimal comma, can be left out and ends at a field comma, a comma there
//! may be either; where it only ends at one, a comma ends the field.
use std::error::Error;
use std::process::exit;
use std::{env, fs};

use boltmarrow::{Follows, Grammar, RIdx, Refusal, TIdx};

/// FOLLOW and the two commas.
struct Commas<'g> {
    follows: Follows<'g>,
    decimal: TIdx,
    field: TIdx,
}

impl Commas<'_> {
    /// What is to be said of a rule.
    fn said(&self, ridx: RIdx) -> Result<Vec<&'static str>, Refusal> {
        let firsts = self.follows.firsts();
        let begins = firsts.is_set(ridx, self.decimal)?;
        let ends = self.follows.is_set(ridx, self.field)?;
        let left_out = (begins || ends) && firsts.is_epsilon_set(ridx)?;
        let facts =
            [(begins, "begins with a decimal comma"), (left_out, "can be left out"), (ends, "ends at a field comma")];
        Ok(facts.into_iter().filter(|(holds, _)| *holds).map(|(_, words)| words).collect())
    }
}

fn print(file: &str, decimal: &str, field: &str) -> Result<(), Box<dyn Error>> {
    let grm = Grammar::from_blocks(&fs::read(file)?)?;
    let commas = Commas { follows: grm.follows(), decimal: TIdx(decimal.parse()?), field: TIdx(field.parse()?) };
    for ridx in grm.iter_rules() {
        let said = commas.said(ridx)?;
        if !said.is_empty() {
            println!("rule {}: {}", ridx.as_storaget(), said.join("; "));
        }
    }
    Ok(())
}

fn main() {
    let words: Vec<String> = env::args().skip(1).collect();
    if let [file, decimal, field] = &words[..] {
        if let Err(error) = print(file, decimal, field) {
            eprintln!("{file}: {error}");
            exit(1)
        }
    } else {
        eprintln!("use: comma FILE DECIMAL FIELD");
        exit(2)
    }
}
