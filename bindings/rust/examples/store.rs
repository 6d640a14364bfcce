//! Stores a grammar as a block file:
//!
//!     store FILE
//!
//! The grammar, written down here by its tables, is a CSV row of fields that may be left empty. The file is of version 2:
//! each of its tokens costs something. `bin/report FILE` then prints its report, and `Grammar::from_blocks` reads it.
//!
//!     start: Row
//!     Row:   Field More newline
//!     Field: digits | text | nothing
//!     More:  comma Field More | nothing
use std::env;
use std::error::Error;
use std::fs;
use std::process::exit;

use boltmarrow::{Grammar, RIdx, Refusal, Symbol, TIdx, Version};

const START: RIdx = RIdx(0);
const ROW: RIdx = RIdx(1);
const FIELD: RIdx = RIdx(2);
const MORE: RIdx = RIdx(3);

const DIGITS: TIdx = TIdx(0);
const TEXT: TIdx = TIdx(1);
const COMMA: TIdx = TIdx(2);
const NEWLINE: TIdx = TIdx(3);

/// What each token costs; the last one is eof.
const COSTS: [u8; 5] = [2, 3, 1, 1, 1];

/// The flat tables of the productions, checked.
fn row() -> Result<Grammar, Refusal> {
    let (rule, token) = (Symbol::Rule, Symbol::Token);
    let prods = [
        (START, vec![rule(ROW)]),
        (ROW, vec![rule(FIELD), rule(MORE), token(NEWLINE)]),
        (FIELD, vec![token(DIGITS)]),
        (FIELD, vec![token(TEXT)]),
        (FIELD, vec![]),
        (MORE, vec![token(COMMA), rule(FIELD), rule(MORE)]),
        (MORE, vec![]),
    ];
    let (mut owners, mut starts, mut symbols) = (vec![], vec![0], vec![]);
    for (owner, body) in prods {
        owners.push(owner.as_storaget());
        symbols.extend(body.into_iter().map(|symbol| symbol.to_flat().expect("a number below 32768")));
        starts.push(symbols.len() as u16);
    }
    Grammar::new(4, owners, starts, symbols, COSTS.to_vec())
}

fn store(file: &str) -> Result<(), Box<dyn Error>> {
    fs::write(file, row()?.to_blocks(Version::Two)?)?;
    Ok(())
}

fn main() {
    let words: Vec<String> = env::args().skip(1).collect();
    if let [file] = &words[..] {
        if let Err(error) = store(file) {
            eprintln!("{file}: {error}");
            exit(1)
        }
    } else {
        eprintln!("use: store FILE");
        exit(2)
    }
}
