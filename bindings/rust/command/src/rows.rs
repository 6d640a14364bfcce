//! `rows`: every cheapest sentence of a rule, as a test row.
use std::ffi::OsString;

use boltmarrow::Refusal;

use crate::failure::Failure;
use crate::input::Input;
use crate::output::Output;
use crate::{Command, Ending};

const HELP: &str = "\
use: bin/rows FILE [RULE]

prints every cheapest sentence of a rule, one a line, its tokens with one space between; an empty sentence is an empty
line. RULE is a rule's number or name; if none is given it is the start. Productions come in rising number, and within
one the last place turns fastest. A sentence that comes about in two ways is printed twice.

FILE is a block file, or the readable text of a grammar (bin/blocks has its form), whose tokens are then shown by their
names; '-' is standard input. A FILE whose name starts with '-' comes after '--'.

    -h, --help      prints this

status 0: all rows are printed
       1: the file, the rule or its list is refused: standard error says why. One row of more than 65535 tokens is, too;
          the rows before it are printed
       2: wrong use, or something can't be read, written, proved or built: standard error says what";

pub const COMMAND: Command = Command { name: "rows", help: HELP, words: (1, 2), run };

/// Why there is no list, in words that speak of lists.
fn reason(refusal: Refusal) -> String {
    match refusal {
        Refusal::Circular => {
            "some cheapest production of the rule, or of one that it comes to, leads back to that rule itself: its rows \
             would not end (refusal 14)"
                .to_string()
        }
        Refusal::TooMany => "there are more than 65535 rows (refusal 16)".to_string(),
        refusal => refusal.to_string(),
    }
}

fn run(words: &[OsString], output: &mut Output) -> Result<Ending, Failure> {
    let input = Input::read(&words[0])?;
    let (names, ridx) = (&input.names, input.rule(words.get(1))?);
    let rule = names.rule(ridx);
    let sentences = input.grammar.sentence_generator();
    let rows = sentences.min_sentences(ridx);
    let rows = rows.map_err(|refusal| input.refused(format!("rule {rule}: {}", reason(refusal))))?;
    for (k, row) in rows.enumerate() {
        match row {
            Ok(row) => output.parts(row.into_iter().map(|tidx| names.token(tidx)))?,
            Err(refusal) => {
                output.flush()?;
                return Err(input.refused(format!("rule {rule}, row {k} from 0: {}", reason(refusal))));
            }
        }
    }
    Ok(Ending::Answered)
}
