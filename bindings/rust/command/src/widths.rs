//! `widths`: the greatest cost of each rule's sentences.
use std::ffi::OsString;

use boltmarrow::Dearest;

use crate::failure::Failure;
use crate::input::Input;
use crate::output::Output;
use crate::{Command, Ending};

const HELP: &str = "\
use: bin/widths FILE

prints for each rule the cost of its dearest sentence, one rule a line, in the order of their numbers: the rule, a
space, and the cost. Where a token's cost is the most characters that it takes, this is the width of a column that holds
any sentence of the rule. In the place of the cost stands

    unbounded       where the costs have no bound: whatever the number, some sentence costs as much
    none            where the rule has no sentence
    above           where there is a greatest cost, and it is above 65534

FILE is a block file, or the readable text of a grammar (bin/blocks has its form), whose names are then shown; of a
block file rules are r0, r1 .., as 'bin/blocks show' has them. '-' is standard input. A FILE whose name starts with '-'
comes after '--'.

    -h, --help      prints this

status 0: all rules are printed
       1: the file is refused: nothing is printed, and standard error says why
       2: wrong use, or something can't be read, written, proved or built: standard error says what";

pub const COMMAND: Command = Command { name: "widths", help: HELP, words: (1, 1), run };

fn shown(dearest: Dearest) -> String {
    match dearest {
        Dearest::Cost(cost) => cost.to_string(),
        Dearest::Unbounded => "unbounded".to_string(),
        Dearest::NoSentence => "none".to_string(),
        Dearest::Above => "above".to_string(),
    }
}

fn run(words: &[OsString], output: &mut Output) -> Result<Ending, Failure> {
    let Input { grammar, names, .. } = Input::read(&words[0])?;
    let (names, dearest) = (names.or_made_up(&grammar), grammar.dearest());
    for ridx in grammar.iter_rules() {
        let told = dearest.cost(ridx).expect("a rule of the grammar is not refused");
        output.parts([names.rule(ridx).to_string(), shown(told)].into_iter())?;
    }
    Ok(Ending::Answered)
}
