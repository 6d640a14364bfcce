//! `profile`: whether a reader can decide by the next token; if not, the least clash, and why it is one.
use std::ffi::OsString;

use boltmarrow::{Clash, Follows, Grammar, PIdx, Refusal, Symbol, TIdx, Verdict};

use crate::failure::Failure;
use crate::input::Input;
use crate::names::Names;
use crate::output::Output;
use crate::{Command, Ending};

const HELP: &str = "\
use: bin/profile FILE

says whether a reader that decides by the next token can read the grammar. It prints 'passes' where no rule has two
productions that clash: that can both start with the same token, or can both vanish, coming to no token at all. A
production that can vanish can start with what can follow its rule, too. All rules take part, the start and dead ones
among them, to which no path leads from the start.

Else it prints the least clash, by rule, then lower production, higher production, token: the two productions, and why
each can start with the token. There may be others; mend this one and ask again.

FILE is a block file, or the readable text of a grammar (bin/blocks has its form), whose names are then shown; of a
block file rules are r0, r1 .. and tokens t0, t1 .., as 'bin/blocks show' has them. '-' is standard input. A FILE whose
name starts with '-' comes after '--'.

    -h, --help      prints this

status 0: the grammar passes
       1: it clashes; or the file is refused: nothing is printed, and standard error says why
       2: wrong use, or something can't be read, written, proved or built: standard error says what";

pub const COMMAND: Command = Command { name: "profile", help: HELP, words: (1, 1), run };

fn run(words: &[OsString], output: &mut Output) -> Result<Ending, Failure> {
    let Input { grammar, names, .. } = Input::read(&words[0])?;
    let (verdict, follows) = grammar.profile_with_follows();
    let clash = match verdict {
        Verdict::Passes => return output.line(verdict).map(|()| Ending::Answered),
        Verdict::Clashes(clash) => clash,
    };
    let names = names.or_made_up(&grammar);
    let told = Told { grammar: &grammar, follows: &follows, names: &names, clash };
    let lines = told.lines().expect("a clash is told by the grammar's own numbers");
    lines.into_iter().try_for_each(|line| output.line(line))?;
    Ok(Ending::Clash)
}

/// By what a production can start with a token.
enum Why {
    /// By one of its symbols, the first that is the token or can start with it; its place.
    Symbol(Symbol, usize),
    /// It can vanish, and the token can follow its rule.
    Vanishes,
}

/// A clash, and what it is told by.
struct Told<'a> {
    grammar: &'a Grammar,
    follows: &'a Follows<'a>,
    names: &'a Names,
    clash: Clash,
}

impl Told<'_> {
    fn lines(&self) -> Result<Vec<String>, Refusal> {
        let Clash { rule: ridx, lower, higher, token } = self.clash;
        let rule = self.names.rule(ridx);
        let both = match token {
            Some(tidx) => format!("start with token {}", self.names.token(tidx)),
            None => "vanish".to_string(),
        };
        let mut lines = vec![format!("clashes: two productions of rule {rule} can both {both}")];
        for pidx in [lower, higher] {
            lines.push(format!("    {}{}", self.production(pidx)?, self.reason(pidx)?));
        }
        if !self.follows.reached().is_set(ridx)? {
            lines.push(format!("    rule {rule} is dead: no path leads to it from the start"));
        }
        Ok(lines)
    }

    fn production(&self, pidx: PIdx) -> Result<String, Refusal> {
        let none = if self.grammar.prod(pidx)?.len() == 0 { ", of no symbols" } else { "" };
        let written = self.names.production(self.grammar, pidx)?;
        Ok(format!("{written} (production {}{none})", pidx.as_storaget()))
    }

    /// Why the production can start with the token, behind the production; nothing where no token is shared.
    fn reason(&self, pidx: PIdx) -> Result<String, Refusal> {
        let tidx = match self.clash.token {
            Some(tidx) => tidx,
            None => return Ok(String::new()),
        };
        let (token, rule) = (self.names.token(tidx), self.names.rule(self.clash.rule));
        let (symbol, place) = match self.why(pidx, tidx)? {
            Why::Symbol(symbol, place) => (symbol, place),
            Why::Vanishes => return Ok(format!(" can vanish, and {token} can follow {rule}")),
        };
        let past = if place == 0 { "" } else { ", where what stands before it vanishes" };
        Ok(match symbol {
            Symbol::Token(_) => format!(" starts with {token}{past}"),
            Symbol::Rule(_) => {
                format!(" starts with {}, which can start with {token}{past}", self.names.symbol(symbol))
            }
        })
    }

    /// The production can start with the token. So if one of its symbols can, all before the first that can do vanish;
    /// and if none can, all vanish.
    fn why(&self, pidx: PIdx, tidx: TIdx) -> Result<Why, Refusal> {
        for (place, symbol) in self.grammar.prod(pidx)?.enumerate() {
            let starts = match symbol {
                Symbol::Token(first) => first == tidx,
                Symbol::Rule(ridx) => self.follows.firsts().is_set(ridx, tidx)?,
            };
            if starts {
                return Ok(Why::Symbol(symbol, place));
            }
        }
        Ok(Why::Vanishes)
    }
}

#[cfg(test)]
mod tests;
