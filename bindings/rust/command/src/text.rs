//! The readable text of a grammar, in the form of bin/blocks:
//!
//!     # a comment, also at the end of a line
//!     tokens digits=1 comma=1 eof=1      tokens with their costs (1 if none is said); the last one is eof
//!     rules start Num Frac               rules; the first one is the start
//!     Num: digits Frac                   a production; a*3 stands for a a a
//!     Frac:                              a production of no symbols
//!     version 2                          the file's version; 1 if none is said
//!
//! Tokens, rules and productions are numbered in the order in which they come. A number in the place of a name stands for
//! itself: a rule number before the colon, a 16-bit symbol after it. The lines `raw` and `byte`, with which bin/blocks
//! writes wrong files, are not taken.
use std::collections::HashMap;

use boltmarrow::{Grammar, Refusal, Version};

use crate::names::Names;

/// In the symbol list rule r is `RULE + r`.
const RULE: usize = 32768;
const TOP: usize = 65535;

/// What a text says: flat tables, well formed or not, and names.
#[derive(Debug, Default)]
pub struct Text {
    symbol: HashMap<String, usize>,
    pub names: Names,
    owners: Vec<u16>,
    ends: Vec<u16>,
    symbols: Vec<u16>,
    costs: Vec<u8>,
    version: Option<Version>,
}

impl Text {
    /// Reads a text; what is wrong with it, with the line, if it is not in the form.
    pub fn read(text: &str) -> Result<Text, String> {
        let mut said = Text::default();
        for (line, number) in text.lines().zip(1..) {
            said.line(without_comment(line)).map_err(|wrong| format!("line {number}: {wrong}"))?;
        }
        Ok(said)
    }

    /// The grammar, with the refusals and the order of a block file that says the same: 1, 25, then 2 to 6.
    pub fn grammar(&self) -> Result<Grammar, Refusal> {
        let rules = u16::try_from(self.names.rules.len()).map_err(|_| Refusal::Sizes)?;
        let starts = std::iter::once(0).chain(self.ends.iter().copied()).collect();
        let grammar = Grammar::new(rules, self.owners.clone(), starts, self.symbols.clone(), self.costs.clone());
        let free = self.costs.iter().rev().skip(1).any(|&cost| cost == 0);
        match grammar {
            Err(Refusal::Sizes) => Err(Refusal::Sizes),
            _ if free && self.version() == Version::Two => Err(Refusal::FreeToken),
            grammar => grammar,
        }
    }

    pub fn version(&self) -> Version {
        self.version.unwrap_or(Version::One)
    }

    fn line(&mut self, line: &str) -> Result<(), String> {
        if let Some((owner, body)) = line.split_once(':') {
            return self.production(owner, body);
        }
        let mut words = line.split_whitespace();
        match (words.next(), words.clone().count()) {
            (None, _) => Ok(()),
            (Some("tokens"), _) => words.try_for_each(|word| self.token(word)),
            (Some("rules"), _) => words.try_for_each(|word| self.rule(word)),
            (Some("version"), 1) => self.put_version(words.next().unwrap_or_default()),
            (Some("raw" | "byte" | "byte!"), _) => {
                Err("a line for a wrong file: bin/blocks writes it, and the block file can be given here".to_string())
            }
            _ => Err(format!("'{}' is no line of tokens, rules or version, and no production", line.trim())),
        }
    }

    fn token(&mut self, word: &str) -> Result<(), String> {
        let (name, cost) = word.split_once('=').unwrap_or((word, ""));
        let cost = number(if cost.is_empty() { "1" } else { cost }, 255)?;
        self.name(name, self.costs.len())?;
        self.names.tokens.push(name.to_string());
        self.costs.push(cost as u8);
        Ok(())
    }

    fn rule(&mut self, name: &str) -> Result<(), String> {
        self.name(name, RULE + self.names.rules.len())?;
        self.names.rules.push(name.to_string());
        Ok(())
    }

    fn put_version(&mut self, word: &str) -> Result<(), String> {
        let version = match word {
            "1" => Version::One,
            "2" => Version::Two,
            _ => return Err(format!("there is no version {word}")),
        };
        match self.version.replace(version) {
            None => Ok(()),
            Some(_) => Err("the version is there already".to_string()),
        }
    }

    fn name(&mut self, name: &str, symbol: usize) -> Result<(), String> {
        if name.is_empty() || name.contains(&['=', '*'][..]) || is_number(name) {
            return Err(format!("'{name}' cannot be a name"));
        }
        if symbol > TOP {
            return Err("too many names for 16-bit symbols".to_string());
        }
        match self.symbol.insert(name.to_string(), symbol) {
            None => Ok(()),
            Some(_) => Err(format!("the name {name} is there already")),
        }
    }

    fn production(&mut self, owner: &str, body: &str) -> Result<(), String> {
        let owner = match owner.split_whitespace().collect::<Vec<_>>()[..] {
            [owner] => owner,
            _ => return Err("one rule stands before the colon".to_string()),
        };
        let rule = if is_number(owner) {
            number(owner, TOP)?
        } else {
            self.symbol(owner)?.checked_sub(RULE).ok_or(format!("{owner} is a token: it has no production"))?
        };
        for word in body.split_whitespace() {
            let (name, times) = word.split_once('*').unwrap_or((word, "1"));
            let (symbol, times) = (self.symbol(name)? as u16, number(times, TOP)?);
            if self.symbols.len() + times > TOP {
                return Err("more symbols than a 16-bit start can tell".to_string());
            }
            self.symbols.extend(std::iter::repeat(symbol).take(times));
        }
        self.owners.push(rule as u16);
        self.ends.push(self.symbols.len() as u16);
        Ok(())
    }

    /// The symbol that a name or a number stands for.
    fn symbol(&self, word: &str) -> Result<usize, String> {
        if is_number(word) {
            return number(word, TOP);
        }
        self.symbol.get(word).copied().ok_or(format!("no token or rule is named {word}"))
    }
}

/// The line up to a `#` that begins it or stands behind a space.
fn without_comment(line: &str) -> &str {
    let mut before = ' ';
    for (at, letter) in line.char_indices() {
        if letter == '#' && before.is_whitespace() {
            return &line[..at];
        }
        before = letter;
    }
    line
}

fn is_number(word: &str) -> bool {
    !word.is_empty() && word.bytes().all(|byte| byte.is_ascii_digit())
}

fn number(word: &str, most: usize) -> Result<usize, String> {
    if !is_number(word) {
        return Err(format!("'{word}' is not a number"));
    }
    word.parse().ok().filter(|&number| number <= most).ok_or(format!("{word} is above {most}"))
}

#[cfg(test)]
mod tests;
