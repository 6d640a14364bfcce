//! The names of rules and tokens: those of a text, their numbers, or names made up from these; and productions written
//! out by names.
use std::fmt;

use boltmarrow::{Grammar, PIdx, RIdx, Refusal, Symbol, TIdx};

use crate::failure::Failure;

/// The names of a text, by number; none for a block file, which has no names.
#[derive(Debug, Default, PartialEq)]
pub struct Names {
    pub rules: Vec<String>,
    pub tokens: Vec<String>,
}

/// A name, or the number where there is none.
#[derive(Debug)]
pub struct Name<'n>(Option<&'n str>, u16);

impl fmt::Display for Name<'_> {
    fn fmt(&self, f: &mut fmt::Formatter) -> fmt::Result {
        match self.0 {
            Some(name) => f.write_str(name),
            None => write!(f, "{}", self.1),
        }
    }
}

fn name(names: &[String], number: u16) -> Name<'_> {
    Name(names.get(usize::from(number)).map(|name| &name[..]), number)
}

impl Names {
    pub fn rule(&self, ridx: RIdx) -> Name<'_> {
        name(&self.rules, ridx.as_storaget())
    }

    pub fn token(&self, tidx: TIdx) -> Name<'_> {
        name(&self.tokens, tidx.as_storaget())
    }

    pub fn symbol(&self, symbol: Symbol) -> Name<'_> {
        match symbol {
            Symbol::Rule(ridx) => self.rule(ridx),
            Symbol::Token(tidx) => self.token(tidx),
        }
    }

    /// Those that there are; for a block file made-up ones, r0 for rule 0 and t0 for token 0, as `bin/blocks show` has
    /// them: where rules and tokens stand side by side, numbers alone don't tell them apart.
    pub fn or_made_up(self, grammar: &Grammar) -> Names {
        if !self.rules.is_empty() {
            return self;
        }
        let rules = grammar.iter_rules().map(|ridx| format!("r{}", ridx.as_storaget())).collect();
        let tokens = grammar.iter_tidxs().map(|tidx| format!("t{}", tidx.as_storaget())).collect();
        Names { rules, tokens }
    }

    /// A production as a readable text has it: `Num: digits Frac`, with `a*3` for a a a, and `Frac:` alone if it is of
    /// no symbols.
    pub fn production(&self, grammar: &Grammar, pidx: PIdx) -> Result<String, Refusal> {
        let mut text = format!("{}:", self.rule(grammar.prod_to_rule(pidx)?));
        let symbols: Vec<Symbol> = grammar.prod(pidx)?.collect();
        let mut rest = &symbols[..];
        while let Some(&symbol) = rest.first() {
            let (name, times) = (self.symbol(symbol), rest.iter().take_while(|&&next| next == symbol).count());
            text += &match times {
                1 => format!(" {name}"),
                2 => format!(" {name} {name}"),
                _ => format!(" {name}*{times}"),
            };
            rest = &rest[times..];
        }
        Ok(text)
    }

    /// The rule of that name or number. A number that no grammar has is refused here, others by the library.
    pub fn find_rule(&self, word: &str) -> Result<RIdx, Failure> {
        if let Some(number) = self.rules.iter().position(|name| name == word) {
            return Ok(RIdx(number as u16));
        }
        if !word.is_empty() && word.bytes().all(|byte| byte.is_ascii_digit()) {
            return word
                .parse()
                .map(RIdx)
                .map_err(|_| Failure::Refused(format!("rule {word}: {}", Refusal::RuleNumber)));
        }
        if self.rules.is_empty() {
            return Err(Failure::Use(format!("'{word}' is no number, and a block file has no names")));
        }
        Err(Failure::Refused(format!("the grammar has no rule named '{word}' (refusal 9)")))
    }
}

#[cfg(test)]
mod tests {
    use super::*;
    use crate::text::Text;

    #[test]
    fn rules_by_name_and_number() {
        let names = Names { rules: vec!["start".to_string(), "Row".to_string()], tokens: vec![] };
        assert_eq!(names.find_rule("Row"), Ok(RIdx(1)));
        assert_eq!(names.find_rule("1"), Ok(RIdx(1)));
        assert_eq!(names.find_rule("65535"), Ok(RIdx(65535)));
        assert_eq!(names.find_rule("row").unwrap_err().status(), 1);
        assert_eq!(names.find_rule("65536").unwrap_err().status(), 1);
        assert_eq!(names.find_rule("99999999999999999999").unwrap_err().status(), 1);
        assert_eq!(names.find_rule("").unwrap_err().status(), 1);
        assert_eq!(names.rule(RIdx(1)).to_string(), "Row");
        assert_eq!(names.token(TIdx(7)).to_string(), "7");
    }

    #[test]
    fn numbers_alone() {
        let none = Names::default();
        assert_eq!(none.find_rule("3"), Ok(RIdx(3)));
        assert_eq!(none.find_rule("Row").unwrap_err().status(), 2);
        assert_eq!(none.rule(RIdx(3)).to_string(), "3");
    }

    #[test]
    fn productions_as_a_text_has_them() {
        let text = "tokens a b eof\nrules start A\nstart: A\nA: a A b\nA: a a A A A a*257\nA:\nA: b*3";
        let said = Text::read(text).unwrap();
        let grammar = said.grammar().unwrap();
        let written = |names: &Names| [0, 1, 2, 3, 4].map(|p| names.production(&grammar, PIdx(p)).unwrap());
        let due = ["start: A", "A: a A b", "A: a a A*3 a*257", "A:", "A: b*3"];
        assert_eq!(written(&said.names), due);
        assert_eq!(said.names.production(&grammar, PIdx(5)), Err(Refusal::ProductionNumber));
        let made_up = Names::default().or_made_up(&grammar);
        assert_eq!(written(&made_up), ["r0: r1", "r1: t0 r1 t1", "r1: t0 t0 r1*3 t0*257", "r1:", "r1: t1*3"]);
        assert_eq!(made_up.token(TIdx(2)).to_string(), "t2");
        assert_eq!(written(&said.names.or_made_up(&grammar)), due);
    }
}
