//! Stand-in for parser.rs. In the place of yacc text it reads lines of words, and puts what they say into the crate's
//! own syntax tree in the order in which they come:
//!
//!     token NAME
//!     rule NAME
//!     start NAME
//!     prod RULE SYMBOL..       a symbol is `rule:NAME` or `token:NAME`
use std::fmt;

use super::{
    YaccKind,
    ast::{GrammarAST, Symbol},
};
use crate::Span;

#[derive(Clone, Debug, Eq, PartialEq)]
pub enum YaccGrammarErrorKind {
    InvalidStartRule(String),
    NoPrecForToken(String),
    NoStartRule,
    UnknownEPP(String),
    UnknownRuleRef(String),
    UnknownToken(String),
    BadLine(String),
}

impl fmt::Display for YaccGrammarErrorKind {
    fn fmt(&self, f: &mut fmt::Formatter) -> fmt::Result {
        write!(f, "{:?}", self)
    }
}

#[derive(Clone, Debug, Eq, PartialEq)]
pub struct YaccGrammarError {
    pub kind: YaccGrammarErrorKind,
    pub spans: Vec<Span>,
}

pub type YaccGrammarResult<T> = Result<T, Vec<YaccGrammarError>>;

pub enum YaccGrammarWarningKind {
    UnusedRule,
    UnusedToken,
}

pub struct YaccGrammarWarning {
    pub kind: YaccGrammarWarningKind,
    pub spans: Vec<Span>,
}

pub struct YaccParser<'a> {
    text: &'a str,
    ast: GrammarAST,
}

impl<'a> YaccParser<'a> {
    pub fn new(_: YaccKind, text: &'a str) -> Self {
        YaccParser { text, ast: GrammarAST::new() }
    }

    pub fn parse(&mut self) -> YaccGrammarResult<()> {
        for line in self.text.lines() {
            let words: Vec<&str> = line.split(' ').collect();
            self.line(&words).ok_or_else(|| {
                vec![YaccGrammarError {
                    kind: YaccGrammarErrorKind::BadLine(line.to_string()),
                    spans: Vec::new(),
                }]
            })?;
        }
        Ok(())
    }

    fn line(&mut self, words: &[&str]) -> Option<()> {
        let nowhere = Span::new(0, 0);
        let name = words.get(1)?.to_string();
        match words[0] {
            "token" => {
                self.ast.tokens.insert(name);
                self.ast.spans.push(nowhere);
            }
            "rule" => self.ast.add_rule((name, nowhere), None),
            "start" => self.ast.start = Some((name, nowhere)),
            "prod" => {
                let symbols = words[2..].iter().map(|word| symbol(word)).collect::<Option<_>>()?;
                self.ast.add_prod(name, symbols, None, None, nowhere);
            }
            _ => return None,
        }
        Some(())
    }

    pub fn build(self) -> GrammarAST {
        self.ast
    }
}

fn symbol(word: &str) -> Option<Symbol> {
    let nowhere = Span::new(0, 0);
    match word.split_once(':')? {
        ("rule", name) => Some(Symbol::Rule(name.to_string(), nowhere)),
        ("token", name) => Some(Symbol::Token(name.to_string(), nowhere)),
        _ => None,
    }
}
