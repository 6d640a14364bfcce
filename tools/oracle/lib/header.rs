//! Stand-in for header.rs. Only `from_str` reads a header, and the oracle does not call it: here each fails.
use std::collections::HashMap;

use crate::{
    span::Span,
    yacc::{
        YaccKind,
        parser::{YaccGrammarError, YaccGrammarErrorKind},
    },
};

#[derive(Debug)]
pub enum HeaderErrorKind {
    InvalidEntry(&'static str),
}

#[derive(Debug)]
pub struct HeaderError<T> {
    pub kind: HeaderErrorKind,
    pub locations: Vec<T>,
}

impl From<HeaderError<Span>> for YaccGrammarError {
    fn from(error: HeaderError<Span>) -> Self {
        YaccGrammarError {
            kind: YaccGrammarErrorKind::BadLine(format!("{:?}", error.kind)),
            spans: error.locations,
        }
    }
}

pub struct Value;

pub struct HeaderValue(pub Span, pub Value);

impl TryFrom<&Value> for YaccKind {
    type Error = HeaderError<Span>;
    fn try_from(_: &Value) -> Result<Self, Self::Error> {
        Err(no_header())
    }
}

pub struct GrmtoolsSectionParser;

impl GrmtoolsSectionParser {
    pub fn new(_: &str, _: bool) -> Self {
        GrmtoolsSectionParser
    }

    pub fn parse(&self) -> Result<(HashMap<String, HeaderValue>, usize), Vec<HeaderError<Span>>> {
        Err(vec![no_header()])
    }
}

fn no_header() -> HeaderError<Span> {
    HeaderError {
        kind: HeaderErrorKind::InvalidEntry("headers are not read"),
        locations: Vec::new(),
    }
}
