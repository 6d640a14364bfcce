//! Makes a [`Grammar`] from cfgrammar's `YaccGrammar`, through its public methods, and takes numbers from the one to the
//! other and back.
//!
//! No number changes, since cfgrammar's numbering already is what document 01 asks for: the start is rule 0, eof is the
//! last token, and each rule's productions have rising numbers. The start's production comes after those of the text;
//! document 01 takes it anywhere. So a number's type changes alone: [`rule`], [`token`] and [`prod`] take cfgrammar's
//! numbers, to ask about the flattened grammar; [`rule_of`], [`token_of`] and [`prod_of`] give them back, to ask the
//! `YaccGrammar` about an answer, such as its names for the tokens of a sentence.
//!
//! What is flattened can be stored as a block file, with [`Grammar::to_blocks`] or [`Grammar::write_blocks`], and read
//! again with [`Grammar::from_blocks`], without the grammar's text: it is the same grammar, with the same numbers. A
//! block file has no names; those stay with the `YaccGrammar`. In version 2 every token but eof costs at least 1, so the
//! costs that `flatten` is given decide whether it takes the grammar; version 1 takes any.
#![deny(missing_docs, unsafe_code)]
#![warn(clippy::missing_errors_doc)]

use boltmarrow::{Grammar, Refusal};
use cfgrammar::yacc::YaccGrammar;
use cfgrammar::{PIdx, RIdx, Symbol, TIdx};
use num_traits::{AsPrimitive, PrimInt, Unsigned};

/// The flat grammar of `grm`, with a cost for each token. [`Grammar::write_blocks`] stores it.
///
/// # Errors
///
/// Refusal 1 if `grm` is over document 01's limits; a `YaccGrammar` gives no other.
///
/// # Panics
///
/// If `grm` numbers the start or eof otherwise, which cfgrammar 0.15 does not.
pub fn flatten<StorageT, F>(grm: &YaccGrammar<StorageT>, token_cost: F) -> Result<Grammar, Refusal>
where
    StorageT: 'static + PrimInt + Unsigned,
    usize: AsPrimitive<StorageT>,
    F: Fn(TIdx<StorageT>) -> u8,
{
    assert_eq!(usize::from(grm.start_rule_idx()), 0, "the start is rule 0");
    assert_eq!(usize::from(grm.eof_token_idx()) + 1, usize::from(grm.tokens_len()), "eof is the last token");
    let (mut owners, mut starts, mut symbols) = (vec![], vec![0], vec![]);
    for pidx in grm.iter_pidxs() {
        owners.push(small(grm.prod_to_rule(pidx))?);
        for symbol in grm.prod(pidx) {
            symbols.push(flat_symbol(*symbol)?);
        }
        starts.push(small(symbols.len())?);
    }
    Grammar::new(small(grm.rules_len())?, owners, starts, symbols, grm.iter_tidxs().map(token_cost).collect())
}

/// The rule's number, to ask about the flattened grammar. A number over 65535, which none of a flattened grammar is, gives
/// 65535, which is none either.
pub fn rule<StorageT: PrimInt + Unsigned>(ridx: RIdx<StorageT>) -> boltmarrow::RIdx {
    boltmarrow::RIdx(small(ridx).unwrap_or(u16::MAX))
}

/// The token's number, to ask about the flattened grammar; 65535 as for [`rule`].
pub fn token<StorageT: PrimInt + Unsigned>(tidx: TIdx<StorageT>) -> boltmarrow::TIdx {
    boltmarrow::TIdx(small(tidx).unwrap_or(u16::MAX))
}

/// The production's number, to ask about the flattened grammar; 65535 as for [`rule`].
pub fn prod<StorageT: PrimInt + Unsigned>(pidx: PIdx<StorageT>) -> boltmarrow::PIdx {
    boltmarrow::PIdx(small(pidx).unwrap_or(u16::MAX))
}

/// The rule of `grm` with this number in the flattened grammar: the way back from [`rule`].
///
/// # Errors
///
/// Refusal 9 for a rule that `grm` does not have.
pub fn rule_of<StorageT>(grm: &YaccGrammar<StorageT>, ridx: boltmarrow::RIdx) -> Result<RIdx<StorageT>, Refusal>
where
    StorageT: 'static + PrimInt + Unsigned,
    usize: AsPrimitive<StorageT>,
{
    below(ridx, grm.rules_len()).map(RIdx).ok_or(Refusal::RuleNumber)
}

/// The token of `grm` with this number in the flattened grammar: the way back from [`token`].
///
/// # Errors
///
/// Refusal 10 for a token that `grm` does not have.
pub fn token_of<StorageT>(grm: &YaccGrammar<StorageT>, tidx: boltmarrow::TIdx) -> Result<TIdx<StorageT>, Refusal>
where
    StorageT: 'static + PrimInt + Unsigned,
    usize: AsPrimitive<StorageT>,
{
    below(tidx, grm.tokens_len()).map(TIdx).ok_or(Refusal::TokenNumber)
}

/// The production of `grm` with this number in the flattened grammar: the way back from [`prod`].
///
/// # Errors
///
/// Refusal 11 for a production that `grm` does not have.
pub fn prod_of<StorageT>(grm: &YaccGrammar<StorageT>, pidx: boltmarrow::PIdx) -> Result<PIdx<StorageT>, Refusal>
where
    StorageT: 'static + PrimInt + Unsigned,
    usize: AsPrimitive<StorageT>,
{
    below(pidx, grm.prods_len()).map(PIdx).ok_or(Refusal::ProductionNumber)
}

/// The number in cfgrammar's storage, if it is below `len`: `StorageT` has room for all of those.
fn below<StorageT>(number: impl Into<usize>, len: impl Into<usize>) -> Option<StorageT>
where
    StorageT: 'static + PrimInt,
    usize: AsPrimitive<StorageT>,
{
    let number = number.into();
    (number < len.into()).then(|| number.as_())
}

/// The number in 16 bits. One that does not fit is of a grammar over the limits.
fn small(number: impl Into<usize>) -> Result<u16, Refusal> {
    u16::try_from(number.into()).map_err(|_| Refusal::Sizes)
}

fn flat_symbol<StorageT: PrimInt + Unsigned>(symbol: Symbol<StorageT>) -> Result<u16, Refusal> {
    let symbol = match symbol {
        Symbol::Rule(ridx) => boltmarrow::Symbol::Rule(rule(ridx)),
        Symbol::Token(tidx) => boltmarrow::Symbol::Token(token(tidx)),
    };
    symbol.to_flat().ok_or(Refusal::Sizes)
}
