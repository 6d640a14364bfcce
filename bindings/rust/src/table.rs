//! Reading tables of their exact lengths. A grammar was checked when it was made, so no call of the library is needed.
use crate::sys::Answer;
use crate::{Grammar, RIdx, Refusal, TIdx};

/// The words of a row of so many marks.
pub(crate) fn words(marks: usize) -> usize {
    (marks + 31) / 32
}

/// For a call with a checked grammar, tables of its lengths and no number: it has nothing to refuse.
pub(crate) fn done(answer: Answer) {
    answer.number().expect("a checked grammar and tables of its lengths are not refused");
}

/// Whether a row has a mark.
fn bit(row: &[u32], mark: u16) -> bool {
    row[usize::from(mark / 32)] >> (mark % 32) & 1 == 1
}

/// A rule's row of a mark table.
fn row<'a>(grammar: &Grammar, table: &'a [u32], ridx: RIdx) -> Result<&'a [u32], Refusal> {
    grammar.has_rule(ridx)?;
    let width = words(grammar.tokens_len().into());
    Ok(&table[usize::from(ridx) * width..][..width])
}

/// A rule's tokens in a mark table, rising.
pub(crate) fn tokens<'a>(
    grammar: &'a Grammar,
    table: &'a [u32],
    ridx: RIdx,
) -> Result<impl Iterator<Item = TIdx> + 'a, Refusal> {
    let row = row(grammar, table, ridx)?;
    Ok(grammar.iter_tidxs().filter(move |tidx| bit(row, tidx.0)))
}

/// Whether a rule has a token in a mark table; what `boltmarrow_mark` answers.
pub(crate) fn mark(grammar: &Grammar, table: &[u32], ridx: RIdx, tidx: TIdx) -> Result<bool, Refusal> {
    let row = row(grammar, table, ridx)?;
    grammar.has_token(tidx)?;
    Ok(bit(row, tidx.0))
}

/// Whether a rule is marked in a table of one row; what `boltmarrow_rule_mark` answers.
pub(crate) fn rule_mark(grammar: &Grammar, table: &[u32], ridx: RIdx) -> Result<bool, Refusal> {
    grammar.has_rule(ridx)?;
    Ok(bit(table, ridx.0))
}
