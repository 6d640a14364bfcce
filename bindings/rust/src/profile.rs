use std::fmt;

use crate::sys;
use crate::{FollowTable, Follows, Grammar, PIdx, RIdx, TIdx};

/// Whether a reader can decide by the next token, as [`Grammar::profile`] finds it. It can be shown, by numbers.
#[derive(Clone, Copy, Debug, Eq, Hash, PartialEq)]
pub enum Verdict {
    /// No rule has two productions that clash: whatever the next token is, it leaves at most one of them.
    Passes,
    /// Some rule has. This is the least clash, by rule, then lower production, higher production, token.
    Clashes(Clash),
}

/// Two productions of one rule between which the next token does not decide. It can be shown, by numbers.
#[derive(Clone, Copy, Debug, Eq, Hash, PartialEq)]
pub struct Clash {
    /// The rule that both belong to.
    pub rule: RIdx,
    /// The one with the lower number.
    pub lower: PIdx,
    /// The one with the higher number.
    pub higher: PIdx,
    /// The least token that both may start with. None where they share none, and clash since both can vanish: nothing
    /// then follows the rule, as is so for a dead one.
    pub token: Option<TIdx>,
}

impl Verdict {
    /// The verdict, and the tables that the call filled.
    pub(crate) fn found(grammar: &Grammar) -> (Verdict, Follows<'_>) {
        let (follows, said) = FollowTable::filled_by(grammar, |flat, [follow, first, empty, reached]| {
            sys::profile(flat, follow, first, empty, reached)
        });
        let said = said.told().expect("a checked grammar and tables of its lengths are not refused");
        (Verdict::of(grammar, said), follows)
    }

    fn of(grammar: &Grammar, said: sys::Verdict) -> Verdict {
        if said.clash == 0 {
            return Verdict::Passes;
        }
        let [rule, lower, higher, token] = [said.rule, said.lower, said.higher, said.token].map(|number| number as u16);
        // T, the number of tokens, is no token
        let token = Some(TIdx(token)).filter(|&tidx| tidx < grammar.tokens_len());
        Verdict::Clashes(Clash { rule: RIdx(rule), lower: PIdx(lower), higher: PIdx(higher), token })
    }
}

impl fmt::Display for Verdict {
    fn fmt(&self, f: &mut fmt::Formatter) -> fmt::Result {
        match self {
            Verdict::Passes => f.write_str("passes"),
            Verdict::Clashes(clash) => clash.fmt(f),
        }
    }
}

impl fmt::Display for Clash {
    fn fmt(&self, f: &mut fmt::Formatter) -> fmt::Result {
        let Clash { rule, lower, higher, token } = self;
        write!(f, "rule {}: productions {} and {} can both ", rule.0, lower.0, higher.0)?;
        match token {
            Some(tidx) => write!(f, "start with token {}", tidx.0),
            None => f.write_str("vanish"),
        }
    }
}

#[cfg(test)]
mod tests;
