use crate::sys::{self, DEAREST_ABOVE, DEAREST_MAX, DEAREST_NONE, DEAREST_UNBOUNDED};
use crate::table::done;
use crate::{Grammar, RIdx, Refusal};

/// What DEAREST holds of a rule.
#[derive(Clone, Copy, Debug, PartialEq, Eq, Hash)]
pub enum Dearest {
    /// The greatest cost of a sentence of the rule, at most 65534.
    Cost(u16),
    /// The rule has sentences, and their costs are without bound: whatever the number, some sentence costs as much.
    Unbounded,
    /// The rule has no sentence.
    NoSentence,
    /// There is a greatest cost, and it is above 65534.
    Above,
}

impl Dearest {
    fn of(entry: u32) -> Dearest {
        match entry {
            0..=DEAREST_MAX => Dearest::Cost(entry as u16),
            DEAREST_UNBOUNDED => Dearest::Unbounded,
            DEAREST_NONE => Dearest::NoSentence,
            DEAREST_ABOVE.. => Dearest::Above,
        }
    }
}

/// DEAREST, whole: as its fill left it. It can be asked and not changed. Where a token's cost is the most characters that
/// it takes, it has the width of a column that holds any sentence of a rule.
///
/// ```
/// use boltmarrow::{Dearest, Grammar, RIdx};
///
/// // S: x; S: B; B: y y y; T: T x; T: x. Rules are 0 start, 1 S, 2 B, 3 T, tokens 0 x, 1 y, 2 eof; each costs 1.
/// let (owners, starts) = (vec![0, 1, 1, 2, 3, 3], vec![0, 1, 2, 3, 6, 8, 9]);
/// let grm = Grammar::new(4, owners, starts, vec![32769, 0, 32770, 1, 1, 1, 32771, 0, 0], vec![1; 3])?;
/// let dearest = grm.dearest();
/// // y y y costs more than x. cfgrammar's own answer for S is 1.
/// assert_eq!(dearest.cost(RIdx(1))?, Dearest::Cost(3));
/// assert_eq!(dearest.cost(RIdx(3))?, Dearest::Unbounded);
/// # Ok::<(), boltmarrow::Refusal>(())
/// ```
///
/// It stands in the place of cfgrammar's `SentenceGenerator::max_sentence_cost`, whose `rule_max_costs` differs in three
/// ways:
///
/// - It settles too soon: a rule gets the cost of a production while that of another one is still rising, as S above.
/// - Productions that derive no sentence count: A: A gives `None`, which stands for no bound. Here they don't, and A has
///   no sentence.
/// - Every rule that comes back to itself has no bound, where the loop adds no cost too: A: A; A: nothing gives `None`.
///   Here it is cost 0.
///
/// Beside that it panics for the whole grammar where a sum comes to 65535; here that rule alone is [`Dearest::Above`].
#[derive(Clone, Debug)]
pub struct DearestCosts<'g> {
    grammar: &'g Grammar,
    dearest: Vec<u32>,
}

impl<'g> DearestCosts<'g> {
    pub(crate) fn filled(grammar: &'g Grammar) -> Self {
        let mut dearest = grammar.numbers();
        done(sys::dearest_fill(grammar.flat(), &mut dearest));
        DearestCosts { grammar, dearest }
    }

    /// The greatest cost of a sentence of the rule, or why there is none up to 65534.
    ///
    /// # Errors
    ///
    /// Refusal 9 for a rule that the grammar does not have.
    pub fn cost(&self, ridx: RIdx) -> Result<Dearest, Refusal> {
        self.grammar.has_rule(ridx)?;
        Ok(Dearest::of(self.dearest[usize::from(ridx)]))
    }
}

#[cfg(test)]
mod tests;
