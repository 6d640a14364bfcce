use crate::sys;
use crate::table::{done, rule_mark};
use crate::{Grammar, RIdx, Refusal};

/// The reached row, whole: as its fill left it. A rule is reached if it is the start or has a path from it; all others
/// are dead, and stand in no form that the start derives. It can be asked and not changed.
#[derive(Clone, Debug)]
pub struct Reached<'g> {
    grammar: &'g Grammar,
    pub(crate) reached: Vec<u32>,
}

impl<'g> Reached<'g> {
    pub(crate) fn unfilled(grammar: &'g Grammar) -> Self {
        Reached { grammar, reached: grammar.rule_marks() }
    }

    pub(crate) fn filled(grammar: &'g Grammar) -> Self {
        let mut row = Self::unfilled(grammar);
        done(sys::reached_fill(grammar.flat(), &mut row.reached));
        row
    }

    /// Whether the rule is reached.
    ///
    /// # Errors
    ///
    /// Refusal 9 for a rule that the grammar does not have.
    pub fn is_set(&self, ridx: RIdx) -> Result<bool, Refusal> {
        rule_mark(self.grammar, &self.reached, ridx)
    }
}
