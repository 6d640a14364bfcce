use crate::jobs::Fills;
use crate::sys::{self, Tables};
use crate::table::{done, mark, rule_mark, tokens};
use crate::{FollowTable, Follows, Grammar, Job, PIdx, RIdx, Refusal, TIdx, Whole};

/// FIRST and EMPTY, whole: as their fill left them. They can be asked and not changed.
#[derive(Clone, Debug)]
pub struct Firsts<'g>(pub(crate) FirstTable<'g>);

impl<'g> Firsts<'g> {
    /// Whether the rule can start with the token.
    ///
    /// # Errors
    ///
    /// Refusal 9 for a rule, 10 for a token that the grammar does not have.
    pub fn is_set(&self, ridx: RIdx, tidx: TIdx) -> Result<bool, Refusal> {
        self.0.is_set(ridx, tidx)
    }

    /// Whether the rule can vanish.
    ///
    /// # Errors
    ///
    /// Refusal 9 for a rule that the grammar does not have.
    pub fn is_epsilon_set(&self, ridx: RIdx) -> Result<bool, Refusal> {
        self.0.is_epsilon_set(ridx)
    }

    /// The tokens that the rule can start with, rising.
    ///
    /// # Errors
    ///
    /// Refusal 9 for a rule that the grammar does not have.
    pub fn firsts(&self, ridx: RIdx) -> Result<impl Iterator<Item = TIdx> + '_, Refusal> {
        self.0.firsts(ridx)
    }

    /// A job that fills FOLLOW and reads these, so that nothing is filled at once but the reached row, by one search.
    /// In the end [`Follows::firsts`] has them.
    pub fn follow_job(self) -> Job<Follows<'g>> {
        FollowTable::job(self)
    }
}

impl<'g> Whole for Firsts<'g> {
    type Table = FirstTable<'g>;

    fn table(&self) -> &FirstTable<'g> {
        &self.0
    }
}

impl Fills for Firsts<'_> {
    fn grammar(&self) -> &Grammar {
        self.0.grammar
    }

    fn lent(&mut self) -> (&Grammar, Tables<'_>) {
        let FirstTable { grammar, first, empty } = &mut self.0;
        (grammar, Tables { first, empty, ..Tables::default() })
    }
}

/// FIRST and EMPTY, filled by single visits in any order. Each mark that it holds is true; it is whole when no visit
/// changes it.
#[derive(Clone, Debug)]
pub struct FirstTable<'g> {
    pub(crate) grammar: &'g Grammar,
    pub(crate) first: Vec<u32>,
    pub(crate) empty: Vec<u32>,
}

impl<'g> FirstTable<'g> {
    pub(crate) fn unfilled(grammar: &'g Grammar) -> Self {
        FirstTable { grammar, first: grammar.marks(), empty: grammar.rule_marks() }
    }

    pub(crate) fn new(grammar: &'g Grammar) -> Self {
        let mut table = Self::unfilled(grammar);
        table.clear();
        table
    }

    pub(crate) fn filled(grammar: &'g Grammar) -> Firsts<'g> {
        let mut table = Self::unfilled(grammar);
        done(sys::first_fill(grammar.flat(), &mut table.first, &mut table.empty));
        Firsts(table)
    }

    pub(crate) fn job(grammar: &'g Grammar) -> Job<Firsts<'g>> {
        Job::new(sys::JOB_FIRST, Firsts(Self::new(grammar)))
    }

    /// Takes all marks away.
    pub fn clear(&mut self) {
        done(sys::first_clear(self.grammar.flat(), &mut self.first, &mut self.empty));
    }

    /// Makes the step of one production; whether a table changed.
    ///
    /// # Errors
    ///
    /// Refusal 11 for a production that the grammar does not have.
    pub fn visit(&mut self, pidx: PIdx) -> Result<bool, Refusal> {
        sys::first_visit(self.grammar.flat(), pidx.0, &mut self.first, &mut self.empty).yes()
    }

    /// Whether the rule is known to start with the token.
    ///
    /// # Errors
    ///
    /// Refusal 9 for a rule, 10 for a token that the grammar does not have.
    pub fn is_set(&self, ridx: RIdx, tidx: TIdx) -> Result<bool, Refusal> {
        mark(self.grammar, &self.first, ridx, tidx)
    }

    /// Whether the rule is known to vanish.
    ///
    /// # Errors
    ///
    /// Refusal 9 for a rule that the grammar does not have.
    pub fn is_epsilon_set(&self, ridx: RIdx) -> Result<bool, Refusal> {
        rule_mark(self.grammar, &self.empty, ridx)
    }

    /// The tokens that the rule is known to start with, rising.
    ///
    /// # Errors
    ///
    /// Refusal 9 for a rule that the grammar does not have.
    pub fn firsts(&self, ridx: RIdx) -> Result<impl Iterator<Item = TIdx> + '_, Refusal> {
        tokens(self.grammar, &self.first, ridx)
    }
}
