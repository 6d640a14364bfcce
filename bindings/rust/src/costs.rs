use crate::jobs::Fills;
use crate::sys::{self, Tables, COST_DEAR, COST_MAX, COST_UNKNOWN};
use crate::table::{done, rule_mark};
use crate::{Grammar, Job, PIdx, RIdx, Refusal, Whole};

/// PRODUCTIVE, whole: as its fill left it. It can be asked and not changed.
#[derive(Clone, Debug)]
pub struct Productive<'g>(pub(crate) ProductiveTable<'g>);

impl Productive<'_> {
    /// Whether the rule has a sentence.
    ///
    /// # Errors
    ///
    /// Refusal 9 for a rule that the grammar does not have.
    pub fn is_set(&self, ridx: RIdx) -> Result<bool, Refusal> {
        self.0.is_set(ridx)
    }
}

impl<'g> Whole for Productive<'g> {
    type Table = ProductiveTable<'g>;

    fn table(&self) -> &ProductiveTable<'g> {
        &self.0
    }
}

impl Fills for Productive<'_> {
    fn grammar(&self) -> &Grammar {
        self.0.grammar
    }

    fn lent(&mut self) -> (&Grammar, Tables<'_>) {
        (self.0.grammar, Tables { productive: &mut self.0.productive, ..Tables::default() })
    }
}

/// What COST holds of a rule.
#[derive(Clone, Copy, Debug, PartialEq, Eq, Hash)]
pub enum Cost {
    /// The cost of a sentence of the rule, at most 65535; in a whole table that of the cheapest.
    Is(u16),
    /// The rule has a sentence, and none that costs 65535 or less has been found; in a whole table there is none.
    Dear,
    /// No sentence of the rule is known; in a whole table it has none.
    Unknown,
}

impl Cost {
    fn of(entry: u32) -> Cost {
        match entry {
            0..=COST_MAX => Cost::Is(entry as u16),
            COST_DEAR => Cost::Dear,
            COST_UNKNOWN.. => Cost::Unknown,
        }
    }

    /// The cost, where one is known.
    #[must_use]
    pub fn known(self) -> Option<u16> {
        match self {
            Cost::Is(cost) => Some(cost),
            Cost::Dear | Cost::Unknown => None,
        }
    }
}

/// COST, whole: as its fill left it. It can be asked and not changed.
#[derive(Clone, Debug)]
pub struct Costs<'g>(pub(crate) CostTable<'g>);

impl Costs<'_> {
    /// The cost of the rule's cheapest sentence; [`Cost::Dear`] where it has one but none costs 65535 or less,
    /// [`Cost::Unknown`] where it has none.
    ///
    /// # Errors
    ///
    /// Refusal 9 for a rule that the grammar does not have.
    pub fn cost(&self, ridx: RIdx) -> Result<Cost, Refusal> {
        self.0.cost(ridx)
    }
}

impl<'g> Whole for Costs<'g> {
    type Table = CostTable<'g>;

    fn table(&self) -> &CostTable<'g> {
        &self.0
    }
}

impl Fills for Costs<'_> {
    fn grammar(&self) -> &Grammar {
        self.0.grammar
    }

    fn lent(&mut self) -> (&Grammar, Tables<'_>) {
        (self.0.grammar, Tables { cost: &mut self.0.cost, ..Tables::default() })
    }
}

/// PRODUCTIVE, filled by single visits in any order: which rules have a sentence.
#[derive(Clone, Debug)]
pub struct ProductiveTable<'g> {
    pub(crate) grammar: &'g Grammar,
    pub(crate) productive: Vec<u32>,
}

impl<'g> ProductiveTable<'g> {
    pub(crate) fn new(grammar: &'g Grammar) -> Self {
        let mut table = ProductiveTable { grammar, productive: grammar.rule_marks() };
        table.clear();
        table
    }

    pub(crate) fn filled(grammar: &'g Grammar) -> Productive<'g> {
        let mut table = ProductiveTable { grammar, productive: grammar.rule_marks() };
        done(sys::productive_fill(grammar.flat(), &mut table.productive));
        Productive(table)
    }

    pub(crate) fn job(grammar: &'g Grammar) -> Job<Productive<'g>> {
        Job::new(sys::JOB_PRODUCTIVE, Productive(Self::new(grammar)))
    }

    /// Takes all marks away.
    pub fn clear(&mut self) {
        done(sys::productive_clear(self.grammar.flat(), &mut self.productive));
    }

    /// Makes the step of one production; whether the table changed.
    ///
    /// # Errors
    ///
    /// Refusal 11 for a production that the grammar does not have.
    pub fn visit(&mut self, pidx: PIdx) -> Result<bool, Refusal> {
        sys::productive_visit(self.grammar.flat(), pidx.0, &mut self.productive).yes()
    }

    /// Whether the rule is known to have a sentence.
    ///
    /// # Errors
    ///
    /// Refusal 9 for a rule that the grammar does not have.
    pub fn is_set(&self, ridx: RIdx) -> Result<bool, Refusal> {
        rule_mark(self.grammar, &self.productive, ridx)
    }
}

/// COST, lowered by single visits in any order: the cost of a sentence of each rule, in the end the cheapest. A rule that
/// is dear may still be lowered to a cost.
#[derive(Clone, Debug)]
pub struct CostTable<'g> {
    grammar: &'g Grammar,
    pub(crate) cost: Vec<u32>,
}

impl<'g> CostTable<'g> {
    pub(crate) fn new(grammar: &'g Grammar) -> Self {
        let mut table = CostTable { grammar, cost: grammar.numbers() };
        table.clear();
        table
    }

    pub(crate) fn filled(grammar: &'g Grammar) -> Costs<'g> {
        let mut table = CostTable { grammar, cost: grammar.numbers() };
        done(sys::cost_fill(grammar.flat(), &mut table.cost));
        Costs(table)
    }

    pub(crate) fn job(grammar: &'g Grammar) -> Job<Costs<'g>> {
        Job::new(sys::JOB_COST, Costs(Self::new(grammar)))
    }

    /// No cost is known any more.
    pub fn clear(&mut self) {
        done(sys::cost_clear(self.grammar.flat(), &mut self.cost));
    }

    /// Makes the step of one production; whether the table changed.
    ///
    /// # Errors
    ///
    /// Refusal 11 for a production that the grammar does not have.
    pub fn visit(&mut self, pidx: PIdx) -> Result<bool, Refusal> {
        sys::cost_visit(self.grammar.flat(), pidx.0, &mut self.cost).yes()
    }

    /// The cost of a sentence of the rule that the visits found, or that they found only dear ones, or none.
    ///
    /// # Errors
    ///
    /// Refusal 9 for a rule that the grammar does not have.
    pub fn cost(&self, ridx: RIdx) -> Result<Cost, Refusal> {
        self.cost.get(usize::from(ridx)).map(|&entry| Cost::of(entry)).ok_or(Refusal::RuleNumber)
    }
}
