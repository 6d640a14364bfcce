use std::fmt;

use crate::sys::{self, Tables};
use crate::{Grammar, PIdx};

/// A whole table that a [`Job`] fills: [`Firsts`](crate::Firsts), [`Follows`](crate::Follows),
/// [`Productive`](crate::Productive) or [`Costs`](crate::Costs).
pub trait Whole: Fills {
    /// The table that visits take, of which it is the whole one.
    type Table;

    /// It, to be asked as such.
    fn table(&self) -> &Self::Table;
}

/// What a job needs of its table. No one outside can name it: so the four are all there are, and no one has the words.
pub trait Fills {
    /// The grammar.
    fn grammar(&self) -> &Grammar;

    /// The grammar, and the words of the tables of the job's kind.
    fn lent(&mut self) -> (&Grammar, Tables<'_>);
}

/// A job, which fills a table by slices, so that a program can draw its screen, or look for a key, between them. It owns
/// its table, which begins cleared, and gives it away as a whole one once it is done. [`Grammar::first_job`],
/// [`follow_job`](Grammar::follow_job), [`productive_job`](Grammar::productive_job) and [`cost_job`](Grammar::cost_job)
/// make one.
///
/// It goes over the productions in rounds, and is done once a whole round changed nothing. What it leaves is what the
/// fill leaves. It can be shown: how many rounds it has behind it, and the next production.
///
/// ```
/// use boltmarrow::{Cost, Grammar, RIdx};
///
/// // Rule 0, the start, is rule 1, which is token 0 and rule 2; rule 2 is token 1. Token 2 is eof.
/// let (owners, starts) = (vec![0, 1, 2], vec![0, 1, 3, 4]);
/// let grm = Grammar::new(3, owners, starts, vec![32769, 0, 32770, 1], vec![2, 3, 0])?;
/// let mut job = grm.cost_job();
/// while job.slice(2) > 0 {
///     eprint!("\r{job}"); // rounds 0, next production 2 of 3
/// }
/// let costs = job.finish().expect("a job that makes no more visits is done");
/// assert_eq!(costs.cost(RIdx(0))?, Cost::Is(5));
/// # Ok::<(), boltmarrow::Refusal>(())
/// ```
#[derive(Clone, Debug)]
pub struct Job<W> {
    whole: W,
    record: sys::Job,
    /// No job makes more than (512 * 512 + 1) * 4096: see [`Job::rounds_most`].
    visits: u32,
}

impl<W: Whole> Job<W> {
    /// A job of the table's kind; the table is cleared.
    pub(crate) fn new(kind: u16, cleared: W) -> Self {
        Job { whole: cleared, record: sys::Job::new(kind), visits: 0 }
    }

    /// Makes `n` visits, from the next production on, rising, and from 0 again behind the last; fewer only where the job
    /// is or becomes done. How many were made: none if it was done before.
    ///
    /// Each slice checks the whole grammar first, whatever `n` is: one of a thousand visits takes little more than its
    /// visits do, one of a few mostly the check.
    pub fn slice(&mut self, n: u32) -> u32 {
        let (grammar, tables) = self.whole.lent();
        let answer = sys::slice(&mut self.record, grammar.flat(), n, tables);
        let made = answer.number().expect("a checked grammar, its own job and tables of its lengths are not refused");
        self.visits += made;
        made
    }

    /// Whether a whole round changed nothing, so that the table is whole.
    pub fn is_done(&self) -> bool {
        self.record.done != 0
    }

    /// How many whole rounds over the productions it has made, the last one, without a change, among them.
    pub fn rounds(&self) -> u32 {
        self.visits / self.prods()
    }

    /// A number of rounds after which every job of this kind on this grammar is done. For PRODUCTIVE and COST it is one
    /// more than the rules, and some grammars take as many. For FIRST and FOLLOW it is one more than rules times tokens,
    /// of which most take very few.
    pub fn rounds_most(&self) -> u32 {
        let grammar = self.whole.grammar();
        let rules = u32::from(grammar.rules_len());
        match self.record.kind {
            sys::JOB_PRODUCTIVE | sys::JOB_COST => rules + 1,
            _ => rules * u32::from(grammar.tokens_len()) + 1,
        }
    }

    /// The production that the next visit is of; 0 if the job is done.
    pub fn next_pidx(&self) -> PIdx {
        PIdx(self.record.next)
    }

    /// The table so far. At every moment each mark in it is true and each cost some sentence's; until the job is done
    /// others may come, and a cost may be lowered.
    pub fn table(&self) -> &W::Table {
        self.whole.table()
    }

    /// The whole table.
    ///
    /// # Errors
    ///
    /// The job itself, as it stands, if it is not done.
    pub fn finish(self) -> Result<W, Self> {
        if self.is_done() {
            Ok(self.whole)
        } else {
            Err(self)
        }
    }

    fn prods(&self) -> u32 {
        self.whole.grammar().prods_len().into()
    }
}

/// Where the job stands, for a person.
impl<W: Whole> fmt::Display for Job<W> {
    fn fmt(&self, f: &mut fmt::Formatter) -> fmt::Result {
        if self.is_done() {
            return write!(f, "rounds {}, done", self.rounds());
        }
        write!(f, "rounds {}, next production {} of {}", self.rounds(), self.record.next, self.prods())
    }
}
