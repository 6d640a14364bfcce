use crate::jobs::Fills;
use crate::sys::{self, Flat, Tables};
use crate::table::{done, mark, tokens};
use crate::{FirstTable, Firsts, Grammar, Job, PIdx, RIdx, Reached, Refusal, TIdx, Whole};

/// FOLLOW, whole: as its fill left it, with the FIRST, EMPTY and reached row that it was made from. It can be asked and
/// not changed.
///
/// It looks at all that comes after a rule, as far as symbols can vanish, in the productions of reached rules. So a token
/// is there exactly if it stands after the rule in some form that the start, with eof behind it, derives. cfgrammar's own
/// looks at the next symbol only, which loses tokens where that symbol can vanish, and in all productions, which adds
/// tokens that only a dead rule puts there.
#[derive(Clone, Debug)]
pub struct Follows<'g>(pub(crate) FollowTable<'g>);

impl<'g> Follows<'g> {
    /// Whether the token can follow the rule.
    ///
    /// # Errors
    ///
    /// Refusal 9 for a rule, 10 for a token that the grammar does not have.
    pub fn is_set(&self, ridx: RIdx, tidx: TIdx) -> Result<bool, Refusal> {
        self.0.is_set(ridx, tidx)
    }

    /// The tokens that can follow the rule, rising.
    ///
    /// # Errors
    ///
    /// Refusal 9 for a rule that the grammar does not have.
    pub fn follows(&self, ridx: RIdx) -> Result<impl Iterator<Item = TIdx> + '_, Refusal> {
        self.0.follows(ridx)
    }

    /// The FIRST and EMPTY that it was made from.
    pub fn firsts(&self) -> &Firsts<'g> {
        self.0.firsts()
    }

    /// The reached row that it was made from.
    pub fn reached(&self) -> &Reached<'g> {
        self.0.reached()
    }
}

impl<'g> Whole for Follows<'g> {
    type Table = FollowTable<'g>;

    fn table(&self) -> &FollowTable<'g> {
        &self.0
    }
}

impl Fills for Follows<'_> {
    fn grammar(&self) -> &Grammar {
        self.0.grammar()
    }

    fn lent(&mut self) -> (&Grammar, Tables<'_>) {
        let FollowTable { follow, firsts, reached } = &mut self.0;
        let FirstTable { grammar, first, empty } = &mut firsts.0;
        (grammar, Tables { first, empty, follow, reached: &reached.reached, ..Tables::default() })
    }
}

/// FOLLOW, filled by single visits in any order, which read whole FIRST and EMPTY tables and the whole reached row: a
/// visit of a dead rule's production changes nothing. Each mark that it holds is true; it is whole when no visit changes
/// it.
#[derive(Clone, Debug)]
pub struct FollowTable<'g> {
    pub(crate) follow: Vec<u32>,
    firsts: Firsts<'g>,
    reached: Reached<'g>,
}

impl<'g> FollowTable<'g> {
    /// It reads the FIRST and EMPTY that are given.
    pub(crate) fn new(firsts: Firsts<'g>) -> Self {
        let grammar = firsts.0.grammar;
        let mut table = FollowTable { follow: grammar.marks(), firsts, reached: grammar.reached() };
        table.clear();
        table
    }

    pub(crate) fn job(firsts: Firsts<'g>) -> Job<Follows<'g>> {
        Job::new(sys::JOB_FOLLOW, Follows(Self::new(firsts)))
    }

    pub(crate) fn filled(grammar: &'g Grammar) -> Follows<'g> {
        let (follows, answer) = Self::filled_by(grammar, |flat, [follow, first, empty, reached]| {
            sys::follow_fill(flat, sys::FOLLOW_MODE, follow, first, empty, reached)
        });
        done(answer);
        follows
    }

    /// What a call leaves that fills FOLLOW, FIRST, EMPTY and the reached row, and its answer.
    pub(crate) fn filled_by<A>(
        grammar: &'g Grammar,
        fill: impl FnOnce(Flat, [&mut [u32]; 4]) -> A,
    ) -> (Follows<'g>, A) {
        let (mut follow, mut firsts) = (grammar.marks(), FirstTable::unfilled(grammar));
        let mut reached = Reached::unfilled(grammar);
        let tables = [&mut follow[..], &mut firsts.first, &mut firsts.empty, &mut reached.reached];
        let answer = fill(grammar.flat(), tables);
        (Follows(FollowTable { follow, firsts: Firsts(firsts), reached }), answer)
    }

    fn grammar(&self) -> &'g Grammar {
        self.firsts.0.grammar
    }

    /// Takes all marks away but one: eof follows the start.
    pub fn clear(&mut self) {
        done(sys::follow_clear(self.grammar().flat(), &mut self.follow));
    }

    /// Makes the step of one production; whether the table changed.
    ///
    /// # Errors
    ///
    /// Refusal 11 for a production that the grammar does not have.
    pub fn visit(&mut self, pidx: PIdx) -> Result<bool, Refusal> {
        let (FirstTable { grammar, first, empty }, reached) = (&self.firsts.0, &self.reached.reached);
        sys::follow_visit(grammar.flat(), sys::FOLLOW_MODE, pidx.0, &mut self.follow, first, empty, reached).yes()
    }

    /// Whether the token is known to follow the rule.
    ///
    /// # Errors
    ///
    /// Refusal 9 for a rule, 10 for a token that the grammar does not have.
    pub fn is_set(&self, ridx: RIdx, tidx: TIdx) -> Result<bool, Refusal> {
        mark(self.grammar(), &self.follow, ridx, tidx)
    }

    /// The tokens that are known to follow the rule, rising.
    ///
    /// # Errors
    ///
    /// Refusal 9 for a rule that the grammar does not have.
    pub fn follows(&self, ridx: RIdx) -> Result<impl Iterator<Item = TIdx> + '_, Refusal> {
        tokens(self.grammar(), &self.follow, ridx)
    }

    /// The FIRST and EMPTY that it reads.
    pub fn firsts(&self) -> &Firsts<'g> {
        &self.firsts
    }

    /// The reached row that it reads.
    pub fn reached(&self) -> &Reached<'g> {
        &self.reached
    }
}
