use std::io;

use crate::sys::{self, Flat};
use crate::table::words;
use crate::{
    CostTable, Costs, DearestCosts, FirstTable, Firsts, FollowTable, Follows, Job, PIdx, Productive, ProductiveTable,
    RIdx, Reached, Refusal, SIdx, SentenceGenerator, Symbol, TIdx, Verdict, Version,
};

/// The bytes of the largest block file: 98 blocks.
const LARGEST_FILE: usize = 98 * 512;

/// A well-formed grammar in document 01's flat form.
#[derive(Clone, Debug, Eq, PartialEq)]
pub struct Grammar {
    rules: u16,
    owners: Vec<u16>,
    starts: Vec<u16>,
    symbols: Vec<u16>,
    costs: Vec<u8>,
    rules_prods: RulesProds,
}

/// The productions rule after rule, each rule's rising. It is made from the owners.
#[derive(Clone, Debug, Eq, PartialEq)]
struct RulesProds {
    /// Where in `prods` each rule's begin, and behind them the end.
    starts: Vec<usize>,
    prods: Vec<PIdx>,
}

impl RulesProds {
    /// Each owner is a rule.
    fn new(rules: u16, owners: &[u16]) -> RulesProds {
        let mut starts = vec![0; usize::from(rules) + 1];
        for owner in owners {
            starts[usize::from(*owner) + 1] += 1;
        }
        for rule in 0..usize::from(rules) {
            starts[rule + 1] += starts[rule];
        }
        let (mut next, mut prods) = (starts.clone(), vec![PIdx(0); owners.len()]);
        for (owner, pidx) in owners.iter().zip((0..).map(PIdx)) {
            let place = &mut next[usize::from(*owner)];
            prods[*place] = pidx;
            *place += 1;
        }
        RulesProds { starts, prods }
    }

    /// A rule's, for a rule that is there.
    fn of(&self, ridx: RIdx) -> &[PIdx] {
        let rule = usize::from(ridx);
        &self.prods[self.starts[rule]..self.starts[rule + 1]]
    }
}

impl Grammar {
    /// The grammar of these tables. Production p belongs to rule `owners[p]` and is `symbols` from `starts[p]` up to,
    /// without, `starts[p + 1]`; a symbol below 32768 is a token, otherwise rule (value - 32768). The last token is
    /// eof, rule 0 the start, which has a production for each export. `costs` has a byte for each token.
    ///
    /// ```
    /// use boltmarrow::{Grammar, RIdx, Refusal, TIdx};
    ///
    /// // Two exports in one grammar: rule 0 is rule 1, three tokens 0, or rule 2, one token 1. Token 2 is eof.
    /// let (owners, starts) = (vec![0, 0, 1, 2], vec![0, 1, 2, 5, 6]);
    /// let grm = Grammar::new(3, owners, starts, vec![32769, 32770, 0, 0, 0, 1], vec![1, 2, 0])?;
    /// let start = grm.start_rule_idx();
    /// assert_eq!(grm.firsts().firsts(start)?.collect::<Vec<_>>(), [TIdx(0), TIdx(1)]);
    /// // The cheaper export's sentence: three tokens of cost 1, or one of cost 2.
    /// assert_eq!(grm.sentence_generator().min_sentence(start)?, [TIdx(1)]);
    /// assert_eq!(grm.sentence_generator().min_sentence(RIdx(1))?, [TIdx(0); 3]);
    /// # Ok::<(), Refusal>(())
    /// ```
    ///
    /// # Errors
    ///
    /// Refusals 1 to 6: the lowest that is due, if the tables are no grammar.
    pub fn new(
        rules: u16,
        owners: Vec<u16>,
        starts: Vec<u16>,
        symbols: Vec<u16>,
        costs: Vec<u8>,
    ) -> Result<Grammar, Refusal> {
        sys::check(Flat { rules, owners: &owners, starts: &starts, symbols: &symbols, costs: &costs }).number()?;
        Ok(Grammar::checked(rules, owners, starts, symbols, costs))
    }

    /// The grammar of a block file, of either version.
    ///
    /// # Errors
    ///
    /// Refusals 20 to 23 for the file, 25 for a free token in version 2, 1 to 6 for the grammar in it.
    pub fn from_blocks(file: &[u8]) -> Result<Grammar, Refusal> {
        Grammar::read_blocks(file).map(|(grm, _)| grm)
    }

    /// The grammar of a block file, and the file's version: [`to_blocks`](Self::to_blocks) in this version gives the
    /// file's bytes again.
    ///
    /// # Errors
    ///
    /// Those of [`from_blocks`](Self::from_blocks).
    pub fn read_blocks(file: &[u8]) -> Result<(Grammar, Version), Refusal> {
        let (mut owners, mut starts) = (vec![0; 4096], vec![0; 4097]);
        let (mut symbols, mut costs) = (vec![0; 16384], vec![0; 512]);
        let counts = sys::read_blocks(file, &mut owners, &mut starts, &mut symbols, &mut costs).told()?;
        owners.truncate(counts.prods as usize);
        starts.truncate(counts.prods as usize + 1);
        symbols.truncate(counts.symbols as usize);
        costs.truncate(counts.tokens as usize);
        let version = Version::try_from(counts.version as u16).expect("a file that is read is of a known version");
        Ok((Grammar::checked(counts.rules as u16, owners, starts, symbols, costs), version))
    }

    /// The block file of this grammar in a version: whole blocks of 512 bytes, with their numbers and checks. Reading
    /// it ([`read_blocks`](Self::read_blocks)) gives this grammar and this version again, and a file that was read is
    /// written in its version with the same bytes.
    ///
    /// ```
    /// use boltmarrow::{Grammar, Refusal, Version};
    ///
    /// // Rule 0, the start, is rule 1, which is token 0 or nothing; token 1 is eof.
    /// let (owners, starts, symbols) = (vec![0, 1, 1], vec![0, 1, 2, 2], vec![32769, 0]);
    /// let grm = Grammar::new(2, owners.clone(), starts.clone(), symbols.clone(), vec![1, 0])?;
    /// let file = grm.to_blocks(Version::Two)?;
    /// assert_eq!(file.len(), 512);
    /// assert_eq!(Grammar::from_blocks(&file)?, grm);
    ///
    /// // Token 0 costs nothing: version 2 does not take it, version 1 does.
    /// let free = Grammar::new(2, owners, starts, symbols, vec![0, 0])?;
    /// assert_eq!(free.to_blocks(Version::Two), Err(Refusal::FreeToken));
    /// assert_eq!(Grammar::read_blocks(&free.to_blocks(Version::One)?)?, (free, Version::One));
    /// # Ok::<(), Refusal>(())
    /// ```
    ///
    /// # Errors
    ///
    /// Refusal 25 in version 2 if a token other than eof costs nothing; in version 1 none.
    pub fn to_blocks(&self, version: Version) -> Result<Vec<u8>, Refusal> {
        let mut room = vec![0; LARGEST_FILE];
        let len = sys::write_blocks(self.flat(), version.number(), &mut room).number()?;
        Ok(room[..len as usize].to_vec())
    }

    /// Writes the block file of this grammar in a version, the bytes of [`to_blocks`](Self::to_blocks), to a file, or
    /// to whatever else takes bytes.
    ///
    /// # Errors
    ///
    /// Refusal 25, as `to_blocks` gives it: an error of the kind `InvalidInput` that holds the [`Refusal`], with which
    /// nothing is written. Otherwise, where `to` cannot be written, its own error.
    pub fn write_blocks(&self, version: Version, to: &mut impl io::Write) -> io::Result<()> {
        let file = self.to_blocks(version).map_err(|refusal| io::Error::new(io::ErrorKind::InvalidInput, refusal))?;
        to.write_all(&file)
    }

    /// The grammar of tables that the library has checked.
    fn checked(rules: u16, owners: Vec<u16>, starts: Vec<u16>, symbols: Vec<u16>, costs: Vec<u8>) -> Grammar {
        let rules_prods = RulesProds::new(rules, &owners);
        Grammar { rules, owners, starts, symbols, costs, rules_prods }
    }

    /// The tables back, in the order in which [`new`](Self::new) takes them.
    pub fn into_tables(self) -> (u16, Vec<u16>, Vec<u16>, Vec<u16>, Vec<u8>) {
        (self.rules, self.owners, self.starts, self.symbols, self.costs)
    }

    pub(crate) fn flat(&self) -> Flat<'_> {
        let Grammar { rules, owners, starts, symbols, costs, .. } = self;
        Flat { rules: *rules, owners, starts, symbols, costs }
    }

    /// A mark table of its exact length: a row of tokens for each rule.
    pub(crate) fn marks(&self) -> Vec<u32> {
        vec![0; usize::from(self.rules) * words(self.costs.len())]
    }

    /// A table of one mark a rule.
    pub(crate) fn rule_marks(&self) -> Vec<u32> {
        vec![0; words(self.rules.into())]
    }

    /// A table of one number a rule.
    pub(crate) fn numbers(&self) -> Vec<u32> {
        vec![0; self.rules.into()]
    }

    /// How many rules there are.
    pub fn rules_len(&self) -> RIdx {
        RIdx(self.rules)
    }

    /// How many tokens there are, eof among them.
    pub fn tokens_len(&self) -> TIdx {
        TIdx(self.costs.len() as u16)
    }

    /// How many productions there are.
    pub fn prods_len(&self) -> PIdx {
        PIdx(self.owners.len() as u16)
    }

    /// All rules, rising.
    pub fn iter_rules(&self) -> impl Iterator<Item = RIdx> {
        (0..self.rules_len().0).map(RIdx)
    }

    /// All tokens, rising.
    pub fn iter_tidxs(&self) -> impl Iterator<Item = TIdx> {
        (0..self.tokens_len().0).map(TIdx)
    }

    /// All productions, rising.
    pub fn iter_pidxs(&self) -> impl Iterator<Item = PIdx> {
        (0..self.prods_len().0).map(PIdx)
    }

    /// The start, rule 0.
    pub fn start_rule_idx(&self) -> RIdx {
        RIdx(0)
    }

    /// eof, the last token.
    pub fn eof_token_idx(&self) -> TIdx {
        TIdx(self.tokens_len().0 - 1)
    }

    /// Done where there is such a rule, else refusal 9.
    pub(crate) fn has_rule(&self, ridx: RIdx) -> Result<(), Refusal> {
        if ridx < self.rules_len() {
            Ok(())
        } else {
            Err(Refusal::RuleNumber)
        }
    }

    /// Done where there is such a token, else refusal 10.
    pub(crate) fn has_token(&self, tidx: TIdx) -> Result<(), Refusal> {
        if tidx < self.tokens_len() {
            Ok(())
        } else {
            Err(Refusal::TokenNumber)
        }
    }

    /// A production's stretch of the symbol list.
    fn stretch(&self, pidx: PIdx) -> Result<&[u16], Refusal> {
        match self.starts.get(usize::from(pidx)..usize::from(pidx) + 2) {
            Some(&[from, to]) => Ok(&self.symbols[usize::from(from)..usize::from(to)]),
            _ => Err(Refusal::ProductionNumber),
        }
    }

    /// The symbols of a production.
    ///
    /// # Errors
    ///
    /// Refusal 11 for a production that the grammar does not have.
    pub fn prod(&self, pidx: PIdx) -> Result<impl ExactSizeIterator<Item = Symbol> + '_, Refusal> {
        Ok(self.stretch(pidx)?.iter().map(|&number| Symbol::from_flat(number)))
    }

    /// How many symbols a production has.
    ///
    /// # Errors
    ///
    /// Refusal 11 for a production that the grammar does not have.
    pub fn prod_len(&self, pidx: PIdx) -> Result<SIdx, Refusal> {
        Ok(SIdx(self.stretch(pidx)?.len() as u16))
    }

    /// The rule that a production belongs to.
    ///
    /// # Errors
    ///
    /// Refusal 11 for a production that the grammar does not have.
    pub fn prod_to_rule(&self, pidx: PIdx) -> Result<RIdx, Refusal> {
        let owner = self.owners.get(usize::from(pidx));
        owner.map(|&rule| RIdx(rule)).ok_or(Refusal::ProductionNumber)
    }

    /// The productions of a rule, rising; there is at least one.
    ///
    /// # Errors
    ///
    /// Refusal 9 for a rule that the grammar does not have.
    pub fn rule_to_prods(&self, ridx: RIdx) -> Result<&[PIdx], Refusal> {
        self.has_rule(ridx)?;
        Ok(self.rules_prods.of(ridx))
    }

    /// The cost of a token.
    ///
    /// # Errors
    ///
    /// Refusal 10 for a token that the grammar does not have.
    pub fn token_cost(&self, tidx: TIdx) -> Result<u8, Refusal> {
        self.costs.get(usize::from(tidx)).copied().ok_or(Refusal::TokenNumber)
    }

    /// Whether there is a path, of at least one production step, between two rules.
    ///
    /// # Errors
    ///
    /// Refusal 9 if the grammar does not have one of the rules.
    pub fn has_path(&self, from: RIdx, to: RIdx) -> Result<bool, Refusal> {
        sys::has_path(self.flat(), from.0, to.0).yes()
    }

    /// The reached row: which rules are the start or have a path from it. The others are dead.
    ///
    /// ```
    /// use boltmarrow::{Grammar, RIdx, TIdx};
    ///
    /// // start: S; S: A; A: a; U: A z, where U was left in and is used nowhere. Rules are 1 S, 2 A, 3 U, tokens 0 a,
    /// // 1 z, 2 eof.
    /// let (owners, starts) = (vec![0, 1, 2, 3], vec![0, 1, 2, 3, 5]);
    /// let grm = Grammar::new(4, owners, starts, vec![32769, 32770, 0, 32770, 1], vec![1, 1, 1])?;
    /// let (a, u, z) = (RIdx(2), RIdx(3), TIdx(1));
    /// assert!(grm.reached().is_set(a)? && !grm.reached().is_set(u)?);
    /// // So no row has z after A. cfgrammar's own FOLLOW, which counts all productions, has it.
    /// assert!(!grm.follows().is_set(a, z)?);
    /// # Ok::<(), boltmarrow::Refusal>(())
    /// ```
    pub fn reached(&self) -> Reached<'_> {
        Reached::filled(self)
    }

    /// FIRST and EMPTY.
    pub fn firsts(&self) -> Firsts<'_> {
        FirstTable::filled(self)
    }

    /// FIRST and EMPTY, cleared, for single visits.
    pub fn first_table(&self) -> FirstTable<'_> {
        FirstTable::new(self)
    }

    /// A job that fills FIRST and EMPTY by slices.
    pub fn first_job(&self) -> Job<Firsts<'_>> {
        FirstTable::job(self)
    }

    /// FOLLOW.
    pub fn follows(&self) -> Follows<'_> {
        FollowTable::filled(self)
    }

    /// FOLLOW, cleared, for single visits; with FIRST, EMPTY and the reached row, filled, which the visits read.
    pub fn follow_table(&self) -> FollowTable<'_> {
        FollowTable::new(self.firsts())
    }

    /// A job that fills FOLLOW by slices. FIRST, EMPTY and the reached row, which it reads, are filled here, at once; to
    /// fill FIRST and EMPTY by slices too, take [`Firsts::follow_job`] of those that a [`first_job`](Self::first_job)
    /// gave.
    pub fn follow_job(&self) -> Job<Follows<'_>> {
        self.firsts().follow_job()
    }

    /// Whether a reader can decide by the next token: for each rule, which of its productions it is to take. If not,
    /// the least clash, by rule, then lower production, higher production, token.
    ///
    /// Two productions of one rule clash where they share a token that both may start with. What a production may start
    /// with is its FIRST and, where it can vanish, the FOLLOW of its rule. Two that both can vanish clash in any case.
    /// All rules take part, the start and dead ones too.
    ///
    /// ```
    /// use boltmarrow::{Clash, Grammar, PIdx, RIdx, TIdx, Verdict};
    ///
    /// // Row: Num comma Num; Num: digits Frac; Frac: comma digits | nothing. Rules are 0 start, 1 Row, 2 Num, 3 Frac,
    /// // tokens 0 digits, 1 comma, 2 eof: is a comma behind digits a decimal comma, or does it end the field?
    /// let (owners, starts) = (vec![0, 1, 2, 3, 3], vec![0, 1, 4, 6, 8, 8]);
    /// let mut symbols = vec![32769, 32770, 1, 32770, 0, 32771, 1, 0];
    /// let grm = Grammar::new(4, owners.clone(), starts.clone(), symbols.clone(), vec![1; 3])?;
    /// let clash = Clash { rule: RIdx(3), lower: PIdx(3), higher: PIdx(4), token: Some(TIdx(1)) };
    /// assert_eq!(grm.profile(), Verdict::Clashes(clash));
    /// assert_eq!(clash.to_string(), "rule 3: productions 3 and 4 can both start with token 1");
    ///
    /// // With a token of its own for the decimal comma, 2, the next token decides; eof is 3 then.
    /// symbols[6] = 2;
    /// let grm = Grammar::new(4, owners, starts, symbols, vec![1; 4])?;
    /// assert_eq!(grm.profile(), Verdict::Passes);
    /// # Ok::<(), boltmarrow::Refusal>(())
    /// ```
    pub fn profile(&self) -> Verdict {
        self.profile_with_follows().0
    }

    /// What [`profile`](Self::profile) gives, and the tables that it was found by: FOLLOW, with FIRST, EMPTY and the
    /// reached row. They say why two productions clash, and are what a reader is made from if none do.
    pub fn profile_with_follows(&self) -> (Verdict, Follows<'_>) {
        Verdict::found(self)
    }

    /// PRODUCTIVE: which rules have a sentence.
    pub fn productive(&self) -> Productive<'_> {
        ProductiveTable::filled(self)
    }

    /// PRODUCTIVE, cleared, for single visits.
    pub fn productive_table(&self) -> ProductiveTable<'_> {
        ProductiveTable::new(self)
    }

    /// A job that fills PRODUCTIVE by slices.
    pub fn productive_job(&self) -> Job<Productive<'_>> {
        ProductiveTable::job(self)
    }

    /// COST: the cost of each rule's cheapest sentence.
    pub fn costs(&self) -> Costs<'_> {
        CostTable::filled(self)
    }

    /// COST, cleared, for single visits.
    pub fn cost_table(&self) -> CostTable<'_> {
        CostTable::new(self)
    }

    /// A job that fills COST by slices.
    pub fn cost_job(&self) -> Job<Costs<'_>> {
        CostTable::job(self)
    }

    /// DEAREST: the cost of each rule's dearest sentence.
    pub fn dearest(&self) -> DearestCosts<'_> {
        DearestCosts::filled(self)
    }

    /// Cheapest sentences, by this grammar's token costs.
    pub fn sentence_generator(&self) -> SentenceGenerator<'_> {
        SentenceGenerator::new(self)
    }
}
