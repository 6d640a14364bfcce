//! What the crate reads from its own lists and tables, without a call, held to what the library's calls answer: on the
//! grammars of examples/ and on random ones, numbers that are not there included. And on the same grammars what a job
//! leaves, held word by word to what the fill leaves.
use std::fs;
use std::path::Path;

use crate::costs::ProductiveTable;
use crate::follows::FollowTable;
use crate::sys;
use crate::{FirstTable, Grammar, Job, PIdx, RIdx, Reached, Refusal, SIdx, Symbol, TIdx, Whole};

/// Numbers that are no rule's, token's or production's where there are so many.
fn outside(len: u16) -> [u16; 4] {
    [len, len + 1, 32768, u16::MAX]
}

/// All numbers below `len` where they are few, else those at the ends and around each end of a word; and some outside.
fn asked(len: u16) -> Vec<u16> {
    let near = |number: &u16| len <= 60 || *number < 2 || *number + 2 >= len || (*number + 1) % 32 < 2;
    (0..len).filter(near).chain(outside(len)).collect()
}

/// Each pair of numbers that is asked about, and what a table of marks is to answer.
fn holds_marks(grm: &Grammar, table: &[u32], is_set: impl Fn(RIdx, TIdx) -> Result<bool, Refusal>) {
    for rule in asked(grm.rules_len().0) {
        for token in asked(grm.tokens_len().0) {
            let answer = sys::mark(grm.flat(), table, rule, token).yes();
            assert_eq!(is_set(RIdx(rule), TIdx(token)), answer, "rule {rule}, token {token}");
        }
    }
}

fn holds_rule_marks(grm: &Grammar, table: &[u32], is_set: impl Fn(RIdx) -> Result<bool, Refusal>) {
    for rule in asked(grm.rules_len().0) {
        assert_eq!(is_set(RIdx(rule)), sys::rule_mark(grm.flat(), table, rule).yes(), "rule {rule}");
    }
}

fn holds_firsts(table: &FirstTable) {
    holds_marks(table.grammar, &table.first, |ridx, tidx| table.is_set(ridx, tidx));
    holds_rule_marks(table.grammar, &table.empty, |ridx| table.is_epsilon_set(ridx));
}

fn holds_productive(table: &ProductiveTable) {
    holds_rule_marks(table.grammar, &table.productive, |ridx| table.is_set(ridx));
}

fn holds_follows(grm: &Grammar, table: &FollowTable) {
    holds_marks(grm, &table.follow, |ridx, tidx| table.is_set(ridx, tidx));
}

/// The tables as their fills leave them, each asked as a whole table and as the one inside.
fn holds_filled(grm: &Grammar) {
    let (firsts, productive, reached) = (grm.firsts(), grm.productive(), grm.reached());
    holds_rule_marks(grm, &reached.reached, |ridx| reached.is_set(ridx));
    holds_reached(grm, &reached);
    holds_firsts(&firsts.0);
    holds_marks(grm, &firsts.0.first, |ridx, tidx| firsts.is_set(ridx, tidx));
    holds_rule_marks(grm, &firsts.0.empty, |ridx| firsts.is_epsilon_set(ridx));
    holds_productive(&productive.0);
    holds_rule_marks(grm, &productive.0.productive, |ridx| productive.is_set(ridx));
    let follows = grm.follows();
    holds_follows(grm, &follows.0);
    holds_marks(grm, &follows.0.follow, |ridx, tidx| follows.is_set(ridx, tidx));
    assert_eq!(follows.reached().reached, reached.reached);
    assert_eq!(grm.follow_table().reached().reached, reached.reached);
}

/// A rule is reached if it is the start or has a path from it.
fn holds_reached(grm: &Grammar, reached: &Reached) {
    for rule in asked(grm.rules_len().0) {
        let path = sys::has_path(grm.flat(), 0, rule).yes();
        assert_eq!(reached.is_set(RIdx(rule)), path.map(|path| path || rule == 0), "rule {rule}");
    }
}

fn holds_productions(grm: &Grammar) {
    let flat = grm.flat();
    for prod in grm.iter_pidxs().map(|pidx| pidx.0).chain(outside(grm.prods_len().0)) {
        let stretch = sys::production(flat, prod).range().map(|range| flat.symbols[range].to_vec());
        let symbols = stretch.clone().map(|numbers| numbers.into_iter().map(Symbol::from_flat).collect::<Vec<_>>());
        assert_eq!(grm.prod(PIdx(prod)).map(Iterator::collect), symbols, "production {prod}");
        assert_eq!(grm.prod_len(PIdx(prod)), stretch.map(|numbers| SIdx(numbers.len() as u16)), "production {prod}");
    }
}

/// `rule_to_prods` has no call of the library beside it; it is held to the owners.
fn holds_owners(grm: &Grammar) {
    for rule in (0..grm.rules_len().0).chain(outside(grm.rules_len().0)) {
        let owned = |pidx: &PIdx| grm.prod_to_rule(*pidx) == Ok(RIdx(rule));
        let prods: Vec<PIdx> = grm.iter_pidxs().filter(owned).collect();
        let expected = if rule < grm.rules_len().0 { Ok(&prods[..]) } else { Err(Refusal::RuleNumber) };
        assert_eq!(grm.rule_to_prods(RIdx(rule)), expected, "rule {rule}");
    }
}

pub(crate) fn examples() -> Vec<Grammar> {
    let folder = Path::new(env!("CARGO_MANIFEST_DIR")).join("../../examples");
    let paths = fs::read_dir(folder).expect("examples/ is there").map(|entry| entry.unwrap().path());
    let files = paths.filter(|path| path.extension().map_or(false, |extension| extension == "blk"));
    files.map(|file| Grammar::from_blocks(&fs::read(file).unwrap()).unwrap()).collect()
}

#[test]
fn the_examples_are_read_as_the_library_answers() {
    let examples = examples();
    assert!(examples.len() >= 12);
    for grm in &examples {
        holds_filled(grm);
        holds_productions(grm);
        holds_owners(grm);
    }
}

/// A generator with a fixed seed (xorshift).
pub(crate) struct Random(pub(crate) u64);

impl Random {
    fn next(&mut self) -> u32 {
        self.0 ^= self.0 << 13;
        self.0 ^= self.0 >> 7;
        self.0 ^= self.0 << 17;
        (self.0 >> 16) as u32
    }

    pub(crate) fn below(&mut self, count: u16) -> u16 {
        (self.next() % u32::from(count)) as u16
    }

    /// Words of every kind; half of them have most bits set, so that spare bits are.
    fn words(&mut self, table: &mut [u32]) {
        for word in table {
            *word = if self.below(2) == 0 { self.next() & self.next() } else { self.next() | self.next() };
        }
    }

    /// A rule other than the start, or a token other than eof.
    fn symbol(&mut self, rules: u16, tokens: u16) -> u16 {
        if tokens == 1 || self.below(2) == 0 {
            32769 + self.below(rules - 1)
        } else {
            self.below(tokens - 1)
        }
    }

    /// A grammar of so many rules and tokens, with up to rules + 20 productions more than rules.
    fn grammar(&mut self, rules: u16, tokens: u16) -> Grammar {
        let more = self.below(rules + 20);
        self.grammar_of(rules, tokens, more)
    }

    /// A grammar of so many rules, tokens and productions more than rules, these in any order; rule 0 owns one or more.
    pub(crate) fn grammar_of(&mut self, rules: u16, tokens: u16, more: u16) -> Grammar {
        let mut owners: Vec<u16> = (0..rules).collect();
        owners.extend((0..more).map(|_| if self.below(8) == 0 { 0 } else { 1 + self.below(rules - 1) }));
        for last in (1..owners.len()).rev() {
            owners.swap(last, usize::from(self.below(last as u16 + 1)));
        }
        let (mut starts, mut symbols) = (vec![0], vec![]);
        for owner in &owners {
            let len = if *owner == 0 { 0 } else { self.below(5) };
            symbols.extend((0..len).map(|_| self.symbol(rules, tokens)));
            if *owner == 0 {
                symbols.push(32769 + self.below(rules - 1));
            }
            starts.push(symbols.len() as u16);
        }
        let costs = (0..tokens).map(|_| self.below(256) as u8).collect();
        Grammar::new(rules, owners, starts, symbols, costs).expect("a well-formed grammar")
    }
}

/// Counts around each end of a word, and at the limits.
pub(crate) const COUNTS: [u16; 9] = [2, 3, 31, 32, 33, 64, 65, 511, 512];

#[test]
fn random_grammars_are_read_as_the_library_answers() {
    let mut random = Random(88172645463325252);
    for rules in COUNTS {
        for tokens in [1].into_iter().chain(COUNTS) {
            let grm = random.grammar(rules, tokens);
            holds_filled(&grm);
            holds_productions(&grm);
            holds_owners(&grm);
        }
    }
}

/// Tables that no fill leaves, spare bits set among them.
#[test]
fn any_words_are_read_as_the_library_answers() {
    let mut random = Random(2463534242);
    for rules in COUNTS {
        for tokens in [1].into_iter().chain(COUNTS) {
            let grm = random.grammar(rules, tokens);
            let (mut firsts, mut productive) = (grm.first_table(), grm.productive_table());
            let (mut follows, mut reached) = (grm.follow_table(), grm.reached());
            for table in [&mut firsts.first, &mut firsts.empty, &mut productive.productive, &mut follows.follow] {
                random.words(table);
            }
            random.words(&mut reached.reached);
            holds_rule_marks(&grm, &reached.reached, |ridx| reached.is_set(ridx));
            holds_firsts(&firsts);
            holds_productive(&productive);
            holds_follows(&grm, &follows);
        }
    }
}

/// What a job leaves that is worked on in slices of random lengths, among them 0 and some that are longer than a round.
fn sliced<W: Whole>(random: &mut Random, mut job: Job<W>) -> W {
    let longest = 1 + random.below(2000);
    while !job.is_done() {
        job.slice(random.below(longest + 1).into());
    }
    assert!(job.rounds() <= job.rounds_most());
    job.finish().ok().unwrap()
}

/// The words of all tables that jobs leave, beside those of the fills.
fn holds_jobs(random: &mut Random, grm: &Grammar) {
    let (firsts, job) = (grm.firsts().0, sliced(random, grm.first_job()).0);
    assert_eq!((job.first, job.empty), (firsts.first, firsts.empty));
    assert_eq!(sliced(random, grm.productive_job()).0.productive, grm.productive().0.productive);
    assert_eq!(sliced(random, grm.cost_job()).0.cost, grm.costs().0.cost);
    let (follows, job) = (grm.follows(), sliced(random, grm.follow_job()));
    assert_eq!(job.0.follow, follows.0.follow);
    let (read, kept) = (&job.firsts().0, &follows.firsts().0);
    assert_eq!((&read.first, &read.empty), (&kept.first, &kept.empty));
    assert_eq!(job.reached().reached, follows.reached().reached);
}

#[test]
fn jobs_leave_the_words_of_the_fills() {
    let mut random = Random(362436069);
    for grm in &examples() {
        holds_jobs(&mut random, grm);
    }
    for rules in COUNTS {
        for tokens in [1].into_iter().chain(COUNTS) {
            let grm = random.grammar(rules, tokens);
            holds_jobs(&mut random, &grm);
        }
    }
}
