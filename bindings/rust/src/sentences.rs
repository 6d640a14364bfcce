use std::iter::FusedIterator;
use std::ops::Range;

use crate::sys::{self, LENGTH_MAX};
use crate::{Grammar, RIdx, Refusal, TIdx};

/// Gives cheapest sentences. It keeps no tables: each call fills those that it needs.
#[derive(Clone, Copy, Debug)]
pub struct SentenceGenerator<'g> {
    grammar: &'g Grammar,
}

impl<'g> SentenceGenerator<'g> {
    pub(crate) fn new(grammar: &'g Grammar) -> Self {
        SentenceGenerator { grammar }
    }

    /// The cost of the rule's cheapest sentence. For all rules at once take [`Grammar::costs`].
    ///
    /// # Errors
    ///
    /// Refusal 9 for a rule that the grammar does not have, 12 if the rule has no sentence, 13 if none costs 65535 or
    /// less.
    pub fn min_sentence_cost(&self, ridx: RIdx) -> Result<u16, Refusal> {
        let mut cost = self.grammar.numbers();
        let least = sys::min_sentence_cost(self.grammar.flat(), ridx.0, &mut cost).number()?;
        Ok(u16::try_from(least).expect("a cost that is given is at most 65535"))
    }

    /// The rule's cheapest sentence, each rule replaced by its first choice: the lowest-numbered of its cheapest
    /// productions.
    ///
    /// # Errors
    ///
    /// As [`min_sentence_cost`](Self::min_sentence_cost); 14 if the choice is circular ([`Refusal::Circular`]), 15 if
    /// the sentence has more than 65535 tokens.
    pub fn min_sentence(&self, ridx: RIdx) -> Result<Vec<TIdx>, Refusal> {
        self.min_sentence_in(ridx, LENGTH_MAX)
    }

    /// The same, where it has at most `room` tokens.
    ///
    /// # Errors
    ///
    /// As [`min_sentence`](Self::min_sentence), and 15 if the sentence has more than `room` tokens.
    pub fn min_sentence_in(&self, ridx: RIdx, room: usize) -> Result<Vec<TIdx>, Refusal> {
        let (mut cost, mut lengths) = (self.grammar.numbers(), self.grammar.numbers());
        let mut out = vec![0; room.min(LENGTH_MAX)];
        let flat = self.grammar.flat();
        let len = sys::min_sentence(flat, ridx.0, &mut cost, &mut lengths, &mut out).number()?;
        out.truncate(len as usize);
        Ok(out.into_iter().map(TIdx).collect())
    }

    /// How many cheapest sentences the rule has: its derivations through cheapest productions only. A sentence with two
    /// derivations counts twice.
    ///
    /// # Errors
    ///
    /// As [`min_sentence_cost`](Self::min_sentence_cost); 14 if some cheapest production, the first choice or another,
    /// of the rule or of one that it comes to leads back to that rule itself ([`Refusal::Circular`]), 16 if there are
    /// more than 65535 ([`Refusal::TooMany`]).
    pub fn count_min_sentences(&self, ridx: RIdx) -> Result<usize, Refusal> {
        Working::new(self.grammar).count(ridx).map(usize::from)
    }

    /// The rule's cheapest sentence number `k`, from 0. Productions come in rising number, and within one the last place
    /// turns fastest; number 0 is what [`min_sentence`](Self::min_sentence) gives.
    ///
    /// # Errors
    ///
    /// As [`count_min_sentences`](Self::count_min_sentences); 16 too if `k` is the count or more, 15 if the sentence has
    /// more than 65535 tokens.
    pub fn min_sentence_at(&self, ridx: RIdx, k: usize) -> Result<Vec<TIdx>, Refusal> {
        // a number of more than 32 bits is above every count, as the highest of 32 bits is
        Working::new(self.grammar).row(ridx, u32::try_from(k).unwrap_or(u32::MAX))
    }

    /// All cheapest sentences of the rule, one after the other, in the order of
    /// [`min_sentence_at`](Self::min_sentence_at).
    ///
    /// ```
    /// use boltmarrow::{Grammar, RIdx, TIdx};
    ///
    /// // Field: Sign digits; Sign: plus | minus. Rules are 0 start, 1 Field, 2 Sign, tokens 0 digits, 1 plus, 2 minus.
    /// let (owners, starts) = (vec![0, 1, 2, 2], vec![0, 1, 3, 4, 5]);
    /// let grm = Grammar::new(3, owners, starts, vec![32769, 32770, 0, 1, 2], vec![1, 1, 1, 1])?;
    /// let sentences = grm.sentence_generator();
    /// let rows = sentences.min_sentences(RIdx(1))?.collect::<Result<Vec<_>, _>>()?;
    /// assert_eq!(rows, [[TIdx(1), TIdx(0)], [TIdx(2), TIdx(0)]]);
    /// # Ok::<(), boltmarrow::Refusal>(())
    /// ```
    ///
    /// # Errors
    ///
    /// As [`count_min_sentences`](Self::count_min_sentences). Each sentence is an `Err` of its own, refusal 15, if it has
    /// more than 65535 tokens.
    pub fn min_sentences(&self, ridx: RIdx) -> Result<MinSentences<'g>, Refusal> {
        let mut working = Working::new(self.grammar);
        let left = 0..working.count(ridx)?;
        Ok(MinSentences { working, ridx, left })
    }
}

/// All cheapest sentences of a rule, by [`SentenceGenerator::min_sentences`]. It keeps its tables and its room from one
/// sentence to the next, and takes those that are passed over by [`nth`](Iterator::nth) without making them.
#[derive(Clone, Debug)]
pub struct MinSentences<'g> {
    working: Working<'g>,
    ridx: RIdx,
    left: Range<u16>,
}

impl Iterator for MinSentences<'_> {
    type Item = Result<Vec<TIdx>, Refusal>;

    fn next(&mut self) -> Option<Self::Item> {
        self.nth(0)
    }

    fn nth(&mut self, n: usize) -> Option<Self::Item> {
        let k = self.left.nth(n)?;
        Some(self.working.row(self.ridx, k.into()))
    }

    fn size_hint(&self) -> (usize, Option<usize>) {
        self.left.size_hint()
    }
}

impl DoubleEndedIterator for MinSentences<'_> {
    fn next_back(&mut self) -> Option<Self::Item> {
        self.nth_back(0)
    }

    fn nth_back(&mut self, n: usize) -> Option<Self::Item> {
        let k = self.left.nth_back(n)?;
        Some(self.working.row(self.ridx, k.into()))
    }
}

impl ExactSizeIterator for MinSentences<'_> {}

impl FusedIterator for MinSentences<'_> {}

/// The working tables of the calls on all cheapest sentences, and room for one.
#[derive(Clone, Debug)]
struct Working<'g> {
    grammar: &'g Grammar,
    cost: Vec<u32>,
    lengths: Vec<u32>,
    counts: Vec<u32>,
    /// Empty until a sentence is asked for.
    out: Vec<u16>,
}

impl<'g> Working<'g> {
    fn new(grammar: &'g Grammar) -> Self {
        let [cost, lengths, counts] = [(); 3].map(|()| grammar.numbers());
        Working { grammar, cost, lengths, counts, out: vec![] }
    }

    fn count(&mut self, ridx: RIdx) -> Result<u16, Refusal> {
        let Working { grammar, cost, lengths, counts, .. } = self;
        let count = sys::count_min_sentences(grammar.flat(), ridx.0, cost, lengths, counts).number()?;
        Ok(u16::try_from(count).expect("a count that is given is at most 65535"))
    }

    fn row(&mut self, ridx: RIdx, k: u32) -> Result<Vec<TIdx>, Refusal> {
        self.out.resize(LENGTH_MAX, 0);
        let Working { grammar, cost, lengths, counts, out } = self;
        let tables = [&mut cost[..], lengths, counts];
        let len = sys::min_sentence_at(grammar.flat(), ridx.0, k, tables, out).number()?;
        Ok(self.out[..len as usize].iter().map(|&number| TIdx(number)).collect())
    }
}
