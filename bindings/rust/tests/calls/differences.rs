//! Inputs of docs/DIFFERENCES.md besides document 01's grammars: what is answered where the Rust loses marks, has marks
//! of dead rules, writes tokens again, panics, never returns, settles too soon or builds no such grammar. In each the
//! start is rule 1, in the last but one rule 2 too.
use boltmarrow::{Dearest, RIdx, Refusal, TIdx};

use crate::dearest::dearest;
use crate::grammars::{built, dead, doubled, g5, well, RULE};
use crate::sentences::{cost, count, list, sentence};

const A: u16 = RULE + 1;
const B: u16 = RULE + 2;

#[test]
fn follow_past_a_rule_that_vanishes() {
    // A: A B c; B: nothing
    let grm = well(3, &[(0, &[A]), (1, &[A, B, 0]), (2, &[])], &[1, 1]);
    assert_eq!(grm.follows().is_set(RIdx(1), TIdx(0)), Ok(true));
}

#[test]
fn follow_without_dead_rules() {
    // S: A; A: a; U: A z
    assert_eq!(dead().follows().is_set(RIdx(2), TIdx(1)), Ok(false));
    // A: nothing; U: A z
    let grm = well(3, &[(0, &[A]), (1, &[]), (2, &[A, 0])], &[1, 1]);
    assert_eq!(grm.follows().is_set(RIdx(1), TIdx(0)), Ok(false));
}

#[test]
fn each_token_once_and_in_order() {
    // A: B a; B: nothing
    let grm = well(3, &[(0, &[A]), (1, &[B, 0]), (2, &[])], &[1, 1]);
    assert_eq!(sentence(&grm, 1), Ok(vec![0]));
    // A: B a; B: b
    let grm = well(3, &[(0, &[A]), (1, &[B, 0]), (2, &[1])], &[1, 1, 1]);
    assert_eq!(sentence(&grm, 0), Ok(vec![1, 0]));
}

#[test]
fn loops_that_add_no_cost() {
    // A: A; A: nothing
    let grm = well(2, &[(0, &[A]), (1, &[A]), (1, &[])], &[1]);
    assert_eq!((cost(&grm, 1), sentence(&grm, 1)), (Ok(0), Err(Refusal::Circular)));
    // A: A f; A: a, and f is free
    let grm = well(2, &[(0, &[A]), (1, &[A, 0]), (1, &[1])], &[0, 1, 1]);
    assert_eq!((cost(&grm, 1), sentence(&grm, 1)), (Ok(1), Err(Refusal::Circular)));
    // A: A A; A: a
    let grm = well(2, &[(0, &[A]), (1, &[A, A]), (1, &[0])], &[1, 1]);
    assert_eq!((cost(&grm, 1), sentence(&grm, 1)), (Ok(1), Ok(vec![0])));
}

#[test]
fn a_rule_without_a_sentence_is_refused_alone() {
    // A: A
    let grm = well(2, &[(0, &[A]), (1, &[A])], &[1]);
    assert_eq!(cost(&grm, 1), Err(Refusal::NoSentence));
    // A: a; B: B
    let grm = well(3, &[(0, &[A]), (1, &[0]), (2, &[B])], &[1, 1]);
    assert_eq!([cost(&grm, 0), cost(&grm, 1), cost(&grm, 2)], [Ok(1), Ok(1), Err(Refusal::NoSentence)]);
}

#[test]
fn a_dear_production_is_passed_over() {
    // A: nothing; A: B B a; B: 129 tokens of cost 255
    let grm = well(3, &[(0, &[A]), (1, &[]), (1, &[B, B, 0]), (2, &[1; 129])], &[1, 255, 1]);
    assert_eq!((cost(&grm, 2), sentence(&grm, 1)), (Ok(32895), Ok(vec![])));
}

#[test]
fn rules_with_empty_sentences_take_no_time() {
    // A: B 40 times; B: nothing
    let grm = well(3, &[(0, &[A]), (1, &[B; 40]), (2, &[])], &[1]);
    assert_eq!((cost(&grm, 1), sentence(&grm, 1)), (Ok(0), Ok(vec![])));
}

#[test]
fn lists_that_would_not_end() {
    // A: a; A: A: the first choice gives a sentence, all choices give no end
    let grm = well(2, &[(0, &[A]), (1, &[0]), (1, &[A])], &[1, 1]);
    assert_eq!((sentence(&grm, 1), list(&grm, 1)), (Ok(vec![0]), Err(Refusal::Circular)));
    // B: b; B: A; A: a; A: A: B comes to that circle by its second cheapest production; B: A b would be dearer
    let [cheap, dear] =
        [&[A][..], &[A, 1]].map(|body| well(3, &[(0, &[B]), (2, &[1]), (2, body), (1, &[0]), (1, &[A])], &[1, 1, 1]));
    assert_eq!((sentence(&cheap, 2), list(&cheap, 2)), (Ok(vec![1]), Err(Refusal::Circular)));
    assert_eq!((sentence(&dear, 2), list(&dear, 2)), (Ok(vec![1]), Ok(vec![vec![1]])));
    assert_eq!(list(&dear, 1), Err(Refusal::Circular));
}

#[test]
fn lists_that_are_too_long() {
    // A: B B; B: a, 256 times
    let mut prods: Vec<(u16, &[u16])> = vec![(0, &[A]), (1, &[B, B])];
    prods.extend(vec![(2, &[0][..]); 256]);
    let grm = well(3, &prods, &[1, 1]);
    assert_eq!((count(&grm, 1), count(&grm, 2)), (Err(Refusal::TooMany), Ok(256)));
}

#[test]
fn lists_have_each_part_once_as_the_rusts() {
    // A: B a; B: b; B: c: the Rust's min_sentence writes a again, its min_sentences does not
    let grm = well(3, &[(0, &[A]), (1, &[B, 0]), (2, &[1]), (2, &[2])], &[1; 4]);
    assert_eq!(list(&grm, 1), Ok(vec![vec![1, 0], vec![2, 0]]));
}

#[test]
fn dearest_is_not_settled_too_soon() {
    // A: a; A: B; B: a a
    let grm = well(3, &[(0, &[A]), (1, &[0]), (1, &[B]), (2, &[0, 0])], &[1, 1]);
    assert_eq!(dearest(&grm), [Dearest::Cost(2); 3]);
}

#[test]
fn dearest_without_productions_that_derive_no_sentence() {
    // A: A
    assert_eq!(dearest(&well(2, &[(0, &[A]), (1, &[A])], &[1])), [Dearest::NoSentence; 2]);
    // A: a; A: B; B: B
    let grm = well(3, &[(0, &[A]), (1, &[0]), (1, &[B]), (2, &[B])], &[1, 1]);
    assert_eq!(dearest(&grm), [Dearest::Cost(1), Dearest::Cost(1), Dearest::NoSentence]);
}

#[test]
fn dearest_where_a_loop_adds_no_cost() {
    // A: A; A: nothing
    assert_eq!(dearest(&well(2, &[(0, &[A]), (1, &[A]), (1, &[])], &[1])), [Dearest::Cost(0); 2]);
    // A: A x; A: x, and x is free
    assert_eq!(dearest(&well(2, &[(0, &[A]), (1, &[A, 0]), (1, &[0])], &[0, 1])), [Dearest::Cost(0); 2]);
}

#[test]
fn dearest_of_65535_and_more() {
    // A: 257 tokens of cost 255
    assert_eq!(dearest(&g5(257)), [Dearest::Above; 2]);
    // 500 rules that are the next one twice, behind them a token of cost 1
    assert_eq!(dearest(&doubled(501, &[0], 1))[..3], [Dearest::Above; 3]);
}

#[test]
fn several_start_productions() {
    // start: A; start: B; A: a; B: b
    let grm = well(3, &[(0, &[A]), (0, &[B]), (1, &[0]), (2, &[1])], &[2, 1, 1]);
    assert_eq!(grm.rule_to_prods(RIdx(0)).map(<[_]>::len), Ok(2));
    assert_eq!(grm.firsts().firsts(RIdx(0)).unwrap().collect::<Vec<_>>(), [TIdx(0), TIdx(1)]);
    assert_eq!((cost(&grm, 0), sentence(&grm, 0)), (Ok(1), Ok(vec![1])));
}

#[test]
fn rules_over_the_limit() {
    let mut prods: Vec<(u16, &[u16])> = vec![(0, &[A])];
    prods.extend((1..513).map(|r| (r, &[0_u16][..])));
    assert_eq!(built(513, &prods, &[1, 1]).err(), Some(Refusal::Sizes));
}
