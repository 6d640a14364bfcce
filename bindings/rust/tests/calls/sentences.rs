//! Costs of one rule and cheapest sentences.
use boltmarrow::{Grammar, RIdx, Refusal, TIdx};

use crate::grammars::{doubled, exports, g1, g2, g3, g4, g5, g5_either, g6, well, RULE};

pub fn cost(grm: &Grammar, rule: u16) -> Result<u16, Refusal> {
    grm.sentence_generator().min_sentence_cost(RIdx(rule))
}

pub fn sentence(grm: &Grammar, rule: u16) -> Result<Vec<u16>, Refusal> {
    let tokens = grm.sentence_generator().min_sentence(RIdx(rule))?;
    Ok(tokens.into_iter().map(|tidx| tidx.as_storaget()).collect())
}

/// All cheapest sentences of a rule, in their order.
pub fn list(grm: &Grammar, rule: u16) -> Result<Vec<Vec<u16>>, Refusal> {
    let rows = grm.sentence_generator().min_sentences(RIdx(rule))?;
    rows.map(|row| Ok(row?.into_iter().map(|tidx| tidx.as_storaget()).collect())).collect()
}

pub fn count(grm: &Grammar, rule: u16) -> Result<usize, Refusal> {
    grm.sentence_generator().count_min_sentences(RIdx(rule))
}

#[test]
fn costs_of_a_rule() {
    assert_eq!(cost(&g1(), 1), Ok(1));
    assert_eq!(cost(&g3(), 1), Ok(1));
    assert_eq!(cost(&g4(), 1), Err(Refusal::NoSentence));
    assert_eq!(cost(&g5(257), 1), Ok(65535));
    assert_eq!(cost(&g5(258), 1), Err(Refusal::Dear));
    assert_eq!(cost(&g5_either(), 1), Ok(1));
    assert_eq!(cost(&g6(), 1), Ok(1));
    assert_eq!(cost(&g6(), 2), Err(Refusal::RuleNumber));
}

#[test]
fn sentences_of_a_rule() {
    assert_eq!(sentence(&g1(), 0), Ok(vec![0]));
    assert_eq!(sentence(&g1(), 2), Ok(vec![]));
    assert_eq!(sentence(&g3(), 1), Err(Refusal::Circular));
    assert_eq!(sentence(&g4(), 1), Err(Refusal::NoSentence));
    assert_eq!(sentence(&g5(257), 1), Ok(vec![0; 257]));
    assert_eq!(sentence(&g5(258), 1), Err(Refusal::Dear));
    assert_eq!(sentence(&g5_either(), 1), Ok(vec![1]));
    assert_eq!(sentence(&g6(), 1), Ok(vec![1]));
    assert_eq!(sentence(&g6(), 2), Err(Refusal::RuleNumber));
}

#[test]
fn the_start_has_the_cheapest_exports_sentence() {
    let grm = exports();
    assert_eq!((cost(&grm, 0), sentence(&grm, 0)), (Ok(3), Ok(vec![1, 2])));
    assert_eq!((cost(&grm, 1), sentence(&grm, 1)), (Ok(5), Ok(vec![0, 2, 4])));
    // start: B; start: A; A: a; B: b, equally cheap: the lower production's.
    let equal = well(3, &[(0, &[RULE + 2]), (0, &[RULE + 1]), (1, &[0]), (2, &[1])], &[1, 1, 1]);
    assert_eq!(sentence(&equal, 0), Ok(vec![1]));
    // start: A; start: B; A: A a; B: b: A has no sentence.
    let other = well(3, &[(0, &[RULE + 1]), (0, &[RULE + 2]), (1, &[RULE + 1, 0]), (2, &[1])], &[1, 1, 1]);
    assert_eq!((sentence(&other, 0), sentence(&other, 1)), (Ok(vec![1]), Err(Refusal::NoSentence)));
}

#[test]
fn room_may_be_exact_and_not_short() {
    let grm = g6();
    let sentences = grm.sentence_generator();
    assert_eq!(sentences.min_sentence_in(RIdx(1), 1), Ok(vec![TIdx(1)]));
    assert_eq!(sentences.min_sentence_in(RIdx(1), usize::MAX), Ok(vec![TIdx(1)]));
    assert_eq!(sentences.min_sentence_in(RIdx(1), 0), Err(Refusal::Room));
    assert_eq!(g1().sentence_generator().min_sentence_in(RIdx(2), 0), Ok(vec![]));
}

#[test]
fn sixty_doublings_of_nothing() {
    assert_eq!(sentence(&doubled(60, &[], 1), 0), Ok(vec![]));
}

#[test]
fn the_longest_sentence() {
    // rule 1 of 16 doublings has 32768 tokens, of 17 it has 65536
    assert_eq!(sentence(&doubled(16, &[0], 1), 0), Ok(vec![0; 32768]));
    assert_eq!(sentence(&doubled(17, &[0], 0), 0), Err(Refusal::Room));
    assert_eq!(sentence(&doubled(17, &[0], 1), 0), Err(Refusal::Dear));
}

/// S: X Y; S: b b; X: a; X: b; Y: a; Y: c; all tokens cost 1. Rules 1 S, 2 X, 3 Y; tokens 0 a, 1 b, 2 c.
fn pairs() -> Grammar {
    let (x, y) = (RULE + 2, RULE + 3);
    let prods: [(u16, &[u16]); 7] =
        [(0, &[RULE + 1]), (1, &[x, y]), (1, &[1, 1]), (2, &[0]), (2, &[1]), (3, &[0]), (3, &[2])];
    well(4, &prods, &[1; 4])
}

#[test]
fn lists_of_document_01s_grammars() {
    assert_eq!(
        [0, 1, 2, 3].map(|rule| list(&g1(), rule)),
        [&[0][..], &[0], &[], &[]].map(|row| Ok(vec![row.to_vec()]))
    );
    assert_eq!(list(&g2(), 1), Ok(vec![vec![0, 2]]));
    assert_eq!(list(&g3(), 1), Err(Refusal::Circular));
    assert_eq!(list(&g4(), 1), Err(Refusal::NoSentence));
    assert_eq!(list(&g5(257), 1), Ok(vec![vec![0; 257]]));
    assert_eq!(list(&g5(258), 1), Err(Refusal::Dear));
    assert_eq!(list(&g5_either(), 1), Ok(vec![vec![1]]));
    assert_eq!(list(&g6(), 1), Ok(vec![vec![1]]));
    assert_eq!(list(&g6(), 2), Err(Refusal::RuleNumber));
}

#[test]
fn productions_rise_and_the_last_place_turns_fastest() {
    let rows = [[0, 0], [0, 2], [1, 0], [1, 2], [1, 1]].map(Vec::from);
    assert_eq!((count(&pairs(), 1), list(&pairs(), 1)), (Ok(5), Ok(rows.to_vec())));
    assert_eq!(list(&pairs(), 0), Ok(rows.to_vec()));
    assert_eq!(sentence(&pairs(), 1), Ok(rows[0].clone()));
    let grm = pairs();
    let sentences = grm.sentence_generator();
    for (k, row) in rows.iter().enumerate() {
        let row = row.iter().copied().map(TIdx).collect();
        assert_eq!(sentences.min_sentence_at(RIdx(1), k), Ok(row), "number {k}");
    }
    for k in [5, 6, 65535, 65536, 65541, 1 << 32, usize::MAX] {
        assert_eq!(sentences.min_sentence_at(RIdx(1), k), Err(Refusal::TooMany), "number {k}");
    }
}

#[test]
fn a_list_is_taken_from_both_ends_and_by_number() {
    let grm = pairs();
    let list = || grm.sentence_generator().min_sentences(RIdx(1)).unwrap();
    let row = |tokens: [u16; 2]| Some(Ok(tokens.map(TIdx).to_vec()));
    assert_eq!(list().len(), 5);
    let mut rows = list();
    assert_eq!((rows.next(), rows.next_back(), rows.len()), (row([0, 0]), row([1, 1]), 3));
    assert_eq!((rows.nth(1), rows.len(), rows.next_back()), (row([1, 0]), 1, row([1, 2])));
    assert_eq!((rows.next(), rows.next_back(), rows.len(), rows.next()), (None, None, 0, None));
    assert_eq!((list().nth(4), list().nth(5), list().nth_back(3)), (row([1, 1]), None, row([0, 2])));
    assert_eq!((list().next_back(), list().rev().nth(4)), (row([1, 1]), row([0, 0])));
}

#[test]
fn a_sentence_with_two_derivations_comes_twice() {
    // A: a; A: X; X: a
    let grm = well(3, &[(0, &[RULE + 1]), (1, &[0]), (1, &[RULE + 2]), (2, &[0])], &[1, 1]);
    assert_eq!(list(&grm, 1), Ok(vec![vec![0], vec![0]]));
    // A: X X; X: f; X: nothing, and f is free
    let grm = well(3, &[(0, &[RULE + 1]), (1, &[RULE + 2; 2]), (2, &[0]), (2, &[])], &[0, 1]);
    assert_eq!(list(&grm, 1), Ok(vec![vec![0, 0], vec![0], vec![0], vec![]]));
}

/// A: B C, of so many empty productions, and A: nothing so often.
fn product(first: usize, second: usize, more: usize) -> Grammar {
    let mut prods: Vec<(u16, &[u16])> = vec![(0, &[RULE + 1]), (1, &[RULE + 2, RULE + 3])];
    prods.extend(vec![(2, &[][..]); first]);
    prods.extend(vec![(3, &[][..]); second]);
    prods.extend(vec![(1, &[][..]); more]);
    well(4, &prods, &[1])
}

#[test]
fn more_than_65535_are_too_many() {
    let sixteen = Err(Refusal::TooMany);
    assert_eq!((count(&product(255, 257, 0), 1), count(&product(255, 257, 1), 1)), (Ok(65535), sixteen));
    assert_eq!((count(&product(254, 258, 3), 0), count(&product(254, 258, 4), 0)), (Ok(65535), sixteen));
    assert_eq!((count(&product(256, 256, 0), 1), count(&product(256, 256, 0), 2)), (sixteen, Ok(256)));
    let grm = product(255, 257, 0);
    let rows = grm.sentence_generator().min_sentences(RIdx(1)).unwrap();
    let last = (rows.clone().next_back(), rows.clone().nth(65534));
    assert_eq!((rows.len(), last), (65535, (Some(Ok(vec![])), Some(Ok(vec![])))));
    assert_eq!(rows.clone().nth(65535), None);
    let many = product(256, 256, 0);
    assert_eq!(many.sentence_generator().min_sentences(RIdx(1)).err(), Some(Refusal::TooMany));
    assert_eq!(many.sentence_generator().min_sentence_at(RIdx(1), 0), Err(Refusal::TooMany));
}

#[test]
fn a_row_may_be_too_long_alone() {
    // A: nothing; A: B; B and the rules behind it are twice the next, 17 times, the last is a free token
    let twice: Vec<[u16; 2]> = (2..19).map(|r| [RULE + r + 1; 2]).collect();
    let mut prods: Vec<(u16, &[u16])> = vec![(0, &[RULE + 1]), (1, &[]), (1, &[RULE + 2])];
    prods.extend(twice.iter().zip(2..).map(|(body, r)| (r, &body[..])));
    prods.push((19, &[0]));
    let grm = well(20, &prods, &[0, 1]);
    let mut rows = grm.sentence_generator().min_sentences(RIdx(1)).unwrap();
    assert_eq!((rows.next(), rows.next(), rows.next()), (Some(Ok(vec![])), Some(Err(Refusal::Room)), None));
    assert_eq!(list(&grm, 4), Ok(vec![vec![0; 32768]]));
}

#[test]
fn the_start_lists_every_cheapest_export() {
    assert_eq!((list(&exports(), 0), list(&exports(), 1)), (Ok(vec![vec![1, 2]]), Ok(vec![vec![0, 2, 4]])));
    // start: B; start: A; A: a; B: b
    let equal = well(3, &[(0, &[RULE + 2]), (0, &[RULE + 1]), (1, &[0]), (2, &[1])], &[1, 1, 1]);
    assert_eq!(list(&equal, 0), Ok(vec![vec![1], vec![0]]));
}
