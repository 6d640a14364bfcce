//! DEAREST: the greatest cost of each rule's sentences, by values that were worked out by hand from document 02. In each
//! grammar the start is rule 1, where nothing else is said; tests/calls/differences.rs has the inputs on which the Rust
//! answers otherwise.
use boltmarrow::{Cost, Dearest, Grammar, RIdx};

use crate::grammars::{comma, dead, doubled, exports, g1, g2, g3, g4, g5, g5_either, g6, well, RULE};
use Dearest::{Above, NoSentence, Unbounded};

const A: u16 = RULE + 1;
const B: u16 = RULE + 2;
const C: u16 = RULE + 3;
const D: u16 = RULE + 4;

/// What is told of each rule.
pub fn dearest(grm: &Grammar) -> Vec<Dearest> {
    let dearest = grm.dearest();
    grm.iter_rules().map(|ridx| dearest.cost(ridx).unwrap()).collect()
}

fn costs<const N: usize>(costs: [u16; N]) -> [Dearest; N] {
    costs.map(Dearest::Cost)
}

/// S: x; S: B; B: y y y, S with the lower number and with the higher one.
#[test]
fn document_02s_grammar_in_both_numberings() {
    let grm = well(3, &[(0, &[A]), (1, &[0]), (1, &[B]), (2, &[1, 1, 1])], &[1; 3]);
    assert_eq!(dearest(&grm), costs([3, 3, 3]));
    let grm = well(3, &[(0, &[B]), (2, &[0]), (2, &[A]), (1, &[1, 1, 1])], &[1; 3]);
    assert_eq!(dearest(&grm), costs([3, 3, 3]));
}

#[test]
fn document_01s_grammars() {
    // a number of four tokens, a sign, a fraction
    assert_eq!(dearest(&g1()), costs([4, 4, 1, 2]));
    // a b c
    assert_eq!(dearest(&g2()), costs([3, 3, 1, 1]));
    // A: A adds nothing to A: a
    assert_eq!(dearest(&g3()), costs([1, 1]));
    assert_eq!(dearest(&g4()), [NoSentence; 2]);
    // 65790, beside a token of cost 1
    assert_eq!(dearest(&g5_either()), [Above; 2]);
    // b b b .. a
    assert_eq!(dearest(&g6()), [Unbounded; 2]);
}

#[test]
fn grammars_of_other_requests() {
    // two numbers of three tokens, with their units, a comma and a newline
    assert_eq!(dearest(&comma()), costs([10, 10, 3, 2, 1]));
    // day 3, digits 1, unit 1, comma 1; week 2, digits 1: the start has the dearer export's
    assert_eq!(dearest(&exports()), costs([6, 6, 3, 1, 1]));
    // a dead rule has its own
    assert_eq!(dearest(&dead()), costs([1, 1, 1, 2]));
}

#[test]
fn a_loop_that_adds_cost_has_no_bound() {
    // A: A A; A: x
    assert_eq!(dearest(&well(2, &[(0, &[A]), (1, &[A, A]), (1, &[0])], &[1, 1])), [Unbounded; 2]);
    // A: B; B: C; C: A x; C: x, and D: y leads to none of them
    let prods: [(u16, &[u16]); 6] = [(0, &[A]), (1, &[B]), (2, &[C]), (3, &[A, 0]), (3, &[0]), (4, &[1])];
    assert_eq!(dearest(&well(5, &prods, &[1; 3])), [Unbounded, Unbounded, Unbounded, Unbounded, Dearest::Cost(1)]);
    // A: A B; A: nothing; B: b; B: nothing: B can vanish, and need not
    let grm = well(3, &[(0, &[A]), (1, &[A, B]), (1, &[]), (2, &[0]), (2, &[])], &[1, 1]);
    assert_eq!(dearest(&grm), [Unbounded, Unbounded, Dearest::Cost(1)]);
}

#[test]
fn a_loop_that_adds_none_has_a_bound() {
    // A: B; B: A; A: a a; B: b, and each comes to the other at no cost
    let grm = well(3, &[(0, &[A]), (1, &[B]), (2, &[A]), (1, &[0, 0]), (2, &[1])], &[1; 3]);
    assert_eq!(dearest(&grm), costs([2, 2, 2]));
    // A: A B; A: a; B: nothing
    assert_eq!(dearest(&well(3, &[(0, &[A]), (1, &[A, B]), (1, &[0]), (2, &[])], &[1, 1])), costs([1, 1, 0]));
    // A: A A f; A: f, and every token is free
    assert_eq!(dearest(&well(2, &[(0, &[A]), (1, &[A, A, 0]), (1, &[0])], &[0, 0])), costs([0, 0]));
}

#[test]
fn a_production_that_derives_no_sentence_does_not_count() {
    // A: a; A: B b b; A: A B; B: B: neither the dear production nor the loop has a sentence
    let grm = well(3, &[(0, &[A]), (1, &[0]), (1, &[B, 0, 0]), (1, &[A, B]), (2, &[B])], &[1, 1]);
    assert_eq!(dearest(&grm), [Dearest::Cost(1), Dearest::Cost(1), NoSentence]);
}

/// A is 256 tokens of cost 255, which is 65280, and one of that cost.
fn filled(cost: u8) -> Grammar {
    well(2, &[(0, &[A]), (1, &[&[0; 256][..], &[1]].concat())], &[255, cost, 1])
}

/// 65535 is a cost in COST, and above in DEAREST.
#[test]
fn the_most_that_is_told() {
    assert_eq!(dearest(&filled(253)), costs([65533; 2]));
    assert_eq!(dearest(&filled(254)), costs([65534; 2]));
    assert_eq!(dearest(&filled(255)), [Above; 2]);
    assert_eq!(filled(255).costs().cost(RIdx(1)), Ok(Cost::Is(65535)));
    assert_eq!(dearest(&g5(258)), [Above; 2]);
    assert_eq!(g5(258).costs().cost(RIdx(1)), Ok(Cost::Dear));
}

/// Rule 501 is token x, each of the 500 before it is the next one twice.
#[test]
fn five_hundred_doublings() {
    let told = dearest(&doubled(501, &[0], 1));
    assert_eq!(told[..486], [Above; 486]);
    assert_eq!(told[486..], (0..16).rev().map(|k| Dearest::Cost(1 << k)).collect::<Vec<_>>());
    // x is free
    assert_eq!(dearest(&doubled(501, &[0], 0)), vec![Dearest::Cost(0); 502]);
    // rule 501 is itself and x
    assert_eq!(dearest(&doubled(501, &[RULE + 501, 0], 1)), vec![NoSentence; 502]);
}

/// What is told of A with these productions. B: 257 tokens of cost 255; C: C x; C: x; D: D.
fn told(bodies: &[&[u16]]) -> Dearest {
    let mut prods: Vec<(u16, &[u16])> = vec![(0, &[A]), (2, &[1; 257]), (3, &[C, 0]), (3, &[0]), (4, &[D])];
    prods.extend(bodies.iter().map(|&body| (1, body)));
    let told = dearest(&well(5, &prods, &[1, 255, 1]));
    assert_eq!(told[2..], [Above, Unbounded, NoSentence]);
    assert_eq!(told[0], told[1]);
    told[1]
}

#[test]
fn in_one_production_no_bound_beats_above_and_no_sentence_beats_both() {
    for body in [&[B][..], &[B, B], &[0, B, 1]] {
        assert_eq!(told(&[body]), Above, "{body:?}");
    }
    for body in [&[B, C][..], &[C, B], &[B, B, C], &[1, C, B, 1]] {
        assert_eq!(told(&[body]), Unbounded, "{body:?}");
    }
    for body in [&[B, D][..], &[D, B], &[C, D], &[D, C], &[B, C, D], &[D, C, B], &[0, D]] {
        assert_eq!(told(&[body]), NoSentence, "{body:?}");
    }
}

#[test]
fn of_several_productions_the_greatest_is_told() {
    assert_eq!(told(&[&[B], &[C]]), Unbounded);
    assert_eq!(told(&[&[C], &[B]]), Unbounded);
    // those without a sentence are left out
    assert_eq!(told(&[&[0], &[B], &[D]]), Above);
    assert_eq!(told(&[&[C, D], &[B], &[0]]), Above);
    assert_eq!(told(&[&[B, D], &[C, D], &[0]]), Dearest::Cost(1));
    assert_eq!(told(&[&[B, D], &[C, D]]), NoSentence);
    // A: A adds nothing, A: A B more and more
    assert_eq!(told(&[&[A], &[B]]), Above);
    assert_eq!(told(&[&[A, B], &[0]]), Unbounded);
}

/// Each rule is the next one or a token, in both orders of numbers; the last one is 255 tokens of cost 255.
#[test]
fn a_chain_of_all_rules() {
    let [next, before]: [Vec<[u16; 1]>; 2] =
        [(1..512).map(|r| [RULE + r]).collect(), (1..511).map(|r| [RULE + r]).collect()];
    let mut up: Vec<(u16, &[u16])> = next.iter().zip(0..).map(|(body, r)| (r, &body[..])).collect();
    up.extend((1..511).map(|r| (r, &[0_u16][..])));
    up.push((511, &[0; 255]));
    assert_eq!(dearest(&well(512, &up, &[255, 1])), costs([65025; 512]));
    let mut down: Vec<(u16, &[u16])> = before.iter().zip(2..).map(|(body, r)| (r, &body[..])).collect();
    down.extend((2..512).map(|r| (r, &[0_u16][..])));
    down.extend([(1, &[0_u16; 255][..]), (0, &[RULE + 511])]);
    assert_eq!(dearest(&well(512, &down, &[255, 1])), costs([65025; 512]));
}
