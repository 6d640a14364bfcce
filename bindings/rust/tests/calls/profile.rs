//! One-token readers: verdicts that were worked out by hand from document 02. Beside a grammar stands, where it helps,
//! what each production of a rule may start with.
use boltmarrow::{Clash, Grammar, PIdx, RIdx, TIdx, Verdict};

use crate::grammars::{comma, dead, exports, g1, g2, g3, g4, g5, g5_either, g6, well, RULE};

const A: u16 = RULE + 1;
const B: u16 = RULE + 2;
const C: u16 = RULE + 3;

fn passes(grm: &Grammar) {
    assert_eq!(grm.profile(), Verdict::Passes);
}

fn least(rule: u16, [lower, higher]: [u16; 2], token: Option<u16>) -> Verdict {
    let token = token.map(TIdx);
    Verdict::Clashes(Clash { rule: RIdx(rule), lower: PIdx(lower), higher: PIdx(higher), token })
}

fn clashes(grm: &Grammar, rule: u16, prods: [u16; 2], token: u16) {
    assert_eq!(grm.profile(), least(rule, prods, Some(token)));
}

fn vanish(grm: &Grammar, rule: u16, prods: [u16; 2]) {
    assert_eq!(grm.profile(), least(rule, prods, None));
}

#[test]
fn document_01s_grammars() {
    // Sign: minus, or the digits that follow it; Frac: comma, or the eof that follows it
    passes(&g1());
    // B: b, or the c that follows it
    passes(&g2());
    // A: A may start with all that A may start with, which is a; A: a
    clashes(&g3(), 1, [1, 2], 0);
    // a rule of one production has nothing to decide
    passes(&g4());
    passes(&g5(257));
    passes(&g5(258));
    // a; b
    passes(&g5_either());
    // b; a
    passes(&g6());
}

#[test]
fn grammars_of_other_requests() {
    // Frac: decimal-comma, or field-comma, unit and newline; Unit: unit, or field-comma and newline
    passes(&comma());
    // the start: day; week. Unit: unit, or comma
    passes(&exports());
    passes(&dead());
}

/// The README's row with one token for both commas: A: B comma B newline; B: digits C; C: comma digits; C: nothing.
/// Tokens 0 digits, 1 comma, 2 newline.
#[test]
fn a_comma_that_may_be_either() {
    let prods: [(u16, &[u16]); 5] = [(0, &[A]), (1, &[B, 1, B, 2]), (2, &[0, C]), (3, &[1, 0]), (3, &[])];
    clashes(&well(4, &prods, &[1; 4]), 3, [3, 4], 1);
}

#[test]
fn the_lower_production_comes_first() {
    // a; b; b; c; a: the pair of a has the lower lower one, though that of b ends before it
    let grm = well(2, &[(0, &[A]), (1, &[0]), (1, &[1]), (1, &[1]), (1, &[2]), (1, &[0])], &[1; 4]);
    clashes(&grm, 1, [1, 5], 0);
}

#[test]
fn then_the_higher_production() {
    // {a, b}; c; b; a: the third has the higher token
    let grm = well(3, &[(0, &[A]), (1, &[B]), (1, &[2]), (1, &[1]), (1, &[0]), (2, &[0]), (2, &[1])], &[1; 4]);
    clashes(&grm, 1, [1, 3], 1);
}

#[test]
fn then_the_token() {
    // A: B; A: C c; B: b; B: c; C: c; C: b
    let prods: [(u16, &[u16]); 7] = [(0, &[A]), (1, &[B]), (1, &[C, 2]), (2, &[1]), (2, &[2]), (3, &[2]), (3, &[1])];
    clashes(&well(4, &prods, &[1; 4]), 1, [1, 2], 1);
    // S: A f; A: B; A: C; B: z; B: nothing; C: z; C: nothing: both share z, and f, which follows A and is less
    let [s, a, b, c] = [A, B, C, RULE + 4];
    let prods: [(u16, &[u16]); 8] =
        [(0, &[s]), (1, &[a, 0]), (2, &[b]), (2, &[c]), (3, &[1]), (3, &[]), (4, &[1]), (4, &[])];
    clashes(&well(5, &prods, &[1; 3]), 2, [2, 3], 0);
}

#[test]
fn the_rule_comes_before_its_productions() {
    // B: a; B: a; A: B c; A: b; A: b: rule A is the lower one, its productions and its token are not
    let grm = well(3, &[(2, &[0]), (2, &[0]), (0, &[A]), (1, &[B, 2]), (1, &[1]), (1, &[1])], &[1; 4]);
    clashes(&grm, 1, [4, 5], 1);
}

#[test]
fn the_start_takes_part() {
    // start: A; start: B; A: a b; B: a c
    let grm = well(3, &[(0, &[A]), (1, &[0, 1]), (0, &[B]), (2, &[0, 2])], &[1; 4]);
    clashes(&grm, 0, [0, 2], 0);
    // the same export twice
    clashes(&well(2, &[(0, &[A]), (0, &[A]), (1, &[0])], &[1; 2]), 0, [0, 1], 0);
    // start: A; start: B; A: a; A: nothing; B: nothing: both can vanish, and eof follows the start
    let grm = well(3, &[(0, &[A]), (0, &[B]), (1, &[0]), (1, &[]), (2, &[])], &[1; 2]);
    clashes(&grm, 0, [0, 1], 1);
}

/// A: a; and of B, which is used nowhere, these productions.
fn unused(bodies: [&[u16]; 2]) -> Grammar {
    well(3, &[(0, &[A]), (1, &[0]), (2, bodies[0]), (2, bodies[1])], &[1; 3])
}

#[test]
fn dead_rules_take_part() {
    clashes(&unused([&[1], &[1, 0]]), 2, [2, 3], 1);
    passes(&unused([&[0], &[1]]));
    // nothing follows a dead rule: two that can vanish share no token, and one alone clashes with none
    vanish(&unused([&[], &[]]), 2, [2, 3]);
    vanish(&unused([&[B], &[]]), 2, [2, 3]);
    passes(&unused([&[], &[1]]));
}

#[test]
fn two_that_vanish_where_nothing_follows() {
    // S: A B; A: nothing; A: nothing; B: B b: what stands behind A never starts with a token and never vanishes
    let [s, a, b] = [A, B, C];
    let grm = well(4, &[(0, &[s]), (1, &[a, b]), (2, &[]), (2, &[]), (3, &[b, 0])], &[1; 2]);
    vanish(&grm, 2, [2, 3]);
    // with S: A, eof follows
    clashes(&well(3, &[(0, &[s]), (1, &[a]), (2, &[]), (2, &[])], &[1; 2]), 2, [2, 3], 1);
}

#[test]
fn two_that_vanish_and_share_a_token_of_their_own() {
    // U, which is used nowhere: U: B; U: C; B: b; B: nothing; C: b; C: nothing. A: a
    let (u, [b, c]) = (4, [B, C]);
    let prods: [(u16, &[u16]); 8] =
        [(0, &[A]), (1, &[0]), (2, &[1]), (2, &[]), (3, &[1]), (3, &[]), (u, &[b]), (u, &[c])];
    clashes(&well(5, &prods, &[1; 3]), u, [6, 7], 1);
}

#[test]
fn follow_looks_past_what_can_vanish_and_not_at_dead_rules() {
    // S: A B c; A: c; A: nothing; B: b; B: nothing: where B vanishes c follows A
    let [s, a, b] = [A, B, C];
    let prods: [(u16, &[u16]); 6] = [(0, &[s]), (1, &[a, b, 1]), (2, &[1]), (2, &[]), (3, &[0]), (3, &[])];
    clashes(&well(4, &prods, &[1; 3]), 2, [2, 3], 1);
    // A: z; A: nothing; U: A z, and U is used nowhere, so z does not follow A
    passes(&well(3, &[(0, &[A]), (1, &[0]), (1, &[]), (2, &[A, 0])], &[1; 2]));
}

#[test]
fn a_production_starts_past_what_can_vanish() {
    // A: B c; A: c; B: b; B: nothing
    clashes(&well(3, &[(0, &[A]), (1, &[B, 1]), (1, &[1]), (2, &[0]), (2, &[])], &[1; 3]), 1, [1, 2], 1);
    // without B: nothing it starts with b alone
    passes(&well(3, &[(0, &[A]), (1, &[B, 1]), (1, &[1]), (2, &[0])], &[1; 3]));
    // A: B C; A: nothing; B: b; C: c; C: nothing: the first does not vanish, and A is followed by eof
    passes(&well(4, &[(0, &[A]), (1, &[B, C]), (1, &[]), (2, &[0]), (3, &[1]), (3, &[])], &[1; 3]));
    // A: C B does not either; with B: nothing it does, and both may start with the eof that follows A
    passes(&well(4, &[(0, &[A]), (1, &[C, B]), (1, &[]), (2, &[0]), (3, &[1]), (3, &[])], &[1; 3]));
    let prods: [(u16, &[u16]); 7] = [(0, &[A]), (1, &[C, B]), (1, &[]), (2, &[0]), (2, &[]), (3, &[1]), (3, &[])];
    clashes(&well(4, &prods, &[1; 3]), 1, [1, 2], 2);
}

/// A shared token at each end of a word, eof among them.
#[test]
fn tokens_of_every_word() {
    for tokens in [2, 32, 33, 34, 64, 65, 66, 511, 512] {
        let (costs, last, eof) = (vec![1; tokens.into()], tokens - 2, tokens - 1);
        clashes(&well(2, &[(0, &[A]), (1, &[last]), (1, &[last])], &costs), 1, [1, 2], last);
        clashes(&well(2, &[(0, &[A]), (1, &[]), (1, &[])], &costs), 1, [1, 2], eof);
        vanish(&well(3, &[(0, &[A]), (1, &[]), (2, &[]), (2, &[])], &costs), 2, [2, 3]);
    }
}

/// As many productions as a rule can have that all start with another token; and one more.
#[test]
fn many_productions() {
    let bodies: Vec<[u16; 1]> = (0..511).map(|token| [token]).collect();
    let mut prods: Vec<(u16, &[u16])> = vec![(0, &[A])];
    prods.extend(bodies.iter().map(|body| (1, &body[..])));
    prods.push((1, &[]));
    passes(&well(2, &prods, &[1; 512]));
    prods.push((1, &[510]));
    clashes(&well(2, &prods, &[1; 512]), 1, [511, 513], 510);
    prods.push((1, &[0]));
    clashes(&well(2, &prods, &[1; 512]), 1, [1, 514], 0);
    prods.extend(vec![(1, &[0][..]); 4096 - prods.len()]);
    clashes(&well(2, &prods, &[1; 512]), 1, [1, 514], 0);
}

/// Each rule is the next one, the last a token or that token again.
#[test]
fn the_last_rule_takes_part() {
    let next: Vec<[u16; 1]> = (1..512).map(|r| [RULE + r]).collect();
    let mut prods: Vec<(u16, &[u16])> = next.iter().zip(0..).map(|(body, r)| (r, &body[..])).collect();
    prods.push((511, &[0]));
    passes(&well(512, &prods, &[1; 2]));
    prods.push((511, &[0, 0]));
    clashes(&well(512, &prods, &[1; 2]), 511, [511, 512], 0);
}

#[test]
fn a_verdict_is_said_in_words() {
    let at_token = least(1, [1, 2], Some(3));
    assert_eq!(at_token.to_string(), "rule 1: productions 1 and 2 can both start with token 3");
    assert_eq!(least(7, [0, 40], None).to_string(), "rule 7: productions 0 and 40 can both vanish");
    assert_eq!(g1().profile().to_string(), "passes");
    let clash = Clash { rule: RIdx(1), lower: PIdx(1), higher: PIdx(2), token: Some(TIdx(3)) };
    assert_eq!((clash.to_string(), Verdict::Clashes(clash)), (at_token.to_string(), at_token));
}

/// With them a program can say why: B can vanish, and comma follows it.
#[test]
fn a_verdict_has_the_tables_that_it_was_found_by() {
    // A: B comma; B: comma; B: nothing; and U, which is used nowhere
    let grm = well(4, &[(0, &[A]), (1, &[B, 0]), (2, &[0]), (2, &[]), (3, &[0])], &[1; 2]);
    let (verdict, follows) = grm.profile_with_follows();
    assert_eq!(verdict, least(2, [2, 3], Some(0)));
    assert_eq!(follows.follows(RIdx(2)).unwrap().collect::<Vec<_>>(), [TIdx(0)]);
    assert_eq!(follows.firsts().is_epsilon_set(RIdx(2)), Ok(true));
    assert_eq!([2, 3].map(|r| follows.reached().is_set(RIdx(r))), [Ok(true), Ok(false)]);
}
