//! FIRST, EMPTY, FOLLOW, paths, the reached row, PRODUCTIVE and COST.
use boltmarrow::{Cost, Grammar, PIdx, RIdx, SIdx, Symbol, TIdx};

use crate::grammars::{comma, dead, exports, g1, g2, g3, g4, g5, g5_either, g6, well, RULE};

fn numbers(tokens: impl Iterator<Item = TIdx>) -> Vec<u16> {
    tokens.map(|tidx| tidx.as_storaget()).collect()
}

fn firsts(grm: &Grammar) -> Vec<Vec<u16>> {
    let firsts = grm.firsts();
    grm.iter_rules().map(|ridx| numbers(firsts.firsts(ridx).unwrap())).collect()
}

fn empties(grm: &Grammar) -> Vec<bool> {
    let firsts = grm.firsts();
    grm.iter_rules().map(|ridx| firsts.is_epsilon_set(ridx).unwrap()).collect()
}

fn follows(grm: &Grammar) -> Vec<Vec<u16>> {
    let follows = grm.follows();
    grm.iter_rules().map(|ridx| numbers(follows.follows(ridx).unwrap())).collect()
}

fn reached(grm: &Grammar) -> Vec<bool> {
    let reached = grm.reached();
    grm.iter_rules().map(|ridx| reached.is_set(ridx).unwrap()).collect()
}

fn costs(grm: &Grammar) -> Vec<Cost> {
    let costs = grm.costs();
    grm.iter_rules().map(|ridx| costs.cost(ridx).unwrap()).collect()
}

#[test]
fn g1_is_as_its_report_says() {
    let grm = g1();
    assert_eq!(firsts(&grm), [vec![0, 2], vec![0, 2], vec![2], vec![1]]);
    assert_eq!(empties(&grm), [false, false, true, true]);
    assert_eq!(follows(&grm), [vec![3], vec![3], vec![0], vec![3]]);
    assert_eq!(costs(&grm), [1, 1, 0, 0].map(Cost::Is));
}

/// A is followed by b, and by c where B vanishes.
#[test]
fn g2s_follow_looks_past_what_can_vanish() {
    assert_eq!(follows(&g2()), [vec![3], vec![3], vec![1, 2], vec![2]]);
}

#[test]
fn follow_keeps_the_field_comma() {
    let (grm, num, field_comma) = (comma(), RIdx(2), TIdx(2));
    assert!(grm.follows().is_set(num, field_comma).unwrap());
    assert_eq!(follows(&grm)[2], [2, 3, 4]);
}

/// The start has what both exports have; a rule that both share has what follows it in either.
#[test]
fn two_exports_in_one_grammar() {
    let grm = exports();
    assert_eq!(firsts(&grm), [vec![0, 1], vec![0], vec![1], vec![2], vec![3]]);
    assert_eq!(empties(&grm), [false, false, false, false, true]);
    // Num: unit before Unit, comma past it, eof at the end of Weekly.
    assert_eq!(follows(&grm), [vec![5], vec![5], vec![5], vec![3, 4, 5], vec![4]]);
    // Num 1; Daily 3 + 1 + 0 + 1, Weekly 2 + 1; the start the lesser.
    assert_eq!(costs(&grm), [3, 5, 3, 1, 0].map(Cost::Is));
    assert!(grm.iter_rules().all(|ridx| grm.productive().is_set(ridx).unwrap()));
    let paths = |from| [0, 1, 2, 3, 4].map(|to| grm.has_path(RIdx(from), RIdx(to)).unwrap());
    assert_eq!(paths(0), [false, true, true, true, true]);
    assert_eq!(paths(1), [false, false, false, true, true]);
    assert_eq!(paths(2), [false, false, false, true, false]);
    assert_eq!(grm.rule_to_prods(grm.start_rule_idx()).unwrap(), [PIdx(0), PIdx(6)]);
    assert_eq!(grm.prod(PIdx(6)).unwrap().collect::<Vec<_>>(), [Symbol::Rule(RIdx(2))]);
    assert_eq!(grm.prod_len(PIdx(6)), Ok(SIdx(1)));
}

/// z stands behind A in U's production alone, and nothing follows U.
#[test]
fn a_dead_rule_puts_nothing_into_follow() {
    let grm = dead();
    assert_eq!(reached(&grm), [true, true, true, false]);
    assert_eq!(follows(&grm), [vec![2], vec![2], vec![2], vec![]]);
    // made an export it is no longer dead
    let prods: [(u16, &[u16]); 5] =
        [(0, &[RULE + 1]), (0, &[RULE + 3]), (1, &[RULE + 2]), (2, &[0]), (3, &[RULE + 2, 1])];
    let both = well(4, &prods, &[1, 1, 1]);
    assert_eq!(reached(&both), [true; 4]);
    assert_eq!(follows(&both), [vec![2], vec![2], vec![1, 2], vec![2]]);
}

#[test]
fn all_rules_of_document_01s_grammars_are_reached() {
    for grm in [g1(), g2(), g3(), g4(), g5(1), g6(), comma(), exports()] {
        assert!(reached(&grm).into_iter().all(|reached| reached));
    }
}

#[test]
fn a_filled_follow_has_what_it_was_made_from() {
    let grm = g1();
    let follows = grm.follows();
    assert_eq!(numbers(follows.firsts().firsts(RIdx(1)).unwrap()), [0, 2]);
    assert!(follows.firsts().is_epsilon_set(RIdx(3)).unwrap());
    let grm = dead();
    let (follows, table) = (grm.follows(), grm.follow_table());
    for reached in [follows.reached(), table.reached()] {
        assert_eq!([0, 1, 2, 3].map(|r| reached.is_set(RIdx(r))), [Ok(true), Ok(true), Ok(true), Ok(false)]);
    }
}

#[test]
fn a_question_and_a_set_agree() {
    let grm = comma();
    let (firsts, follows) = (grm.firsts(), grm.follows());
    for ridx in grm.iter_rules() {
        let asked = |is_set: &dyn Fn(TIdx) -> bool| numbers(grm.iter_tidxs().filter(|tidx| is_set(*tidx)));
        assert_eq!(asked(&|tidx| firsts.is_set(ridx, tidx).unwrap()), numbers(firsts.firsts(ridx).unwrap()));
        assert_eq!(asked(&|tidx| follows.is_set(ridx, tidx).unwrap()), numbers(follows.follows(ridx).unwrap()));
    }
}

#[test]
fn a_path_takes_a_step() {
    let (grm, start, a) = (g3(), RIdx(0), RIdx(1));
    assert!(grm.has_path(a, a).unwrap());
    assert!(grm.has_path(start, a).unwrap());
    assert!(!grm.has_path(start, start).unwrap());
    assert!(!grm.has_path(a, start).unwrap());
    assert!(!g1().has_path(RIdx(1), RIdx(1)).unwrap());
    assert!(g1().has_path(RIdx(0), RIdx(3)).unwrap());
}

#[test]
fn costs_are_the_least() {
    assert_eq!(costs(&g3()), [Cost::Is(1); 2]);
    assert_eq!(costs(&g4()), [Cost::Unknown; 2]);
    assert_eq!(costs(&g5(257)), [Cost::Is(65535); 2]);
    assert_eq!(costs(&g5(258)), [Cost::Dear; 2]);
    assert_eq!(costs(&g5_either()), [Cost::Is(1); 2]);
    assert_eq!(costs(&g6()), [Cost::Is(1); 2]);
    assert_eq!([Cost::Is(9), Cost::Dear, Cost::Unknown].map(Cost::known), [Some(9), None, None]);
}

#[test]
fn a_rule_without_a_sentence_is_not_productive() {
    let (without, dear) = (g4(), g5(258));
    assert!(!without.productive().is_set(RIdx(1)).unwrap());
    assert!(dear.productive().is_set(RIdx(1)).unwrap());
    assert!(firsts(&without)[1].is_empty());
}

#[test]
fn a_grammar_tells_its_parts() {
    let grm = g1();
    assert_eq!((grm.rules_len(), grm.tokens_len(), grm.prods_len()), (RIdx(4), TIdx(4), PIdx(6)));
    assert_eq!((grm.start_rule_idx(), grm.eof_token_idx()), (RIdx(0), TIdx(3)));
    let body: Vec<Symbol> = grm.prod(PIdx(0)).unwrap().collect();
    assert_eq!(body, [Symbol::Rule(RIdx(2)), Symbol::Token(TIdx(0)), Symbol::Rule(RIdx(3))]);
    assert_eq!(grm.prod(PIdx(2)).unwrap().len(), 0);
    let lengths = [3, 1, 0, 2, 0, 1].map(|len| Ok(SIdx(len)));
    assert_eq!([0, 1, 2, 3, 4, 5].map(|p| grm.prod_len(PIdx(p))), lengths);
    assert_eq!(grm.prod_to_rule(PIdx(5)), Ok(RIdx(0)));
    let prods: [&[PIdx]; 4] = [&[PIdx(5)], &[PIdx(0)], &[PIdx(1), PIdx(2)], &[PIdx(3), PIdx(4)]];
    assert_eq!([0, 1, 2, 3].map(|r| grm.rule_to_prods(RIdx(r)).unwrap()), prods);
    assert_eq!(g5(1).token_cost(TIdx(0)), Ok(255));
    let given = crate::grammars::g1_tables();
    assert_eq!(grm.into_tables(), given);
}

#[test]
fn a_rules_productions_may_stand_apart() {
    // A: a; B: b; A: nothing; B: A; A: B
    let [a, b] = [RULE + 1, RULE + 2];
    let grm = well(3, &[(1, &[0]), (2, &[1]), (0, &[a]), (1, &[]), (2, &[a]), (1, &[b])], &[1, 1, 1]);
    assert_eq!(grm.rule_to_prods(RIdx(0)).unwrap(), [PIdx(2)]);
    assert_eq!(grm.rule_to_prods(RIdx(1)).unwrap(), [PIdx(0), PIdx(3), PIdx(5)]);
    assert_eq!(grm.rule_to_prods(RIdx(2)).unwrap(), [PIdx(1), PIdx(4)]);
}
