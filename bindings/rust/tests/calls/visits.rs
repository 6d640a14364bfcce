//! Single visits.
use boltmarrow::{Cost, Grammar, PIdx, RIdx, Refusal, TIdx};

use crate::grammars::{comma, dead, exports, g1, g2, g5_either, g6};

/// Rounds over the productions, from the last to the first, until one changes nothing.
fn rounds(grm: &Grammar, mut visit: impl FnMut(PIdx) -> Result<bool, Refusal>) {
    let order: Vec<PIdx> = grm.iter_pidxs().collect();
    let mut round = || order.iter().rev().filter(|&&pidx| visit(pidx).unwrap()).count();
    while round() > 0 {}
}

/// Each rule's tokens.
pub fn marks<S: Iterator<Item = TIdx>>(grm: &Grammar, set: impl Fn(RIdx) -> Result<S, Refusal>) -> Vec<Vec<TIdx>> {
    grm.iter_rules().map(|ridx| set(ridx).unwrap().collect()).collect()
}

#[test]
fn a_visit_makes_one_step() {
    let grm = g1();
    let mut table = grm.first_table();
    let num = RIdx(1);
    let round = [5, 0, 1, 2, 3, 4].map(PIdx);
    // Sign and Frac are not marked yet when Num is visited.
    assert_eq!(round.map(|pidx| table.visit(pidx).unwrap()), [false, false, true, true, true, true]);
    assert_eq!(table.firsts(num).unwrap().count(), 0);
    assert_eq!(round.map(|pidx| table.visit(pidx).unwrap()), [false, true, false, false, false, false]);
    assert_eq!(table.firsts(num).unwrap().collect::<Vec<_>>(), [TIdx(0), TIdx(2)]);
    table.clear();
    assert!(!table.is_set(num, TIdx(0)).unwrap());
    assert!(!table.is_epsilon_set(RIdx(2)).unwrap());
}

#[test]
fn first_visits_in_another_order_leave_the_fills_table() {
    for grm in [g1(), g2(), comma(), exports()] {
        let (mut table, filled) = (grm.first_table(), grm.firsts());
        rounds(&grm, |pidx| table.visit(pidx));
        assert_eq!(marks(&grm, |ridx| table.firsts(ridx)), marks(&grm, |ridx| filled.firsts(ridx)));
        for ridx in grm.iter_rules() {
            assert_eq!(table.is_epsilon_set(ridx), filled.is_epsilon_set(ridx));
        }
    }
}

#[test]
fn follow_visits_in_another_order_leave_the_fills_table() {
    for grm in [g1(), g2(), comma(), exports(), dead()] {
        let (mut table, filled) = (grm.follow_table(), grm.follows());
        rounds(&grm, |pidx| table.visit(pidx));
        assert_eq!(marks(&grm, |ridx| table.follows(ridx)), marks(&grm, |ridx| filled.follows(ridx)));
    }
}

#[test]
fn a_cleared_follow_holds_eof_for_the_start() {
    let grm = g2();
    let mut table = grm.follow_table();
    let cleared = [vec![TIdx(3)], vec![], vec![], vec![]];
    assert_eq!(marks(&grm, |ridx| table.follows(ridx)), cleared);
    // S: A B c gives A what B starts with, then c, since B can vanish; B is followed by c.
    assert_eq!(table.visit(PIdx(1)), Ok(true));
    assert_eq!(table.visit(PIdx(1)), Ok(false));
    let visited = [vec![TIdx(3)], vec![], vec![TIdx(1), TIdx(2)], vec![TIdx(2)]];
    assert_eq!(marks(&grm, |ridx| table.follows(ridx)), visited);
    table.clear();
    assert_eq!(marks(&grm, |ridx| table.follows(ridx)), cleared);
}

#[test]
fn a_visit_of_a_dead_rules_production_changes_nothing() {
    let grm = dead();
    let (a, z, [of_s, of_u]) = (RIdx(2), TIdx(1), [PIdx(1), PIdx(3)]);
    let mut table = grm.follow_table();
    let visited = [of_u, PIdx(0), of_u, of_s, of_u].map(|pidx| table.visit(pidx).unwrap());
    assert_eq!(visited, [false, true, false, true, false]);
    assert_eq!(table.is_set(a, z), Ok(false));
}

#[test]
fn each_of_the_starts_productions_makes_its_own_step() {
    let grm = exports();
    let (mut costs, start) = (grm.cost_table(), grm.start_rule_idx());
    // Num, Unit, Daily, Weekly; then start: Daily and start: Weekly
    assert_eq!([3, 5, 1, 2].map(|p| costs.visit(PIdx(p))), [Ok(true); 4]);
    assert_eq!((costs.visit(PIdx(0)), costs.cost(start)), (Ok(true), Ok(Cost::Is(5))));
    assert_eq!((costs.visit(PIdx(6)), costs.cost(start)), (Ok(true), Ok(Cost::Is(3))));
    assert_eq!((costs.visit(PIdx(0)), costs.cost(start)), (Ok(false), Ok(Cost::Is(3))));
}

#[test]
fn cost_visits_lower_what_is_known() {
    let grm = g6();
    let (mut costs, a) = (grm.cost_table(), RIdx(1));
    assert_eq!(costs.cost(a), Ok(Cost::Unknown));
    assert_eq!(costs.visit(PIdx(1)), Ok(false)); // A: b A
    assert_eq!(costs.visit(PIdx(2)), Ok(true)); // A: a
    assert_eq!(costs.cost(a), Ok(Cost::Is(1)));
    assert_eq!(costs.visit(PIdx(1)), Ok(false));
    assert_eq!((costs.visit(PIdx(0)), costs.cost(RIdx(0))), (Ok(true), Ok(Cost::Is(1))));
    costs.clear();
    assert_eq!(costs.cost(a), Ok(Cost::Unknown));
}

/// A is 258 tokens of cost 255 or one of cost 1: dear, and later lowered.
#[test]
fn a_dear_rule_is_seen_before_its_cost_is() {
    let grm = g5_either();
    let mut costs = grm.cost_table();
    let mut visit = |p| (costs.visit(PIdx(p)).unwrap(), [0, 1].map(|r| costs.cost(RIdx(r)).unwrap()));
    assert_eq!(visit(0), (false, [Cost::Unknown, Cost::Unknown]));
    assert_eq!(visit(1), (true, [Cost::Unknown, Cost::Dear]));
    assert_eq!(visit(0), (true, [Cost::Dear, Cost::Dear]));
    assert_eq!(visit(2), (true, [Cost::Dear, Cost::Is(1)]));
    assert_eq!(visit(1), (false, [Cost::Dear, Cost::Is(1)]));
    assert_eq!(visit(0), (true, [Cost::Is(1), Cost::Is(1)]));
}

#[test]
fn productive_visits_mark_the_owner() {
    let grm = g6();
    let (mut productive, a) = (grm.productive_table(), RIdx(1));
    assert_eq!(productive.visit(PIdx(1)), Ok(false));
    assert_eq!((productive.visit(PIdx(2)), productive.is_set(a)), (Ok(true), Ok(true)));
    assert_eq!(productive.is_set(RIdx(0)), Ok(false));
    assert_eq!((productive.visit(PIdx(0)), productive.is_set(RIdx(0))), (Ok(true), Ok(true)));
    productive.clear();
    assert_eq!(productive.is_set(a), Ok(false));
}
