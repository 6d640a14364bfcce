//! Each refusal of a grammar and of a number; tests/calls/files.rs has those of a file, src/sys/tests.rs 7, 8, 17, 24 and
//! the writer's order.
use std::collections::HashSet;

use boltmarrow::{Grammar, PIdx, RIdx, Refusal, TIdx};

use crate::grammars::{built, g1, g1_tables, of, well, RULE};

#[test]
fn numbers_are_the_documents() {
    let numbers: Vec<u32> = Refusal::ALL.iter().map(|refusal| refusal.number()).collect();
    assert_eq!(numbers, [1, 2, 3, 4, 5, 6, 7, 8, 9, 10, 11, 12, 13, 14, 15, 16, 17, 20, 21, 22, 23, 24, 25, 26]);
}

#[test]
fn each_has_a_sentence_of_its_own() {
    let sentences: HashSet<String> = Refusal::ALL.iter().map(|refusal| refusal.to_string()).collect();
    assert_eq!(sentences.len(), Refusal::ALL.len());
    assert_eq!(Refusal::RuleNumber.to_string(), "the grammar has no rule with this number (refusal 9)");
}

/// A rule that gets 14 has a sentence, and its cost is known.
#[test]
fn fourteen_speaks_of_the_choice() {
    // S: A; A: A; A: a. A's first choice is A: A, so S comes to a rule that leads back to itself.
    let grm = well(3, &[(0, &[RULE + 1]), (1, &[RULE + 2]), (2, &[RULE + 2]), (2, &[0])], &[1, 1]);
    let sentences = grm.sentence_generator();
    for ridx in grm.iter_rules() {
        assert_eq!(grm.productive().is_set(ridx), Ok(true));
        assert_eq!(sentences.min_sentence_cost(ridx), Ok(1));
        assert_eq!(sentences.min_sentence(ridx), Err(Refusal::Circular));
    }
    let words =
        "the first choice, the lowest-numbered cheapest production, of the rule or of one that it comes to leads \
                 back to that rule itself; of all cheapest sentences, some cheapest production does (refusal 14)";
    assert_eq!(Refusal::Circular.to_string(), words);
}

/// Why G1 with one change is refused.
fn refused(change: impl FnOnce(&mut crate::grammars::Tables)) -> Option<Refusal> {
    let mut tables = g1_tables();
    change(&mut tables);
    of(tables).err()
}

#[test]
fn one_is_for_sizes() {
    assert_eq!(refused(|g1| g1.0 = 1), Some(Refusal::Sizes));
    assert_eq!(refused(|g1| g1.0 = 513), Some(Refusal::Sizes));
    assert_eq!(refused(|g1| g1.4 = vec![1; 513]), Some(Refusal::Sizes));
    assert_eq!(refused(|g1| g1.3 = vec![]), Some(Refusal::Sizes));
    assert_eq!(refused(|g1| g1.1 = vec![0; 4097]), Some(Refusal::Sizes));
}

#[test]
fn two_to_six_are_for_the_tables() {
    assert_eq!(refused(|_| ()), None);
    assert_eq!(refused(|g1| g1.2[1] = 5), Some(Refusal::Starts));
    assert_eq!(refused(|g1| g1.2.push(7)), Some(Refusal::Starts));
    assert_eq!(refused(|g1| g1.1[0] = 4), Some(Refusal::Owner));
    assert_eq!(refused(|g1| g1.1[0] = 2), Some(Refusal::NoProduction));
    assert_eq!(refused(|g1| g1.3[1] = 3), Some(Refusal::Symbol));
    assert_eq!(refused(|g1| g1.3[0] = RULE + 4), Some(Refusal::Symbol));
    assert_eq!(refused(|g1| g1.3[0] = RULE), Some(Refusal::Start));
    assert_eq!(refused(|g1| g1.3[6] = 0), Some(Refusal::Start));
}

/// Why G1 with one more production of rule 0, behind the others, is refused.
fn exported(body: &[u16]) -> Option<Refusal> {
    refused(|g1| {
        g1.1.push(0);
        g1.2.push(7 + body.len() as u16);
        g1.3.extend(body);
    })
}

#[test]
fn each_production_of_the_start_is_one_rule() {
    for body in [RULE + 1, RULE + 2, RULE + 3] {
        assert_eq!(exported(&[body]), None, "{body}");
    }
    for body in [&[][..], &[0], &[RULE], &[RULE + 1, RULE + 2], &[RULE + 1, 0]] {
        assert_eq!(exported(body), Some(Refusal::Start), "{body:?}");
    }
    // eof, and a rule that is not there
    assert_eq!(exported(&[3]), Some(Refusal::Symbol));
    assert_eq!(exported(&[RULE + 4]), Some(Refusal::Symbol));
    // rule 0 owns one before its right one: minus, nothing, comma digits
    for prod in [1, 2, 3] {
        assert_eq!(refused(|g1| g1.1[prod] = 0), Some(Refusal::Start), "production {prod}");
    }
    let words = "each production of rule 0, the start, must be exactly one rule, and no production may hold it";
    assert_eq!(Refusal::Start.to_string(), format!("{words} (refusal 6)"));
}

#[test]
fn the_lowest_number_due_is_given() {
    assert_eq!(refused(|g1| (g1.3[0], g1.1[0]) = (RULE, 4)), Some(Refusal::Owner));
    assert_eq!(refused(|g1| (g1.0, g1.2[1]) = (513, 5)), Some(Refusal::Sizes));
}

/// Each rule from 0 on is the next one, the last is nothing.
pub fn chain(rules: u16) -> Result<Grammar, Refusal> {
    let next: Vec<[u16; 1]> = (1..rules).map(|r| [RULE + r]).collect();
    let mut prods: Vec<(u16, &[u16])> = next.iter().zip(0..).map(|(body, r)| (r, &body[..])).collect();
    prods.push((rules - 1, &[]));
    built(rules, &prods, &[1])
}

#[test]
fn the_limits_pass() {
    assert!(chain(2).is_ok());
    assert!(chain(512).is_ok());
    assert_eq!(chain(513).err(), Some(Refusal::Sizes));
}

#[test]
fn numbers_that_are_not_there() {
    let grm = g1();
    let (firsts, follows) = (grm.firsts(), grm.follows());
    let (rule, token, production) = (Err(Refusal::RuleNumber), Err(Refusal::TokenNumber), Refusal::ProductionNumber);
    assert_eq!(firsts.is_set(RIdx(4), TIdx(0)), rule);
    assert_eq!(firsts.is_set(RIdx(3), TIdx(4)), token);
    assert_eq!(firsts.is_epsilon_set(RIdx(4)), rule);
    assert_eq!(firsts.firsts(RIdx(4)).err(), Some(Refusal::RuleNumber));
    assert_eq!(follows.is_set(RIdx(65535), TIdx(65535)), rule);
    assert_eq!(follows.is_set(RIdx(0), TIdx(65535)), token);
    assert_eq!(follows.follows(RIdx(4)).err(), Some(Refusal::RuleNumber));
    assert_eq!(grm.productive().is_set(RIdx(4)), rule);
    assert_eq!(grm.reached().is_set(RIdx(4)), rule);
    assert_eq!(grm.costs().cost(RIdx(4)), Err(Refusal::RuleNumber));
    assert_eq!(grm.dearest().cost(RIdx(4)), Err(Refusal::RuleNumber));
    assert_eq!(grm.dearest().cost(RIdx(65535)), Err(Refusal::RuleNumber));
    assert_eq!(grm.has_path(RIdx(0), RIdx(4)), rule);
    assert_eq!(grm.has_path(RIdx(4), RIdx(0)), rule);
    assert_eq!(grm.prod(PIdx(6)).err(), Some(production));
    assert_eq!(grm.prod_len(PIdx(6)), Err(production));
    assert_eq!(grm.prod_to_rule(PIdx(6)), Err(production));
    assert_eq!(grm.rule_to_prods(RIdx(4)), Err(Refusal::RuleNumber));
    assert_eq!(grm.token_cost(TIdx(4)), Err(Refusal::TokenNumber));
    assert_eq!(grm.first_table().visit(PIdx(6)), Err(production));
    assert_eq!(grm.follow_table().visit(PIdx(6)), Err(production));
    assert_eq!(grm.productive_table().visit(PIdx(6)), Err(production));
    assert_eq!(grm.cost_table().visit(PIdx(6)), Err(production));
}
