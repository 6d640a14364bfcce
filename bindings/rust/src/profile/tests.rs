//! On the grammars of examples/ and on random ones: the verdict held to one that is read off whole tables, pair by pair
//! as document 02 says it, and the tables that the call leaves held word by word to the fill's.
use std::collections::BTreeSet;

use super::*;
use crate::tests::{examples, Random, COUNTS};
use crate::Symbol;

/// What a production may start with, and whether it can vanish.
struct Begin {
    pidx: PIdx,
    tokens: BTreeSet<TIdx>,
    vanishes: bool,
}

fn begin(grm: &Grammar, follows: &Follows, pidx: PIdx) -> Begin {
    let (firsts, mut tokens) = (follows.firsts(), BTreeSet::new());
    for symbol in grm.prod(pidx).unwrap() {
        let goes_on = match symbol {
            Symbol::Token(tidx) => {
                tokens.insert(tidx);
                false
            }
            Symbol::Rule(ridx) => {
                tokens.extend(firsts.firsts(ridx).unwrap());
                firsts.is_epsilon_set(ridx).unwrap()
            }
        };
        if !goes_on {
            return Begin { pidx, tokens, vanishes: false };
        }
    }
    tokens.extend(follows.follows(grm.prod_to_rule(pidx).unwrap()).unwrap());
    Begin { pidx, tokens, vanishes: true }
}

/// How two productions of a rule clash, if they do.
fn clash_of(rule: RIdx, low: &Begin, high: &Begin) -> Option<Clash> {
    let token = low.tokens.intersection(&high.tokens).next().copied();
    let clashes = token.is_some() || low.vanishes && high.vanishes;
    Some(Clash { rule, lower: low.pidx, higher: high.pidx, token }).filter(|_| clashes)
}

/// The first clash of a rule, the pairs by lower and then by higher production.
fn first_clash(grm: &Grammar, follows: &Follows, rule: RIdx) -> Option<Clash> {
    let prods = grm.rule_to_prods(rule).unwrap();
    let begins: Vec<Begin> = prods.iter().map(|&pidx| begin(grm, follows, pidx)).collect();
    let mut lows = begins.iter().enumerate();
    lows.find_map(|(at, low)| begins[at + 1..].iter().find_map(|high| clash_of(rule, low, high)))
}

/// The verdict that is due and given.
fn held(grm: &Grammar) -> Verdict {
    let filled = grm.follows();
    let due = grm.iter_rules().find_map(|rule| first_clash(grm, &filled, rule));
    let (verdict, follows) = grm.profile_with_follows();
    assert_eq!(verdict, due.map_or(Verdict::Passes, Verdict::Clashes));
    assert_eq!(grm.profile(), verdict);
    assert_eq!(follows.0.follow, filled.0.follow);
    let (firsts, due) = (&follows.firsts().0, &filled.firsts().0);
    assert_eq!((&firsts.first, &firsts.empty), (&due.first, &due.empty));
    assert_eq!(follows.reached().reached, filled.reached().reached);
    verdict
}

#[test]
fn the_examples_have_the_verdict_of_their_tables() {
    let verdicts: Vec<Verdict> = examples().iter().map(held).collect();
    let passing = verdicts.iter().filter(|&&verdict| verdict == Verdict::Passes).count();
    assert!(passing >= 12 && passing + 5 <= verdicts.len(), "{passing} of {} pass", verdicts.len());
}

/// Small ones, so that all sorts come up often: passes, clashes of the start, of other rules and of dead ones, of the
/// first two productions and of others, at a token, at eof and at none.
#[test]
fn small_grammars_have_the_verdict_of_their_tables() {
    let (mut random, mut sorts) = (Random(521288629), [0; 6]);
    for _ in 0..20_000 {
        let (rules, tokens, more) = (2 + random.below(5), 1 + random.below(9), random.below(7));
        let grm = random.grammar_of(rules, tokens, more);
        let clash = match held(&grm) {
            Verdict::Passes => {
                sorts[0] += 1;
                continue;
            }
            Verdict::Clashes(clash) => clash,
        };
        let first_two = &grm.rule_to_prods(clash.rule).unwrap()[..2];
        let found = [
            clash.rule == grm.start_rule_idx(),
            grm.reached().is_set(clash.rule) == Ok(false),
            first_two != [clash.lower, clash.higher],
            clash.token == Some(grm.eof_token_idx()),
            clash.token.is_none(),
        ];
        sorts[1..].iter_mut().zip(found).for_each(|(count, found)| *count += u32::from(found));
    }
    assert!(sorts.iter().all(|&count| count >= 200), "{sorts:?}");
}

/// Rows of every width, and few productions more than rules, so that the least clash is not always an early one.
#[test]
fn grammars_of_all_widths_have_the_verdict_of_their_tables() {
    let mut random = Random(1812433253);
    for rules in COUNTS {
        for tokens in [1].into_iter().chain(COUNTS) {
            for more in [0, 1, 2, 3, 9, rules] {
                held(&random.grammar_of(rules, tokens, more));
            }
        }
    }
}
