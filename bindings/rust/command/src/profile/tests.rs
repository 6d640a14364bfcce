//! What is said of a clash, for each reason that there is.
use super::*;
use crate::text::Text;

/// What is said of the least clash of a text, and of its block file, which has no names.
fn said(text: &str) -> [Vec<String>; 2] {
    let said = Text::read(text).unwrap();
    let grammar = said.grammar().unwrap();
    let (verdict, follows) = grammar.profile_with_follows();
    let clash = match verdict {
        Verdict::Clashes(clash) => clash,
        Verdict::Passes => panic!("a grammar that clashes"),
    };
    [said.names, Names::default()].map(|names| {
        let names = names.or_made_up(&grammar);
        Told { grammar: &grammar, follows: &follows, names: &names, clash }.lines().unwrap()
    })
}

#[test]
fn tokens_of_their_own() {
    let [named, numbered] = said("tokens a b eof\nrules start A\nstart: A\nA: a b b b\nA: a");
    assert_eq!(
        named,
        [
            "clashes: two productions of rule A can both start with token a",
            "    A: a b*3 (production 1) starts with a",
            "    A: a (production 2) starts with a",
        ]
    );
    assert_eq!(
        numbered,
        [
            "clashes: two productions of rule r1 can both start with token t0",
            "    r1: t0 t1*3 (production 1) starts with t0",
            "    r1: t0 (production 2) starts with t0",
        ]
    );
}

#[test]
fn tokens_of_rules_inside_and_of_what_follows() {
    let [named, numbered] = said("tokens a eof\nrules start S A B\nstart: S\nS: A a\nA: B\nA:\nB: a");
    assert_eq!(
        named,
        [
            "clashes: two productions of rule A can both start with token a",
            "    A: B (production 2) starts with B, which can start with a",
            "    A: (production 3, of no symbols) can vanish, and a can follow A",
        ]
    );
    assert_eq!(
        numbered,
        [
            "clashes: two productions of rule r2 can both start with token t0",
            "    r2: r3 (production 2) starts with r3, which can start with t0",
            "    r2: (production 3, of no symbols) can vanish, and t0 can follow r2",
        ]
    );
}

#[test]
fn symbols_behind_some_that_vanish() {
    let [named, _] = said("tokens c b eof\nrules start A B C\nstart: A\nA: B B c\nA: B C\nB: b\nB:\nC: c\n");
    assert_eq!(
        named,
        [
            "clashes: two productions of rule A can both start with token c",
            "    A: B B c (production 1) starts with c, where what stands before it vanishes",
            "    A: B C (production 2) starts with C, which can start with c, where what stands before it vanishes",
        ]
    );
}

#[test]
fn a_production_that_vanishes_though_it_has_symbols() {
    let [named, _] = said("tokens b c eof\nrules start A B C\nstart: A\nA: B C\nA: C\nB: b\nB:\nC:\n");
    assert_eq!(
        named,
        [
            "clashes: two productions of rule A can both start with token eof",
            "    A: B C (production 1) can vanish, and eof can follow A",
            "    A: C (production 2) can vanish, and eof can follow A",
        ]
    );
}

#[test]
fn two_that_vanish_and_share_none() {
    let [named, numbered] = said("tokens a eof\nrules start A U\nstart: A\nA: a\nU:\nU: U");
    assert_eq!(
        named,
        [
            "clashes: two productions of rule U can both vanish",
            "    U: (production 2, of no symbols)",
            "    U: U (production 3)",
            "    rule U is dead: no path leads to it from the start",
        ]
    );
    assert_eq!(numbered[3], "    rule r2 is dead: no path leads to it from the start");
    // nothing follows A, though it is reached: B never ends
    let [named, _] = said("tokens b eof\nrules start S A B\nstart: S\nS: A B\nA:\nA:\nB: B b");
    assert_eq!(
        named,
        [
            "clashes: two productions of rule A can both vanish",
            "    A: (production 2, of no symbols)",
            "    A: (production 3, of no symbols)",
        ]
    );
}
