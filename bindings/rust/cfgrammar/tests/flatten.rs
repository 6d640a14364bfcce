//! Flattened grammars against hand-written tables and against the crate's own answers. The grammars are given as the
//! text that tools/oracle's stand-in for the crate's parser reads; so these tests are for that build of cfgrammar.
use std::collections::HashMap;
use std::fs;
use std::path::{Path, PathBuf};

use boltmarrow::{Dearest, Grammar, Refusal, Version};
use boltmarrow_cfgrammar::{flatten, prod, prod_of, rule, rule_of, token, token_of};
use cfgrammar::yacc::{YaccGrammar, YaccKind, YaccOriginalActionKind};

#[path = "../../../../tools/oracle/text.rs"]
mod text;

const KIND: YaccKind = YaccKind::Original(YaccOriginalActionKind::NoAction);

/// Examples on which `rule_min_costs` panics or never returns (docs/DIFFERENCES.md).
const NO_COSTS: [&str; 4] = ["g3", "g4", "g5-dear", "g5-either"];

/// Examples on which the crate's FOLLOW is another one: how many marks it lacks, since it looks one symbol ahead, and how
/// many it has that only a dead rule puts there (docs/DIFFERENCES.md). On all others it is the same.
const OTHER_FOLLOW: [(&str, [usize; 2]); 5] =
    [("climate", [14, 0]), ("comma", [4, 0]), ("dead", [0, 1]), ("g2", [1, 0]), ("load", [51, 0])];

/// Examples on which `rule_max_costs` panics, and those on which it gives some rules another cost, of how many rules it
/// does (docs/DIFFERENCES.md). On all others it is the same.
const NO_DEAREST: [&str; 3] = ["g5", "g5-dear", "g5-either"];
const OTHER_DEAREST: [(&str, usize); 7] =
    [("climate", 9), ("csv", 1), ("csv-v2", 1), ("g3", 2), ("g4", 2), ("load", 8), ("rows", 3)];

fn yacc(text: &str) -> YaccGrammar<u16> {
    YaccGrammar::new_with_storaget(KIND, text).expect("a text of the stand-in's form")
}

#[test]
fn rules_tokens_and_empty_productions() {
    let names = "token a\ntoken b\nrule X\nrule Y\nstart X\n";
    let prods = "prod X rule:Y token:b rule:X\nprod Y\nprod X token:a\nprod Y token:a token:b";
    let costs = |tidx: cfgrammar::TIdx<u16>| 10 + tidx.as_storaget() as u8;
    // By hand: rules 0 start, 1 X, 2 Y; tokens 0 a, 1 b, 2 eof; the start's production last.
    let tables =
        (3, vec![1, 2, 1, 2, 0], vec![0, 3, 3, 4, 6, 7], vec![32770, 1, 32769, 0, 0, 1, 32769], vec![10, 11, 12]);
    assert_eq!(flatten(&yacc(&[names, prods].concat()), costs).map(Grammar::into_tables), Ok(tables));
}

/// The change that bindings/rust/README.md shows.
#[test]
fn the_tools_change_keeps_the_field_comma() -> Result<(), Refusal> {
    let names = "token digits\ntoken ,\ntoken unit\nrule Row\nrule Num\nrule Unit\nstart Row\n";
    let prods = "prod Row rule:Num rule:Unit token:,\nprod Num token:digits\nprod Unit token:unit\nprod Unit";
    let grm = yacc(&[names, prods].concat());
    let flat = flatten(&grm, |_| 1)?;
    let follows = flat.follows();
    let (num, comma) = (grm.rule_idx("Num").unwrap(), grm.token_idx(",").unwrap());
    assert!(!grm.follows().is_set(num, comma));
    assert!(follows.is_set(rule(num), token(comma))?);
    Ok(())
}

#[test]
fn wider_numbers_flatten_to_the_same() {
    let text = "token a\nrule X\nstart X\nprod X token:a rule:X\nprod X";
    let wide = YaccGrammar::<u32>::new_with_storaget(KIND, text).expect("a text of the stand-in's form");
    assert_eq!(flatten(&wide, |_| 1), flatten(&yacc(text), |_| 1));
    assert_eq!(flatten(&wide, |_| 1).map(|flat| flat.into_tables().1), Ok(vec![1, 1, 0]));
    assert_eq!(rule(cfgrammar::RIdx(70000u32)), boltmarrow::RIdx(65535));
    assert_eq!(token(cfgrammar::TIdx(65536u32)), boltmarrow::TIdx(65535));
    assert_eq!(prod(cfgrammar::PIdx(65537u32)), boltmarrow::PIdx(65535));
}

/// As bindings/rust/README.md shows it.
#[test]
fn a_sentence_in_the_grammars_own_names() -> Result<(), Refusal> {
    let names = "token digits\ntoken ,\ntoken unit\nrule Row\nrule Num\nrule Unit\nstart Row\n";
    let prods = "prod Row rule:Num token:, rule:Num rule:Unit\nprod Num token:digits\nprod Unit token:unit";
    let grm = yacc(&[names, prods].concat());
    let flat = flatten(&grm, |_| 1)?;
    let mut named = vec![];
    for tidx in flat.sentence_generator().min_sentence(flat.start_rule_idx())? {
        named.push(grm.token_name(token_of(&grm, tidx)?).unwrap_or("eof"));
    }
    assert_eq!(named, ["digits", ",", "digits", "unit"]);
    Ok(())
}

/// What is flattened can be stored, and is read as the same grammar.
#[test]
fn a_flattened_grammar_is_stored_and_read() -> Result<(), Refusal> {
    let names = "token digits\ntoken ,\ntoken unit\nrule Row\nrule Num\nrule Unit\nstart Row\n";
    let prods = "prod Row rule:Num rule:Unit token:,\nprod Num token:digits\nprod Unit token:unit\nprod Unit";
    let grm = yacc(&[names, prods].concat());
    let flat = flatten(&grm, |tidx| 1 + tidx.as_storaget() as u8)?;
    let stored = Grammar::from_blocks(&flat.to_blocks(Version::Two)?)?;
    assert_eq!(stored, flat);
    let (num, comma) = (grm.rule_idx("Num").unwrap(), grm.token_idx(",").unwrap());
    assert!(stored.follows().is_set(rule(num), token(comma))?);
    Ok(())
}

/// Numbers of one byte: one that is not there is refused, and not cut to one that is.
#[test]
fn the_way_back_refuses_what_is_not_there() {
    let text = "token a\ntoken b\nrule X\nstart X\nprod X token:a rule:X\nprod X token:b\nprod X";
    let narrow = YaccGrammar::<u8>::new_with_storaget(KIND, text).expect("a text of the stand-in's form");
    // 2 rules, 3 tokens with eof, 4 productions with the start's
    for number in [2, 3, 256, 257, 65535] {
        assert_eq!(rule_of(&narrow, boltmarrow::RIdx(number)), Err(Refusal::RuleNumber), "rule {number}");
    }
    for number in [3, 4, 256, 258, 65535] {
        assert_eq!(token_of(&narrow, boltmarrow::TIdx(number)), Err(Refusal::TokenNumber), "token {number}");
    }
    for number in [4, 5, 256, 259, 65535] {
        assert_eq!(prod_of(&narrow, boltmarrow::PIdx(number)), Err(Refusal::ProductionNumber), "production {number}");
    }
    assert_eq!(rule_of(&narrow, boltmarrow::RIdx(1)), Ok(cfgrammar::RIdx(1u8)));
    assert_eq!(token_of(&narrow, boltmarrow::TIdx(2)), Ok(narrow.eof_token_idx()));
    assert_eq!(prod_of(&narrow, boltmarrow::PIdx(3)), Ok(narrow.start_prod()));
}

/// So many rules, each of them nothing.
fn nothings(rules: u32) -> YaccGrammar<u32> {
    let lines = |word: &str| (1..rules).map(|r| format!("{word} r{r}\n")).collect::<String>();
    let text = lines("rule") + &lines("prod") + "start r1";
    YaccGrammar::new_with_storaget(KIND, &text).expect("a text of the stand-in's form")
}

#[test]
fn too_large_a_grammar_is_refused() {
    assert!(flatten(&nothings(512), |_| 1).is_ok());
    for rules in [513, 32770, 65536, 65537] {
        assert_eq!(flatten(&nothings(rules), |_| 1), Err(Refusal::Sizes), "{rules} rules");
    }
}

#[test]
fn too_many_symbols_are_refused() {
    for len in [16383, 16384, 70000] {
        let text = format!("token a\nrule X\nstart X\nprod X{}", " token:a".repeat(len));
        let wide = YaccGrammar::<u32>::new_with_storaget(KIND, &text).expect("a text of the stand-in's form");
        // one symbol more is the start's
        assert_eq!(flatten(&wide, |_| 1).err(), (len > 16383).then_some(Refusal::Sizes), "{len} symbols");
    }
}

/// The grammars of examples/ by name, those that the crate can build: whose start owns one production.
fn examples() -> HashMap<String, Grammar> {
    let folder = Path::new(env!("CARGO_MANIFEST_DIR")).join("../../../examples");
    let paths = fs::read_dir(folder).expect("examples/ is there").map(|entry| entry.unwrap().path());
    let files = paths.filter(|path| path.extension().is_some_and(|extension| extension == "blk"));
    let named = |path: PathBuf| {
        let grammar = Grammar::from_blocks(&fs::read(&path).unwrap()).unwrap();
        (path.file_stem().unwrap().to_str().unwrap().to_string(), grammar)
    };
    files.map(named).filter(|(_, grm)| grm.rule_to_prods(grm.start_rule_idx()).unwrap().len() == 1).collect()
}

/// The same grammar with the start's production last, as the crate has it, and the crate's own.
fn as_the_crate(flat: Grammar) -> (Grammar, YaccGrammar<u16>) {
    let (rules, owners, starts, symbols, costs) = flat.into_tables();
    let body = |p: usize| &symbols[starts[p].into()..starts[p + 1].into()];
    let (own, others): (Vec<usize>, Vec<usize>) = (0..owners.len()).partition(|&p| owners[p] == 0);
    let order = [others, own].concat();
    let text = text::text(rules, costs.len(), order.iter().map(|&p| (owners[p], body(p))));
    let mut new_starts = vec![0];
    new_starts.extend(order.iter().scan(0, |end, &p| {
        *end += body(p).len() as u16;
        Some(*end)
    }));
    let new_symbols = order.iter().flat_map(|&p| body(p)).copied().collect();
    let new_owners = order.iter().map(|&p| owners[p]).collect();
    (Grammar::new(rules, new_owners, new_starts, new_symbols, costs).unwrap(), yacc(&text))
}

/// Each number goes there and back, and each production has the same owner, length and symbols either way.
fn numbers_go_back(name: &str, flat: &Grammar, grm: &YaccGrammar<u16>) {
    let back = |symbol| match symbol {
        boltmarrow::Symbol::Rule(ridx) => cfgrammar::Symbol::Rule(rule_of(grm, ridx).unwrap()),
        boltmarrow::Symbol::Token(tidx) => cfgrammar::Symbol::Token(token_of(grm, tidx).unwrap()),
    };
    for pidx in flat.iter_pidxs() {
        let own = prod_of(grm, pidx).unwrap();
        let symbols: Vec<_> = flat.prod(pidx).unwrap().map(back).collect();
        assert_eq!(prod(own), pidx, "{name}");
        assert_eq!(symbols, grm.prod(own), "{name}: {pidx:?}");
        assert_eq!(flat.prod_len(pidx).map(usize::from), Ok(usize::from(grm.prod_len(own))), "{name}: {pidx:?}");
        let owner = flat.prod_to_rule(pidx).and_then(|ridx| rule_of(grm, ridx));
        assert_eq!(owner, Ok(grm.prod_to_rule(own)), "{name}: {pidx:?}");
    }
    for ridx in grm.iter_rules() {
        assert_eq!(rule_of(grm, rule(ridx)), Ok(ridx), "{name}");
        let prods: Vec<_> = flat.rule_to_prods(rule(ridx)).unwrap().iter().map(|&pidx| prod_of(grm, pidx)).collect();
        assert_eq!(prods.into_iter().collect::<Result<Vec<_>, _>>().as_deref(), Ok(grm.rule_to_prods(ridx)), "{name}");
    }
    for tidx in grm.iter_tidxs() {
        assert_eq!(token_of(grm, token(tidx)), Ok(tidx), "{name}");
    }
    assert_eq!(rule_of(grm, flat.rules_len()), Err(Refusal::RuleNumber), "{name}");
    assert_eq!(token_of(grm, flat.tokens_len()), Err(Refusal::TokenNumber), "{name}");
    assert_eq!(prod_of(grm, flat.prods_len()), Err(Refusal::ProductionNumber), "{name}");
}

fn firsts_are_equal(name: &str, flat: &Grammar, grm: &YaccGrammar<u16>) {
    let (firsts, own) = (flat.firsts(), grm.firsts());
    for ridx in grm.iter_rules() {
        assert_eq!(firsts.is_epsilon_set(rule(ridx)), Ok(own.is_epsilon_set(ridx)), "{name}");
        for tidx in grm.iter_tidxs() {
            let (r, t) = (rule(ridx), token(tidx));
            assert_eq!(firsts.is_set(r, t), Ok(own.is_set(ridx, tidx)), "{name}: {r:?} {t:?}");
        }
    }
}

fn follows_differ_as_said(name: &str, flat: &Grammar, grm: &YaccGrammar<u16>) {
    let (follows, own) = (flat.follows(), grm.follows());
    let [mut lacks, mut has_more] = [0; 2];
    for ridx in grm.iter_rules() {
        for tidx in grm.iter_tidxs() {
            let (ours, theirs) = (follows.is_set(rule(ridx), token(tidx)).unwrap(), own.is_set(ridx, tidx));
            lacks += usize::from(ours && !theirs);
            has_more += usize::from(theirs && !ours);
        }
    }
    let said = OTHER_FOLLOW.into_iter().find(|(other, _)| *other == name);
    assert_eq!([lacks, has_more], said.map_or([0; 2], |(_, counts)| counts), "{name}");
}

fn paths_are_equal(name: &str, flat: &Grammar, grm: &YaccGrammar<u16>) {
    for from in grm.iter_rules() {
        for to in grm.iter_rules() {
            assert_eq!(flat.has_path(rule(from), rule(to)), Ok(grm.has_path(from, to)), "{name}: {from:?} {to:?}");
        }
    }
}

fn costs_are_equal(name: &str, flat: &Grammar, grm: &YaccGrammar<u16>) {
    let own = grm.sentence_generator(|tidx| flat.token_cost(token(tidx)).unwrap());
    let sentences = flat.sentence_generator();
    for ridx in grm.iter_rules() {
        let cost = own.min_sentence_cost(ridx);
        assert_eq!(sentences.min_sentence_cost(rule(ridx)), Ok(cost), "{name}: {ridx:?}");
    }
}

fn dearest_differ_as_said(name: &str, flat: &Grammar, grm: &YaccGrammar<u16>) {
    let own = grm.sentence_generator(|tidx| flat.token_cost(token(tidx)).unwrap());
    let dearest = flat.dearest();
    let differs = |ridx: &cfgrammar::RIdx<u16>| {
        let theirs = own.max_sentence_cost(*ridx).map_or(Dearest::Unbounded, Dearest::Cost);
        dearest.cost(rule(*ridx)) != Ok(theirs)
    };
    let said = OTHER_DEAREST.into_iter().find(|(other, _)| *other == name);
    assert_eq!(grm.iter_rules().filter(differs).count(), said.map_or(0, |(_, count)| count), "{name}");
}

/// All cheapest sentences of each rule that has at most so many, row by row; the crate's repeat nothing.
fn lists_are_equal(name: &str, flat: &Grammar, grm: &YaccGrammar<u16>) {
    let own = grm.sentence_generator(|tidx| flat.token_cost(token(tidx)).unwrap());
    let sentences = flat.sentence_generator();
    for ridx in
        grm.iter_rules().filter(|&ridx| sentences.count_min_sentences(rule(ridx)).is_ok_and(|count| count <= 300))
    {
        let rows: Vec<Vec<_>> =
            own.min_sentences(ridx).into_iter().map(|row| row.into_iter().map(token).collect()).collect();
        let list = sentences.min_sentences(rule(ridx)).unwrap();
        assert_eq!(list.collect::<Result<Vec<_>, _>>(), Ok(rows), "{name}: {ridx:?}");
    }
}

/// Row: House , Value; House: n | s; Value: digits | -. Both have the four rows in this order.
#[test]
fn all_cheapest_rows_in_the_grammars_own_names() -> Result<(), Refusal> {
    let names = "token n\ntoken s\ntoken ,\ntoken digits\ntoken -\nrule Row\nrule House\nrule Value\nstart Row\n";
    let prods = "prod Row rule:House token:, rule:Value\nprod House token:n\nprod House token:s\n\
                 prod Value token:digits\nprod Value token:-";
    let grm = yacc(&[names, prods].concat());
    let flat = flatten(&grm, |_| 1)?;
    let mut rows = vec![];
    for row in flat.sentence_generator().min_sentences(flat.start_rule_idx())? {
        let named: Result<Vec<_>, _> =
            row?.into_iter().map(|tidx| Ok(grm.token_name(token_of(&grm, tidx)?).unwrap())).collect();
        rows.push(named?.join(" "));
    }
    assert_eq!(rows, ["n , digits", "n , -", "s , digits", "s , -"]);
    lists_are_equal("rows", &flat, &grm);
    Ok(())
}

#[test]
fn examples_have_the_crates_own_answers() {
    let examples = examples();
    let named = OTHER_FOLLOW.iter().map(|(name, _)| name).chain(OTHER_DEAREST.iter().map(|(name, _)| name));
    let named = named.chain(&NO_COSTS).chain(&NO_DEAREST);
    assert!(examples.len() >= 12 && named.into_iter().all(|name| examples.contains_key(*name)));
    for (name, example) in examples {
        let (renumbered, grm) = as_the_crate(example);
        let flat = flatten(&grm, |tidx| renumbered.token_cost(token(tidx)).unwrap()).unwrap();
        assert_eq!(flat, renumbered, "{name}");
        let file = flat.to_blocks(Version::One).unwrap();
        assert_eq!(Grammar::from_blocks(&file), Ok(renumbered), "{name}");
        numbers_go_back(&name, &flat, &grm);
        firsts_are_equal(&name, &flat, &grm);
        follows_differ_as_said(&name, &flat, &grm);
        paths_are_equal(&name, &flat, &grm);
        if !NO_COSTS.contains(&&name[..]) {
            costs_are_equal(&name, &flat, &grm);
            lists_are_equal(&name, &flat, &grm);
        }
        if !NO_DEAREST.contains(&&name[..]) {
            dearest_differ_as_said(&name, &flat, &grm);
        }
    }
}
