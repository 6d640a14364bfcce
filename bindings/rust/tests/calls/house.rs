//! The house export, by hand and beside its block file, examples/house.blk. src/sys/tests.rs has 7, and what short room
//! leaves.
use std::fs;
use std::path::Path;

use boltmarrow::house::{self, COLON, DIGITS, DOT, MINUS, NEWLINE, SEMICOLON};
use boltmarrow::{Cost, Grammar, PIdx, RIdx, Refusal, TIdx, Verdict};

/// Numbers that no rule and no token of the house has.
const OUTSIDE: [u16; 4] = [58, 59, 32768, 65535];

fn rules() -> impl Iterator<Item = RIdx> {
    (0..house::RULES).map(RIdx)
}

fn tokens() -> impl Iterator<Item = TIdx> {
    (0..house::TOKENS).map(TIdx)
}

fn example(extension: &str) -> Vec<u8> {
    let file = Path::new(env!("CARGO_MANIFEST_DIR")).join("../../examples/house").with_extension(extension);
    fs::read(file).expect("examples/house is there")
}

fn grammar() -> Grammar {
    Grammar::from_blocks(&example("blk")).unwrap()
}

/// What is said of a rule: the tokens that it can start with, whether it can vanish, and its cost.
type Said = (&'static [TIdx], bool, u16);

/// All of it by hand, by rising rule.
fn by_hand() -> Vec<Said> {
    let row: Said = (&[DIGITS], false, 46);
    let room: Said = (&[SEMICOLON], false, 3);
    let values: [Said; 3] = [(&[DIGITS, MINUS], true, 0), (&[DIGITS], true, 0), (&[DIGITS], true, 0)];
    let made_of: [Said; 8] = [
        (&[DIGITS], false, 9),
        (&[DIGITS], false, 5),
        (&[DIGITS], false, 3),
        (&[DIGITS, MINUS], false, 1),
        (&[DIGITS], false, 1),
        (&[DIGITS], false, 1),
        (&[MINUS], true, 0),
        (&[house::DECIMAL_COMMA], true, 0),
    ];
    [&[row; 2][..], &[room; 12], &values.repeat(12), &made_of].concat()
}

#[test]
fn first_and_empty_of_each_rule() {
    house::check();
    let (firsts, by_hand) = (house::firsts(), by_hand());
    assert_eq!(by_hand.len(), usize::from(house::RULES));
    for (ridx, (first, empty, _)) in rules().zip(by_hand) {
        assert_eq!(firsts.firsts(ridx).unwrap().collect::<Vec<_>>(), first, "{ridx:?}");
        for tidx in tokens() {
            assert_eq!(firsts.is_set(ridx, tidx), Ok(first.contains(&tidx)), "{ridx:?}, {tidx:?}");
        }
        assert_eq!(firsts.is_epsilon_set(ridx), Ok(empty), "{ridx:?}");
    }
}

#[test]
fn the_cost_of_each_rule() {
    let costs = house::costs();
    for (ridx, (_, _, cost)) in rules().zip(by_hand()) {
        assert_eq!(costs.min_sentence_cost(ridx), Ok(cost), "{ridx:?}");
        assert_eq!(house::min_sentence_cost(ridx), Ok(cost), "{ridx:?}");
    }
}

#[test]
fn the_cheapest_row() {
    let stamp = [DIGITS, DOT, DIGITS, DOT, DIGITS, SEMICOLON, DIGITS, COLON, DIGITS];
    let row = [&stamp[..], &[SEMICOLON; 36], &[NEWLINE]].concat();
    assert_eq!((house::cheapest_row(), house::ROW_LENGTH), (row.clone(), 46));
    for room in [46, 47, usize::MAX] {
        assert_eq!(house::cheapest_row_in(room).as_ref(), Ok(&row), "room {room}");
    }
    for room in [0, 1, 45] {
        assert_eq!(house::cheapest_row_in(room), Err(Refusal::Room), "room {room}");
    }
}

#[test]
fn a_row_as_a_person_reads_it() {
    let text = "0.0.0;0:0;;;;;;;;;;;;;;;;;;;;;;;;;;;;;;;;;;;;\n";
    assert_eq!(house::row_text(&house::cheapest_row()).as_deref(), Some(text));
    // every token, and no token
    assert_eq!(house::row_text(&tokens().collect::<Vec<_>>()).as_deref(), Some("0,;-.:\n"));
    assert_eq!(house::row_text(&[]).as_deref(), Some(""));
    for token in OUTSIDE.into_iter().chain([8]) {
        assert_eq!(house::row_text(&[DIGITS, TIdx(token)]), None, "token {token}");
    }
}

/// A row's characters are as many as it costs.
#[test]
fn a_token_costs_its_characters() {
    let grm = grammar();
    for tidx in tokens() {
        let text = house::row_text(&[tidx]).unwrap();
        assert_eq!(grm.token_cost(tidx).map(usize::from), Ok(text.len()), "{tidx:?}");
    }
}

#[test]
fn nine_and_ten_for_numbers_that_are_not_there() {
    let (firsts, costs) = (house::firsts(), house::costs());
    for number in OUTSIDE {
        let (ridx, tidx) = (RIdx(number), TIdx(number));
        assert_eq!(firsts.is_set(ridx, DIGITS), Err(Refusal::RuleNumber), "{number}");
        assert_eq!(firsts.is_set(ridx, tidx), Err(Refusal::RuleNumber), "{number}");
        assert_eq!(firsts.is_set(house::FRACTION, tidx), Err(Refusal::TokenNumber), "{number}");
        assert_eq!(firsts.is_epsilon_set(ridx), Err(Refusal::RuleNumber), "{number}");
        assert_eq!(firsts.firsts(ridx).err(), Some(Refusal::RuleNumber), "{number}");
        assert_eq!(costs.min_sentence_cost(ridx), Err(Refusal::RuleNumber), "{number}");
        assert_eq!(house::min_sentence_cost(ridx), Err(Refusal::RuleNumber), "{number}");
        assert_eq!((house::rule_name(ridx), house::token_name(tidx)), (None, None), "{number}");
    }
    assert_eq!(firsts.is_set(house::START, TIdx(8)), Err(Refusal::TokenNumber));
    assert_eq!(house::token_name(TIdx(8)), None);
}

#[test]
fn rules_of_rooms() {
    let parts = [house::room, house::temperature, house::humidity, house::carbon];
    let numbers = |i| parts.map(|part| part(i).map(|ridx| ridx.as_storaget()));
    assert_eq!(numbers(1), [2, 14, 15, 16].map(Some));
    assert_eq!(numbers(2), [3, 17, 18, 19].map(Some));
    assert_eq!(numbers(12), [13, 47, 48, 49].map(Some));
    for i in [0, 13, 14, 32768, 65535] {
        assert_eq!(numbers(i), [None; 4], "room {i}");
    }
    for i in 1..=house::ROOMS {
        let names = ["Room", "Temperature", "Humidity", "Carbon"].map(|name| format!("{name}{i}"));
        assert_eq!(parts.map(|part| house::rule_name(part(i).unwrap())), [0, 1, 2, 3].map(|n| Some(&names[n][..])));
    }
}

#[test]
fn names_of_constants() {
    use house::{DATE, DEGREES, FRACTION, PARTS, PERCENT, ROW, SIGN, STAMP, START, TIME};
    let rules = [START, ROW, STAMP, DATE, TIME, DEGREES, PERCENT, PARTS, SIGN, FRACTION];
    let names = ["start", "Row", "Stamp", "Date", "Time", "Degrees", "Percent", "Parts", "Sign", "Fraction"];
    assert_eq!(rules.map(house::rule_name), names.map(Some));
    let tokens = [DIGITS, house::DECIMAL_COMMA, SEMICOLON, MINUS, DOT, COLON, NEWLINE, house::EOF];
    let names = ["digits", "decimal-comma", "semicolon", "minus", "dot", "colon", "newline", "eof"];
    assert_eq!(tokens.map(house::token_name), names.map(Some));
}

#[test]
fn names_both_ways() {
    for ridx in rules() {
        assert_eq!(house::rule(house::rule_name(ridx).unwrap()), Some(ridx));
    }
    for tidx in tokens() {
        assert_eq!(house::token(house::token_name(tidx).unwrap()), Some(tidx));
    }
    for name in ["", "row", "Room", "Room0", "Room13", "Temperature01", "digits", "Row "] {
        assert_eq!(house::rule(name), None, "{name}");
    }
    for name in ["", "Digits", "comma", "decimal_comma", "Row", "\n"] {
        assert_eq!(house::token(name), None, "{name}");
    }
}

/// The words of all lines of the text that begin so, without costs.
fn listed(text: &str, head: &str) -> Vec<String> {
    let words = text.lines().filter_map(|line| line.strip_prefix(head)).flat_map(str::split_whitespace);
    words.map(|word| word.split('=').next().unwrap().to_string()).collect()
}

#[test]
fn names_are_those_of_the_text() {
    let text = String::from_utf8(example("txt")).unwrap();
    assert_eq!(rules().map(|ridx| house::rule_name(ridx).unwrap()).collect::<Vec<_>>(), listed(&text, "rules "));
    assert_eq!(tokens().map(|tidx| house::token_name(tidx).unwrap()).collect::<Vec<_>>(), listed(&text, "tokens "));
}

#[test]
fn the_tables_are_those_of_the_block_file() {
    let grm = grammar();
    assert_eq!((grm.rules_len(), grm.tokens_len()), (RIdx(house::RULES), TIdx(house::TOKENS)));
    let symbols: usize = grm.iter_pidxs().map(|pidx| usize::from(grm.prod_len(pidx).unwrap())).sum();
    assert_eq!((grm.prods_len(), symbols), (PIdx(96), 143));
    let (firsts, costs) = (grm.firsts(), grm.costs());
    let (built_in, built_in_costs) = (house::firsts(), house::costs());
    for ridx in rules() {
        for tidx in tokens() {
            assert_eq!(built_in.is_set(ridx, tidx), firsts.is_set(ridx, tidx), "{ridx:?}, {tidx:?}");
        }
        assert_eq!(built_in.is_epsilon_set(ridx), firsts.is_epsilon_set(ridx), "{ridx:?}");
        assert_eq!(built_in_costs.min_sentence_cost(ridx).map(Cost::Is), costs.cost(ridx), "{ridx:?}");
    }
    assert_eq!(grm.sentence_generator().min_sentence(house::START), Ok(house::cheapest_row()));
    assert_eq!(grm.profile(), Verdict::Passes);
}
