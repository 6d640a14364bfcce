//! The texts of examples/ against their block files, and what a text can have wrong.
use std::fs;
use std::path::Path;

use super::*;

fn wrong(text: &str) -> String {
    Text::read(text).expect_err("a text that is not in the form")
}

fn refused(text: &str) -> Option<u32> {
    Text::read(text).expect("a text in the form").grammar().err().map(Refusal::number)
}

#[test]
fn each_example_is_its_block_file() {
    let folder = Path::new(env!("CARGO_MANIFEST_DIR")).join("../../../examples");
    let files = fs::read_dir(folder).expect("examples/ is there").map(|entry| entry.unwrap().path());
    let texts: Vec<_> = files.filter(|path| path.extension().map_or(false, |extension| extension == "txt")).collect();
    assert!(texts.len() >= 16);
    for path in texts {
        let said = Text::read(&fs::read_to_string(&path).unwrap()).unwrap();
        let blocks = said.grammar().unwrap().to_blocks(said.version()).unwrap();
        assert!(blocks == fs::read(path.with_extension("blk")).unwrap(), "{}", path.display());
    }
}

#[test]
fn lines_of_every_kind() {
    let text = "# a row\r\n\ntokens a=3 b# eof=0 # costs\n  rules start A  B\nversion 2\n\
                start: A\nA: a*2 32770 b#\n2: # none\n";
    let said = Text::read(text).unwrap();
    assert_eq!(
        (&said.names.tokens[..], &said.names.rules[..]),
        (&["a", "b#", "eof"].map(String::from)[..], &["start", "A", "B"].map(String::from)[..])
    );
    let tables = said.grammar().unwrap().into_tables();
    assert_eq!(tables, (3, vec![0, 1, 2], vec![0, 1, 5, 5], vec![32769, 0, 0, 32770, 1], vec![3, 1, 0]));
    assert_eq!(said.version(), Version::Two);
    assert_eq!(Text::read("tokens a").unwrap().version(), Version::One);
}

#[test]
fn what_is_no_text() {
    assert_eq!(wrong("tokens a\nhello"), "line 2: 'hello' is no line of tokens, rules or version, and no production");
    assert_eq!(wrong("tokens a=256"), "line 1: 256 is above 255");
    assert_eq!(wrong("tokens a=x"), "line 1: 'x' is not a number");
    assert_eq!(wrong("tokens 7"), "line 1: '7' cannot be a name");
    assert_eq!(wrong("rules a*b"), "line 1: 'a*b' cannot be a name");
    assert_eq!(wrong("tokens a a"), "line 1: the name a is there already");
    assert_eq!(wrong("tokens a\nrules a"), "line 2: the name a is there already");
    assert_eq!(wrong("rules A\nA: x"), "line 2: no token or rule is named x");
    assert_eq!(wrong("rules A\nA A:"), "line 2: one rule stands before the colon");
    assert_eq!(wrong("rules A\n: A"), "line 2: one rule stands before the colon");
    assert_eq!(wrong("tokens a\na: a"), "line 2: a is a token: it has no production");
    assert_eq!(wrong("rules A\nA: A*"), "line 2: '' is not a number");
    assert_eq!(wrong("rules A\nA: A*65535 A"), "line 2: more symbols than a 16-bit start can tell");
    assert_eq!(wrong("rules A\nA: 65536"), "line 2: 65536 is above 65535");
    assert_eq!(wrong("version 3"), "line 1: there is no version 3");
    assert_eq!(wrong("version 1\nversion 2"), "line 2: the version is there already");
    assert!(wrong("raw starts 0").starts_with("line 1: a line for a wrong file"));
    assert!(wrong("byte! 510 0").starts_with("line 1: a line for a wrong file"));
}

/// The order is the file reader's: 1, 25, 2 to 6.
#[test]
fn refusals_are_those_of_the_block_file() {
    let head = "tokens a=0 eof\nrules start A\n";
    assert_eq!(refused(&format!("{head}start: A\nA: a")), None);
    assert_eq!(refused(&format!("{head}version 2\nstart: A\nA: a")), Some(25));
    assert_eq!(refused(&format!("{head}version 2\nstart: A\nA: start")), Some(25));
    assert_eq!(refused(&format!("{head}start: A\nA: start")), Some(6));
    assert_eq!(refused(&format!("{head}start: A\nstart: A")), Some(4));
    assert_eq!(refused(&format!("{head}start: A\nA: eof")), Some(5));
    assert_eq!(refused(&format!("{head}start: A\n7: a")), Some(3));
    assert_eq!(refused(&format!("{head}version 2\nstart: A")), Some(1));
    assert_eq!(refused("tokens eof=0\nrules start A\nversion 2\nstart: A\nA:"), None);
    assert_eq!(refused(""), Some(1));
}
