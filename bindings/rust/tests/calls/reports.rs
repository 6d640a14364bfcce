//! The stored reports of examples/, most of them written by hand, line by line from the crate's tables.
use std::fs;
use std::path::{Path, PathBuf};

use boltmarrow::{Grammar, Refusal, TIdx};

fn examples() -> Vec<PathBuf> {
    let folder = Path::new(env!("CARGO_MANIFEST_DIR")).join("../../examples");
    let files = fs::read_dir(folder).expect("examples/ is there").map(|entry| entry.unwrap().path());
    files.filter(|path| path.extension().map_or(false, |extension| extension == "blk")).collect()
}

fn listed(tokens: impl Iterator<Item = TIdx>) -> String {
    tokens.map(|tidx| tidx.as_storaget().to_string()).collect::<Vec<_>>().join(" ")
}

/// Document 01's report.
fn report(grm: &Grammar) -> Result<String, Refusal> {
    let (follows, sentences) = (grm.follows(), grm.sentence_generator());
    let firsts = follows.firsts();
    let mut text = "rule,empty,first,follow,cost\n".to_string();
    for ridx in grm.iter_rules() {
        let empty = u8::from(firsts.is_epsilon_set(ridx)?);
        let (first, follow) = (listed(firsts.firsts(ridx)?), listed(follows.follows(ridx)?));
        let cost = match sentences.min_sentence_cost(ridx) {
            Ok(cost) => cost.to_string(),
            Err(Refusal::NoSentence) => "none".to_string(),
            Err(Refusal::Dear) => "dear".to_string(),
            Err(refusal) => return Err(refusal),
        };
        text += &format!("{},{empty},{first},{follow},{cost}\n", ridx.as_storaget());
    }
    Ok(text)
}

#[test]
fn each_example_has_its_stored_report() {
    let files = examples();
    assert!(files.len() >= 12);
    for file in files {
        let grm = Grammar::from_blocks(&fs::read(&file).unwrap()).unwrap();
        let stored = fs::read_to_string(file.with_extension("report")).unwrap();
        assert_eq!(report(&grm).unwrap(), stored, "{}", file.display());
    }
}
