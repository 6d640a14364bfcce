//! Document 01's grammars, one with two exports and one with a dead rule. G2 to G6 have the start's production first and
//! eof last, as docs/DECISIONS.md has them.
use boltmarrow::{Grammar, Refusal};

/// In the symbol list rule r is `RULE + r`.
pub const RULE: u16 = 32768;

/// The grammar of these productions, each an owner and its symbols.
pub fn built(rules: u16, prods: &[(u16, &[u16])], costs: &[u8]) -> Result<Grammar, Refusal> {
    let mut starts = vec![0];
    let mut symbols = vec![];
    for (_, body) in prods {
        symbols.extend_from_slice(body);
        starts.push(symbols.len() as u16);
    }
    Grammar::new(rules, prods.iter().map(|(owner, _)| *owner).collect(), starts, symbols, costs.to_vec())
}

pub fn well(rules: u16, prods: &[(u16, &[u16])], costs: &[u8]) -> Grammar {
    built(rules, prods, costs).expect("a well-formed grammar")
}

/// The flat tables of G1 as document 01 lists them.
pub type Tables = (u16, Vec<u16>, Vec<u16>, Vec<u16>, Vec<u8>);

/// Rules 0 start, 1 Num, 2 Sign, 3 Frac; tokens 0 digits, 1 comma, 2 minus, 3 eof.
pub fn g1_tables() -> Tables {
    (4, vec![1, 2, 2, 3, 3, 0], vec![0, 3, 4, 4, 6, 6, 7], vec![32770, 0, 32771, 2, 1, 0, 32769], vec![1, 1, 1, 1])
}

pub fn of((rules, owners, starts, symbols, costs): Tables) -> Result<Grammar, Refusal> {
    Grammar::new(rules, owners, starts, symbols, costs)
}

pub fn g1() -> Grammar {
    of(g1_tables()).expect("G1 is well-formed")
}

/// S: A B c; A: a; B: b; B: nothing. Rules 1 S, 2 A, 3 B; tokens 0 a, 1 b, 2 c.
pub fn g2() -> Grammar {
    let prods: [(u16, &[u16]); 5] = [(0, &[RULE + 1]), (1, &[RULE + 2, RULE + 3, 2]), (2, &[0]), (3, &[1]), (3, &[])];
    well(4, &prods, &[1, 1, 1, 1])
}

/// A: A; A: a.
pub fn g3() -> Grammar {
    well(2, &[(0, &[RULE + 1]), (1, &[RULE + 1]), (1, &[0])], &[1, 1])
}

/// A: A a.
pub fn g4() -> Grammar {
    well(2, &[(0, &[RULE + 1]), (1, &[RULE + 1, 0])], &[1, 1])
}

/// A is so many tokens of cost 255.
pub fn g5(tokens: usize) -> Grammar {
    well(2, &[(0, &[RULE + 1]), (1, &vec![0; tokens])], &[255, 1])
}

/// A is 258 tokens of cost 255, or one of cost 1.
pub fn g5_either() -> Grammar {
    well(2, &[(0, &[RULE + 1]), (1, &[0; 258]), (1, &[1])], &[255, 1, 1])
}

/// A: b A; A: a. Tokens 0 b, 1 a.
pub fn g6() -> Grammar {
    well(2, &[(0, &[RULE + 1]), (1, &[0, RULE + 1]), (1, &[1])], &[1, 1, 1])
}

/// The row of two numbers of the README's section 'The comma'. Rules 1 Row, 2 Num, 3 Frac, 4 Unit; tokens 0 digits,
/// 1 decimal-comma, 2 field-comma, 3 unit, 4 newline.
pub fn comma() -> Grammar {
    let prods: [(u16, &[u16]); 7] = [
        (0, &[RULE + 1]),
        (1, &[RULE + 2, RULE + 4, 2, RULE + 2, RULE + 4, 4]),
        (2, &[0, RULE + 3]),
        (3, &[1, 0]),
        (3, &[]),
        (4, &[3]),
        (4, &[]),
    ];
    well(5, &prods, &[1; 6])
}

/// Two exports: start: Daily; start: Weekly; Daily: day Num Unit comma; Weekly: week Num; Num: digits; Unit: unit;
/// Unit: nothing. Rules 1 Daily, 2 Weekly, 3 Num, 4 Unit; tokens 0 day, 1 week, 2 digits, 3 unit, 4 comma.
pub fn exports() -> Grammar {
    let prods: [(u16, &[u16]); 7] = [
        (0, &[RULE + 1]),
        (1, &[0, RULE + 3, RULE + 4, 4]),
        (2, &[1, RULE + 3]),
        (3, &[2]),
        (4, &[3]),
        (4, &[]),
        (0, &[RULE + 2]),
    ];
    well(5, &prods, &[3, 2, 1, 1, 1, 1])
}

/// Document 02's dead rule: S: A; A: a; U: A z, and U is used nowhere. Rules 1 S, 2 A, 3 U; tokens 0 a, 1 z.
pub fn dead() -> Grammar {
    well(4, &[(0, &[RULE + 1]), (1, &[RULE + 2]), (2, &[0]), (3, &[RULE + 2, 1])], &[1, 1, 1])
}

/// The start is rule 1; rule r is rule r+1 twice, as far as rule `last`, which is `body`. Tokens 0, and eof.
pub fn doubled(last: u16, body: &[u16], cost: u8) -> Grammar {
    let twice: Vec<[u16; 2]> = (1..last).map(|r| [RULE + r + 1; 2]).collect();
    let mut prods: Vec<(u16, &[u16])> = vec![(0, &[RULE + 1])];
    prods.extend(twice.iter().zip(1..).map(|(body, r)| (r, &body[..])));
    prods.push((last, body));
    well(last + 1, &prods, &[cost, 1])
}
