//! The grammars that are timed, as productions in the crate's order: the start's last.
use std::fs;

use boltmarrow::{Grammar, Symbol};

pub const RULE: u16 = 32768;

/// Document 01's limits.
const RULES: u16 = 512;
const TOKENS: u16 = 512;
const PRODS: usize = 4096;
const SYMBOLS: usize = 16384;

pub struct Given {
    pub name: &'static str,
    pub rules: u16,
    pub costs: Vec<u8>,
    pub prods: Vec<(u16, Vec<u16>)>,
}

pub fn all() -> Vec<Given> {
    let (climate, load) = (example("climate"), example("load"));
    let large = together(&[&climate, &load, &climate, &load, &climate, &load, &climate, &load]);
    vec![
        example("g1"),
        climate,
        large,
        random("random", Shape { seed: 1, tokens: 50, empty: 0, closed: false }),
        random("random, a token ends each", Shape { seed: 2, tokens: 50, empty: 0, closed: true }),
        random("random, mostly rules, a quarter empty", Shape { seed: 3, tokens: 10, empty: 25, closed: false }),
        rising_chain(),
        falling_chain(),
        long_chain("long chain, each rule is the next and 30 tokens", |r| r + 1),
        long_chain("long chain, each rule is the one before and 30 tokens", |r| r - 1),
        empty(),
    ]
}

/// Those for sentences: what would make a sentence slow if rules were expanded each time they stand somewhere, and what
/// copying does not help.
pub fn sentences() -> Vec<Given> {
    vec![
        below_links("65,535 tokens below 494 links", 0, 0),
        below_links("the same, with 30 empty rules behind each link", 30, 0),
        long_chain("511 rules, each used once, 30 tokens each", |r| r + 1),
        one_a_round(),
        doublings(),
        below_links("65,536 tokens below 494 links: too long", 0, 1),
        turning(),
    ]
}

/// Rules 1 to 15 are each twice the next, and rule 17; rule 16 is rule 17; from there on each rule is the next, with so
/// many times rule 511 behind it, which is nothing; rule 510 is a token. Rule 1 has some tokens more; then all are free.
fn below_links(name: &'static str, empty: usize, more: usize) -> Given {
    let twice = |r: u16| vec![RULE + r + 1, RULE + r + 1, RULE + 17];
    let link = |r: u16| [vec![RULE + r + 1], vec![RULE + 511; empty]].concat();
    let mut prods = vec![(1, [twice(1), vec![0; more]].concat())];
    prods.extend((2..16).map(|r| (r, twice(r))));
    prods.extend((16..510).map(|r| (r, link(r))));
    prods.extend([(510, vec![0]), (511, vec![])]);
    finished(name, RULES, vec![u8::from(more == 0); 2], prods)
}

/// 510 rules, each 30 tokens and the next, numbered so that a round over them, up or down, settles one: the rules are
/// 256, 1, 257, 2 .. from the last on.
fn one_a_round() -> Given {
    let number = |k: u16| if k % 2 == 0 { 256 + k / 2 } else { 1 + k / 2 };
    let body = |k: u16| [vec![0; 30], vec![if k == 0 { 0 } else { RULE + number(k - 1) }]].concat();
    let mut prods: Vec<(u16, Vec<u16>)> = (0..510).map(|k| (number(k), body(k))).collect();
    prods.sort();
    prods.extend([(511, vec![]), (0, vec![RULE + number(509)])]);
    Given { name: "510 rules, each used once, settled one a round", rules: RULES, costs: vec![1; 2], prods }
}

/// Rule r is twice the next, up to rule 16, which is a token: 32,768 tokens.
fn doublings() -> Given {
    let mut prods: Vec<(u16, Vec<u16>)> = (1..16).map(|r| (r, vec![RULE + r + 1; 2])).collect();
    prods.push((16, vec![0]));
    finished("15 doublings", 17, vec![1; 2], prods)
}

/// Rule 1 is fifteen times rule 2 and 15,000 times rule 3; both are 254 links away from a token, of which rule 2's has a
/// choice, so that there are 32,768 sentences.
fn turning() -> Given {
    let mut prods = vec![(1, [vec![RULE + 2; 15], vec![RULE + 3; 15_000]].concat())];
    prods.extend((2..510).map(|r| (r, vec![RULE + r + 2])));
    prods.extend([(510, vec![0]), (510, vec![1]), (511, vec![0])]);
    finished("32,768 sentences of 15,015 tokens below 254 links", RULES, vec![1; 3], prods)
}

/// A grammar of examples/.
fn example(name: &'static str) -> Given {
    let file = fs::read(format!("examples/{name}.blk")).expect("started at the repository's top");
    let grammar = Grammar::from_blocks(&file).expect("examples are well-formed");
    let body = |pidx| grammar.prod(pidx).unwrap().map(|symbol: Symbol| symbol.to_flat().unwrap()).collect();
    let mut prods: Vec<(u16, Vec<u16>)> =
        grammar.iter_pidxs().map(|pidx| (grammar.prod_to_rule(pidx).unwrap().0, body(pidx))).collect();
    prods.sort_by_key(|(owner, _)| *owner == 0);
    let costs = grammar.iter_tidxs().map(|tidx| grammar.token_cost(tidx).unwrap()).collect();
    Given { name, rules: grammar.rules_len().0, costs, prods }
}

/// All of them under one rule, each with rules and tokens of its own.
fn together(parts: &[&Given]) -> Given {
    let (mut rules, mut tokens) = (2, 0);
    let (mut prods, mut costs) = (vec![], vec![]);
    for part in parts {
        let moved = |&symbol: &u16| if symbol < RULE { symbol + tokens } else { symbol - 1 + rules };
        for (owner, body) in &part.prods {
            let owner = if *owner == 0 { 1 } else { owner - 1 + rules };
            prods.push((owner, body.iter().map(moved).collect()));
        }
        let own = part.costs.len() - 1;
        costs.extend(&part.costs[..own]);
        (rules, tokens) = (rules + part.rules - 1, tokens + own as u16);
    }
    costs.push(1);
    finished("climate and load, four of each", rules, costs, prods)
}

/// With the start's production, which is rule 1, at the end.
fn finished(name: &'static str, rules: u16, costs: Vec<u8>, mut prods: Vec<(u16, Vec<u16>)>) -> Given {
    prods.push((0, vec![RULE + 1]));
    Given { name, rules, costs, prods }
}

/// Numbers that look random and are the same in each run (xorshift).
struct Draw(u64);

impl Draw {
    fn below(&mut self, end: u64) -> u64 {
        self.0 ^= self.0 << 13;
        self.0 ^= self.0 >> 7;
        self.0 ^= self.0 << 17;
        (self.0 >> 16) % end
    }

    fn token(&mut self) -> u16 {
        self.below(u64::from(TOKENS) - 1) as u16
    }

    fn symbol(&mut self, tokens: u64) -> u16 {
        if self.below(100) < tokens { self.token() } else { RULE + 1 + self.below(u64::from(RULES) - 1) as u16 }
    }
}

/// Of a hundred symbols so many are tokens, and of a hundred rules so many have an empty production. In a closed grammar
/// a token ends each production that is not empty, so that the Rust's costs come to an end.
struct Shape {
    seed: u64,
    tokens: u64,
    empty: u64,
    closed: bool,
}

/// A grammar at the limits. Each rule has a production of one token. Tokens cost 1 to 255.
fn random(name: &'static str, shape: Shape) -> Given {
    let mut draw = Draw(shape.seed * 0x9e37_79b9_7f4a_7c15);
    let others = u64::from(RULES) - 1;
    let mut prods: Vec<(u16, Vec<u16>)> = (1..RULES).map(|r| (r, vec![draw.token()])).collect();
    let empty: Vec<u16> = (1..RULES).filter(|_| draw.below(100) < shape.empty).collect();
    prods.extend(empty.into_iter().map(|r| (r, vec![])));
    let mut left = SYMBOLS - usize::from(RULES);
    while prods.len() < PRODS - 1 {
        let len = left / (PRODS - 1 - prods.len());
        let mut body: Vec<u16> = (1..len).map(|_| draw.symbol(shape.tokens)).collect();
        body.push(draw.symbol(if shape.closed { 100 } else { shape.tokens }));
        prods.push((1 + draw.below(others) as u16, body));
        left -= len;
    }
    finished(name, RULES, (0..TOKENS).map(|t| (t % 255) as u8 + 1).collect(), prods)
}

/// Productions of one token each, all tokens.
fn tokens_of(rule: u16) -> impl Iterator<Item = (u16, Vec<u16>)> {
    (0..TOKENS - 1).map(move |token| (rule, vec![token]))
}

/// Rule r is rule r+1; the last is any token.
fn rising_chain() -> Given {
    let mut prods: Vec<(u16, Vec<u16>)> = (1..RULES - 1).map(|r| (r, vec![RULE + r + 1])).collect();
    prods.extend(tokens_of(RULES - 1));
    finished("chain, each rule is the next", RULES, vec![1; TOKENS.into()], prods)
}

/// Rule r is rule r-1; rule 1 is any token. The start is the last rule.
fn falling_chain() -> Given {
    let mut prods: Vec<(u16, Vec<u16>)> = tokens_of(1).collect();
    prods.extend((2..RULES).map(|r| (r, vec![RULE + r - 1])));
    prods.push((0, vec![RULE + RULES - 1]));
    Given { name: "chain, each rule is the one before", rules: RULES, costs: vec![1; TOKENS.into()], prods }
}

/// Rule r is the rule that `next` gives and 30 tokens; where that is none, the tokens alone. The start is the last rule
/// that a chain comes to. 15,811 symbols.
fn long_chain(name: &'static str, next: impl Fn(u16) -> u16) -> Given {
    let own = |r: u16| (0..30).map(move |k| (r * 30 + k) % (TOKENS - 1));
    let inner = |r: &u16| (1..RULES).contains(r);
    let body = |r: u16| Some(next(r)).filter(inner).map(|r| RULE + r).into_iter().chain(own(r)).collect();
    let mut prods: Vec<(u16, Vec<u16>)> = (1..RULES).map(|r| (r, body(r))).collect();
    let start = if next(1) == 2 { 1 } else { RULES - 1 };
    prods.push((0, vec![RULE + start]));
    Given { name, rules: RULES, costs: vec![1; TOKENS.into()], prods }
}

/// Each rule is nothing, a token of its own, or the next 31 rules, as far as there are so many.
fn empty() -> Given {
    let next = |r: u16| (r + 1..RULES.min(r + 32)).map(|r| RULE + r).collect();
    let prods = (1..RULES).flat_map(|r| [(r, vec![]), (r, vec![r - 1]), (r, next(r))]).collect();
    finished("all rules empty", RULES, vec![1; TOKENS.into()], prods)
}
