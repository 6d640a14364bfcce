//! Times the Rust crate, the fills in plain C and the library on the same grammars, and the library's visits and queries
//! beside its check.
//!
//!     bench                     at the repository's top; prints three tables
//!     bench sentences           the third alone
//!     bench costs PLACE         ends once the Rust has the costs of the grammar at that place of the list
//!
//! Before a grammar is timed the three are held to each other: FIRST, EMPTY, FOLLOW and the costs, in the Rust FOLLOW only
//! where no rule can vanish and none is dead, since elsewhere it makes another table, and the costs only where it returns;
//! the reached row, which the Rust has not, C and the library. DEAREST, which C has not, is timed beside the Rust's
//! greatest costs where these do not panic; the two are not held to each other, since they differ in places.
mod clock;
mod grammars;
mod plain;
#[path = "../oracle/text.rs"]
mod text;

use std::hint::black_box;
use std::panic::{AssertUnwindSafe, catch_unwind};
use std::process::Command;
use std::thread::sleep;
use std::time::{Duration, Instant};

use boltmarrow::{Cost, Grammar, PIdx, RIdx, TIdx};
use boltmarrow_cfgrammar::{flatten, rule, token};
use cfgrammar::yacc::{YaccGrammar, YaccKind, YaccOriginalActionKind};

use clock::{Times, turns};
use grammars::Given;
use plain::Plain;

/// How long the Rust may take for its costs before it is taken not to return.
const PATIENCE: Duration = Duration::from_secs(5);

/// The crate's grammar and ours.
fn built(given: &Given) -> (YaccGrammar<u16>, Grammar) {
    let prods = given.prods.iter().map(|(owner, body)| (*owner, &body[..]));
    let text = text::text(given.rules, given.costs.len(), prods);
    let kind = YaccKind::Original(YaccOriginalActionKind::NoAction);
    let grm = YaccGrammar::new_with_storaget(kind, &text).expect("a text of the stand-in's form");
    let flat = flatten(&grm, |tidx| given.costs[usize::from(tidx)]).expect("a grammar within the limits");
    (grm, flat)
}

/// The crate's costs: those of all rules are worked out when the first is asked for.
fn rust_costs(grm: &YaccGrammar<u16>, costs: &[u8]) -> Vec<u16> {
    let sentences = grm.sentence_generator(|tidx| costs[usize::from(tidx)]);
    grm.iter_rules().map(|ridx| sentences.min_sentence_cost(ridx)).collect()
}

/// The crate's greatest costs, of all rules at once too.
fn rust_dearest(grm: &YaccGrammar<u16>, costs: &[u8]) -> Vec<Option<u16>> {
    let sentences = grm.sentence_generator(|tidx| costs[usize::from(tidx)]);
    grm.iter_rules().map(|ridx| sentences.max_sentence_cost(ridx)).collect()
}

/// Takes a call's answer, so that no call is left out.
fn keep<T>(answer: T) {
    drop(black_box(answer));
}

fn hold_marks(grm: &YaccGrammar<u16>, flat: &Grammar) {
    let (firsts, follows) = (flat.firsts(), flat.follows());
    let (own_firsts, own_follows) = (grm.firsts(), grm.follows());
    let parts = |ridx| firsts.is_epsilon_set(ridx).unwrap() || !follows.reached().is_set(ridx).unwrap();
    let same_follow = !flat.iter_rules().any(parts);
    for ridx in grm.iter_rules() {
        let held = |holds: &dyn Fn(cfgrammar::TIdx<u16>) -> bool| -> Vec<TIdx> {
            grm.iter_tidxs().filter(|tidx| holds(*tidx)).map(token).collect()
        };
        let (r, first, follow) = (rule(ridx), &own_firsts, &own_follows);
        assert_eq!(firsts.firsts(r).unwrap().collect::<Vec<_>>(), held(&|tidx| first.is_set(ridx, tidx)));
        assert_eq!(firsts.is_epsilon_set(r), Ok(first.is_epsilon_set(ridx)));
        if same_follow {
            assert_eq!(follows.follows(r).unwrap().collect::<Vec<_>>(), held(&|tidx| follow.is_set(ridx, tidx)));
        }
    }
}

fn hold_costs(grm: &YaccGrammar<u16>, flat: &Grammar, costs: &[u8]) {
    let ours = flat.costs();
    let ours: Vec<Cost> = flat.iter_rules().map(|ridx| ours.cost(ridx).unwrap()).collect();
    assert_eq!(ours, rust_costs(grm, costs).into_iter().map(Cost::Is).collect::<Vec<_>>());
}

/// What an entry of C's table says.
fn cost_of(entry: u32) -> Cost {
    match (u16::try_from(entry), entry) {
        (Ok(cost), _) => Cost::Is(cost),
        (Err(_), 65536) => Cost::Dear,
        _ => Cost::Unknown,
    }
}

/// What C leaves is what the library does.
fn hold_plain(plain: &Plain, flat: &Grammar) {
    let width = usize::from(flat.tokens_len()).div_ceil(32);
    let bit = |table: &[u32], place: usize, mark: usize| table[place + mark / 32] >> (mark % 32) & 1 == 1;
    let [first, empty] = plain.firsts();
    let ([follow, .., follows_row], follows) = (plain.follows(), flat.follows());
    let (firsts, costs, cost) = (flat.firsts(), plain.costs(), flat.costs());
    let (row, reached) = (plain.reached(), flat.reached());
    for ridx in flat.iter_rules() {
        let r = usize::from(ridx);
        for tidx in flat.iter_tidxs() {
            assert_eq!(firsts.is_set(ridx, tidx), Ok(bit(&first, r * width, tidx.into())));
            assert_eq!(follows.is_set(ridx, tidx), Ok(bit(&follow, r * width, tidx.into())));
        }
        assert_eq!(firsts.is_epsilon_set(ridx), Ok(bit(&empty, 0, r)));
        assert_eq!(reached.is_set(ridx), Ok(bit(&row, 0, r)));
        assert_eq!(follows.reached().is_set(ridx), Ok(bit(&follows_row, 0, r)));
        assert_eq!(cost.cost(ridx), Ok(cost_of(costs[r])));
    }
}

/// Whether the Rust returns the costs of the grammar at that place, found out by a process of its own.
fn costs_return(place: usize) -> bool {
    let this = std::env::current_exe().expect("the program has a name");
    let mut child = Command::new(this).args(["costs", &place.to_string()]).spawn().expect("the program can be started");
    let start = Instant::now();
    while start.elapsed() < PATIENCE {
        if let Some(status) = child.try_wait().expect("the process can be asked") {
            return status.success();
        }
        sleep(Duration::from_millis(10));
    }
    child.kill().expect("the process can be ended");
    child.wait().expect("the process can be ended");
    false
}

fn microseconds(seconds: f64) -> String {
    format!("{:.2}", seconds * 1e6)
}

/// A call to time, where there is one.
type Timed<'a> = Option<&'a mut dyn FnMut()>;

/// A line of the first table: least times, and what they are divided by each other.
fn line<'a>(name: &str, what: &str, rust: Timed<'a>, plain: Timed<'a>, ours: &'a mut dyn FnMut()) {
    let [has_rust, has_plain] = [rust.is_some(), plain.is_some()];
    let mut times = turns(rust.into_iter().chain(plain).chain([ours]).collect()).into_iter().map(|times| times.least);
    let [rust, plain, ours] = [has_rust, has_plain, true].map(|has| if has { times.next() } else { None });
    let shown = [rust, plain, ours].map(|seconds| seconds.map_or("".into(), microseconds)).join(" | ");
    let divided =
        |one: Option<f64>, by: Option<f64>| one.zip(by).map_or("".into(), |(one, by)| format!("{:.2}", one / by));
    println!("| {name} | {what} | {shown} | {} | {} |", divided(ours, plain), divided(rust, ours));
}

fn fills(place: usize, given: &Given) {
    let (grm, flat) = &built(given);
    let plain = Plain::new(built(given).1);
    let name = given.name;
    hold_marks(grm, flat);
    hold_plain(&plain, flat);
    let mut check = check_alone(flat);
    line(name, "check", None, Some(&mut || keep(plain.check())), &mut check);
    let mut rust = || keep(grm.firsts());
    line(name, "FIRST", Some(&mut rust), Some(&mut || keep(plain.firsts())), &mut || keep(flat.firsts()));
    line(name, "reached rules", None, Some(&mut || keep(plain.reached())), &mut || keep(flat.reached()));
    let mut rust = || keep(grm.follows());
    line(name, "FOLLOW", Some(&mut rust), Some(&mut || keep(plain.follows())), &mut || keep(flat.follows()));
    let returns = costs_return(place);
    if returns {
        hold_costs(grm, flat, &given.costs);
    }
    let mut rust = || keep(rust_costs(grm, &given.costs));
    let rust: Timed = if returns { Some(&mut rust) } else { None };
    line(name, "COST", rust, Some(&mut || keep(plain.costs())), &mut || keep(flat.costs()));
    let mut rust = || keep(rust_dearest(grm, &given.costs));
    let returns = catch_unwind(AssertUnwindSafe(&mut rust)).is_ok();
    let rust: Timed = if returns { Some(&mut rust) } else { None };
    line(name, "DEAREST", rust, None, &mut || keep(flat.dearest()));
}

/// One call of each kind on the grammar, in turn with the check alone. A visit takes the productions in turn, on a
/// table that is full. `prod` and `is_set` make no call of the library: the crate reads its own list and table.
fn beside_check(flat: &Grammar) {
    let turn = |count: u16| (0..count).cycle();
    let (mut prods, mut rules) = (turn(flat.prods_len().0).map(PIdx), turn(flat.rules_len().0).map(RIdx));
    let (mut first, mut follow) = (flat.first_table(), flat.follow_table());
    let (mut productive, mut cost) = (flat.productive_table(), flat.cost_table());
    for pidx in (0..3).flat_map(|_| flat.iter_pidxs()) {
        let visited = [first.visit(pidx), follow.visit(pidx), productive.visit(pidx), cost.visit(pidx)];
        assert!(visited.iter().all(|visited| visited.is_ok()));
    }
    let mut prod = || prods.next().unwrap();
    let firsts = flat.firsts();
    let eof = flat.eof_token_idx();
    check_line(flat, "prod, without a call", &mut || keep(flat.prod(prod())));
    check_line(flat, "is_set, without a call", &mut || keep(firsts.is_set(rules.next().unwrap(), eof)));
    check_line(flat, "FIRST visit", &mut || keep(first.visit(prod())));
    check_line(flat, "FOLLOW visit", &mut || keep(follow.visit(prod())));
    check_line(flat, "PRODUCTIVE visit", &mut || keep(productive.visit(prod())));
    check_line(flat, "COST visit", &mut || keep(cost.visit(prod())));
    check_line(flat, "has_path, none", &mut || keep(flat.has_path(RIdx(1), RIdx(0))));
    let sentences = flat.sentence_generator();
    check_line(flat, "min_sentence_cost", &mut || keep(sentences.min_sentence_cost(RIdx(1))));
    check_line(flat, "min_sentence", &mut || keep(sentences.min_sentence(RIdx(1))));
}

/// The check alone: a visit with a number that no production has is refused once the grammar is checked.
fn check_alone(flat: &Grammar) -> impl FnMut() {
    let mut table = flat.productive_table();
    move || keep(table.visit(PIdx(u16::MAX)))
}

fn check_line(flat: &Grammar, what: &str, call: &mut dyn FnMut()) {
    let times = turns(vec![call, &mut check_alone(flat)]);
    let shown = |times: &Times| [times.least, times.median].map(microseconds).join(" | ");
    println!("| {what} | {} | {} | {:.2} |", shown(&times[0]), shown(&times[1]), times[0].least / times[1].least);
}

/// The grammar as it is given, without the crate.
fn flat(given: &Given) -> Grammar {
    let owners = given.prods.iter().map(|(owner, _)| *owner).collect();
    let ends = given.prods.iter().scan(0, |end, (_, body)| {
        *end += body.len() as u16;
        Some(*end)
    });
    let starts = std::iter::once(0).chain(ends).collect();
    let symbols = given.prods.iter().flat_map(|(_, body)| body.iter().copied()).collect();
    Grammar::new(given.rules, owners, starts, symbols, given.costs.clone()).expect("a grammar within the limits")
}

fn sentence_line(name: &str, what: &str, told: &str, call: &mut dyn FnMut()) {
    let times = &turns(vec![call])[0];
    println!("| {name} | {what} | {told} | {} | {} |", microseconds(times.least), microseconds(times.median));
}

/// The start's sentence, and the last of its list where that has more than one.
fn sentence_lines(given: &Given) {
    let flat = flat(given);
    let sentences = flat.sentence_generator();
    let start = flat.start_rule_idx();
    let told = sentences.min_sentence(start).map_or_else(|why| why.number().to_string(), |row| row.len().to_string());
    sentence_line(given.name, "min_sentence", &told, &mut || keep(sentences.min_sentence(start)));
    let last = sentences.count_min_sentences(start).map_or(0, |count| count - 1);
    if last > 0 {
        let told = sentences.min_sentence_at(start, last).expect("a number of the list").len().to_string();
        sentence_line(given.name, "min_sentence_at, the last", &told, &mut || {
            keep(sentences.min_sentence_at(start, last))
        });
    }
}

fn sentence_table() {
    println!("| grammar | call | tokens, or the refusal | least | median |");
    println!("|---|---|---|---|---|");
    grammars::sentences().iter().for_each(sentence_lines);
}

fn tables(given: &[Given]) {
    println!("| grammar | fill | Rust | C | ours | ours / C | Rust / ours |");
    println!("|---|---|---|---|---|---|---|");
    for (place, given) in given.iter().enumerate() {
        fills(place, given);
    }
    let random = given.iter().find(|given| given.name == "random").expect("it is among them");
    println!("\n| call, on 'random' | least | median | its check, least | median | call / check |");
    println!("|---|---|---|---|---|---|");
    beside_check(&built(random).1);
    println!();
    sentence_table();
}

fn main() {
    let given = grammars::all();
    let words: Vec<String> = std::env::args().skip(1).collect();
    match &words.iter().map(String::as_str).collect::<Vec<_>>()[..] {
        [] => tables(&given),
        ["sentences"] => sentence_table(),
        ["costs", place] => {
            let given = &given[place.parse::<usize>().expect("a number")];
            keep(rust_costs(&built(given).0, &given.costs));
        }
        _ => panic!("use: bench, bench sentences, or bench costs PLACE"),
    }
}
