//! Asks the Rust crate about flat grammars. Standard input has one well-formed grammar a line, whose rule 0 owns one
//! production, since the crate builds no others, and some of its rules; all numbers in this order, with one space
//! between:
//!
//!     R T P N, P owners, P+1 starts, N symbols, T token costs, how many rules, these rules
//!
//! Standard output has one line of JSON for each:
//!
//!     {"first": [[token..]..], "empty": [0 or 1..], "follow": [[token..]..], "path": [[0 or 1..]..],
//!      "beyond": [OUTCOME..], "dearest": OUTCOME, "costs": OUTCOME, "sentences": [OUTCOME..], "lists": [OUTCOME..]}
//!
//! with an entry for each rule, and an outcome of {"returned": [number..]}, {"panicked": "message"}, "out of time" or
//! "out of memory". In "dearest", which has what `max_sentence_cost` gives, null stands for `None`. The lists are what
//! `min_sentences` gives for the rules named: an entry for each of these, which has a list of lists. Beyond the numbers
//! are production P, the path from rule R to 0 and that from 0 to R. Dearest, costs, sentences and lists are asked in
//! child processes. A child answers one question after the other until one of them runs out of the limits below; the next
//! child goes on behind it. `oracle TIMES` gives so many times the time.
mod text;

use std::fmt::{Debug, Display};
use std::fs::File;
use std::io::{self, BufRead, Read};
use std::os::fd::{AsRawFd, FromRawFd};
use std::panic::{AssertUnwindSafe, catch_unwind};
use std::process::exit;
use std::time::Duration;

use cfgrammar::yacc::{SentenceGenerator, YaccGrammar, YaccKind, YaccOriginalActionKind};
use cfgrammar::{PIdx, RIdx, Symbol, TIdx};

const RULE: u16 = 32768;
// A question has so much of the processor's time, so much more for each symbol, and no more than the third: costs that
// return or panic may take some 65536 rounds over all symbols. Where the costs have run out of time, a sentence that
// asks for them does so too, and one that does not takes next to none: it has the fourth.
const QUESTION: Duration = Duration::from_millis(3);
const SYMBOL: Duration = Duration::from_micros(400);
const LONGEST: Duration = Duration::from_secs(2);
const SENTENCE: Duration = Duration::from_millis(1);
const BYTES: u64 = 512 << 20;

struct Flat {
    rules: u16,
    owners: Vec<u16>,
    starts: Vec<u16>,
    symbols: Vec<u16>,
    costs: Vec<u8>,
    /// The rules whose lists are asked for.
    listed: Vec<u16>,
}

impl Flat {
    fn read(line: &str) -> Option<Flat> {
        let numbers: Vec<u16> = line.split(' ').map(|word| word.parse().ok()).collect::<Option<_>>()?;
        let mut left = numbers.into_iter();
        let rules = left.next()?;
        let [tokens, prods, symbols] = [left.next()?, left.next()?, left.next()?].map(usize::from);
        let mut list = |len| Some(left.by_ref().take(len).collect()).filter(|list: &Vec<u16>| list.len() == len);
        let (owners, starts, symbols, costs) = (list(prods)?, list(prods + 1)?, list(symbols)?, list(tokens)?);
        let costs = costs.into_iter().map(|cost| cost.try_into().ok()).collect::<Option<_>>()?;
        let count = list(1)?[0];
        let listed = list(count.into())?;
        left.next().is_none().then_some(Flat { rules, owners, starts, symbols, costs, listed })
    }

    fn body(&self, prod: usize) -> &[u16] {
        &self.symbols[usize::from(self.starts[prod])..usize::from(self.starts[prod + 1])]
    }

    /// The productions in the crate's order: the start's last.
    fn order(&self) -> Vec<usize> {
        let (own, others): (Vec<_>, Vec<_>) = (0..self.owners.len()).partition(|&p| self.owners[p] == 0);
        [others, own].concat()
    }

    /// The text that the parser's stand-in reads.
    fn text(&self) -> String {
        let prods = self.order().into_iter().map(|prod| (self.owners[prod], self.body(prod)));
        text::text(self.rules, self.costs.len(), prods)
    }
}

fn same<T: PartialEq + Debug>(what: &str, built: T, flat: T) {
    if built != flat {
        fail(format!("{what}: the crate built {built:?}, the grammar has {flat:?}"));
    }
}

fn fail(message: impl Display) -> ! {
    eprintln!("oracle: {message}");
    exit(2)
}

/// The crate's grammar, which is the flat one: same rules and tokens, and productions in the crate's order.
fn build(flat: &Flat) -> YaccGrammar<u16> {
    let kind = YaccKind::Original(YaccOriginalActionKind::NoAction);
    let grm = YaccGrammar::new_with_storaget(kind, &flat.text()).unwrap_or_else(|errors| fail(format!("{errors:?}")));
    let order = flat.order();
    same("rules", usize::from(grm.rules_len()), flat.rules.into());
    same("tokens", usize::from(grm.tokens_len()), flat.costs.len());
    same("productions", usize::from(grm.prods_len()), order.len());
    same("start", grm.start_rule_idx(), RIdx(0));
    same("start's production", usize::from(grm.start_prod()), order.len() - 1);
    same("eof", usize::from(grm.eof_token_idx()), flat.costs.len() - 1);
    for (place, &prod) in order.iter().enumerate() {
        let pidx = PIdx(place as u16);
        let body = flat.body(prod).iter().map(|&s| match s {
            RULE.. => Symbol::Rule(RIdx(s - RULE)),
            _ => Symbol::Token(TIdx(s)),
        });
        same("owner", grm.prod_to_rule(pidx), RIdx(flat.owners[prod]));
        same("body", grm.prod(pidx), &body.collect::<Vec<_>>());
    }
    for ridx in grm.iter_rules() {
        let own = (0..order.len()).filter(|&place| RIdx(flat.owners[order[place]]) == ridx);
        same("a rule's productions", grm.rule_to_prods(ridx), &own.map(|place| PIdx(place as u16)).collect::<Vec<_>>());
    }
    grm
}

fn listed<T: Display>(items: impl Iterator<Item = T>) -> String {
    format!("[{}]", items.map(|item| item.to_string()).collect::<Vec<_>>().join(","))
}

/// The numbers from 0 for which it holds.
fn held(len: usize, holds: impl Fn(u16) -> bool) -> String {
    listed((0..len as u16).filter(|&i| holds(i)))
}

fn answer(flat: &Flat, times: u32) -> String {
    let (grm, tokens) = (build(flat), flat.costs.len());
    let (firsts, follows) = (grm.firsts(), grm.follows());
    let rules = || (0..flat.rules).map(RIdx);
    let first = listed(rules().map(|r| held(tokens, |t| firsts.is_set(r, TIdx(t)))));
    let empty = listed(rules().map(|r| firsts.is_epsilon_set(r) as u8));
    let follow = listed(rules().map(|r| held(tokens, |t| follows.is_set(r, TIdx(t)))));
    let path = listed(rules().map(|a| listed(rules().map(|b| grm.has_path(a, b) as u8))));
    let mut outcomes = outcomes(&grm, flat, times);
    let lists = outcomes.split_off(FIRST_SENTENCE + usize::from(flat.rules));
    let sentences = outcomes.split_off(FIRST_SENTENCE);
    let entries = [
        ("first", first),
        ("empty", empty),
        ("follow", follow),
        ("path", path),
        ("beyond", listed(beyond(&grm, flat).into_iter())),
        ("dearest", outcomes[DEAREST].clone()),
        ("costs", outcomes[COSTS].clone()),
        ("sentences", listed(sentences.into_iter())),
        ("lists", listed(lists.into_iter())),
    ];
    format!("{{{}}}", entries.map(|(name, entry)| format!("\"{name}\":{entry}")).join(","))
}

/// What the crate makes of the first numbers that are out of range.
fn beyond(grm: &YaccGrammar<u16>, flat: &Flat) -> [String; 3] {
    let (rule, prod) = (RIdx(flat.rules), PIdx(flat.owners.len() as u16));
    let path = |from, to| listed([grm.has_path(from, to) as u16].into_iter());
    let len = || listed([grm.prod(prod).len()].into_iter());
    [caught(len), caught(|| path(rule, RIdx(0))), caught(|| path(RIdx(0), rule))]
}

/// What a question returns, or its panic.
fn caught(question: impl FnOnce() -> String) -> String {
    match catch_unwind(AssertUnwindSafe(question)) {
        Ok(list) => format!("{{\"returned\":{list}}}"),
        Err(panic) => {
            let text = panic.downcast_ref::<String>().map(String::as_str).or(panic.downcast_ref::<&str>().copied());
            format!("{{\"panicked\":{:?}}}", text.unwrap_or("no message"))
        }
    }
}

// The questions by number: the dearest costs, the costs, each rule's sentence and behind these the lists asked for.
const DEAREST: usize = 0;
const COSTS: usize = 1;
const FIRST_SENTENCE: usize = 2;

/// The outcomes of all questions.
fn outcomes(grm: &YaccGrammar<u16>, flat: &Flat, times: u32) -> Vec<String> {
    let most = LONGEST.min(QUESTION + SYMBOL * flat.symbols.len() as u32);
    let mut found: Vec<String> = Vec::new();
    while found.len() < questions(flat) {
        let time = if found.get(COSTS).is_some_and(|costs| costs == OUT_OF_TIME) { SENTENCE } else { most };
        let (lines, ended) = Child::start(|| answer_from(found.len(), grm, flat)).finish(time * times);
        found.extend(lines);
        found.extend(ended.map(String::from));
    }
    found
}

fn questions(flat: &Flat) -> usize {
    FIRST_SENTENCE + usize::from(flat.rules) + flat.listed.len()
}

/// Writes the outcome of each question from that number on.
fn answer_from(first: usize, grm: &YaccGrammar<u16>, flat: &Flat) {
    let sentences = grm.sentence_generator(|token| flat.costs[usize::from(token)]);
    for question in first..questions(flat) {
        println!("{}", caught(|| asked(question, &sentences, flat)));
    }
}

fn asked(question: usize, sentences: &SentenceGenerator<u16>, flat: &Flat) -> String {
    let rules = || (0..flat.rules).map(RIdx);
    let number = |cost: Option<u16>| cost.map_or("null".to_string(), |cost| cost.to_string());
    let sentence = |tokens: Vec<TIdx<u16>>| listed(tokens.into_iter().map(|token| token.as_storaget()));
    match question {
        DEAREST => listed(rules().map(|r| number(sentences.max_sentence_cost(r)))),
        COSTS => listed(rules().map(|r| sentences.min_sentence_cost(r))),
        _ => match (question - FIRST_SENTENCE).checked_sub(flat.rules.into()) {
            None => sentence(sentences.min_sentence(RIdx((question - FIRST_SENTENCE) as u16))),
            Some(k) => listed(sentences.min_sentences(RIdx(flat.listed[k])).into_iter().map(sentence)),
        },
    }
}

const OUT_OF_TIME: &str = "\"out of time\"";
const OUT_OF_MEMORY: &str = "\"out of memory\"";
const SIGABRT: i32 = 6;
const SIGKILL: i32 = 9;
const RLIMIT_AS: i32 = 9;
const POLLIN: u64 = 1;

// Linux's, with 64-bit numbers.
unsafe extern "C" {
    fn pipe(ends: *mut [i32; 2]) -> i32;
    fn fork() -> i32;
    fn dup2(from: i32, to: i32) -> i32;
    fn close(end: i32) -> i32;
    fn setrlimit(which: i32, limit: *const [u64; 2]) -> i32;
    fn poll(waited: *mut u64, count: u64, milliseconds: i32) -> i32;
    fn clock_getcpuclockid(process: i32, clock: *mut i32) -> i32;
    fn clock_gettime(clock: i32, time: *mut [i64; 2]) -> i32;
    fn kill(process: i32, signal: i32) -> i32;
    fn waitpid(process: i32, status: *mut i32, options: i32) -> i32;
    fn _exit(status: i32) -> !;
}

fn worked(result: i32, what: &str) -> i32 {
    if result < 0 {
        fail(format!("{what}: {}", io::Error::last_os_error()));
    }
    result
}

/// A copy of this process, whose output and errors come here.
struct Child {
    process: i32,
    clock: i32,
    said: File,
}

impl Child {
    fn start(work: impl FnOnce()) -> Child {
        let mut ends = [0; 2];
        worked(unsafe { pipe(&mut ends) }, "pipe");
        let process = worked(unsafe { fork() }, "fork");
        if process == 0 {
            worked(unsafe { dup2(ends[1], 1) | dup2(ends[1], 2) }, "dup2");
            worked(unsafe { setrlimit(RLIMIT_AS, &[BYTES, BYTES]) }, "setrlimit");
            work();
            unsafe { _exit(0) }
        }
        unsafe { close(ends[1]) };
        let mut clock = 0;
        worked(-unsafe { clock_getcpuclockid(process, &mut clock) }, "clock_getcpuclockid");
        Child { process, clock, said: unsafe { File::from_raw_fd(ends[0]) } }
    }

    /// The processor's time that it has had.
    fn time(&self) -> Duration {
        let mut time = [0; 2];
        worked(unsafe { clock_gettime(self.clock, &mut time) }, "clock_gettime");
        Duration::new(time[0] as u64, time[1] as u32)
    }

    /// Whether it writes, or ends, within a millisecond.
    fn writes(&self) -> bool {
        let mut waited = self.said.as_raw_fd() as u64 | POLLIN << 32;
        worked(unsafe { poll(&mut waited, 1, 1) }, "poll") > 0
    }

    /// All that it writes until it ends, or until one line has taken more than that time: then it is ended.
    fn read(&mut self, limit: Duration) -> String {
        let (mut said, mut part, mut since) = (Vec::new(), vec![0; 1 << 16], Duration::ZERO);
        loop {
            if !self.writes() {
                if self.time() > since + limit {
                    worked(unsafe { kill(self.process, SIGKILL) }, "kill");
                }
                continue;
            }
            let count = self.said.read(&mut part).unwrap_or_else(|error| fail(error));
            if count == 0 {
                return String::from_utf8_lossy(&said).into_owned();
            }
            if part[..count].contains(&b'\n') {
                since = self.time();
            }
            said.extend_from_slice(&part[..count]);
        }
    }

    /// The whole lines that it writes, and the outcome of the question at which it was ended, if it was.
    fn finish(mut self, limit: Duration) -> (Vec<String>, Option<&'static str>) {
        let said = self.read(limit);
        let mut status = 0;
        worked(unsafe { waitpid(self.process, &mut status, 0) }, "waitpid");
        let whole = said.rfind('\n').map_or(0, |end| end + 1);
        let mut lines: Vec<String> = said[..whole].lines().map(String::from).collect();
        let ended = match status & 0x7f {
            0 if status == 0 => None,
            SIGKILL => Some(OUT_OF_TIME),
            SIGABRT if lines.pop_if(|line| line.starts_with("memory allocation of")).is_some() => Some(OUT_OF_MEMORY),
            _ => fail(format!("a child ended with status {status}: {said}")),
        };
        (lines, ended)
    }
}

fn main() {
    std::panic::set_hook(Box::new(|_| ()));
    let times = std::env::args().nth(1).map_or(1, |word| word.parse().unwrap_or_else(|error| fail(error)));
    for line in io::stdin().lock().lines() {
        let line = line.unwrap_or_else(|error| fail(error));
        let flat = Flat::read(&line).unwrap_or_else(|| fail("a line is no grammar"));
        println!("{}", answer(&flat, times));
    }
}
