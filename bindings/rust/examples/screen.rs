//! Fills the tables of a grammar at the limits by slices, and shows how far they are meanwhile:
//!
//!     screen
//!
//! The progress is one line of standard error, which is written again after each slice; what was filled goes to standard
//! output. A program with a screen of its own draws it, and looks for keys, where this one writes its line.
use boltmarrow::{Grammar, Job, RIdx, Refusal, Whole};

/// The visits of a slice. At the limits a thousand take less than a millisecond.
const VISITS: u32 = 1000;

/// The last of the chain below.
const LAST: RIdx = RIdx(257);

/// As many rules, tokens and productions as there may be. Rules 1 to 511 are a chain: each holds the next one, before or
/// behind three tokens, and the last is tokens alone. Behind rule 1 comes rule 256, then 511, 255, 510 and so on, so that
/// a round, which goes over the productions by their numbers, does not come far along it either way.
fn at_the_limits() -> Result<Grammar, Refusal> {
    let (chained, below_eof) = (511, 511);
    let (mut owners, mut starts, mut symbols) = (vec![0], vec![0, 1], vec![32769]);
    for prod in 0..4095 {
        let (place, choice) = (prod % chained, prod / chained);
        let next = match (place + 255) % chained {
            0 => place,
            next => 32769 + next,
        };
        let [one, two, three] = [0, 100, 200].map(|more| (place + choice + more) % below_eof);
        owners.push(1 + place);
        symbols.extend(if choice == 0 { [next, one, two, three] } else { [one, two, three, next] });
        starts.push(symbols.len() as u16);
    }
    let costs = (0..=below_eof).map(|token| 1 + (token % 40) as u8).collect();
    Grammar::new(1 + chained, owners, starts, symbols, costs)
}

/// The table that a job fills, with a progress line until it is whole.
fn watched<W: Whole>(name: &str, mut job: Job<W>) -> W {
    while job.slice(VISITS) > 0 {
        eprint!("\r{:<60}", format!("{name}: {job}"));
    }
    eprintln!();
    println!("{name}: {} rounds", job.rounds());
    job.finish().ok().expect("a job that makes no more visits is done")
}

fn main() -> Result<(), Refusal> {
    let grm = at_the_limits()?;
    let [rules, tokens, prods] = [grm.rules_len().into(), grm.tokens_len().into(), usize::from(grm.prods_len())];
    println!("{rules} rules, {tokens} tokens, {prods} productions");
    let start = grm.start_rule_idx();
    let firsts = watched("FIRST", grm.first_job());
    println!("the start begins with any of {} tokens", firsts.firsts(start)?.count());
    let follows = watched("FOLLOW", firsts.follow_job());
    println!("the last rule is followed by any of {} tokens", follows.follows(LAST)?.count());
    let costs = watched("COST", grm.cost_job());
    println!("the start's cheapest sentence: {:?}", costs.cost(start)?);
    Ok(())
}
