//! On the grammars of examples/ and on random ones: what DEAREST holds of a rule is the greatest of its productions, by
//! what it holds of the rules in them, and agrees with PRODUCTIVE and COST; and on small ones it is what all derivations
//! up to a height give.
use super::*;
use crate::tests::{examples, Random, COUNTS};
use crate::{Cost, PIdx, Symbol};

fn entries(grm: &Grammar) -> Vec<Dearest> {
    let dearest = grm.dearest();
    grm.iter_rules().map(|ridx| dearest.cost(ridx).unwrap()).collect()
}

/// Rising with what is told: no sentence, each cost, above, unbounded.
fn rank(dearest: Dearest) -> u32 {
    match dearest {
        Dearest::NoSentence => 0,
        Dearest::Cost(cost) => 1 + u32::from(cost),
        Dearest::Above => u32::MAX - 1,
        Dearest::Unbounded => u32::MAX,
    }
}

/// Of a sum however large.
fn of_sum(sum: u64) -> Dearest {
    u16::try_from(sum).ok().filter(|&sum| u32::from(sum) <= DEAREST_MAX).map_or(Dearest::Above, Dearest::Cost)
}

/// What a production comes to, by what is told of its rules.
fn of_body(grm: &Grammar, entries: &[Dearest], pidx: PIdx) -> Dearest {
    let parts = grm.prod(pidx).unwrap().map(|symbol| match symbol {
        Symbol::Token(tidx) => Dearest::Cost(grm.token_cost(tidx).unwrap().into()),
        Symbol::Rule(ridx) => entries[usize::from(ridx)],
    });
    let parts: Vec<Dearest> = parts.collect();
    let known = parts.iter().map(|part| match part {
        Dearest::Cost(cost) => u64::from(*cost),
        _ => 0,
    });
    let mut first = [Dearest::NoSentence, Dearest::Unbounded, Dearest::Above].into_iter();
    first.find(|told| parts.contains(told)).unwrap_or_else(|| of_sum(known.sum()))
}

/// Whether it goes with what PRODUCTIVE and COST tell of the rule.
fn agrees(dearest: Dearest, productive: bool, cheapest: Cost) -> bool {
    let beside = match (dearest, cheapest) {
        (Dearest::NoSentence, cheapest) => cheapest == Cost::Unknown,
        (Dearest::Cost(cost), Cost::Is(cheapest)) => cheapest <= cost,
        (Dearest::Unbounded | Dearest::Above, cheapest) => cheapest != Cost::Unknown,
        (Dearest::Cost(_), Cost::Dear | Cost::Unknown) => false,
    };
    beside && productive == (dearest != Dearest::NoSentence)
}

fn holds(grm: &Grammar) {
    let (entries, productive, costs) = (entries(grm), grm.productive(), grm.costs());
    for ridx in grm.iter_rules() {
        let bodies = grm.rule_to_prods(ridx).unwrap().iter().map(|&pidx| rank(of_body(grm, &entries, pidx)));
        let entry = entries[usize::from(ridx)];
        assert_eq!(Some(rank(entry)), bodies.max(), "{ridx:?}");
        assert!(agrees(entry, productive.is_set(ridx).unwrap(), costs.cost(ridx).unwrap()), "{ridx:?}");
    }
}

#[test]
fn the_examples_have_the_greatest_of_their_productions() {
    let examples = examples();
    assert!(examples.len() >= 12);
    examples.iter().for_each(holds);
}

#[test]
fn grammars_of_all_sizes_have_the_greatest_of_their_productions() {
    let mut random = Random(2891336453);
    for rules in COUNTS {
        for tokens in [1].into_iter().chain(COUNTS) {
            for more in [0, 9, rules] {
                holds(&random.grammar_of(rules, tokens, more));
            }
        }
    }
}

/// The greatest costs of derivations that are one level higher than those of which the greatest are given.
fn higher(grm: &Grammar, lower: &[Option<u64>]) -> Vec<Option<u64>> {
    let mut found = lower.to_vec();
    for pidx in grm.iter_pidxs() {
        let owner = usize::from(grm.prod_to_rule(pidx).unwrap());
        found[owner] = found[owner].max(sum(grm, lower, pidx));
    }
    found
}

/// None where a rule of the production has no derivation.
fn sum(grm: &Grammar, lower: &[Option<u64>], pidx: PIdx) -> Option<u64> {
    let parts = grm.prod(pidx).unwrap().map(|symbol| match symbol {
        Symbol::Token(tidx) => Some(grm.token_cost(tidx).unwrap().into()),
        Symbol::Rule(ridx) => lower[usize::from(ridx)],
    });
    parts.sum()
}

/// By derivations of R levels. One that is higher repeats a rule, so where it costs more than all of these some loop adds
/// cost: the rule is unbounded, and so is each that a production which derives a sentence leads from to it.
fn by_height(grm: &Grammar) -> Vec<Dearest> {
    let mut levels = vec![None; grm.rules_len().into()];
    for _ in grm.iter_rules() {
        levels = higher(grm, &levels);
    }
    let more = higher(grm, &levels);
    let mut unbounded: Vec<bool> = more.iter().zip(&levels).map(|(more, level)| more > level).collect();
    for (_, pidx) in grm.iter_rules().flat_map(|ridx| grm.iter_pidxs().map(move |pidx| (ridx, pidx))) {
        let leads = |symbol| matches!(symbol, Symbol::Rule(ridx) if unbounded[usize::from(ridx)]);
        if sum(grm, &levels, pidx).is_some() && grm.prod(pidx).unwrap().any(leads) {
            unbounded[usize::from(grm.prod_to_rule(pidx).unwrap())] = true;
        }
    }
    let told = levels.into_iter().zip(unbounded).map(|(level, unbounded)| match level {
        None => Dearest::NoSentence,
        Some(_) if unbounded => Dearest::Unbounded,
        Some(cost) => of_sum(cost),
    });
    told.collect()
}

/// A small grammar in which half of the tokens are free, and in every second one each token stands 200 times.
fn small(random: &mut Random) -> Grammar {
    let (rules, tokens, more) = (2 + random.below(5), 1 + random.below(5), random.below(7));
    let (rules, owners, starts, symbols, mut costs) = random.grammar_of(rules, tokens, more).into_tables();
    costs.iter_mut().for_each(|cost| *cost *= random.below(2) as u8);
    let times = [1, 200][usize::from(random.below(2))];
    let (mut ends, mut made) = (vec![0], vec![]);
    for body in starts.windows(2).map(|ends| &symbols[ends[0].into()..ends[1].into()]) {
        made.extend(body.iter().flat_map(|&s| vec![s; if s < 32768 { times } else { 1 }]));
        ends.push(made.len() as u16);
    }
    Grammar::new(rules, owners, ends, made, costs).expect("a well-formed grammar")
}

/// All sorts come up often: a cost, of a rule that comes back to itself too, no bound, no sentence, and above.
#[test]
fn small_grammars_have_what_their_derivations_give() {
    let (mut random, mut sorts) = (Random(362436069), [0; 5]);
    for _ in 0..8000 {
        let grm = small(&mut random);
        let entries = entries(&grm);
        assert_eq!(entries, by_height(&grm));
        for (ridx, entry) in grm.iter_rules().zip(entries) {
            let loops = grm.has_path(ridx, ridx).unwrap();
            sorts[match entry {
                Dearest::Cost(_) => usize::from(loops),
                Dearest::Unbounded => 2,
                Dearest::NoSentence => 3,
                Dearest::Above => 4,
            }] += 1;
        }
    }
    assert!(sorts.iter().all(|&count| count >= 200), "{sorts:?}");
}
