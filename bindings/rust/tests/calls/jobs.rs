//! Jobs: the fills' tables, by slices.
use boltmarrow::{Cost, Costs, Firsts, Follows, Grammar, Job, PIdx, Productive, RIdx, TIdx, Whole};

use crate::grammars::{comma, dead, doubled, exports, g1, g2, g3, g4, g5, g5_either, g6};
use crate::refusals::chain;
use crate::visits::marks;

/// The last three have dear rules, the second of them only at first.
fn grammars() -> Vec<Grammar> {
    let small = [g1(), g2(), g3(), g4(), g5(257), g6(), comma(), exports(), dead()];
    small.into_iter().chain([g5(258), g5_either(), doubled(20, &[0], 1)]).collect()
}

/// What a job gives, for each of several lengths of its slices. They may end at any production, also behind a round.
fn sliced<W: Whole>(grm: &Grammar, start: impl Fn() -> Job<W>) -> Vec<W> {
    let prods = u32::from(grm.prods_len());
    let filled = |n: u32| {
        let (mut job, mut visits) = (start(), 0);
        while !job.is_done() {
            job = job.finish().err().expect("nothing is whole before the job is done");
            assert_eq!((job.slice(0), job.is_done()), (0, false));
            let made = job.slice(n);
            assert!(made == n || made < n && job.is_done());
            visits += made;
            assert_eq!((job.rounds(), u32::from(job.next_pidx())), (visits / prods, visits % prods));
        }
        // whole rounds, the last of which changed nothing
        assert_eq!((visits % prods, job.next_pidx()), (0, PIdx(0)));
        assert!(1 <= job.rounds() && job.rounds() <= job.rounds_most());
        let rounds = job.rounds();
        for n in [0, 1, u32::MAX] {
            assert_eq!((job.slice(n), job.rounds(), job.next_pidx(), job.is_done()), (0, rounds, PIdx(0), true));
        }
        job.finish().ok().expect("a done job has a whole table")
    };
    [1, 7, prods, prods + 1, u32::MAX].into_iter().map(filled).collect()
}

fn firsts(grm: &Grammar, table: &Firsts) -> (Vec<Vec<TIdx>>, Vec<bool>) {
    let empty = grm.iter_rules().map(|ridx| table.is_epsilon_set(ridx).unwrap()).collect();
    (marks(grm, |ridx| table.firsts(ridx)), empty)
}

fn follows(grm: &Grammar, table: &Follows) -> Vec<Vec<TIdx>> {
    marks(grm, |ridx| table.follows(ridx))
}

fn productive(grm: &Grammar, table: &Productive) -> Vec<bool> {
    grm.iter_rules().map(|ridx| table.is_set(ridx).unwrap()).collect()
}

fn costs(grm: &Grammar, table: &Costs) -> Vec<Cost> {
    grm.iter_rules().map(|ridx| table.cost(ridx).unwrap()).collect()
}

#[test]
fn first_jobs_leave_the_fills_tables() {
    for grm in grammars() {
        for table in sliced(&grm, || grm.first_job()) {
            assert_eq!(firsts(&grm, &table), firsts(&grm, &grm.firsts()));
        }
    }
}

/// FIRST and EMPTY filled at once, and by a job of their own.
#[test]
fn follow_jobs_leave_the_fills_tables() {
    for grm in grammars() {
        let filled = grm.follows();
        let whole = sliced(&grm, || grm.first_job()).remove(0);
        let tables = sliced(&grm, || grm.follow_job()).into_iter();
        for table in tables.chain(sliced(&grm, || whole.clone().follow_job())) {
            assert_eq!(follows(&grm, &table), follows(&grm, &filled));
            assert_eq!(firsts(&grm, table.firsts()), firsts(&grm, filled.firsts()));
        }
    }
}

#[test]
fn productive_and_cost_jobs_leave_the_fills_tables() {
    for grm in grammars() {
        for table in sliced(&grm, || grm.productive_job()) {
            assert_eq!(productive(&grm, &table), productive(&grm, &grm.productive()));
        }
        for table in sliced(&grm, || grm.cost_job()) {
            assert_eq!(costs(&grm, &table), costs(&grm, &grm.costs()));
        }
    }
}

/// G1's productions are Num: Sign digits Frac; Sign: minus; Sign: nothing; Frac: comma digits; Frac: nothing; start: Num.
#[test]
fn a_job_tells_where_it_stands() {
    let grm = g1();
    let mut job = grm.first_job();
    assert_eq!((job.rounds(), job.next_pidx(), job.is_done()), (0, PIdx(0), false));
    assert_eq!(job.to_string(), "rounds 0, next production 0 of 6");
    assert_eq!((job.slice(4), job.rounds(), job.next_pidx()), (4, 0, PIdx(4)));
    assert_eq!(job.to_string(), "rounds 0, next production 4 of 6");
    assert_eq!((job.slice(4), job.rounds(), job.next_pidx()), (4, 1, PIdx(2)));
    assert_eq!(job.to_string(), "rounds 1, next production 2 of 6");
    // the second round marks Num and the start, the third nothing
    assert_eq!((job.slice(9), job.rounds(), job.next_pidx()), (9, 2, PIdx(5)));
    assert!(!job.is_done());
    assert_eq!((job.slice(9), job.rounds(), job.next_pidx()), (1, 3, PIdx(0)));
    assert!(job.is_done());
    assert_eq!(job.to_string(), "rounds 3, done");
    assert_eq!(job.rounds_most(), 4 * 4 + 1);
}

#[test]
fn a_jobs_table_can_be_asked_meanwhile() {
    let grm = g1();
    let (mut job, num) = (grm.first_job(), RIdx(1));
    // Sign and Frac are not marked yet when Num is visited
    assert_eq!((job.slice(6), job.table().firsts(num).unwrap().count()), (6, 0));
    assert_eq!(job.table().is_set(RIdx(2), TIdx(2)), Ok(true));
    assert_eq!((job.slice(1), job.table().firsts(num).unwrap().count()), (1, 2));
    let mut job = grm.follow_job();
    assert_eq!(job.table().is_set(RIdx(0), TIdx(3)), Ok(true));
    assert_eq!((job.slice(1), job.table().is_set(RIdx(2), TIdx(0))), (1, Ok(true)));
    let mut job = grm.productive_job();
    assert_eq!((job.slice(2), job.table().is_set(RIdx(2)), job.table().is_set(num)), (2, Ok(true), Ok(false)));
}

/// S: A; A: a; U: A z. The fourth visit is of U's production, which does not put z behind A.
#[test]
fn a_dead_rule_changes_no_follow_job() {
    let (grm, a, z) = (dead(), RIdx(2), TIdx(1));
    let mut job = grm.follow_job();
    assert_eq!((job.slice(3), job.table().is_set(a, z)), (3, Ok(false)));
    assert_eq!((job.slice(1), job.table().is_set(a, z)), (1, Ok(false)));
    assert_eq!((job.slice(u32::MAX), job.rounds()), (4, 2));
    assert_eq!(job.finish().ok().unwrap().is_set(a, z), Ok(false));
}

/// A is 258 tokens of cost 255 or one of cost 1: dear, and later lowered.
#[test]
fn a_dear_rule_is_seen_before_its_cost_is() {
    let grm = g5_either();
    let mut job = grm.cost_job();
    let mut step = || (job.slice(1), [0, 1].map(|r| job.table().cost(RIdx(r)).unwrap()));
    assert_eq!(step(), (1, [Cost::Unknown, Cost::Unknown]));
    assert_eq!(step(), (1, [Cost::Unknown, Cost::Dear]));
    assert_eq!(step(), (1, [Cost::Unknown, Cost::Is(1)]));
    assert_eq!(step(), (1, [Cost::Is(1), Cost::Is(1)]));
}

/// Rule r is rule r+1 twice, whose production comes later: each round goes one rule up, and one more changes nothing.
#[test]
fn some_jobs_take_the_most_rounds() {
    let grm = doubled(9, &[0], 1);
    let (mut costs, mut productive) = (grm.cost_job(), grm.productive_job());
    assert_eq!((costs.rounds_most(), productive.rounds_most()), (11, 11));
    assert_eq!((costs.slice(u32::MAX), productive.slice(u32::MAX)), (110, 110));
    assert_eq!((costs.rounds(), productive.rounds()), (11, 11));
    assert_eq!(costs.finish().ok().unwrap().cost(RIdx(0)), Ok(Cost::Is(256)));
}

/// A slice's length has more than 16 bits.
#[test]
fn a_long_slice_is_not_cut() {
    let grm = chain(512).unwrap();
    let mut job = grm.productive_job();
    for slice in [65536, 65537, 70000] {
        assert_eq!((job.slice(slice), job.is_done()), (slice, false));
    }
    assert_eq!(job.slice(u32::MAX), 513 * 512 - 65536 - 65537 - 70000);
    assert_eq!((job.rounds(), job.rounds_most()), (513, 513));
}

/// A copy goes its own way.
#[test]
fn a_copy_of_a_job_stands_where_it_stood() {
    let grm = comma();
    let mut job = grm.first_job();
    job.slice(3);
    let mut copy = job.clone();
    job.slice(u32::MAX);
    assert_eq!((copy.rounds(), copy.next_pidx(), copy.is_done()), (0, PIdx(3), false));
    copy.slice(u32::MAX);
    let [one, other] = [job, copy].map(|job| firsts(&grm, &job.finish().ok().unwrap()));
    assert_eq!(one, other);
}
