//! What no safe call can do: tables of other lengths, short buffers, damaged jobs, other modes and versions, for each call
//! that takes one.
use super::*;

const G1: Flat = Flat {
    rules: 4,
    owners: &[1, 2, 2, 3, 3, 0],
    starts: &[0, 3, 4, 4, 6, 6, 7],
    symbols: &[32770, 0, 32771, 2, 1, 0, 32769],
    costs: &[1, 1, 1, 1],
};

fn refused(answer: Answer) -> u32 {
    answer.number().unwrap_err().number()
}

#[test]
fn seven_for_mark_tables() {
    for len in [0, 3, 5] {
        let (mut wrong, mut right, mut row) = (vec![9; len], [9; 4], [9; 1]);
        assert_eq!(refused(mark(G1, &wrong, 0, 0)), 7);
        assert_eq!(refused(first_clear(G1, &mut wrong, &mut row)), 7);
        assert_eq!(refused(first_visit(G1, 0, &mut wrong, &mut row)), 7);
        assert_eq!(refused(first_fill(G1, &mut wrong, &mut row)), 7);
        assert_eq!(refused(follow_clear(G1, &mut wrong)), 7);
        let mut reached = [9; 1];
        assert_eq!(refused(follow_visit(G1, FOLLOW_MODE, 0, &mut right, &wrong, &row, &reached)), 7);
        assert_eq!(refused(follow_visit(G1, FOLLOW_MODE, 0, &mut wrong, &right, &row, &reached)), 7);
        assert_eq!(refused(follow_fill(G1, FOLLOW_MODE, &mut right, &mut wrong, &mut row, &mut reached)), 7);
        assert_eq!((wrong, right, row, reached), (vec![9; len], [9; 4], [9; 1], [9; 1]));
    }
}

#[test]
fn seven_for_rows_and_numbers() {
    for len in [0, 2, 5] {
        let (mut wrong, mut cost, mut out) = (vec![9; len], [9; 4], [9; 8]);
        assert_eq!(refused(rule_mark(G1, &wrong, 0)), 7);
        assert_eq!(refused(first_fill(G1, &mut cost, &mut wrong)), 7);
        assert_eq!(refused(reached_fill(G1, &mut wrong)), 7);
        assert_eq!(refused(productive_clear(G1, &mut wrong)), 7);
        assert_eq!(refused(productive_visit(G1, 0, &mut wrong)), 7);
        assert_eq!(refused(productive_fill(G1, &mut wrong)), 7);
        assert_eq!(refused(cost_clear(G1, &mut wrong)), 7);
        assert_eq!(refused(cost_visit(G1, 0, &mut wrong)), 7);
        assert_eq!(refused(cost_fill(G1, &mut wrong)), 7);
        assert_eq!(refused(min_sentence_cost(G1, 0, &mut wrong)), 7);
        assert_eq!(refused(dearest_fill(G1, &mut wrong)), 7);
        assert_eq!(refused(min_sentence(G1, 0, &mut cost, &mut wrong, &mut out)), 7);
        assert_eq!(refused(min_sentence(G1, 0, &mut wrong, &mut cost, &mut out)), 7);
        assert_eq!((wrong, cost, out), (vec![9; len], [9; 4], [9; 8]));
    }
}

/// Each of the three tables of the calls on all cheapest sentences; 7 comes before 9.
#[test]
fn seven_for_the_tables_of_lists() {
    for (at, len) in (0..3).flat_map(|at| [0, 2, 3, 5].map(|len| (at, len))) {
        for rule in [0, 4] {
            let mut tables = [vec![9; 4], vec![9; 4], vec![9; 4]];
            tables[at] = vec![9; len];
            let (before, mut out) = (tables.clone(), [9; 8]);
            let [cost, lengths, counts] = &mut tables;
            assert_eq!(refused(count_min_sentences(G1, rule, cost, lengths, counts)), 7, "table {at}");
            let lent = [&mut cost[..], lengths, counts];
            assert_eq!(refused(min_sentence_at(G1, rule, 9, lent, &mut out)), 7, "table {at}");
            assert_eq!((tables, out), (before, [9; 8]));
        }
    }
}

/// Room is short only when writing, and 16 comes before 15; the tables are whole all the same. X: a; X: b.
#[test]
fn short_room_for_a_number_of_a_list() {
    let starts = &[0, 1, 2, 3];
    let g = Flat { rules: 2, owners: &[0, 1, 1], starts, symbols: &[32769, 0, 1], costs: &[1, 1, 1] };
    for (k, room, answer) in [(0, 0, Err(15)), (2, 0, Err(16)), (u32::MAX, 9, Err(16)), (1, 1, Ok(1)), (1, 3, Ok(1))] {
        let (mut cost, mut lengths, mut counts) = ([9; 2], [9; 2], [9; 2]);
        let mut out = vec![9; room];
        let said = min_sentence_at(g, 1, k, [&mut cost, &mut lengths, &mut counts], &mut out);
        assert_eq!(said.number().map_err(Refusal::number), answer, "number {k}, room {room}");
        assert_eq!((cost, lengths, counts), ([1, 1], [1, 1], [2, 2]));
        let written: Vec<u16> = answer.map_or(vec![], |_| vec![1]);
        assert_eq!(out, [&written[..], &vec![9; room - written.len()]].concat(), "number {k}, room {room}");
    }
}

/// 7 comes before 8 and 11.
#[test]
fn seven_for_the_reached_row() {
    for (len, mode) in [0, 2, 3].into_iter().flat_map(|len| [0, 1, 2, 3].map(|mode| (len, mode))) {
        let (mut follow, mut first, mut empty, mut wrong) = ([9; 4], [9; 4], [9; 1], vec![9; len]);
        for prod in [0, 6] {
            assert_eq!(refused(follow_visit(G1, mode, prod, &mut follow, &first, &empty, &wrong)), 7, "mode {mode}");
        }
        assert_eq!(refused(follow_fill(G1, mode, &mut follow, &mut first, &mut empty, &mut wrong)), 7, "mode {mode}");
        assert_eq!((follow, first, empty, wrong), ([9; 4], [9; 4], [9; 1], vec![9; len]));
    }
}

#[test]
fn seven_for_the_readers_lists() {
    let (mut owners, mut starts, mut symbols, mut costs) = ([0; 4096], [0; 4097], [0; 16384], [0; 511]);
    let counts = read_blocks(&[0; 512], &mut owners, &mut starts, &mut symbols, &mut costs);
    assert_eq!(counts.told().err(), Some(Refusal::TableLength));
}

/// Buffers as long as G1's file, a byte short of it, a byte longer, and none.
#[test]
fn twenty_four_for_a_short_buffer() {
    for len in [0, 1, 511] {
        let mut out = vec![9; len];
        assert_eq!(refused(write_blocks(G1, 1, &mut out)), 24, "{len} bytes");
        assert_eq!(refused(write_blocks(G1, 2, &mut out)), 24, "{len} bytes");
        assert_eq!(out, vec![9; len]);
    }
    let (mut exact, mut longer) = ([9; 512], [9; 513]);
    assert_eq!(write_blocks(G1, 1, &mut exact).number(), Ok(512));
    assert_eq!(write_blocks(G1, 1, &mut longer).number(), Ok(512));
    assert_eq!((&longer[..512], longer[512]), (&exact[..], 9));
    assert_eq!(exact[510..], 459u16.to_le_bytes());
}

/// 25 before 24, and 26 before both.
#[test]
fn twenty_five_and_twenty_six_come_before_twenty_four() {
    let free = Flat { costs: &[1, 0, 1, 1], ..G1 };
    for len in [0, 511, 600] {
        let mut out = vec![9; len];
        assert_eq!(refused(write_blocks(free, 2, &mut out)), 25, "{len} bytes");
        for version in [0, 3, 257, 258, 65535] {
            assert_eq!(refused(write_blocks(G1, version, &mut out)), 26, "version {version}, {len} bytes");
            assert_eq!(refused(write_blocks(free, version, &mut out)), 26, "version {version}, {len} bytes");
        }
        assert_eq!(out, vec![9; len]);
    }
}

#[test]
fn eight_for_other_modes() {
    for mode in [0, 1, 3, 258, 65535] {
        let (mut follow, mut first, mut empty, mut reached) = ([9; 4], [9; 4], [9; 1], [9; 1]);
        for prod in [0, 6] {
            assert_eq!(refused(follow_visit(G1, mode, prod, &mut follow, &first, &empty, &reached)), 8, "mode {mode}");
        }
        assert_eq!(refused(follow_fill(G1, mode, &mut follow, &mut first, &mut empty, &mut reached)), 8, "mode {mode}");
        assert_eq!((follow, first, empty, reached), ([9; 4], [9; 4], [9; 1], [9; 1]));
    }
}

#[test]
fn a_refused_grammar_ends_every_call_first() {
    let wrong = Flat { rules: 1, ..G1 };
    let (mut table, empty) = ([9; 3], [9; 2]);
    assert_eq!(refused(check(wrong)), 1);
    assert_eq!(production(wrong, 99).range(), Err(Refusal::Sizes));
    assert_eq!(refused(mark(wrong, &table, 9, 9)), 1);
    assert_eq!(refused(has_path(wrong, 9, 9)), 1);
    assert_eq!(refused(dearest_fill(wrong, &mut table)), 1);
    assert_eq!(refused(reached_fill(wrong, &mut table)), 1);
    assert_eq!(refused(follow_visit(wrong, 9, 99, &mut table, &[], &empty, &[])), 1);
    assert_eq!(profile(wrong, &mut table, &mut [], &mut [], &mut []), Verdict { refusal: 1, ..Verdict::default() });
    assert_eq!(refused(min_sentence(wrong, 9, &mut table, &mut [], &mut [])), 1);
    assert_eq!(refused(count_min_sentences(wrong, 9, &mut table, &mut [], &mut [])), 1);
    assert_eq!(refused(min_sentence_at(wrong, 9, 9, [&mut table, &mut [], &mut []], &mut [])), 1);
    let mut job = Job { kind: 9, next: 99, changed: 9, done: 9 };
    assert_eq!(refused(slice(&mut job, wrong, 9, Tables { first: &mut table, ..Tables::default() })), 1);
    assert_eq!(job, Job { kind: 9, next: 99, changed: 9, done: 9 });
    assert_eq!(table, [9; 3]);
    for len in [0, 511, 600] {
        let mut out = vec![9; len];
        assert_eq!(refused(write_blocks(wrong, 1, &mut out)), 1, "{len} bytes");
        assert_eq!(refused(write_blocks(Flat { costs: &[0; 4], ..wrong }, 2, &mut out)), 1, "{len} bytes");
        assert_eq!(refused(write_blocks(wrong, 3, &mut out)), 26, "{len} bytes");
        assert_eq!(out, vec![9; len]);
    }
}

#[test]
fn words_are_where_document_01_has_them() {
    let (mut first, mut empty) = ([u32::MAX; 4], [u32::MAX; 1]);
    first_fill(G1, &mut first, &mut empty).number().unwrap();
    assert_eq!((first, empty), ([0b101, 0b101, 0b100, 0b010], [0b1100]));
    let mut reached = [u32::MAX; 1];
    reached_fill(G1, &mut reached).number().unwrap();
    assert_eq!(reached, [0b1111]);
    let mut cost = [9; 4];
    cost_clear(G1, &mut cost).number().unwrap();
    assert_eq!(cost, [COST_UNKNOWN; 4]);
    assert_eq!((COST_MAX, COST_DEAR, COST_UNKNOWN), (65535, 65536, 65537));
}

/// A: a of cost 254; B: B a; B: a; C: C; D: 259 times a. Each entry as document 02 has it, whatever the table held.
#[test]
fn the_words_of_dearest() {
    let symbols = [&[32769, 0, 32770, 0, 0, 32771][..], &[0; 259]].concat();
    let (owners, starts) = (&[0, 1, 2, 2, 3, 4], &[0, 1, 2, 4, 5, 6, 265]);
    let g = Flat { rules: 5, owners, starts, symbols: &symbols, costs: &[254, 1] };
    for word in [0, 9, DEAREST_ABOVE, u32::MAX] {
        let mut dearest = [word; 5];
        assert_eq!(dearest_fill(g, &mut dearest).number(), Ok(0));
        assert_eq!(dearest, [254, 254, DEAREST_UNBOUNDED, DEAREST_NONE, DEAREST_ABOVE]);
    }
    let named = (DEAREST_MAX, DEAREST_UNBOUNDED, DEAREST_NONE, DEAREST_ABOVE);
    assert_eq!(named, (65534, 65535, 65536, 65537));
}

/// S: A; A: a; U: A z. Rules 1 S, 2 A, 3 U; tokens 0 a, 1 z.
const DEAD: Flat = Flat {
    rules: 4,
    owners: &[0, 1, 2, 3],
    starts: &[0, 1, 2, 3, 5],
    symbols: &[32769, 32770, 0, 32770, 1],
    costs: &[1, 1, 1],
};

/// What counts is the row that is lent, whatever it holds.
#[test]
fn the_lent_row_tells_which_productions_count() {
    for (prod, row, changed) in [
        (3, 0b0111, false),
        (3, 0b1000, true),
        (3, 0b1111, true),
        (3, 0xFFFF_FFF0, false),
        (3, 0, false),
        (0, 0b0001, true),
        (0, 0b1110, false),
        (0, 0, false),
    ] {
        let mut follow = [0b100, 0, 0, 0];
        let visited = follow_visit(DEAD, FOLLOW_MODE, prod, &mut follow, &[1; 4], &[0], &[row]).yes();
        assert_eq!(visited, Ok(changed), "production {prod}, row {row:b}");
        assert_eq!(follow != [0b100, 0, 0, 0], changed);
    }
}

/// The fill fills the row, whatever it held.
#[test]
fn follows_fill_leaves_the_reached_row() {
    for row in [0, 0b1000, u32::MAX] {
        let (mut follow, mut first, mut empty, mut reached) = ([9; 4], [9; 4], [9; 1], [row]);
        follow_fill(DEAD, FOLLOW_MODE, &mut follow, &mut first, &mut empty, &mut reached).number().unwrap();
        assert_eq!((follow, reached), ([0b100, 0b100, 0b100, 0], [0b0111]), "row {row:b}");
    }
}

/// FOLLOW, FIRST, EMPTY and the reached row, in the lengths that G1 has them in.
const PROFILE: [usize; 4] = [4, 4, 1, 1];

fn profiled(g: Flat, tables: &mut [Vec<u32>; 4]) -> Verdict {
    let [follow, first, empty, reached] = tables;
    profile(g, follow, first, empty, reached)
}

/// The profile is refused with this number, says nothing beside it, and leaves the tables as found.
fn holds_unprofiled(refusal: u32, g: Flat, tables: &[Vec<u32>; 4]) {
    let mut after = tables.clone();
    assert_eq!(profiled(g, &mut after), Verdict { refusal, ..Verdict::default() });
    assert_eq!(&after, tables);
}

#[test]
fn seven_for_the_tables_of_the_profile() {
    for (at, right) in PROFILE.into_iter().enumerate() {
        for len in [0, right - 1, right + 1, 9] {
            let mut wrong = PROFILE.map(|len| vec![9; len]);
            wrong[at] = vec![9; len];
            holds_unprofiled(7, G1, &wrong);
        }
    }
}

/// G1 with one change each, for which 1 to 6 are due.
const WRONG: [Flat; 6] = [
    Flat { rules: 513, ..G1 },
    Flat { starts: &[0, 3, 2, 4, 6, 6, 7], ..G1 },
    Flat { owners: &[1, 2, 2, 3, 4, 0], ..G1 },
    Flat { owners: &[1, 2, 2, 2, 2, 0], ..G1 },
    Flat { symbols: &[32770, 0, 32771, 3, 1, 0, 32769], ..G1 },
    Flat { symbols: &[32770, 0, 32768, 2, 1, 0, 32769], ..G1 },
];

/// Tables of right lengths, and of wrong ones: 7 comes last.
#[test]
fn one_to_six_end_the_profile_first() {
    for (g, number) in WRONG.into_iter().zip(1..) {
        holds_unprofiled(number, g, &PROFILE.map(|len| vec![9; len]));
        holds_unprofiled(number, g, &Default::default());
    }
}

/// And the same for DEAREST, which is left as found.
#[test]
fn one_to_six_end_dearest_first() {
    for (g, number) in WRONG.into_iter().zip(1..) {
        for len in [0, 3, 4, 5] {
            let mut dearest = vec![9; len];
            assert_eq!(refused(dearest_fill(g, &mut dearest)), number, "length {len}");
            assert_eq!(dearest, vec![9; len]);
        }
    }
}

/// Whatever the tables held; all else of the record is 0 beside a pass.
#[test]
fn the_profile_fills_its_tables() {
    for word in [0, 9, u32::MAX] {
        let mut tables = PROFILE.map(|len| vec![word; len]);
        assert_eq!(profiled(G1, &mut tables), Verdict::default());
        let [follow, first] = [vec![0b1000, 0b1000, 0b0001, 0b1000], vec![0b101, 0b101, 0b100, 0b010]];
        assert_eq!(tables, [follow, first, vec![0b1100], vec![0b1111]]);
        let mut tables = PROFILE.map(|len| vec![word; len]);
        assert_eq!(profiled(DEAD, &mut tables), Verdict::default());
        assert_eq!(tables, [vec![0b100, 0b100, 0b100, 0], vec![1; 4], vec![0], vec![0b0111]]);
    }
}

/// S: a; and of U, which is used nowhere, a pair of productions. Rules 1 S, 2 U; tokens 0 a, 1 eof.
#[test]
fn t_stands_for_the_token_where_two_vanish_and_share_none() {
    let nothing =
        Flat { rules: 3, owners: &[0, 1, 2, 2], starts: &[0, 1, 2, 2, 2], symbols: &[32769, 0], costs: &[1, 1] };
    let shared = Flat { starts: &[0, 1, 2, 3, 4], symbols: &[32769, 0, 0, 0], ..nothing };
    for (g, token) in [(nothing, 2), (shared, 0)] {
        let mut tables = [vec![9; 3], vec![9; 3], vec![9; 1], vec![9; 1]];
        let clash = Verdict { refusal: 0, clash: 1, rule: 2, lower: 2, higher: 3, token };
        assert_eq!(profiled(g, &mut tables), clash);
        assert_eq!((&tables[0][..], tables[3][0]), (&[0b10, 0b10, 0][..], 0b011));
    }
}

/// FIRST, EMPTY, FOLLOW, PRODUCTIVE, COST and the reached row of a slice, of any lengths.
type Words = [Vec<u32>; 6];

/// The lengths that G1 has them in.
const LENGTHS: [usize; 6] = [4, 1, 4, 1, 4, 1];

/// A job's kind, those of them that it looks at, and of these those that it writes.
const KINDS: [(u16, &[usize], &[usize]); 4] = [
    (JOB_FIRST, &[0, 1], &[0, 1]),
    (JOB_FOLLOW, &[0, 1, 2, 5], &[2]),
    (JOB_PRODUCTIVE, &[3], &[3]),
    (JOB_COST, &[4], &[4]),
];

const PRODS: u16 = 6;

fn words() -> Words {
    LENGTHS.map(|len| vec![9; len])
}

fn sliced(job: &mut Job, g: Flat, n: u32, words: &mut Words) -> Result<u32, u32> {
    let [first, empty, follow, productive, cost, reached] = words;
    slice(job, g, n, Tables { first, empty, follow, productive, cost, reached }).number().map_err(Refusal::number)
}

/// The slice is refused with this number, and leaves the record and the tables as found.
fn holds_refused(refusal: u32, job: Job, g: Flat, tables: &Words) {
    for n in [0, 1, u32::MAX] {
        let (mut after, mut words) = (job, tables.clone());
        assert_eq!(sliced(&mut after, g, n, &mut words), Err(refusal), "{job:?}, {n} visits");
        assert_eq!((after, &words), (job, tables));
    }
}

/// Kinds above 4 and next productions that are not there, in a job that is done too; 17 comes before 7.
#[test]
fn seventeen_for_damaged_jobs() {
    let kinds = [5, 6, 256, 258, 260, 65535].into_iter().flat_map(|kind| [0, 5, 6].map(|next| (kind, next)));
    let nexts = KINDS.into_iter().flat_map(|(kind, ..)| [PRODS, PRODS + 1, 256, 65535].map(|next| (kind, next)));
    for (kind, next) in kinds.chain(nexts) {
        for done in [0, 1] {
            let job = Job { kind, next, changed: 1, done };
            holds_refused(17, job, G1, &words());
            holds_refused(17, job, G1, &Words::default());
        }
    }
}

/// Wherever the job stands, beside tables that one of kind 2 would go on with.
#[test]
fn seventeen_for_kind_1() {
    let mut tables = words();
    let [first, empty, follow, _, _, reached] = &mut tables;
    follow_fill(G1, FOLLOW_MODE, follow, first, empty, reached).number().unwrap();
    follow_clear(G1, follow).number().unwrap();
    for (next, changed, done) in (0..PRODS).flat_map(|next| [(0, 0), (1, 0), (0, 1)].map(|(c, d)| (next, c, d))) {
        let job = Job { kind: 1, next, changed, done };
        holds_refused(17, job, G1, &tables);
        holds_refused(17, job, G1, &Words::default());
    }
}

/// A production holds rule 0.
#[test]
fn six_comes_before_seventeen() {
    let wrong = Flat { symbols: &[32768, 0, 32771, 2, 1, 0, 32769], ..G1 };
    for job in [Job::new(0), Job { next: PRODS, ..Job::new(4) }, Job::new(1), Job::new(5), Job::new(65535)] {
        holds_refused(6, job, wrong, &words());
        holds_refused(6, job, wrong, &Words::default());
    }
}

/// Each table of the kind in a wrong length, for a job that is done too.
#[test]
fn seven_for_the_tables_of_a_jobs_kind() {
    for (kind, at) in KINDS.into_iter().flat_map(|(kind, looked_at, _)| looked_at.iter().map(move |at| (kind, *at))) {
        for len in [0, LENGTHS[at] - 1, LENGTHS[at] + 1, 9] {
            let mut wrong = words();
            wrong[at] = vec![9; len];
            holds_refused(7, Job::new(kind), G1, &wrong);
            holds_refused(7, Job { next: PRODS - 1, changed: 1, done: 1, kind }, G1, &wrong);
        }
    }
}

/// Other kinds' tables may be of any length; a slice changes nothing but what its kind writes.
#[test]
fn a_slice_looks_at_its_kinds_tables_only() {
    for (kind, looked_at, written) in KINDS {
        for len in [0, 1, 2, 3, 5, 9] {
            let mut before = words();
            for other in (0..6).filter(|other| !looked_at.contains(other)) {
                before[other] = vec![9; len];
            }
            let (mut job, mut after) = (Job::new(kind), before.clone());
            let made = sliced(&mut job, G1, u32::MAX, &mut after).unwrap();
            assert!(made >= PRODS.into() && made % u32::from(PRODS) == 0);
            assert_eq!(job, Job { done: 1, ..Job::new(kind) });
            for table in (0..6).filter(|table| !written.contains(table)) {
                assert_eq!(after[table], before[table], "kind {kind}, table {table}");
            }
        }
    }
}

/// G1's tables by single visits, with FIRST and EMPTY whole where FOLLOW reads them; each slice's record.
#[test]
fn the_record_goes_on_from_slice_to_slice() {
    let mut words: Words =
        [vec![0; 4], vec![0; 1], vec![0b1000, 0, 0, 0], vec![0], vec![COST_UNKNOWN; 4], vec![0b1111]];
    for (kind, ..) in KINDS {
        let (mut job, mut left) = (Job::new(kind), Job::new(kind));
        for visits in 0.. {
            assert_eq!((job.kind, job.next), (kind, visits % PRODS));
            let before = (job, words.clone());
            assert_eq!(sliced(&mut job, G1, 0, &mut words), Ok(0));
            assert_eq!((job, &words), (before.0, &before.1));
            if job.done != 0 {
                break;
            }
            assert_eq!(sliced(&mut job, G1, 1, &mut words), Ok(1));
            left.changed |= u16::from(words != before.1);
            left.next = (left.next + 1) % PRODS;
            if left.next == 0 {
                (left.changed, left.done) = (0, 1 - left.changed);
            }
            assert_eq!(job, left);
        }
        let before = (job, words.clone());
        assert_eq!(sliced(&mut job, G1, u32::MAX, &mut words), Ok(0));
        assert_eq!((job, &words), (before.0, &before.1));
    }
    assert_eq!(words[..2], [vec![0b101, 0b101, 0b100, 0b010], vec![0b1100]]);
    assert_eq!(words[2..], [vec![0b1000, 0b1000, 0b0001, 0b1000], vec![0b1111], vec![1, 1, 0, 0], vec![0b1111]]);
}

/// Any number but 0 is yes. A slice writes 1 for it; one without a visit writes nothing.
#[test]
fn stray_numbers_are_yes() {
    let mut whole = words();
    let [first, empty, ..] = &mut whole;
    first_fill(G1, first, empty).number().unwrap();
    for yes in [1, 2, 256, 65535] {
        let (mut done, mut words) = (Job { done: yes, changed: yes, ..Job::new(0) }, whole.clone());
        assert_eq!(sliced(&mut done, G1, 9, &mut words), Ok(0));
        assert_eq!(done, Job { done: yes, changed: yes, ..Job::new(0) });
        let mut changed = Job { changed: yes, ..Job::new(0) };
        assert_eq!(sliced(&mut changed, G1, 0, &mut words), Ok(0));
        assert_eq!(changed, Job { changed: yes, ..Job::new(0) });
        // the rest of a round that is said to have changed something: one more round is due
        assert_eq!(sliced(&mut changed, G1, 2, &mut words), Ok(2));
        assert_eq!(changed, Job { next: 2, changed: 1, ..Job::new(0) });
        assert_eq!(sliced(&mut changed, G1, 4, &mut words), Ok(4));
        assert_eq!(changed, Job::new(0));
        assert_eq!(sliced(&mut changed, G1, 9, &mut words), Ok(6));
        assert_eq!(changed, Job { done: 1, ..Job::new(0) });
        assert_eq!(words, whole);
    }
}

/// A record is taken at its word: the last production's visit ends the round, and with it the job, though none before it
/// was visited.
#[test]
fn a_record_is_taken_at_its_word() {
    let (mut job, mut words) = (Job { next: PRODS - 1, ..Job::new(0) }, LENGTHS.map(|len| vec![0; len]));
    assert_eq!(sliced(&mut job, G1, 9, &mut words), Ok(1));
    assert_eq!((job, words), (Job { done: 1, ..Job::new(0) }, LENGTHS.map(|len| vec![0; len])));
}

/// FIRST, EMPTY, COST and the lengths in other lengths than the house has them in; 7 comes before 9, 10 and 15.
#[test]
fn seven_for_the_tables_of_the_house() {
    for len in [0, 1, 3, 57, 59] {
        let (mut wrong, mut right, mut empty) = (vec![9; len], [9; 58], [9; 2]);
        assert_eq!(refused(house_first_fill(&mut wrong, &mut empty)), 7, "length {len}");
        assert_eq!(refused(house_first_fill(&mut right, &mut wrong)), 7, "length {len}");
        assert_eq!(refused(house_cost_fill(&mut wrong)), 7, "length {len}");
        for (rule, token) in [(0, 0), (58, 0), (0, 8), (65535, 65535)] {
            assert_eq!(refused(house_first(&wrong, rule, token)), 7, "length {len}");
            assert_eq!(refused(house_empty(&wrong, rule)), 7, "length {len}");
            assert_eq!(refused(house_cost(rule, &mut wrong)), 7, "length {len}");
        }
        for room in [0, 45, 46] {
            let mut out = vec![9; room];
            assert_eq!(refused(house_row(&mut wrong, &mut right, &mut out)), 7, "length {len}");
            assert_eq!(refused(house_row(&mut right, &mut wrong, &mut out)), 7, "length {len}");
            assert_eq!(out, vec![9; room]);
        }
        assert_eq!((wrong, right, empty), (vec![9; len], [9; 58], [9; 2]));
    }
}

/// COST of the house, by hand; each of its tokens but eof costs 1, so these are the lengths too.
fn house_costs() -> Vec<u32> {
    [&[46; 2][..], &[3; 12], &[0; 36], &[9, 5, 3, 1, 1, 1, 0, 0]].concat()
}

/// FIRST and EMPTY by hand, whatever the tables held. Tokens 0 digits, 1 decimal-comma, 2 semicolon, 3 minus.
#[test]
fn the_words_of_the_house() {
    assert_eq!(house_check().number(), Ok(0));
    for word in [0, 9, u32::MAX] {
        let (mut first, mut empty, mut cost) = ([word; 58], [word; 2], [word; 58]);
        assert_eq!(house_first_fill(&mut first, &mut empty).number(), Ok(0));
        let values = [0b1001, 0b0001, 0b0001].repeat(12);
        let made_of = [0b0001, 0b0001, 0b0001, 0b1001, 0b0001, 0b0001, 0b1000, 0b0010];
        assert_eq!(first[..], [&[0b0001; 2][..], &[0b0100; 12], &values, &made_of].concat());
        // rules 14 to 49, 56 and 57
        assert_eq!(empty, [0xFFFF_C000, 0x0303_FFFF]);
        assert_eq!(house_cost_fill(&mut cost).number(), Ok(0));
        assert_eq!(cost[..], house_costs());
    }
}

/// The least cost fills COST; 9 leaves it as found.
#[test]
fn the_cost_of_a_rule_of_the_house() {
    for (rule, cost) in (0..).zip(house_costs()) {
        let mut table = [9; 58];
        assert_eq!(house_cost(rule, &mut table).number(), Ok(cost), "rule {rule}");
        assert_eq!(table[..], house_costs());
    }
    for rule in [58, 59, 32768, 65535] {
        let mut table = [9; 58];
        assert_eq!(refused(house_cost(rule, &mut table)), 9, "rule {rule}");
        assert_eq!(table, [9; 58]);
    }
}

/// Both tables are whole, with 15 too, which leaves the room as found; behind the row it is as found in any case.
#[test]
fn room_for_the_row_of_the_house() {
    let row = [&[0, 4, 0, 4, 0, 2, 0, 5, 0][..], &[2; 36], &[6]].concat();
    for room in [0, 1, 45, 46, 47, 100] {
        let (mut cost, mut lengths, mut out) = ([9; 58], [9; 58], vec![9; room]);
        let said = house_row(&mut cost, &mut lengths, &mut out).number().map_err(Refusal::number);
        let (answer, written) = if room < 46 { (Err(15), &[][..]) } else { (Ok(46), &row[..]) };
        assert_eq!(said, answer, "room {room}");
        assert_eq!((&cost[..], &lengths[..]), (&house_costs()[..], &house_costs()[..]));
        assert_eq!(out, [written, &vec![9; room - written.len()]].concat(), "room {room}");
    }
}
