//! The exported calls of bindings/include/boltmarrow.h, as safe functions on slices. What the header asks of a caller
//! holds for every slice: its pointer is neither null nor unaligned, also for length 0, it has as many elements as its
//! length says, and one that is written overlaps no other. The numbers that have types of their own in the header are
//! `u16` here, which are passed the same way; the crate's own functions take `RIdx`, `PIdx` and `TIdx`.
//!
//! Three calls are for tests alone, since the crate reads a production or a mark itself: src/tests.rs holds what it reads
//! to what they answer.
#![allow(unsafe_code)]

use crate::Refusal;

/// An entry of COST, as in the header: up to this a cost; a sentence is known, but none so cheap; none is known.
pub(crate) const COST_MAX: u32 = 65535;
pub(crate) const COST_DEAR: u32 = 65536;
pub(crate) const COST_UNKNOWN: u32 = 65537;
/// An entry of DEAREST, as in the header: up to this the greatest cost; costs without bound; no sentence; a greatest cost
/// above the first number.
pub(crate) const DEAREST_MAX: u32 = 65534;
pub(crate) const DEAREST_UNBOUNDED: u32 = 65535;
pub(crate) const DEAREST_NONE: u32 = 65536;
pub(crate) const DEAREST_ABOVE: u32 = 65537;
/// The tokens of the longest sentence that is given.
pub(crate) const LENGTH_MAX: usize = 65535;

/// The one mode that FOLLOW has.
pub(crate) const FOLLOW_MODE: u16 = 2;

/// A job's kinds, as in the header.
pub(crate) const JOB_FIRST: u16 = 0;
pub(crate) const JOB_FOLLOW: u16 = 2;
pub(crate) const JOB_PRODUCTIVE: u16 = 3;
pub(crate) const JOB_COST: u16 = 4;

/// A grammar as the calls take it: any lists at all.
#[derive(Clone, Copy)]
pub(crate) struct Flat<'a> {
    pub(crate) rules: u16,
    pub(crate) owners: &'a [u16],
    pub(crate) starts: &'a [u16],
    pub(crate) symbols: &'a [u16],
    pub(crate) costs: &'a [u8],
}

/// `boltmarrow_answer`
#[repr(C)]
pub(crate) struct Answer {
    refusal: u32,
    value: u32,
}

/// `boltmarrow_stretch`
#[cfg(test)]
#[repr(C)]
pub(crate) struct Stretch {
    refusal: u32,
    from: u32,
    len: u32,
}

/// `boltmarrow_counts`
#[repr(C)]
pub(crate) struct Counts {
    refusal: u32,
    pub(crate) rules: u32,
    pub(crate) tokens: u32,
    pub(crate) prods: u32,
    pub(crate) symbols: u32,
    pub(crate) version: u32,
}

/// `boltmarrow_verdict`: whether the grammar clashes, 0 or 1, and its least clash; all 0 beside a pass and a refusal.
/// The token is T where the two productions can vanish and share none.
#[derive(Clone, Copy, Debug, Default, Eq, PartialEq)]
#[repr(C)]
pub(crate) struct Verdict {
    refusal: u32,
    pub(crate) clash: u32,
    pub(crate) rule: u32,
    pub(crate) lower: u32,
    pub(crate) higher: u32,
    pub(crate) token: u32,
}

/// `boltmarrow_job`: what it fills, the next production, whether this round changed anything, and whether it is done.
#[derive(Clone, Copy, Debug, Eq, PartialEq)]
#[repr(C)]
pub(crate) struct Job {
    pub(crate) kind: u16,
    pub(crate) next: u16,
    pub(crate) changed: u16,
    pub(crate) done: u16,
}

impl Job {
    /// A new job of a kind.
    pub(crate) fn new(kind: u16) -> Job {
        Job { kind, next: 0, changed: 0, done: 0 }
    }
}

/// The tables that a slice takes. Only those of the job's kind are looked at: the others are left empty.
#[derive(Default)]
pub struct Tables<'a> {
    pub(crate) first: &'a mut [u32],
    pub(crate) empty: &'a mut [u32],
    pub(crate) follow: &'a mut [u32],
    pub(crate) productive: &'a mut [u32],
    pub(crate) cost: &'a mut [u32],
    pub(crate) reached: &'a [u32],
}

impl Answer {
    /// The number that was answered.
    pub(crate) fn number(self) -> Result<u32, Refusal> {
        Refusal::unless(self.refusal).map(|()| self.value)
    }

    /// The yes or no, or changed or same, that was answered.
    pub(crate) fn yes(self) -> Result<bool, Refusal> {
        self.number().map(|value| value == 1)
    }
}

#[cfg(test)]
impl Stretch {
    /// Where in the symbol list the production stands.
    pub(crate) fn range(self) -> Result<std::ops::Range<usize>, Refusal> {
        Refusal::unless(self.refusal).map(|()| self.from as usize..(self.from + self.len) as usize)
    }
}

impl Counts {
    /// The counts, unless the file was refused.
    pub(crate) fn told(self) -> Result<Counts, Refusal> {
        Refusal::unless(self.refusal).map(|()| self)
    }
}

impl Verdict {
    /// The verdict, unless the call was refused.
    pub(crate) fn told(self) -> Result<Verdict, Refusal> {
        Refusal::unless(self.refusal).map(|()| self)
    }
}

/// Declares each call and its safe function. The header's parameters come in five groups, each of which may be empty:
/// the grammar; numbers; lists that are written; lists that are read; numbers.
macro_rules! exports {
    ($($(#[$only:meta])? $call:ident = $name:ident(
        $($g:ident)?; $($before:ident)*; $($out:ident: $o:ty),*; $($list:ident: $l:ty),*; $($after:ident)*
    ) -> $answer:ty;)*) => {
        extern "C" {
            $($(#[$only])? fn $call(
                $($g: u16, owners: *const u16, _: usize, starts: *const u16, _: usize,
                symbols: *const u16, _: usize, costs: *const u8, _: usize,)?
                $($before: u16,)* $($out: *mut $o, _: usize,)* $($list: *const $l, _: usize,)* $($after: u16,)*
            ) -> $answer;)*
        }
        $($(#[$only])? pub(crate) fn $name(
            $($g: Flat,)? $($before: u16,)* $($out: &mut [$o],)* $($list: &[$l],)* $($after: u16,)*
        ) -> $answer {
            // Safe: see the head of this file.
            unsafe {
                $call(
                    $($g.rules, $g.owners.as_ptr(), $g.owners.len(), $g.starts.as_ptr(), $g.starts.len(),
                    $g.symbols.as_ptr(), $g.symbols.len(), $g.costs.as_ptr(), $g.costs.len(),)?
                    $($before,)* $($out.as_mut_ptr(), $out.len(),)* $($list.as_ptr(), $list.len(),)* $($after,)*
                )
            }
        })*
    };
}

exports! {
    boltmarrow_check = check(g;;;;) -> Answer;
    #[cfg(test)]
    boltmarrow_production = production(g; prod;;;) -> Stretch;
    #[cfg(test)]
    boltmarrow_mark = mark(g;;; table: u32; rule token) -> Answer;
    #[cfg(test)]
    boltmarrow_rule_mark = rule_mark(g;;; table: u32; rule) -> Answer;
    boltmarrow_first_clear = first_clear(g;; first: u32, empty: u32;;) -> Answer;
    boltmarrow_first_visit = first_visit(g; prod; first: u32, empty: u32;;) -> Answer;
    boltmarrow_first_fill = first_fill(g;; first: u32, empty: u32;;) -> Answer;
    boltmarrow_has_path = has_path(g; from to;;;) -> Answer;
    boltmarrow_productive_clear = productive_clear(g;; productive: u32;;) -> Answer;
    boltmarrow_productive_visit = productive_visit(g; prod; productive: u32;;) -> Answer;
    boltmarrow_productive_fill = productive_fill(g;; productive: u32;;) -> Answer;
    boltmarrow_cost_clear = cost_clear(g;; cost: u32;;) -> Answer;
    boltmarrow_cost_visit = cost_visit(g; prod; cost: u32;;) -> Answer;
    boltmarrow_cost_fill = cost_fill(g;; cost: u32;;) -> Answer;
    boltmarrow_min_sentence_cost = min_sentence_cost(g; rule; cost: u32;;) -> Answer;
    boltmarrow_dearest_fill = dearest_fill(g;; dearest: u32;;) -> Answer;
    boltmarrow_reached_fill = reached_fill(g;; reached: u32;;) -> Answer;
    boltmarrow_follow_clear = follow_clear(g;; follow: u32;;) -> Answer;
    boltmarrow_follow_visit = follow_visit(g; mode prod; follow: u32; first: u32, empty: u32, reached: u32;) -> Answer;
    boltmarrow_follow_fill = follow_fill(g; mode; follow: u32, first: u32, empty: u32, reached: u32;;) -> Answer;
    boltmarrow_profile = profile(g;; follow: u32, first: u32, empty: u32, reached: u32;;) -> Verdict;
    boltmarrow_min_sentence = min_sentence(g; rule; cost: u32, lengths: u32, out: u16;;) -> Answer;
    boltmarrow_count_min_sentences = count_min_sentences(g; rule; cost: u32, lengths: u32, counts: u32;;) -> Answer;
    boltmarrow_write_blocks = write_blocks(g; version; out: u8;;) -> Answer;
    boltmarrow_house_check = house_check(;;;;) -> Answer;
    boltmarrow_house_first_fill = house_first_fill(;; first: u32, empty: u32;;) -> Answer;
    boltmarrow_house_first = house_first(;;; first: u32; rule token) -> Answer;
    boltmarrow_house_empty = house_empty(;;; empty: u32; rule) -> Answer;
    boltmarrow_house_cost_fill = house_cost_fill(;; cost: u32;;) -> Answer;
    boltmarrow_house_cost = house_cost(; rule; cost: u32;;) -> Answer;
    boltmarrow_house_row = house_row(;; cost: u32, lengths: u32, out: u16;;) -> Answer;
}

extern "C" {
    fn boltmarrow_min_sentence_at(
        rules: u16,
        owners: *const u16,
        _: usize,
        starts: *const u16,
        _: usize,
        symbols: *const u16,
        _: usize,
        costs: *const u8,
        _: usize,
        rule: u16,
        k: u32,
        cost: *mut u32,
        _: usize,
        lengths: *mut u32,
        _: usize,
        counts: *mut u32,
        _: usize,
        out: *mut u16,
        _: usize,
    ) -> Answer;
}

/// The tables are COST, the lengths and the counts.
pub(crate) fn min_sentence_at(g: Flat, rule: u16, k: u32, tables: [&mut [u32]; 3], out: &mut [u16]) -> Answer {
    let [cost, lengths, counts] = tables;
    // Safe: see the head of this file.
    unsafe {
        boltmarrow_min_sentence_at(
            g.rules,
            g.owners.as_ptr(),
            g.owners.len(),
            g.starts.as_ptr(),
            g.starts.len(),
            g.symbols.as_ptr(),
            g.symbols.len(),
            g.costs.as_ptr(),
            g.costs.len(),
            rule,
            k,
            cost.as_mut_ptr(),
            cost.len(),
            lengths.as_mut_ptr(),
            lengths.len(),
            counts.as_mut_ptr(),
            counts.len(),
            out.as_mut_ptr(),
            out.len(),
        )
    }
}

extern "C" {
    fn boltmarrow_slice(
        job: *mut Job,
        rules: u16,
        owners: *const u16,
        _: usize,
        starts: *const u16,
        _: usize,
        symbols: *const u16,
        _: usize,
        costs: *const u8,
        _: usize,
        n: u32,
        first: *mut u32,
        _: usize,
        empty: *mut u32,
        _: usize,
        follow: *mut u32,
        _: usize,
        productive: *mut u32,
        _: usize,
        cost: *mut u32,
        _: usize,
        reached: *const u32,
        _: usize,
    ) -> Answer;
}

pub(crate) fn slice(job: &mut Job, g: Flat, n: u32, tables: Tables) -> Answer {
    let Tables { first, empty, follow, productive, cost, reached } = tables;
    // Safe: see the head of this file; the job is a record of its own.
    unsafe {
        boltmarrow_slice(
            job,
            g.rules,
            g.owners.as_ptr(),
            g.owners.len(),
            g.starts.as_ptr(),
            g.starts.len(),
            g.symbols.as_ptr(),
            g.symbols.len(),
            g.costs.as_ptr(),
            g.costs.len(),
            n,
            first.as_mut_ptr(),
            first.len(),
            empty.as_mut_ptr(),
            empty.len(),
            follow.as_mut_ptr(),
            follow.len(),
            productive.as_mut_ptr(),
            productive.len(),
            cost.as_mut_ptr(),
            cost.len(),
            reached.as_ptr(),
            reached.len(),
        )
    }
}

extern "C" {
    fn boltmarrow_read_blocks(
        file: *const u8,
        _: usize,
        owners: *mut u16,
        _: usize,
        starts: *mut u16,
        _: usize,
        symbols: *mut u16,
        _: usize,
        costs: *mut u8,
        _: usize,
    ) -> Counts;
}

pub(crate) fn read_blocks(
    file: &[u8],
    owners: &mut [u16],
    starts: &mut [u16],
    symbols: &mut [u16],
    costs: &mut [u8],
) -> Counts {
    // Safe: see the head of this file.
    unsafe {
        boltmarrow_read_blocks(
            file.as_ptr(),
            file.len(),
            owners.as_mut_ptr(),
            owners.len(),
            starts.as_mut_ptr(),
            starts.len(),
            symbols.as_mut_ptr(),
            symbols.len(),
            costs.as_mut_ptr(),
            costs.len(),
        )
    }
}

#[cfg(test)]
mod tests;
