//! The fills in plain C, of plain.c.
use boltmarrow::Grammar;

/// As plain.h has it.
#[repr(C)]
struct CGrammar {
    rules: usize,
    tokens: usize,
    prods: usize,
    symbol_count: usize,
    owners: *const u16,
    starts: *const u16,
    symbols: *const u16,
    costs: *const u8,
}

unsafe extern "C" {
    fn plain_check(g: *const CGrammar) -> u32;
    fn plain_first_fill(g: *const CGrammar, first: *mut u32, empty: *mut u32) -> u32;
    fn plain_reached_fill(g: *const CGrammar, reached: *mut u32) -> u32;
    fn plain_follow_fill(
        g: *const CGrammar,
        follow: *mut u32,
        first: *mut u32,
        empty: *mut u32,
        reached: *mut u32,
    ) -> u32;
    fn plain_cost_fill(g: *const CGrammar, cost: *mut u32) -> u32;
}

/// A grammar's lists, lent to C.
pub struct Plain {
    rules: u16,
    owners: Vec<u16>,
    starts: Vec<u16>,
    symbols: Vec<u16>,
    costs: Vec<u8>,
}

impl Plain {
    pub fn new(grammar: Grammar) -> Self {
        let (rules, owners, starts, symbols, costs) = grammar.into_tables();
        Plain { rules, owners, starts, symbols, costs }
    }

    fn lent(&self) -> CGrammar {
        CGrammar {
            rules: self.rules.into(),
            tokens: self.costs.len(),
            prods: self.owners.len(),
            symbol_count: self.symbols.len(),
            owners: self.owners.as_ptr(),
            starts: self.starts.as_ptr(),
            symbols: self.symbols.as_ptr(),
            costs: self.costs.as_ptr(),
        }
    }

    fn row(&self) -> Vec<u32> {
        vec![0; usize::from(self.rules).div_ceil(32)]
    }

    fn marks(&self) -> Vec<u32> {
        vec![0; usize::from(self.rules) * self.costs.len().div_ceil(32)]
    }

    pub fn check(&self) -> u32 {
        unsafe { plain_check(&self.lent()) }
    }

    /// FIRST and EMPTY.
    pub fn firsts(&self) -> [Vec<u32>; 2] {
        let (mut first, mut empty) = (self.marks(), self.row());
        let refused = unsafe { plain_first_fill(&self.lent(), first.as_mut_ptr(), empty.as_mut_ptr()) };
        assert_eq!(refused, 0);
        [first, empty]
    }

    /// The reached row.
    pub fn reached(&self) -> Vec<u32> {
        let mut reached = self.row();
        let refused = unsafe { plain_reached_fill(&self.lent(), reached.as_mut_ptr()) };
        assert_eq!(refused, 0);
        reached
    }

    /// FOLLOW, FIRST, EMPTY and the reached row.
    pub fn follows(&self) -> [Vec<u32>; 4] {
        let (mut follow, mut first, mut empty, mut reached) = (self.marks(), self.marks(), self.row(), self.row());
        let [f, i, e, r] = [&mut follow, &mut first, &mut empty, &mut reached].map(|table| table.as_mut_ptr());
        let refused = unsafe { plain_follow_fill(&self.lent(), f, i, e, r) };
        assert_eq!(refused, 0);
        [follow, first, empty, reached]
    }

    pub fn costs(&self) -> Vec<u32> {
        let mut cost = vec![0; self.rules.into()];
        let refused = unsafe { plain_cost_fill(&self.lent(), cost.as_mut_ptr()) };
        assert_eq!(refused, 0);
        cost
    }
}
