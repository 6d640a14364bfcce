/// A number of its own type, as cfgrammar has them: a rule's number cannot be passed for a token's.
macro_rules! idx {
    ($(#[$said:meta])* $name:ident) => {
        $(#[$said])*
        #[derive(Clone, Copy, Debug, Eq, Hash, Ord, PartialEq, PartialOrd)]
        pub struct $name(pub u16);

        impl $name {
            /// The number itself.
            pub fn as_storaget(&self) -> u16 {
                self.0
            }
        }

        impl From<$name> for usize {
            fn from(idx: $name) -> usize {
                usize::from(idx.0)
            }
        }

        impl From<$name> for u32 {
            fn from(idx: $name) -> u32 {
                u32::from(idx.0)
            }
        }
    };
}

idx!(
    /// A rule's number.
    RIdx
);
idx!(
    /// A production's number.
    PIdx
);
idx!(
    /// A token's number.
    TIdx
);
idx!(
    /// A symbol's place in its production, and the number of a production's symbols.
    SIdx
);

/// In the flat symbol list a number from here on is a rule.
const RULE: u16 = 32768;

/// A symbol of a production.
#[derive(Clone, Copy, Debug, Eq, Hash, PartialEq)]
pub enum Symbol {
    /// A rule.
    Rule(RIdx),
    /// A token.
    Token(TIdx),
}

impl Symbol {
    /// The symbol that a number of the flat symbol list means.
    pub fn from_flat(number: u16) -> Symbol {
        match number.checked_sub(RULE) {
            Some(rule) => Symbol::Rule(RIdx(rule)),
            None => Symbol::Token(TIdx(number)),
        }
    }

    /// Its number in the flat symbol list; none where a rule or token is 32768 or more, which none of a grammar is.
    pub fn to_flat(self) -> Option<u16> {
        match self {
            Symbol::Rule(RIdx(rule)) => RULE.checked_add(rule),
            Symbol::Token(TIdx(token)) => Some(token).filter(|&token| token < RULE),
        }
    }
}
