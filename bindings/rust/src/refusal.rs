use std::error::Error;
use std::fmt;

/// Why a call was refused. There is one for each refusal number of documents 01 and 02; others may come.
#[derive(Clone, Copy, Debug, Eq, Hash, PartialEq)]
#[non_exhaustive]
pub enum Refusal {
    /// R, T, P or N is outside its limits.
    Sizes = 1,
    /// The starts are not P+1 numbers that rise from 0 to N.
    Starts = 2,
    /// An owner is no rule.
    Owner = 3,
    /// A rule owns no production.
    NoProduction = 4,
    /// A symbol is no token below eof and no rule.
    Symbol = 5,
    /// Some production of rule 0 is not exactly one rule symbol, or some production holds rule 0.
    Start = 6,
    /// A lent table is not of its exact length. This crate lends no such table.
    TableLength = 7,
    /// FOLLOW mode other than 2. This crate asks for no other.
    Mode = 8,
    /// The rule number is R or more.
    RuleNumber = 9,
    /// The token number is T or more.
    TokenNumber = 10,
    /// The production number is P or more.
    ProductionNumber = 11,
    /// The rule has no sentence.
    NoSentence = 12,
    /// The rule has a sentence, but none costs 65535 or less.
    Dear = 13,
    /// The first choice, the lowest-numbered of the cheapest productions, of the rule or of one that it comes to leads
    /// back to that rule itself. There is a sentence as cheap by another choice. Of all cheapest sentences: any cheapest
    /// production does, the first choice or another, so that the list would not end.
    Circular = 14,
    /// The sentence is longer than 65535 tokens, or than the room for it.
    Room = 15,
    /// The rule has more than 65535 cheapest sentences, or not so many that there is one of this number.
    TooMany = 16,
    /// A job's kind is 1 or above 4, or its next production is P or more. This crate makes no such job.
    Job = 17,
    /// The file is empty, not whole blocks, or over 98 blocks.
    FileLength = 20,
    /// A block's check differs.
    BlockCheck = 21,
    /// A block's number is not its place.
    BlockNumber = 22,
    /// The file has other than the blocks due, or a spare byte that is not zero.
    BlocksDue = 23,
    /// The buffer is too short for the grammar's block file. This crate lends no such buffer.
    BufferLength = 24,
    /// A token other than eof costs nothing, in a file of version 2.
    FreeToken = 25,
    /// A file version other than 1 or 2. [`Version`](crate::Version) has no other.
    Version = 26,
}

use Refusal::*;

impl Refusal {
    /// All of them, by rising number.
    pub const ALL: &'static [Refusal] = &[
        Sizes,
        Starts,
        Owner,
        NoProduction,
        Symbol,
        Start,
        TableLength,
        Mode,
        RuleNumber,
        TokenNumber,
        ProductionNumber,
        NoSentence,
        Dear,
        Circular,
        Room,
        TooMany,
        Job,
        FileLength,
        BlockCheck,
        BlockNumber,
        BlocksDue,
        BufferLength,
        FreeToken,
        Version,
    ];

    /// The documents' number.
    pub fn number(self) -> u32 {
        self as u32
    }

    /// Done for 0, which says that a call was not refused; else the refusal with that number.
    pub(crate) fn unless(number: u32) -> Result<(), Refusal> {
        if number == 0 {
            return Ok(());
        }
        let refusal = Refusal::ALL.iter().find(|refusal| refusal.number() == number);
        Err(*refusal.expect("the library refuses by the documents' numbers"))
    }

    /// What is wrong, for a person.
    fn sentence(self) -> &'static str {
        match self {
            Sizes => "a grammar has 2 to 512 rules, 1 to 512 tokens, 2 to 4096 productions and 1 to 16384 symbols",
            Starts => "the starts must be one more than the productions and rise from 0 to the number of symbols",
            Owner => "a production belongs to a rule that is not there",
            NoProduction => "a rule has no production",
            Symbol => "a production holds a symbol that is neither a token before eof nor a rule",
            Start => "each production of rule 0, the start, must be exactly one rule, and no production may hold it",
            TableLength => "a table is not as long as this grammar needs it",
            Mode => "FOLLOW has the mode 2 only",
            RuleNumber => "the grammar has no rule with this number",
            TokenNumber => "the grammar has no token with this number",
            ProductionNumber => "the grammar has no production with this number",
            NoSentence => "the rule has no sentence: it never comes to tokens alone",
            Dear => "every sentence of the rule costs more than 65535",
            Circular => {
                "the first choice, the lowest-numbered cheapest production, of the rule or of one that it comes to \
                 leads back to that rule itself; of all cheapest sentences, some cheapest production does"
            }
            Room => "the sentence is longer than 65535 tokens or than the room for it",
            TooMany => "the rule has more than 65535 cheapest sentences, or none of this number",
            Job => "a job is of kind 0, 2, 3 or 4, and its next production is one of the grammar",
            FileLength => "the file is empty, is not made of whole blocks of 512 bytes, or has more than 98",
            BlockCheck => "a block of the file is damaged: its check does not fit its bytes",
            BlockNumber => "a block of the file is out of place: its number is not its position",
            BlocksDue => "the file has too few or too many blocks for its grammar, or something behind its end",
            BufferLength => "the buffer is too short for the grammar's block file",
            FreeToken => "a token other than eof costs nothing, and in a file of version 2 each costs at least 1",
            Version => "block files have the versions 1 and 2 only",
        }
    }
}

impl fmt::Display for Refusal {
    fn fmt(&self, f: &mut fmt::Formatter) -> fmt::Result {
        write!(f, "{} (refusal {})", self.sentence(), self.number())
    }
}

impl Error for Refusal {}
