//! The house export, built in: FIRST, EMPTY, costs and the cheapest row of the controller's own CSV, for which no grammar
//! is given.
//!
//! A row is a date, a time, and for each of twelve rooms temperature, humidity and carbon dioxide, any of which may be
//! missing. Fields are separated by a semicolon, since decimals are written with a comma:
//! `14.11.2026;06:15;17,4;91,5;1240;18,9;;650; .. ;-2,1;88;410` and a newline.
//!
//! ```text
//! start: Row
//! Row: Stamp Room1 .. Room12 newline
//! Room1: semicolon Temperature1 semicolon Humidity1 semicolon Carbon1      and so each room
//! Temperature1: Degrees | nothing; Humidity1: Percent | nothing; Carbon1: Parts | nothing
//! Stamp: Date semicolon Time; Date: digits dot digits dot digits; Time: digits colon digits
//! Degrees: Sign digits Fraction; Percent: digits Fraction; Parts: digits
//! Sign: minus | nothing; Fraction: decimal-comma digits | nothing
//! ```
//!
//! A token costs the characters that it takes at least. The table is well formed, and each rule has a sentence: what can
//! be refused is a number that the house does not have, 9 or 10, and short room, 15.
//!
//! ```
//! use boltmarrow::{house, Refusal};
//!
//! // The cheapest row: a date, a time, and 36 empty fields.
//! let row = house::row_text(&house::cheapest_row()).expect("its tokens are the house's");
//! assert_eq!(row, "0.0.0;0:0;;;;;;;;;;;;;;;;;;;;;;;;;;;;;;;;;;;;\n");
//!
//! // The temperature of room 3 may be below zero, or missing.
//! let (firsts, temperature) = (house::firsts(), house::temperature(3).expect("a room is 1 to 12"));
//! assert!(firsts.is_set(temperature, house::MINUS)? && firsts.is_epsilon_set(temperature)?);
//! assert_eq!(house::rule_name(temperature), Some("Temperature3"));
//! # Ok::<(), Refusal>(())
//! ```
use crate::sys;
use crate::table::done;
use crate::{RIdx, Refusal, TIdx};

/// How many rules there are.
pub const RULES: u16 = 58;
/// How many tokens there are, eof among them.
pub const TOKENS: u16 = 8;
/// How many rooms there are; the first is number 1.
pub const ROOMS: u16 = 12;
/// The tokens of the cheapest row.
pub const ROW_LENGTH: usize = 46;

/// The start.
pub const START: RIdx = RIdx(0);
/// A row, with its newline.
pub const ROW: RIdx = RIdx(1);
/// The date and the time.
pub const STAMP: RIdx = RIdx(50);
/// The date.
pub const DATE: RIdx = RIdx(51);
/// The time.
pub const TIME: RIdx = RIdx(52);
/// A temperature that is there.
pub const DEGREES: RIdx = RIdx(53);
/// A humidity that is there.
pub const PERCENT: RIdx = RIdx(54);
/// A carbon dioxide value that is there.
pub const PARTS: RIdx = RIdx(55);
/// The minus of a temperature, or nothing.
pub const SIGN: RIdx = RIdx(56);
/// A decimal comma and digits, or nothing.
pub const FRACTION: RIdx = RIdx(57);

/// Digits, at least one.
pub const DIGITS: TIdx = TIdx(0);
/// The comma in a number.
pub const DECIMAL_COMMA: TIdx = TIdx(1);
/// What separates fields.
pub const SEMICOLON: TIdx = TIdx(2);
/// The sign of a number below zero.
pub const MINUS: TIdx = TIdx(3);
/// The dot in a date.
pub const DOT: TIdx = TIdx(4);
/// The colon in a time.
pub const COLON: TIdx = TIdx(5);
/// The end of a row.
pub const NEWLINE: TIdx = TIdx(6);
/// eof, the last token.
pub const EOF: TIdx = TIdx(7);

/// The names of all rules, by number, for these rooms.
macro_rules! rule_names {
    ($($room:literal)*) => {
        [
            "start", "Row", $(concat!("Room", $room),)*
            $(concat!("Temperature", $room), concat!("Humidity", $room), concat!("Carbon", $room),)*
            "Stamp", "Date", "Time", "Degrees", "Percent", "Parts", "Sign", "Fraction",
        ]
    };
}

const RULE_NAMES: [&str; RULES as usize] = rule_names!(1 2 3 4 5 6 7 8 9 10 11 12);

const TOKEN_NAMES: [&str; TOKENS as usize] =
    ["digits", "decimal-comma", "semicolon", "minus", "dot", "colon", "newline", "eof"];

/// The characters of each token, by number: as many as it costs.
const TOKEN_TEXTS: [&str; TOKENS as usize] = ["0", ",", ";", "-", ".", ":", "\n", ""];

/// A rule's name, as `Temperature1`; none for a rule that the house does not have.
pub fn rule_name(ridx: RIdx) -> Option<&'static str> {
    RULE_NAMES.get(usize::from(ridx)).copied()
}

/// A token's name, as `decimal-comma`; none for a token that the house does not have.
pub fn token_name(tidx: TIdx) -> Option<&'static str> {
    TOKEN_NAMES.get(usize::from(tidx)).copied()
}

/// The rule of a name; none for a name that no rule has.
pub fn rule(name: &str) -> Option<RIdx> {
    (0..RULES).map(RIdx).find(|&ridx| rule_name(ridx) == Some(name))
}

/// The token of a name; none for a name that no token has.
pub fn token(name: &str) -> Option<TIdx> {
    (0..TOKENS).map(TIdx).find(|&tidx| token_name(tidx) == Some(name))
}

/// A room's rule, where that of the first room is `first` and the next room's is `step` further.
fn of_room(i: u16, first: u16, step: u16) -> Option<RIdx> {
    (1..=ROOMS).contains(&i).then(|| RIdx(first + (i - 1) * step))
}

/// The rule of room `i`, from 1: its three fields, each behind a semicolon. None for another number.
pub fn room(i: u16) -> Option<RIdx> {
    of_room(i, 2, 1)
}

/// The rule of the temperature of room `i`, from 1, which may be missing. None for another number.
pub fn temperature(i: u16) -> Option<RIdx> {
    of_room(i, 14, 3)
}

/// The rule of the humidity of room `i`, from 1, which may be missing. None for another number.
pub fn humidity(i: u16) -> Option<RIdx> {
    of_room(i, 15, 3)
}

/// The rule of the carbon dioxide of room `i`, from 1, which may be missing. None for another number.
pub fn carbon(i: u16) -> Option<RIdx> {
    of_room(i, 16, 3)
}

/// A table of one number a rule.
type Numbers = [u32; RULES as usize];

fn numbers() -> Numbers {
    [0; RULES as usize]
}

/// Has the library check the house grammar, which passes.
pub fn check() {
    done(sys::house_check());
}

/// FIRST and EMPTY of the house grammar, whole. They can be asked and not changed; each question is a call.
#[derive(Clone, Debug)]
pub struct Firsts {
    /// The tokens take one word a rule.
    first: Numbers,
    empty: [u32; 2],
}

/// FIRST and EMPTY.
pub fn firsts() -> Firsts {
    let mut firsts = Firsts { first: numbers(), empty: [0; 2] };
    done(sys::house_first_fill(&mut firsts.first, &mut firsts.empty));
    firsts
}

impl Firsts {
    /// Whether the rule can start with the token.
    ///
    /// # Errors
    ///
    /// Refusal 9 for a rule, 10 for a token that the house does not have.
    pub fn is_set(&self, ridx: RIdx, tidx: TIdx) -> Result<bool, Refusal> {
        sys::house_first(&self.first, ridx.0, tidx.0).yes()
    }

    /// Whether the rule can vanish.
    ///
    /// # Errors
    ///
    /// Refusal 9 for a rule that the house does not have.
    pub fn is_epsilon_set(&self, ridx: RIdx) -> Result<bool, Refusal> {
        sys::house_empty(&self.empty, ridx.0).yes()
    }

    /// The tokens that the rule can start with, rising.
    ///
    /// # Errors
    ///
    /// Refusal 9 for a rule that the house does not have.
    pub fn firsts(&self, ridx: RIdx) -> Result<impl Iterator<Item = TIdx> + '_, Refusal> {
        // for refusal 9 alone
        self.is_set(ridx, EOF)?;
        Ok((0..TOKENS).map(TIdx).filter(move |&tidx| self.is_set(ridx, tidx) == Ok(true)))
    }
}

/// COST of the house grammar, whole. It can be asked and not changed.
#[derive(Clone, Debug)]
pub struct Costs(Numbers);

/// The costs of all rules.
pub fn costs() -> Costs {
    let mut costs = Costs(numbers());
    done(sys::house_cost_fill(&mut costs.0));
    costs
}

impl Costs {
    /// The cost of the rule's cheapest sentence: its characters. Each rule has one.
    ///
    /// # Errors
    ///
    /// Refusal 9 for a rule that the house does not have.
    pub fn min_sentence_cost(&self, ridx: RIdx) -> Result<u16, Refusal> {
        self.0.get(usize::from(ridx)).map(|&cost| known(cost)).ok_or(Refusal::RuleNumber)
    }
}

/// The cost of the rule's cheapest sentence, by a call of its own. For more than one rule take [`costs`].
///
/// # Errors
///
/// Refusal 9 for a rule that the house does not have.
pub fn min_sentence_cost(ridx: RIdx) -> Result<u16, Refusal> {
    sys::house_cost(ridx.0, &mut numbers()).number().map(known)
}

/// A cost of the house's.
fn known(cost: u32) -> u16 {
    u16::try_from(cost).expect("each rule of the house has a sentence of at most 46 characters")
}

/// The cheapest row: a date, a time, empty fields and the newline, [`ROW_LENGTH`] tokens.
pub fn cheapest_row() -> Vec<TIdx> {
    cheapest_row_in(ROW_LENGTH).expect("the room is as long as the row")
}

/// The same, where it has at most `room` tokens.
///
/// # Errors
///
/// Refusal 15 if `room` is less than [`ROW_LENGTH`].
pub fn cheapest_row_in(room: usize) -> Result<Vec<TIdx>, Refusal> {
    let mut out = vec![0; room.min(ROW_LENGTH)];
    sys::house_row(&mut numbers(), &mut numbers(), &mut out).number()?;
    Ok(out.into_iter().map(TIdx).collect())
}

/// The characters of a row, as a person reads it, with 0 for digits; eof has none. None if the house does not have one of
/// the tokens.
pub fn row_text(row: &[TIdx]) -> Option<String> {
    row.iter().map(|&tidx| TOKEN_TEXTS.get(usize::from(tidx)).copied()).collect()
}
