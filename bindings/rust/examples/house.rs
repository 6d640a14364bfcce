//! Prints what the library has built in of the house export, the controller's own CSV:
//!
//!     house
//!
//! It takes no grammar. There is a line for each kind of rule, with those of room 1 for all rooms': the tokens that it
//! can start with, whether it can be left out, and how many characters it takes at least. The last line is the cheapest
//! row, with 0 for digits.
use boltmarrow::house::{self, Costs, Firsts};
use boltmarrow::{RIdx, Refusal, TIdx};

/// A rule of each kind, by name.
const KINDS: [&str; 14] = [
    "start",
    "Row",
    "Room1",
    "Temperature1",
    "Humidity1",
    "Carbon1",
    "Stamp",
    "Date",
    "Time",
    "Degrees",
    "Percent",
    "Parts",
    "Sign",
    "Fraction",
];

fn names(tokens: impl Iterator<Item = TIdx>) -> Vec<&'static str> {
    tokens.filter_map(house::token_name).collect()
}

/// What is to be said of a rule.
fn said(ridx: RIdx, firsts: &Firsts, costs: &Costs) -> Result<String, Refusal> {
    let first = names(firsts.firsts(ridx)?).join(" or ");
    let left_out = if firsts.is_epsilon_set(ridx)? { ", can be left out" } else { "" };
    Ok(format!("starts with {first}{left_out}, costs {}", costs.min_sentence_cost(ridx)?))
}

fn main() -> Result<(), Refusal> {
    house::check();
    let tokens = names((0..house::TOKENS).map(TIdx)).join(" ");
    println!("{} rules, {} rooms, {} tokens: {tokens}", house::RULES, house::ROOMS, house::TOKENS);
    let (firsts, costs) = (house::firsts(), house::costs());
    for (name, ridx) in KINDS.into_iter().filter_map(|name| Some((name, house::rule(name)?))) {
        println!("{name} {}", said(ridx, &firsts, &costs)?);
    }
    let row = house::cheapest_row();
    println!("the cheapest row has {} tokens:", row.len());
    print!("{}", house::row_text(&row).expect("its tokens are the house's"));
    Ok(())
}
