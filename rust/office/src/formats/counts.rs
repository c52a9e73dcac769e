//! What a run costs, and how often stacks fill, as records and as tables.

use super::csv;
use super::document;
use super::json::Json;
use crate::bill::{Bill, Part};
use crate::fillings::{Drawing, Lists};
use crate::problem::Problem;
use crate::subject::Subject;

/// A bill, and what its run was made of.
pub struct Priced<'a> {
    pub title: String,
    pub subject: &'a Subject,
    pub places: usize,
    pub bill: Bill,
}

impl Priced<'_> {
    fn refused(&self) -> Option<Problem> {
        self.bill.answer.err().map(|refusal| self.subject.problem(refusal))
    }
}

/// Prices are in hundredths of a cent, and what is to pay in cents.
pub fn bill_json(priced: &Priced) -> String {
    let names = priced.subject.names();
    let line = |(output, ticks, price): (u8, u64, u64)| {
        Json::Record(vec![
            ("output", names.operation(output).into()),
            ("ticks", ticks.into()),
            ("price", price.into()),
            ("cost", (ticks * price).into()),
        ])
    };
    let part = |part: &Part| {
        Json::Record(vec![
            ("first_tick", part.first.into()),
            ("ticks", part.ticks.into()),
            ("cents", part.cents.into()),
        ])
    };
    let (ticks, cents) = priced.bill.total();
    let fields = vec![
        ("file", priced.title.as_str().into()),
        ("places", priced.places.into()),
        ("ticks", ticks.into()),
        ("outputs", Json::List(priced.bill.lines().map(line).collect())),
        ("cost", priced.bill.sum().into()),
        ("parts", priced.bill.parts().iter().map(part).collect::<Vec<Json>>().into()),
        ("cents", cents.into()),
        ("refused", priced.refused().as_ref().map(super::problem).into()),
    ];
    document("bill", fields)
}

/// A row for each output that was on; the sum is left to who reads it.
pub fn bill_csv(priced: &Priced) -> String {
    let names = priced.subject.names();
    let row = |(output, ticks, price): (u8, u64, u64)| {
        [names.operation(output), ticks.to_string(), price.to_string(), (ticks * price).to_string()]
    };
    csv::table(["output", "ticks on", "price", "cost"], priced.bill.lines().map(row))
}

/// Stacks of 1 to 32 places, with the lists of words that met an end in each.
pub struct Filled {
    pub title: String,
    pub drawing: Drawing,
}

pub fn fillings_json(filled: &Filled) -> String {
    let Lists { ticks, conditions } = filled.drawing.lists();
    let stack = |(at, (stack, drops)): (usize, (&fairleadow::Fillings, crate::fillings::Drops))| {
        Json::Record(vec![
            ("places", (at + 1).into()),
            ("fill", stack.full.into()),
            ("find_no_row", stack.unmatched.into()),
            ("drop", drops.dropped.into()),
            ("find_it_full", drops.found_full.into()),
        ])
    };
    let fields = vec![
        ("file", filled.title.as_str().into()),
        ("ticks", ticks.into()),
        ("conditions", conditions.into()),
        ("lists", (1_u64 << (ticks * conditions)).into()),
        ("stacks", Json::List(filled.drawing.stacks().enumerate().map(stack).collect())),
    ];
    document("fillings", fields)
}

pub fn fillings_csv(filled: &Filled) -> String {
    let Lists { ticks, conditions } = filled.drawing.lists();
    let lists = 1_u64 << (ticks * conditions);
    let row = |(at, (stack, drops)): (usize, (&fairleadow::Fillings, crate::fillings::Drops))| {
        let counts =
            [stack.full, stack.unmatched, drops.dropped, drops.found_full].map(|count| count.to_string());
        let [full, unmatched, dropped, found_full] = counts;
        [(at + 1).to_string(), lists.to_string(), full, unmatched, dropped, found_full]
    };
    let heading = ["places", "lists", "fill", "find no row", "drop", "find it full"];
    csv::table(heading, filled.drawing.stacks().enumerate().map(row))
}
