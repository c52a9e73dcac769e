//! The places that charts need, as records and as a table.

use std::ffi::OsString;

use super::csv;
use super::document;
use super::findings::{message, name};
use super::json::Json;
use crate::problem::Problem;

/// A chart by the name that it was given, and the schemes of a longest chain of its calls, each of which takes a place.
pub type Need = (OsString, Result<Vec<String>, Problem>);

pub fn json(charts: &[Need]) -> String {
    let of_chart = |(path, chain): &Need| {
        Json::Record(vec![
            ("file", name(path).into()),
            ("places", chain.as_ref().ok().map(Vec::len).into()),
            ("chain", chain.as_ref().ok().cloned().into()),
            ("problem", chain.as_ref().err().map(super::problem).into()),
        ])
    };
    document("places", vec![("files", Json::List(charts.iter().map(of_chart).collect()))])
}

pub fn csv(charts: &[Need]) -> String {
    let of_chart = |(path, chain): &Need| {
        let (places, schemes) = match chain {
            Ok(chain) => (chain.len().to_string(), chain.join(" > ")),
            Err(_) => Default::default(),
        };
        [name(path), places, schemes, chain.as_ref().err().map(message).unwrap_or_default()]
    };
    csv::table(["file", "places", "longest chain", "refused"], charts.iter().map(of_chart))
}
