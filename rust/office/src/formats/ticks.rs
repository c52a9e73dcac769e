//! The ticks of a run as JSON and as CSV.

use super::csv;
use super::document;
use super::json::Json;
use super::record::{Place, Record, Step, Stop};
use crate::names::Names;
use crate::trace::swaps::Swap;
use crate::trace::Happening;

/// What a tick does, in one word.
fn kind(happening: Happening) -> &'static str {
    match happening {
        Happening::Plain => "plain",
        Happening::Return => "return",
        Happening::Home => "home",
        Happening::Call(_) => "call",
        Happening::Drop => "drop",
    }
}

fn swaps(names: &Names, swaps: &[Swap]) -> Json {
    let swap = |swap: &Swap| {
        let name = |number: usize| names.scheme(number as u8);
        Json::Record(vec![("called", name(swap.number).into()), ("served_by", name(swap.scheme).into())])
    };
    Json::List(swaps.iter().map(swap).collect())
}

/// The fields of a place.
fn place(names: &Names, place: &Place) -> Vec<(&'static str, Json)> {
    let open = place.open.iter().map(|(scheme, number)| {
        Json::Record(vec![("scheme", names.scheme(*scheme).into()), ("called", names.scheme(*number).into())])
    });
    vec![
        ("scheme", names.scheme(place.scheme).into()),
        ("node", place.node.into()),
        ("name", place.name.clone().into()),
        ("label", place.label.into()),
        ("open", Json::List(open.collect())),
    ]
}

fn step(record: &Record, number: usize, step: &Step) -> Json {
    let names = record.names;
    let called = match step.happening {
        Happening::Call(number) => Some(names.scheme(number)),
        _ => None,
    };
    let server = (step.server != 0).then(|| names.scheme(step.server));
    let first = vec![
        ("tick", number.into()),
        ("word", step.word.into()),
        ("conditions", names.conditions(step.word & record.tested).into()),
        ("swaps", swaps(names, &step.swaps)),
    ];
    let last = vec![
        ("happening", kind(step.happening).into()),
        ("called", called.into()),
        ("served_by", server.into()),
        ("code", step.code.into()),
        ("mask", step.mask.into()),
        ("outputs", names.operations(step.mask).into()),
        ("results", names.results(&step.results).into()),
    ];
    Json::Record(first.into_iter().chain(place(names, &step.place)).chain(last).collect())
}

fn stop(record: &Record, stop: &Stop) -> Json {
    let first = vec![
        ("tick", record.steps.len().into()),
        ("word", stop.word.into()),
        ("swaps", swaps(record.names, &stop.swaps)),
    ];
    let last = [("problem", super::problem(&stop.problem))];
    Json::Record(first.into_iter().chain(place(record.names, &stop.place)).chain(last).collect())
}

/// The whole run, with the refusal that ended it, what a scenario expected otherwise, and how often each node or label was taken.
pub fn json(record: &Record) -> String {
    let steps = record.steps.iter().enumerate().map(|(number, own)| step(record, number, own)).collect();
    let fields = vec![
        ("file", record.title.as_str().into()),
        ("kind", record.kind.into()),
        ("places", record.places.into()),
        ("ticks", Json::List(steps)),
        ("refused", record.stop.as_ref().map(|own| stop(record, own)).into()),
        ("differences", super::differences(&record.differences)),
        ("coverage", record.coverage.clone()),
    ];
    document("trace", fields)
}

/// The columns of the ticks as CSV.
const COLUMNS: [&str; 12] = [
    "tick",
    "word",
    "conditions at 1",
    "scheme",
    "node",
    "label",
    "what happens",
    "code",
    "outputs",
    "depth",
    "open schemes",
    "results at 1",
];

/// A row for each tick made; several names in a cell have spaces between them. A refused tick has none.
pub fn csv(record: &Record) -> String {
    let names = record.names;
    let row = |(number, step): (usize, &Step)| {
        let Place { label, scheme, name, open, .. } = &step.place;
        [
            number.to_string(),
            step.word.to_string(),
            names.conditions(step.word & record.tested).join(" "),
            names.scheme(*scheme),
            name.clone().unwrap_or_default(),
            label.to_string(),
            step.told.clone(),
            step.code.to_string(),
            names.operations(step.mask).join(" "),
            open.len().to_string(),
            open.iter().map(|open| names.served(*open)).collect::<Vec<String>>().join(" > "),
            names.results(&step.results).join(" "),
        ]
    };
    csv::table(COLUMNS, record.steps.iter().enumerate().map(row))
}
