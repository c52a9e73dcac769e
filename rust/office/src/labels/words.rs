//! Labels and rows in words. A row is written as a line of a patch.

use crate::image::{Fields, Row, FUNCTION_CALL};
use crate::names::Names;
use crate::subject::Subject;

/// What a label from 2 up does, in the order in which it does it.
pub fn holds(fields: &Fields, names: &Names) -> String {
    let mut parts = Vec::new();
    if fields.mask != 0 {
        parts.push(format!("do {}", names.operations(fields.mask).join(", ")));
    }
    if fields.result != 0 {
        parts.push(format!("write {}", fields.result - 1));
    }
    match fields.kind {
        0 => {}
        FUNCTION_CALL => parts.push(format!("call {}, read its result", names.scheme(fields.called))),
        _ => parts.push(format!("call {}", names.scheme(fields.called))),
    }
    match parts.is_empty() {
        true => "do nothing".to_string(),
        false => parts.join("; "),
    }
}

/// What a row asks for, each part by itself: a result, then conditions with their values.
pub fn asked(names: &Names, care: u16, values: u16, result: u8) -> Vec<String> {
    let result = (result < 2).then(|| format!("result {result}"));
    let conditions = (0..16).filter(|number| care >> number & 1 == 1).map(|number| {
        let not = if values >> number & 1 == 1 { "" } else { "not " };
        format!("{not}{}", names.condition(number))
    });
    result.into_iter().chain(conditions).collect()
}

/// ` when` with all that is asked for, or nothing.
pub fn when(names: &Names, care: u16, values: u16, result: u8) -> String {
    match asked(names, care, values, result) {
        parts if parts.is_empty() => String::new(),
        parts => format!(" when {}", parts.join(" and ")),
    }
}

/// The label that a row leaves and what it asks for.
pub fn asks(subject: &Subject, row: &Row) -> String {
    format!("at {}{}", subject.word(row.from), when(subject.names(), row.care, row.values, row.result))
}

/// A whole row.
pub fn row(subject: &Subject, row: &Row) -> String {
    format!("{} go to {}", asks(subject, row), subject.word(row.next))
}
