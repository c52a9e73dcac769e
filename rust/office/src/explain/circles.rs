//! Refusal 20: a circle of calls that scheme 1 leads to.

use crate::calls::Calls;
use crate::chart;
use crate::marking::handler;
use crate::problem::Problem;

use super::nodes::{Record, ARGUMENT, SCHEME};
use super::voice::Voice;

/// The calls of the circle, each by its node.
pub fn of_calls(records: &[Record], voice: Voice) -> Option<Problem> {
    let chart = chart::nodes(&records.concat());
    let Calls::Circle(nodes) = Calls::of(&chart) else {
        return None;
    };
    let first = *nodes.first()?;
    let caller = voice.scheme(records[first][SCHEME]);
    let what = if nodes.len() == 1 {
        format!("{caller} calls itself")
    } else {
        let calls: Vec<String> = nodes
            .iter()
            .map(|node| format!("{} at {}", voice.scheme(records[*node][ARGUMENT]), voice.node(*node)))
            .collect();
        format!("{caller} calls itself through others: it calls {}", calls.join(", which calls "))
    };
    let advice = match handler(&chart) {
        0 => {
            "a call of the wrong scheme; where the circle is meant, a handler for the full stack".to_string()
        }
        own => {
            let own = voice.scheme(own);
            format!("a call of the wrong scheme; where the circle is meant, {own} is there, the handler for the full stack")
        }
    };
    Some(voice.problem(first, ARGUMENT, &what).advice(advice))
}
