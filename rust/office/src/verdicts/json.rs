//! Verdicts as a record, with how often all scenarios together took each node and arc.

use super::{Verdict, Verdicts};
use crate::formats::json::Json;
use crate::formats::{coverage, differences, document, problem};

pub fn report(verdicts: &Verdicts) -> String {
    let scenario = |verdict: &Verdict| {
        let held = verdict.result.as_ref().ok();
        Json::Record(vec![
            ("file", verdict.title.as_str().into()),
            ("passed", verdict.is_passed().into()),
            ("ticks", held.map(|held| held.ticks).into()),
            ("checks", held.map(|held| held.held).into()),
            ("differences", held.map(|held| differences(&held.differences)).into()),
            ("problem", verdict.result.as_ref().err().map(problem).into()),
        ])
    };
    let fields = vec![
        ("file", verdicts.chart.as_str().into()),
        ("scenarios", Json::List(verdicts.verdicts.iter().map(scenario).collect())),
        ("coverage", coverage::of_chart(verdicts.plan, &verdicts.coverage)),
    ];
    document("test", fields)
}
