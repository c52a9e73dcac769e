//! What is wrongly made of marks in a chart.

use reference::check::chart_of;
use reference::frames::{frames_of, text_of, Frame, CHART_TEXT};
use reference::{Refusal, Told};

use super::{Fault::*, Faulty};

/// The frames of the Begins that hold something in byte 2.
fn marked(records: &[Frame]) -> Vec<usize> {
    (0..records.len()).filter(|at| records[*at][0] == 0 && records[*at][2] != 0).collect()
}

/// The records without the marks of these frames.
fn unmarked(records: &[Frame], frames: &[usize]) -> Vec<Frame> {
    let mut records = records.to_vec();
    frames.iter().for_each(|at| records[*at][2] = 0);
    records
}

/// Whether marks are to be refused with 19.
fn bad(records: &[Frame], marked: &[usize]) -> bool {
    marked.len() > 1 || marked.iter().any(|at| records[*at][1] == 1)
}

impl Faulty {
    /// The text of the chart that the fault takes this for, or what it refuses.
    pub fn judged(&self, text: &[u8]) -> Result<Vec<u8>, Refusal> {
        let Ok(records) = frames_of(text, CHART_TEXT) else {
            return Ok(text.to_vec());
        };
        let marked = marked(&records);
        let without = |taken: &[usize]| Ok(text_of(&unmarked(&records, taken)));
        let scheme_one = |at: &&usize| records[**at][1] == 1;
        match (self.fault, chart_of(&records).number()) {
            (RefusesEveryMark, 0) if !marked.is_empty() => Err(Refusal::BadField(marked[0])),
            (AllowsAMarkOnSchemeOne, 19) => {
                without(&marked.iter().filter(scheme_one).copied().collect::<Vec<usize>>())
            }
            (AllowsTwoMarks, 19) => without(&marked[1..]),
            (AllowsOtherMarks, 4) => without(&marked),
            (TriesMarksBeforeSchemes, 5) if bad(&records, &marked) => Err(Refusal::BadMarks),
            (TriesMarksAfterArcs, 19) => match chart_of(&unmarked(&records, &marked)) {
                Err(refusal @ Refusal::BadArc(_)) => Err(refusal),
                _ => Ok(text.to_vec()),
            },
            _ => Ok(text.to_vec()),
        }
    }
}
