//! `compose` and `show`: the readable notation into chart lines, and back.

use fairleadow::{Library, Proved, RECORD, RECORDS};

use crate::check::translated;
use crate::kind::{has_digits, Kind};
use crate::notation::Notation;
use crate::other;
use crate::problem::Problem;
use crate::source::{self, Source};

/// Chart lines that the library accepts and can translate.
pub fn composed(bytes: &[u8]) -> Result<Vec<u8>, Problem> {
    other::refused(bytes, Kind::Notation.named())?;
    let kind = Kind::of(bytes);
    if has_digits(bytes) {
        let words = format!("this looks like {}, not like {}", kind.named(), Kind::Notation.named());
        return Err(Problem::new(words)
            .advice("the wrong file; `fairleadow show` turns chart lines into the notation"));
    }
    let source = source::from_notation(source::text_of(bytes)?)?;
    translated(&source)?;
    Ok(source.text)
}

/// A chart in the notation; one that is written so already is laid out anew.
pub fn shown(source: &Source) -> Result<String, Problem> {
    if let Some(notation) = &source.notation {
        return Ok(notation.layout());
    }
    let mut records = vec![0; RECORDS];
    match Proved.read_chart(&source.text, &mut records) {
        Ok(count) => Ok(Notation::of_records(&records[..count * RECORD]).layout()),
        Err(refusal) => Err(source.problem(refusal)),
    }
}
