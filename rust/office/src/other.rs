//! Files that go beside a chart or an image, told by their kind where the chart or the image itself is asked for.

use crate::diff::traces::is_trace;
use crate::kind::Kind;
use crate::problem::Problem;
use crate::scenario::is_scenario;
use crate::trace::words::is_of_a_scenario;

/// What goes beside a chart or an image, or is made of one.
#[derive(Clone, Copy, Debug, PartialEq, Eq)]
pub enum Other {
    Trace,
    Patch,
    Scenario,
}

impl Other {
    /// Before a file is held to be a chart, an image or notation: the arcs that a trace lists, and those in a comment, are like notation.
    pub fn of(bytes: &[u8]) -> Option<Other> {
        // numbers alone may be a chart whose lines were cut off
        let says_more = || statements(&String::from_utf8_lossy(bytes)).any(is_of_a_scenario);
        if is_trace(bytes) {
            Some(Other::Trace)
        } else if is_patch(bytes) {
            Some(Other::Patch)
        } else {
            (is_scenario(bytes) && says_more()).then_some(Other::Scenario)
        }
    }

    /// `a trace`, `a patch`, `a scenario`.
    pub fn named(self) -> &'static str {
        match self {
            Other::Trace => "a trace",
            Other::Patch => "a patch",
            Other::Scenario => "a scenario",
        }
    }

    /// How it is given.
    fn advice(self) -> &'static str {
        match self {
            Other::Trace => "the chart or the image that was traced; `fairleadow diff` compares traces",
            Other::Patch => "the image before it: `fairleadow patch IMAGE PATCH`",
            Other::Scenario => "the chart before it: `fairleadow test CHART SCENARIO`",
        }
    }
}

/// The beginnings of files that are no texts.
const FOREIGN: [(&[u8], &str); 6] = [
    (b"\x89PNG", "a picture"),
    (b"\xFF\xD8\xFF", "a picture"),
    (b"GIF8", "a picture"),
    (b"%PDF-", "a printed page (PDF)"),
    (b"PK\x03\x04", "a packed file (ZIP)"),
    (b"\x1F\x8B", "a packed file (GZIP)"),
];

/// Refuses what goes beside a chart or an image in the place of one, which is asked for by its name, and pictures and the like.
pub fn refused(bytes: &[u8], asked: &str) -> Result<(), Problem> {
    if let Some((_, kind)) = FOREIGN.iter().find(|(start, _)| bytes.starts_with(start)) {
        return Err(
            Problem::new(format!("this is {kind}; {asked} is asked for here")).advice("the wrong file")
        );
    }
    match Other::of(bytes) {
        Some(other) => {
            let what = format!("this is {}; {asked} is asked for here", other.named());
            Err(Problem::new(what).advice(other.advice()))
        }
        None => Ok(()),
    }
}

/// What a file is, where it surely is something else than what it is read as.
pub fn instead_of(own: Other, bytes: &[u8]) -> Option<&'static str> {
    match Other::of(bytes) {
        Some(other) => (other != own).then(|| other.named()),
        None => Kind::held(bytes).map(Kind::named),
    }
}

/// The lines that are more than a comment, without it.
fn statements(text: &str) -> impl Iterator<Item = &str> {
    text.lines().map(|line| line.split('#').next().unwrap_or("").trim()).filter(|line| !line.is_empty())
}

/// Whether every line says something of a row.
fn is_patch(bytes: &[u8]) -> bool {
    let text = String::from_utf8_lossy(bytes);
    let mut lines = statements(&text).peekable();
    let is_row =
        |line: &str| line.starts_with("remove at ") || line.starts_with("at ") && line.contains(" go to ");
    lines.peek().is_some() && lines.all(is_row)
}

#[cfg(test)]
mod tests {
    use super::*;

    #[test]
    fn pictures_and_the_like_are_known() {
        let told = |bytes: &[u8]| refused(bytes, "a chart").err().map(|problem| problem.words);
        let picture = Some("this is a picture; a chart is asked for here".to_string());
        assert_eq!(told(b"\x89PNG\r\n\x1A\n\0\0\0\rIHDR"), picture);
        assert_eq!(told(b"\xFF\xD8\xFF\xE0\0\x10JFIF"), picture);
        assert_eq!(told(b"PNG"), None);
        assert_eq!(told(b""), None);
    }

    #[test]
    fn files_that_go_beside_a_chart_are_known() {
        let named = |text: &str| Other::of(text.as_bytes()).map(Other::named);
        for (text, kind) in [
            (include_str!("../../../examples/bore.scenario"), "a scenario"),
            (include_str!("../../../examples/patched/roughing.patch"), "a patch"),
            (include_str!("../../../examples/full_stack.2.trace"), "a trace"),
            ("places 2\r\n-\r\n", "a scenario"),
            ("- until output drill\n", "a scenario"),
            ("- until drill  # start -> drill\n", "a scenario"),
            ("# look -> yes\nremove at 4\n", "a patch"),
        ] {
            assert_eq!(named(text), Some(kind), "{text}");
        }
        for text in [
            "",
            "# nothing\n",
            "0\n0x10 # feeler\n",
            "00010001\n",
            "spindle 150\n",
            "Dear sirs; until tomorrow\n",
            include_str!("../../../examples/bore.txt"),
            include_str!("../../../examples/bore.chart"),
            include_str!("../../../examples/bore.image"),
            include_str!("../../../examples/roughing.prices"),
        ] {
            assert_eq!(named(text), None, "{text}");
        }
    }
}
