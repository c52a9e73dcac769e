//! A chart from a file: its lines as they are sent, and the names that stand beside them.

use std::ffi::OsStr;
use std::fs::{self, File};
use std::io::{self, ErrorKind, Read};

use fairleadow::{Refusal, CHART_TEXT, IMAGE_TEXT};

use crate::explain;
use crate::kind::Kind;
use crate::names::Names;
use crate::notation::Notation;
use crate::other;
use crate::problem::{thousands, Problem};

/// The text that goes to the library, and the shop's names.
#[derive(Clone, Debug, PartialEq, Eq)]
pub struct Source {
    pub text: Vec<u8>,
    pub names: Names,
    /// The notation that the text was composed of, if it was.
    pub notation: Option<Notation>,
}

impl Source {
    /// Why the library refuses this text: by the lines of the file that it came from.
    pub fn problem(&self, refusal: Refusal) -> Problem {
        match &self.notation {
            Some(notation) => notation.problem(refusal),
            None => explain::refusal(&self.text, Kind::Chart, refusal),
        }
    }
}

/// From the bytes of a file of chart lines.
pub fn from_bytes(bytes: &[u8]) -> Source {
    Source { text: bytes.to_vec(), names: Names::default(), notation: None }
}

/// From the text of the notation.
pub fn from_notation(text: &str) -> Result<Source, Problem> {
    let notation = Notation::parse(text)?;
    Ok(Source { text: notation.chart_lines()?, names: notation.names.clone(), notation: Some(notation) })
}

/// The text of the bytes of a file in the notation, which is UTF-8.
pub fn text_of(bytes: &[u8]) -> Result<&str, Problem> {
    std::str::from_utf8(bytes).map_err(|error| {
        let (before, rest) = bytes.split_at(error.valid_up_to());
        let before = String::from_utf8_lossy(before);
        let (line, column) =
            before.split('\n').map(|line| line.chars().count()).enumerate().last().unwrap_or((0, 0));
        Problem::at(line + 1, column + 1, format!("byte {:02X} is no character in UTF-8", rest[0]))
            .advice("the editor's setting: save as UTF-8; the wrong file")
            .excerpt(bytes)
    })
}

/// From the bytes of a file of either sort, told apart by what stands in it; an image is none.
pub fn from_either(bytes: &[u8]) -> Result<Source, Problem> {
    other::refused(bytes, "a chart")?;
    match Kind::of(bytes) {
        Kind::Notation => from_notation(text_of(bytes)?),
        Kind::Chart => Ok(from_bytes(bytes)),
        Kind::Image => Err(Problem::new("this is an image; a chart is asked for here")
            .advice("the chart that the image was made of")),
    }
}

/// A chart from a file of either sort; `-` is standard input.
pub fn load(path: impl AsRef<OsStr>) -> Result<Source, Problem> {
    from_either(&read(path)?)
}

/// No chart, image or notation is longer.
pub const LONGEST: usize = 1 << 20;
const _: () = assert!(CHART_TEXT < LONGEST && IMAGE_TEXT < LONGEST);

/// The bytes of a file; `-` is standard input.
pub fn read(path: impl AsRef<OsStr>) -> Result<Vec<u8>, Problem> {
    let path = path.as_ref();
    let bytes = if path == "-" { limited(io::stdin()) } else { file(path) };
    bytes.map_err(|error| Problem::new(unreadable(&error))).and_then(not_too_long)
}

/// The bytes themselves, or that no chart, image or notation has so many.
pub fn not_too_long<B: AsRef<[u8]>>(bytes: B) -> Result<B, Problem> {
    if bytes.as_ref().len() > LONGEST {
        let words = format!("the file has more than {} characters", thousands(LONGEST));
        return Err(Problem::new(words).advice("the wrong file"));
    }
    Ok(bytes)
}

fn file(path: &OsStr) -> io::Result<Vec<u8>> {
    if fs::metadata(path)?.is_dir() {
        return Err(ErrorKind::IsADirectory.into());
    }
    limited(File::open(path)?)
}

fn limited(reader: impl Read) -> io::Result<Vec<u8>> {
    let mut bytes = Vec::new();
    reader.take(LONGEST as u64 + 1).read_to_end(&mut bytes)?;
    Ok(bytes)
}

fn unreadable(error: &io::Error) -> String {
    match error.kind() {
        ErrorKind::NotFound => "there is no such file".to_string(),
        ErrorKind::IsADirectory => "this is a directory, not a file".to_string(),
        ErrorKind::PermissionDenied => "the file may not be read by this user".to_string(),
        _ => format!("the file cannot be read: {error}"),
    }
}
