//! What went wrong, for a person: where, what stands there and what was expected, the rule, and what to look for.

use std::ffi::OsStr;
use std::fmt;

use fairleadow::Refusal;

use crate::columns::width;
use crate::explain::rules;

/// What to look for where a carriage return stands by itself.
pub const LONE_RETURNS: &str = "line ends that are carriage returns alone: save with line feeds";

/// A refusal of the library in words, or a fault of a file that does not get as far as the library.
#[derive(Clone, Debug, PartialEq, Eq)]
pub struct Problem {
    /// The line and the column, counted from 1 as an editor does.
    pub line: Option<usize>,
    pub column: Option<usize>,
    /// One sentence, which names its place.
    pub words: String,
    /// What to look for, or to do.
    pub advice: Box<str>,
    /// The library's answer; none where the library was not asked.
    pub refusal: Option<Refusal>,
    /// The line that is at fault, as it stands.
    pub excerpt: Option<Box<str>>,
}

impl Problem {
    /// A sentence without a place.
    pub fn new(words: impl Into<String>) -> Problem {
        Problem {
            line: None,
            column: None,
            words: words.into(),
            advice: Box::default(),
            refusal: None,
            excerpt: None,
        }
    }

    /// Where what is found here differs from what the library answers. No file is at fault then.
    pub fn internal(what: impl fmt::Display) -> Problem {
        let advice = "nothing in the file: tell the makers of this program, and trust nothing that it says of this file";
        Problem::new(format!("{INTERNAL}{what}")).advice(advice)
    }

    pub fn is_internal(&self) -> bool {
        self.words.starts_with(INTERNAL)
    }

    /// What stands at a line and a column.
    pub fn at(line: usize, column: usize, what: impl fmt::Display) -> Problem {
        let words = format!("line {line}, column {column}: {what}");
        Problem { line: Some(line), column: Some(column), ..Problem::new(words) }
    }

    /// A sentence that names its line itself; the column is for the excerpt alone.
    pub fn on(line: usize, column: usize, words: impl Into<String>) -> Problem {
        Problem { line: Some(line), column: Some(column), ..Problem::new(words) }
    }

    pub fn advice(mut self, advice: impl Into<Box<str>>) -> Problem {
        self.advice = advice.into();
        self
    }

    pub fn refused(mut self, refusal: Refusal) -> Problem {
        self.refusal = Some(refusal);
        self
    }

    /// With the line at fault out of this text, if it is one that can be shown.
    pub fn excerpt(mut self, text: &[u8]) -> Problem {
        let line = self.line.and_then(|line| text.split(|byte| *byte == b'\n').nth(line - 1));
        self.excerpt = line.filter(|line| !line.is_empty() && line.len() <= LONGEST_EXCERPT).map(shown);
        self
    }
}

/// How an internal error begins.
const INTERNAL: &str = "internal error: ";

/// Longer lines are not shown.
const LONGEST_EXCERPT: usize = 160;

/// A line with each character that cannot be seen as a dot.
fn shown(line: &[u8]) -> Box<str> {
    let line = line.strip_suffix(b"\r").unwrap_or(line);
    let visible = |c: char| if c.is_control() || c == char::REPLACEMENT_CHARACTER { '.' } else { c };
    String::from_utf8_lossy(line).chars().map(visible).collect()
}

/// The most characters of a word that a message repeats.
const LONGEST_WORD: usize = 40;

/// A file's name, or a word of a call, with each character that cannot be seen as its code.
pub fn shown_name(name: impl AsRef<OsStr>) -> String {
    name.as_ref().to_string_lossy().chars().map(seen).collect()
}

/// A character as it stands, or its code where it cannot be seen.
fn seen(character: char) -> String {
    match character {
        '\'' | '"' | '\\' => character.to_string(),
        // behind a letter, so that a mark that joins the letter before it is no beginning, which would be shown as a code
        _ => format!("a{character}").escape_debug().skip(1).collect(),
    }
}

/// A word with each character that cannot be seen as its code, cut where it is long.
pub fn visible(word: &str) -> String {
    let shown: String = word.chars().take(LONGEST_WORD).map(seen).collect();
    shown + if word.chars().nth(LONGEST_WORD).is_some() { "..." } else { "" }
}

impl fmt::Display for Problem {
    fn fmt(&self, f: &mut fmt::Formatter<'_>) -> fmt::Result {
        f.write_str(&self.words)?;
        if let Some(excerpt) = &self.excerpt {
            write!(f, "\n    {excerpt}")?;
            if let Some(column) = self.column {
                let before: String = excerpt.chars().take(column - 1).collect();
                let past = (column - 1).saturating_sub(excerpt.chars().count());
                write!(f, "\n    {}^", " ".repeat(width(&before) + past))?;
            }
        }
        if let Some(refusal) = self.refusal {
            write!(f, "\n  refusal {}: {}", refusal.number(), rules::rule(refusal))?;
        }
        if !self.advice.is_empty() {
            write!(f, "\n  look for: {}", self.advice)?;
        }
        Ok(())
    }
}

impl std::error::Error for Problem {}

/// A number with a comma after the thousands.
pub fn thousands(number: usize) -> String {
    if number < 1_000 {
        return number.to_string();
    }
    format!("{},{:03}", thousands(number / 1_000), number % 1_000)
}

/// So many of a thing: `1 line`, `2 lines`.
pub fn counted(count: usize, thing: &str) -> String {
    let plural = if count == 1 { "" } else { "s" };
    format!("{} {thing}{plural}", thousands(count))
}

/// The most characters of a list that a caption has.
const LONGEST_LIST: usize = 60;

/// A list with commas between its pieces; a long one is cut, with how many pieces there are of this thing.
pub fn shortened(list: &str, thing: &str) -> String {
    shortened_to(list, list.split(',').count(), thing)
}

/// A list that stands for so many things, cut where it is long.
pub fn shortened_to(list: &str, count: usize, thing: &str) -> String {
    let Some((end, _)) = list.char_indices().nth(LONGEST_LIST) else { return list.to_string() };
    let kept = list[..end].rfind(',').unwrap_or(end);
    format!("{},... ({})", &list[..kept], counted(count, thing))
}

/// `a`, `a and b`, `a, b and c`.
pub fn listed(things: &[String]) -> String {
    match things {
        [] => String::new(),
        [one] => one.clone(),
        [first @ .., last] => format!("{} and {last}", first.join(", ")),
    }
}

#[cfg(test)]
mod tests {
    use super::*;

    #[test]
    fn numbers_and_lists_read_as_written() {
        assert_eq!(thousands(29_831), "29,831");
        assert_eq!(thousands(1_048_576), "1,048,576");
        assert_eq!((counted(1, "row"), counted(1_024, "row")), ("1 row".into(), "1,024 rows".into()));
        assert_eq!(listed(&["a".into(), "b".into(), "c".into()]), "a, b and c");
    }

    #[test]
    fn a_long_list_is_cut_with_how_many_there_are() {
        let list = |count: usize| vec!["0x10"; count].join(",");
        assert_eq!(shortened(&list(12), "word"), list(12));
        assert_eq!(shortened(&list(13), "word"), format!("{},... (13 words)", list(12)));
        assert_eq!(shortened(&list(1_300), "word"), format!("{},... (1,300 words)", list(12)));
        assert!(shortened(&"ö".repeat(9_000), "swap").ends_with("ö,... (1 swap)"));
    }

    #[test]
    fn a_word_is_shown_as_it_can_be_seen() {
        assert_eq!(visible("größe \"it's\" \\ »"), "größe \"it's\" \\ »");
        assert_eq!(shown_name("gro\u{308}sse.txt"), "gro\u{308}sse.txt");
        assert_eq!(visible("a\u{200B}\t\u{FEFF}"), "a\\u{200b}\\t\\u{feff}");
        assert_eq!(visible(&"x".repeat(41)), format!("{}...", "x".repeat(40)));
    }

    #[test]
    fn a_problem_shows_its_line_and_its_column() {
        let problem = Problem::at(2, 3, "wrong")
            .advice("a slip")
            .refused(Refusal::BadSum(1))
            .excerpt(b"00\nab\x01\r\n");
        let lines: Vec<String> = problem.to_string().lines().map(String::from).collect();
        assert_eq!(lines[..3], ["line 2, column 3: wrong", "    ab.", "      ^"]);
        assert!(lines[3].starts_with("  refusal 3: "));
        assert_eq!(lines[4], "  look for: a slip");
    }
}
