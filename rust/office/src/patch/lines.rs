//! The lines of a patch: `at LABEL when CONDITIONS go to LABEL`, and `remove at LABEL when CONDITIONS`.

use crate::image::Row;
use crate::notation::{condition, nearest, unknown, words, Word, Words};
use crate::other::{instead_of, Other};
use crate::problem::{Problem, LONE_RETURNS};
use crate::source::text_of;
use crate::subject::Subject;

/// What a line does with its row. A row that is set has the columns of the label that it goes to, and of the result that it asks for.
#[derive(Clone, Copy, Debug, PartialEq, Eq)]
pub enum Change {
    Set { to: usize, result: Option<usize> },
    Remove,
}

/// A line with its number, the column of the label that its row leaves, and the row; the next label of one that is removed is 0.
#[derive(Clone, Copy, Debug, PartialEq, Eq)]
pub struct Line {
    pub number: usize,
    pub from: usize,
    pub row: Row,
    pub change: Change,
}

/// All lines that say something, one at least, and the text that they stand in.
#[derive(Debug)]
pub struct Lines {
    pub lines: Vec<Line>,
    pub text: String,
}

/// What a line looks like.
const FORM: &str =
    "lines such as 'at 4 when x2 and not x6 go to 5', or 'remove at 4 when x2'; # before a comment";

impl Lines {
    /// From the bytes of a file, with labels and conditions by the names of what is patched.
    pub fn read(subject: &Subject, bytes: &[u8]) -> Result<Lines, Problem> {
        let text = text_of(bytes)?;
        let text = text.strip_prefix('\u{FEFF}').unwrap_or(text);
        let mut lines = Vec::new();
        for (at, line) in text.lines().enumerate() {
            match read_line(subject, at + 1, line) {
                Ok(line) => lines.extend(line),
                Err(problem) => {
                    // a file of another kind has no line of a patch at all
                    let kind = instead_of(Other::Patch, bytes).filter(|_| lines.is_empty());
                    let told = problem.excerpt(text.as_bytes());
                    return Err(kind.map_or(told, another_kind));
                }
            }
        }
        match lines.is_empty() {
            true => Err(Problem::new("there is no line of a patch in it").advice(FORM)),
            false => Ok(Lines { lines, text: text.to_string() }),
        }
    }
}

fn another_kind(kind: &str) -> Problem {
    Problem::new(format!("this is {kind}; a patch belongs here")).advice(FORM)
}

fn read_line(subject: &Subject, number: usize, line: &str) -> Result<Option<Line>, Problem> {
    if let Some((before, _)) = line.trim_end_matches('\r').split_once('\r') {
        let what = "a carriage return within the line";
        return Err(Problem::at(number, before.chars().count() + 1, what).advice(LONE_RETURNS));
    }
    let words = words(line);
    if words.words.is_empty() {
        return Ok(None);
    }
    Reader { subject, words: &words, at: 0, number }.line().map(Some)
}

struct Reader<'a> {
    subject: &'a Subject,
    words: &'a Words,
    at: usize,
    number: usize,
}

/// What a row asks for.
#[derive(Default)]
struct Asked {
    care: u16,
    values: u16,
    result: Option<(u8, usize)>,
}

impl Reader<'_> {
    fn word(&self) -> Option<&Word> {
        self.words.words.get(self.at)
    }

    /// Takes this word if it comes next.
    fn take(&mut self, text: &str) -> bool {
        let taken = self.word().is_some_and(|word| word.text == text);
        self.at += usize::from(taken);
        taken
    }

    /// Says what belongs at the place reached.
    fn wanted(&self, what: &str) -> Problem {
        let told = match self.word() {
            Some(word) => {
                let stands = format!("'{}', where {what} belongs", word.shown());
                Problem::at(self.number, word.column, stands)
            }
            None => Problem::at(self.number, self.words.end, format!("the line ends, where {what} belongs")),
        };
        told.advice(FORM)
    }

    fn expect(&mut self, text: &str) -> Result<(), Problem> {
        match self.take(text) {
            true => Ok(()),
            false => Err(self.wanted(&format!("'{text}'"))),
        }
    }

    fn line(&mut self) -> Result<Line, Problem> {
        let removes = self.take("remove");
        if !self.take("at") {
            return Err(self.wanted(if removes { "'at'" } else { "'at' or 'remove'" }));
        }
        let (from, column) = self.label(1)?;
        let asked = if self.take("when") { self.asked()? } else { Asked::default() };
        let Asked { care, values, result } = asked;
        let row = Row { from, care, values, result: result.map_or(2, |(bit, _)| bit), next: 0 };
        let (row, change) = match removes {
            true => (row, Change::Remove),
            false => {
                if !self.take("go") {
                    return Err(self.wanted(if care == 0 && result.is_none() {
                        "'when' or 'go to'"
                    } else {
                        "'and' or 'go to'"
                    }));
                }
                self.expect("to")?;
                let labels = self.subject.image.labels();
                let owner = if usize::from(from) < labels { self.subject.image.label(from).owner } else { 1 };
                let (next, to) = self.label(owner)?;
                (Row { next, ..row }, Change::Set { to, result: result.map(|(_, column)| column) })
            }
        };
        match self.word() {
            None => Ok(Line { number: self.number, from: column, row, change }),
            Some(_) if removes && care == 0 && result.is_none() => {
                Err(self.wanted("'when' or the end of the line"))
            }
            Some(_) if removes => Err(self.wanted("'and' or the end of the line")),
            Some(_) => Err(self.wanted("the end of the line")),
        }
    }

    /// A label by its number or its name, and its column; `end` is that of this scheme.
    fn label(&mut self, scheme: u8) -> Result<(u8, usize), Problem> {
        let what = "the number of a label, or its name,";
        let Some(word) = self.word().cloned() else { return Err(self.wanted(what)) };
        if !word.is_letters() {
            return Err(self.wanted(what));
        }
        match self.subject.labelled(&word.text, scheme) {
            Some(label) => {
                self.at += 1;
                Ok((label, word.column))
            }
            None => Err(self.no_label(&word)),
        }
    }

    fn no_label(&self, word: &Word) -> Problem {
        let highest = self.subject.image.labels() - 1;
        if word.text.starts_with(|first: char| first.is_ascii_digit()) {
            let what = format!("there is no label {}: the highest label is {highest}", word.shown());
            return Problem::at(self.number, word.column, what)
                .advice("labels as `fairleadow show` lists them");
        }
        let names: Vec<String> = (2..=highest).filter_map(|label| self.subject.name(label as u8)).collect();
        let advice = match names.is_empty() {
            true => "labels by their numbers; names come from a chart, by --names",
            false => "names of nodes that take a tick and have a name; others are written by the number of their label",
        };
        unknown(self.number, word, "label", names.iter().map(String::as_str)).advice(advice)
    }

    /// Conditions and a result, each once.
    fn asked(&mut self) -> Result<Asked, Problem> {
        let mut asked = Asked::default();
        loop {
            self.part(&mut asked)?;
            if !self.take("and") {
                return Ok(asked);
            }
        }
    }

    fn part(&mut self, asked: &mut Asked) -> Result<(), Problem> {
        let bit = self.words.words.get(self.at + 1).and_then(|next| match next.text.as_str() {
            "0" => Some(0),
            "1" => Some(1),
            _ => None,
        });
        if let (Some(word), Some(bit)) = (self.word().filter(|word| word.text == "result"), bit) {
            let (text, column) = (word.text.clone(), word.column);
            if asked.result.is_some() {
                return Err(self.again(&text, column));
            }
            asked.result = Some((bit, column));
            self.at += 2;
            return Ok(());
        }
        let value = !self.take("not");
        let what = "a condition, 'not' and a condition, or 'result 0' or 'result 1',";
        let Some(word) = self.word().filter(|word| word.is_name()).cloned() else {
            return Err(self.wanted(what));
        };
        let names = self.subject.names();
        let Some(number) = condition(names, &word.text) else {
            let near = nearest(&word.text, ["result"].into_iter())
                .map_or("the names of conditions; those without a name are x0 to x15", |_| {
                    "'result 0' or 'result 1', of the scheme that a function calls"
                });
            let known = names.conditions.values().map(String::as_str);
            return Err(unknown(self.number, &word, "condition", known).advice(near));
        };
        if asked.care >> number & 1 == 1 {
            return Err(self.again(&word.text, word.column));
        }
        asked.care |= 1 << number;
        asked.values |= u16::from(value) << number;
        self.at += 1;
        Ok(())
    }

    fn again(&self, word: &str, column: usize) -> Problem {
        let what = format!("'{word}' stands twice");
        Problem::at(self.number, column, what)
            .advice("a row asks for each condition once, as 1 or, after 'not', as 0")
    }
}
