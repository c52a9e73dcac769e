//! One line of the notation as a statement, its names not yet looked up.

use crate::problem::{counted, visible, Problem};

use super::words::{Word, Words, LONGEST_NAME};
use super::{InterlockKind, WHEN_FULL};

#[derive(Clone, Debug, PartialEq, Eq)]
pub enum Statement {
    Condition { number: u8, name: Word },
    Output { number: u8, name: Word },
    Scheme { number: u8, name: Option<Word> },
    Interlock { column: usize, kind: InterlockKind, first: Word, second: Word },
    Node { label: Option<Word>, step: Step },
}

/// The first words of what a node does.
const STEPS: [&str; 6] = ["begin", "end", "do", "write", "call", "if"];

/// What belongs where an output is named.
const OUTPUT_NAME: &str = "the name of an output";

/// The signs between words.
const SIGNS: [&str; 4] = [":", ",", ";", "->"];

/// What a node does.
#[derive(Clone, Debug, PartialEq, Eq)]
pub enum Step {
    Begin { handler: bool, next: Word },
    End,
    Operation { outputs: Vec<Word>, result: u8, called: Option<Word>, next: Word },
    Condition { tested: Word, on1: Word, on0: Word },
    Function { called: Word, on1: Word, on0: Word },
}

/// The statement of a line; none where the line has a comment or nothing at all.
pub fn statement(words: &Words, line: usize) -> Result<Option<Statement>, Problem> {
    let mut reader = Reader::of(words, line);
    if reader.peek().is_none() {
        return Ok(None);
    }
    reader.names(&SIGNS)?;
    let statement = reader.statement()?;
    reader.finished()?;
    Ok(Some(statement))
}

/// The words of a line, taken one after the other.
pub(crate) struct Reader<'a> {
    pub words: &'a [Word],
    pub at: usize,
    pub line: usize,
    end: usize,
}

impl<'a> Reader<'a> {
    pub fn of(words: &'a Words, line: usize) -> Reader<'a> {
        Reader { words: &words.words, at: 0, line, end: words.end }
    }
}

impl Reader<'_> {
    pub fn peek(&self) -> Option<&str> {
        self.words.get(self.at).map(|word| word.text.as_str())
    }

    /// Refused where a sign that is none of these joins two words, as in a name that has a hyphen.
    pub fn names(&self, signs: &[&str]) -> Result<(), Problem> {
        let joins = |before: &Word, after: &Word| before.column + before.text.chars().count() == after.column;
        let is_name = |[before, sign, after]: &[&Word; 3]| {
            let known = signs.contains(&sign.text.as_str());
            !known && before.is_letters() && after.is_letters() && joins(before, sign) && joins(sign, after)
        };
        let triples = self.words.windows(3).map(|words| [&words[0], &words[1], &words[2]]);
        match triples.into_iter().find(is_name) {
            None => Ok(()),
            Some([before, sign, after]) => {
                let name = format!("{}{}{}", before.text, sign.text, after.text);
                let what = format!("'{}' is no name: a name is letters, digits and _", visible(&name));
                Err(Problem::at(self.line, before.column, what))
            }
        }
    }

    /// Says what belongs at the place reached.
    pub fn wanted(&self, what: &str) -> Problem {
        match self.words.get(self.at) {
            Some(word) => {
                Problem::at(self.line, word.column, format!("'{}', where {what} belongs", word.shown()))
            }
            None => Problem::at(self.line, self.end, format!("the line ends, where {what} belongs")),
        }
    }

    /// Takes this word if it comes next.
    pub fn take(&mut self, text: &str) -> bool {
        let taken = self.peek() == Some(text);
        self.at += usize::from(taken);
        taken
    }

    pub fn expect(&mut self, text: &str) -> Result<(), Problem> {
        if self.take(text) {
            Ok(())
        } else {
            Err(self.wanted(&format!("'{text}'")))
        }
    }

    pub fn name(&mut self, what: &str) -> Result<Word, Problem> {
        match self.words.get(self.at) {
            Some(word) if word.is_name() => {
                self.fits(word)?;
                self.at += 1;
                Ok(word.clone())
            }
            _ => Err(self.wanted(what)),
        }
    }

    /// Refused where a name is longer than any may be.
    fn fits(&self, name: &Word) -> Result<(), Problem> {
        let length = name.text.chars().count();
        if length <= LONGEST_NAME {
            return Ok(());
        }
        let has = counted(length, "character");
        let what = format!("the name '{}' has {has}, and {LONGEST_NAME} are the most", name.shown());
        Err(Problem::at(self.line, name.column, what).advice("a shorter name; a space or a sign lost in it"))
    }

    /// A node that an arc leads to: its name, or the word for the End of its scheme.
    fn target(&mut self) -> Result<Word, Problem> {
        match self.words.get(self.at) {
            Some(word) if word.text == "end" => {
                self.at += 1;
                Ok(word.clone())
            }
            _ => self.name("the name of a node, or 'end',"),
        }
    }

    fn number(&mut self, low: u8, high: u8) -> Result<u8, Problem> {
        let number = self.peek().and_then(|text| text.parse().ok());
        match number.filter(|number| (low..=high).contains(number)) {
            Some(number) => {
                self.at += 1;
                Ok(number)
            }
            None => Err(self.wanted(&format!("a number from {low} to {high}"))),
        }
    }

    pub fn finished(&self) -> Result<(), Problem> {
        match self.words.get(self.at) {
            None => Ok(()),
            Some(word) => {
                let what = format!("'{}' after the end of the statement", word.shown());
                Err(Problem::at(self.line, word.column, what)
                    .advice("one statement a line; a comment begins with #"))
            }
        }
    }

    fn statement(&mut self) -> Result<Statement, Problem> {
        if self.take("condition") {
            Ok(Statement::Condition { number: self.number(0, 15)?, name: self.name("a name")? })
        } else if self.take("output") {
            Ok(Statement::Output { number: self.number(0, 31)?, name: self.name("a name")? })
        } else if self.take("scheme") {
            let number = self.number(1, 16)?;
            let name = if self.peek().is_some() { Some(self.name("a name")?) } else { None };
            Ok(Statement::Scheme { number, name })
        } else {
            match self.interlock()? {
                Some(interlock) => Ok(interlock),
                None => self.node(),
            }
        }
    }

    /// What outputs must not do; a node may be called by the first word of it.
    fn interlock(&mut self) -> Result<Option<Statement>, Problem> {
        let second = self.words.get(self.at + 1).map_or("", |word| word.text.as_str());
        let kind = match self.peek() {
            _ if second == ":" => None,
            _ if second == "only" => Some(InterlockKind::After),
            Some("never") => Some(InterlockKind::Never),
            Some("always") => Some(InterlockKind::Always),
            _ => None,
        };
        let Some(kind) = kind else { return Ok(None) };
        let column = self.words[self.at].column;
        self.at += usize::from(kind != InterlockKind::After);
        let first = self.name(OUTPUT_NAME)?;
        kind.between().split(' ').try_for_each(|word| self.expect(word))?;
        let second = self.name(OUTPUT_NAME)?;
        Ok(Some(Statement::Interlock { column, kind, first, second }))
    }

    fn node(&mut self) -> Result<Statement, Problem> {
        let labelled = self.words.get(self.at + 1).is_some_and(|word| word.text == ":");
        let label = if labelled { Some(self.name("a name")?) } else { None };
        self.at += usize::from(labelled);
        let start = self.at;
        let without_colon = label.is_none()
            && self.words[start].is_name()
            && self.words.get(start + 1).is_some_and(|word| STEPS.contains(&word.text.as_str()));
        if without_colon {
            self.at += 1;
            return Err(self.wanted("':'"));
        }
        let step = self.step(label.is_some())?;
        if label.is_none() && !matches!(step, Step::Begin { .. } | Step::End) {
            self.at = start;
            return Err(self.wanted("a name for this node and a colon"));
        }
        Ok(Statement::Node { label, step })
    }

    fn step(&mut self, labelled: bool) -> Result<Step, Problem> {
        match self.peek() {
            Some("begin") => {
                self.expect("begin")?;
                Ok(Step::Begin { handler: self.when_full()?, next: self.arrow()? })
            }
            Some("end") => {
                self.expect("end")?;
                Ok(Step::End)
            }
            Some("if") => self.choice(),
            Some("do" | "write" | "call") => self.operation(),
            _ if labelled => Err(self.wanted(&format!("one of: {}", STEPS.join(", ")))),
            _ => Err(self.wanted(
                "a name and a colon, or one of: begin, end, condition, output, scheme, never, always,",
            )),
        }
    }

    /// Whether this Begin is the handler's: after the first of those words all of them belong there.
    fn when_full(&mut self) -> Result<bool, Problem> {
        let handler = self.peek() == WHEN_FULL.split(' ').next();
        if handler {
            WHEN_FULL.split(' ').try_for_each(|word| self.expect(word))?;
        }
        Ok(handler)
    }

    fn arrow(&mut self) -> Result<Word, Problem> {
        self.expect("->")?;
        self.target()
    }

    fn choice(&mut self) -> Result<Step, Problem> {
        self.expect("if")?;
        let function = self.take("call");
        let tested =
            self.name(if function { "the name of a scheme" } else { "the name of a condition, or 'call'," })?;
        self.expect("then")?;
        let on1 = self.target()?;
        self.expect("else")?;
        let on0 = self.target()?;
        Ok(if function {
            Step::Function { called: tested, on1, on0 }
        } else {
            Step::Condition { tested, on1, on0 }
        })
    }

    /// Parts of an operation in any order, each at most once.
    fn operation(&mut self) -> Result<Step, Problem> {
        let (mut outputs, mut result, mut called) = (None, None, None);
        loop {
            match self.peek() {
                Some("do") if outputs.is_none() => outputs = Some(self.outputs()?),
                Some("write") if result.is_none() => result = Some(self.result()?),
                Some("call") if called.is_none() => called = Some(self.called()?),
                _ => return Err(self.wanted("one of: do, write, call, each once,")),
            }
            if !self.take(";") {
                break;
            }
        }
        let next = self.arrow()?;
        Ok(Step::Operation {
            outputs: outputs.unwrap_or_default(),
            result: result.unwrap_or(0),
            called,
            next,
        })
    }

    fn outputs(&mut self) -> Result<Vec<Word>, Problem> {
        self.expect("do")?;
        if self.take("nothing") {
            return Ok(Vec::new());
        }
        let mut outputs: Vec<Word> = Vec::new();
        loop {
            outputs.push(self.name("the name of an output, or 'nothing',")?);
            if !self.take(",") {
                return Ok(outputs);
            }
        }
    }

    /// The result field: 1 writes 0, 2 writes 1.
    fn result(&mut self) -> Result<u8, Problem> {
        self.expect("write")?;
        Ok(self.number(0, 1)? + 1)
    }

    fn called(&mut self) -> Result<Word, Problem> {
        self.expect("call")?;
        self.name("the name of a scheme")
    }
}
