//! One line of a scenario as a statement, its names not yet looked up.

use crate::notation::{Reader, Word};
use crate::problem::Problem;

use super::UNTIL;
use crate::notation::Words;
use crate::trace::words::{times, MOST_WORDS, NO_CONDITION};

#[derive(Clone, Debug, PartialEq, Eq)]
pub enum Statement {
    Places {
        places: usize,
        column: usize,
    },
    Swap {
        number: Word,
        scheme: Word,
    },
    /// The names of the conditions that are 1, or one number, or no word at all.
    Step {
        word: Vec<Word>,
        span: Span,
        expected: Vec<(bool, Sign)>,
    },
}

#[derive(Clone, Debug, PartialEq, Eq)]
pub enum Span {
    Times(usize),
    /// With a limit that stands there, or without.
    Until {
        sign: Sign,
        most: usize,
        limited: bool,
        column: usize,
    },
}

/// What a tick can show, by its names.
#[derive(Clone, Debug, PartialEq, Eq)]
pub enum Sign {
    Output {
        name: Word,
        on: bool,
    },
    /// These outputs and no other.
    Only(Vec<Word>),
    Node {
        name: Word,
        scheme: Option<Word>,
    },
    /// A code by what it stands for, with the scheme called, or by its number.
    Code {
        code: Word,
        called: Option<Word>,
    },
    Refusal(Word),
}

impl Sign {
    /// What kind of sign it is.
    fn noun(&self) -> &'static str {
        match self {
            Sign::Output { .. } => "an output that is off",
            Sign::Only(_) => "some outputs",
            Sign::Node { .. } => "a node",
            Sign::Code { .. } => "a code",
            Sign::Refusal(_) => "a refusal",
        }
    }
}

/// The words that say what sign follows.
pub const SIGN_WORDS: [&str; 5] = ["not", "output", "node", "code", "refusal"];

/// The signs between the words of a step.
const SIGNS: [&str; 5] = ["+", "*", "=", ",", ";"];

/// The statement of a line; none where the line has a comment or nothing at all.
pub fn statement(words: &Words, line: usize) -> Result<Option<Statement>, Problem> {
    let mut reader = Reader::of(words, line);
    if reader.peek().is_none() {
        return Ok(None);
    }
    reader.names(&SIGNS)?;
    let statement = reader.scenario_line()?;
    reader.finished()?;
    Ok(Some(statement))
}

impl Reader<'_> {
    /// The word or sign after so many others.
    fn ahead(&self, count: usize) -> Option<&Word> {
        self.words.get(self.at + count)
    }

    fn is_ahead(&self, count: usize, text: &str) -> bool {
        self.ahead(count).is_some_and(|word| word.text == text)
    }

    /// Whether what follows is said of the last tick of a step.
    fn is_at_last(&self) -> bool {
        self.is_ahead(0, "at") && self.is_ahead(1, "last")
    }

    /// Whether a name or a number follows after so many words.
    fn letters_ahead(&self, count: usize) -> bool {
        self.ahead(count).is_some_and(Word::is_letters)
    }

    /// Takes a word that has letters or digits.
    fn letters(&mut self, what: &str) -> Result<Word, Problem> {
        match self.ahead(0) {
            Some(word) if word.is_letters() => {
                let word = word.clone();
                self.at += 1;
                Ok(word)
            }
            _ => Err(self.wanted(what)),
        }
    }

    fn scenario_line(&mut self) -> Result<Statement, Problem> {
        // a condition may be called so too: no name follows it
        let follows = self.letters_ahead(1) && (!self.is_ahead(1, "until") || self.is_ahead(2, "="));
        match self.peek() {
            Some("places") if follows => self.stack(),
            Some("swap") if follows => self.swap(),
            _ => self.step_line(),
        }
    }

    fn swap(&mut self) -> Result<Statement, Problem> {
        self.at += 1;
        let number = self.letters("the name or the number of a scheme")?;
        self.expect("=")?;
        Ok(Statement::Swap { number, scheme: self.letters("the name or the number of a scheme")? })
    }

    fn stack(&mut self) -> Result<Statement, Problem> {
        self.at += 1;
        let column = self.words[self.at].column;
        let places = self.peek().and_then(|text| text.parse().ok());
        match places.filter(|places| (1..=fairleadow::PLACES).contains(places)) {
            Some(places) => {
                self.at += 1;
                Ok(Statement::Places { places, column })
            }
            None => Err(self.wanted(&format!("a number of places from 1 to {}", fairleadow::PLACES))),
        }
    }

    fn step_line(&mut self) -> Result<Statement, Problem> {
        let word = self.conditions()?;
        let mut wanted = "'+', '*', 'until', ';' or the end of the line";
        let named = self.at;
        let span = self.span()?;
        if self.at > named {
            wanted = match span {
                Span::Until { limited: false, .. } => "'at most', ';' or the end of the line",
                _ => "';' or the end of the line",
            };
        }
        let mut expected = Vec::new();
        while self.take(";") {
            self.expect("expect")?;
            let mut at_last = false;
            loop {
                let begins = self.is_at_last();
                at_last |= begins;
                self.at += 2 * usize::from(begins);
                expected.extend(self.signs()?.into_iter().map(|sign| (at_last, sign)));
                if !self.is_at_last() {
                    break;
                }
            }
            wanted = "',', ';' or the end of the line";
        }
        match self.peek() {
            None => Ok(Statement::Step { word, span, expected }),
            Some(",") if self.at == named => {
                let column = self.words[self.at].column;
                let what = "',' after a word: a step stands on a line of its own";
                Err(Problem::at(self.line, column, what).advice("a line for each word"))
            }
            Some("expect") => {
                let column = self.words[self.at].column;
                Err(Problem::at(self.line, column, "'expect' without a ';' before it"))
            }
            Some(_) => Err(self.wanted(wanted)),
        }
    }

    /// What stands for the word.
    fn conditions(&mut self) -> Result<Vec<Word>, Problem> {
        if self.take(NO_CONDITION) {
            return Ok(Vec::new());
        }
        let mut names = vec![self.letters("a word (names of conditions, a number, or - for none)")?];
        while self.take("+") {
            names.push(self.letters("the name of a condition")?);
        }
        Ok(names)
    }

    fn span(&mut self) -> Result<Span, Problem> {
        if self.take("*") {
            return self.count().map(Span::Times);
        }
        if !self.take("until") {
            return Ok(Span::Times(1));
        }
        let column = self.ahead(0).map_or(1, |word| word.column);
        let sign = self.awaited()?;
        let limited = self.take("at");
        let most = match limited {
            true => self.expect("most").and_then(|()| self.count())?,
            false => UNTIL,
        };
        Ok(Span::Until { sign, most, limited, column })
    }

    /// The one sign that a step waits for.
    fn awaited(&mut self) -> Result<Sign, Problem> {
        if self.take("nothing") {
            return Ok(Sign::Only(Vec::new()));
        }
        if self.is_ahead(0, "only") && self.letters_ahead(1) {
            self.at += 1;
            return Ok(Sign::Only(vec![self.letters("the name of an output")?]));
        }
        self.sign("output, not, only, nothing, node, code, refusal")
    }

    /// How many ticks.
    fn count(&mut self) -> Result<usize, Problem> {
        let count = self.peek().and_then(|text| times(text).ok());
        self.at += usize::from(count.is_some());
        count.ok_or_else(|| self.wanted(&format!("a number from 1 to {MOST_WORDS}")))
    }

    /// Signs with commas between them, up to what is said of the last tick. With `only` before an output those named are all that may
    /// be on, and with `nothing` none is.
    fn signs(&mut self) -> Result<Vec<Sign>, Problem> {
        let (mut signs, mut outputs, mut only, mut nothing) = (Vec::new(), Vec::new(), false, None);
        loop {
            let is_only = self.is_ahead(0, "only") && self.letters_ahead(1);
            only |= is_only;
            self.at += usize::from(is_only);
            let column = self.ahead(0).map(|word| word.column);
            if self.take("nothing") {
                nothing = column;
            } else {
                match self.sign("not, only, nothing, node, code, refusal")? {
                    Sign::Output { name, on: true } => outputs.push(name),
                    sign if is_only => {
                        let what =
                            format!("{} after 'only', where the name of an output belongs", sign.noun());
                        return Err(Problem::at(self.line, column.unwrap_or(1), what));
                    }
                    sign => signs.push(sign),
                }
            }
            if !self.take(",") || self.is_at_last() {
                break;
            }
        }
        match nothing {
            Some(column) if !outputs.is_empty() => {
                Err(Problem::at(self.line, column, "'nothing' beside an output that is to be on"))
            }
            None if !only => {
                Ok(outputs.into_iter().map(|name| Sign::Output { name, on: true }).chain(signs).collect())
            }
            _ => Ok([Sign::Only(outputs)].into_iter().chain(signs).collect()),
        }
    }

    /// What a tick can show. A word that says what follows is one only where a name follows, so an output may be called so.
    fn sign(&mut self, others: &str) -> Result<Sign, Problem> {
        let keyword = self.peek().filter(|_| self.letters_ahead(1)).map(String::from);
        let follows = SIGN_WORDS.iter().find(|word| keyword.as_deref() == Some(word));
        self.at += usize::from(follows.is_some());
        match follows {
            Some(&"not") => {
                let named = self.is_ahead(0, "output") && self.letters_ahead(1);
                self.at += usize::from(named);
                Ok(Sign::Output { name: self.letters("the name of an output")?, on: false })
            }
            Some(&"output") => Ok(Sign::Output { name: self.letters("the name of an output")?, on: true }),
            Some(&"node") => {
                let name = self.letters("the name of a node")?;
                let scheme = self.take("of").then(|| self.letters("the name of a scheme")).transpose()?;
                Ok(Sign::Node { name, scheme })
            }
            Some(&"code") => {
                let code = self.letters("a code")?;
                let called =
                    (code.text == "call").then(|| self.letters("the name of a scheme")).transpose()?;
                Ok(Sign::Code { code, called })
            }
            Some(_) => Ok(Sign::Refusal(self.letters("the number of a refusal")?)),
            None => {
                let what = format!("the name of an output, or one of: {others},");
                Ok(Sign::Output { name: self.letters(&what)?, on: true })
            }
        }
    }
}
