//! The names of a scenario looked up among those of a chart.

use std::iter;

use crate::chart::Node;
use crate::names::Names;
use crate::notation::{output, scheme, unknown, Word};
use crate::plan::Plan;
use crate::problem::{listed, thousands, Problem};
use crate::trace::words::{joined, number, MOST_WORDS};
use crate::trace::Happening;

use super::expected::code;
use super::statement::{self, Statement, SIGN_WORDS};
use super::{Code, Expected, Scenario, Sign, Span, Step, Swapped};

/// What the names of a scenario stand for: those of a chart, and its nodes where there is a chart.
#[derive(Clone, Copy)]
pub struct Vocabulary<'a> {
    pub names: &'a Names,
    pub plan: Option<&'a Plan>,
}

impl<'a> Vocabulary<'a> {
    pub fn of(plan: &'a Plan) -> Vocabulary<'a> {
        Vocabulary { names: &plan.names, plan: Some(plan) }
    }
}

/// The scenario of these statements.
pub fn resolved(
    statements: &[(usize, Statement)],
    text: &str,
    vocabulary: &Vocabulary,
) -> Result<Scenario, Problem> {
    let mut scenario = Scenario { places: None, steps: Vec::new(), text: text.to_string() };
    let (mut swaps, mut given, mut ticks): (Vec<Swapped>, Option<usize>, usize) = (Vec::new(), None, 0);
    for (line, statement) in statements {
        let line = *line;
        match statement {
            Statement::Places { column, .. } if given.is_some() || !scenario.steps.is_empty() => {
                let what = match given {
                    Some(before) => format!("the places are given already (line {before})"),
                    None => "the places are given before the first step".to_string(),
                };
                return Err(Problem::at(line, *column, what));
            }
            Statement::Places { places, .. } => (scenario.places, given) = (Some(*places), Some(line)),
            Statement::Swap { number, scheme } => swaps.push(Swapped {
                line,
                column: number.column,
                number: vocabulary.number(line, number)?,
                scheme: vocabulary.number(line, scheme)?,
            }),
            Statement::Step { word, span, expected } => {
                let step = vocabulary.step(line, word, span, expected, std::mem::take(&mut swaps))?;
                ticks += match step.span {
                    Span::Times(times) => times,
                    Span::Until { .. } => 1,
                };
                if ticks > MOST_WORDS {
                    return Err(too_long(line));
                }
                scenario.steps.push(step);
            }
        }
    }
    if let Some(swap) = swaps.first() {
        return Err(Problem::at(swap.line, swap.column, "no step follows this swap")
            .advice("the step before which it is made"));
    }
    match scenario.steps.is_empty() {
        true => Err(Problem::new("there is no step in it")
            .advice("a word on each line, such as 'wood * 3' or '-'; # before a comment")),
        false => Ok(scenario),
    }
}

/// Said of the step with which a run becomes too long.
pub fn too_long(line: usize) -> Problem {
    let most = thousands(MOST_WORDS);
    Problem::on(
        line,
        1,
        format!("line {line}: with this step there are more than {most} ticks, the most of a scenario"),
    )
}

impl Vocabulary<'_> {
    /// A number and a scheme that serves it are called alike.
    fn number(&self, line: usize, word: &Word) -> Result<usize, Problem> {
        word.text.parse().or_else(|_| self.scheme(line, word).map(usize::from))
    }

    fn scheme(&self, line: usize, word: &Word) -> Result<u8, Problem> {
        let known = self.names.schemes.values().map(String::as_str);
        scheme(self.names, &word.text).ok_or_else(|| unknown(line, word, "scheme", known))
    }

    fn output(&self, line: usize, word: &Word) -> Result<u8, Problem> {
        let known = self.names.operations.values().map(String::as_str);
        let advice = match self.names.operations.is_empty() {
            true if self.plan.is_none() => {
                "the names of the chart: --names CHART; without them outputs are y0 to y31"
            }
            true => "there are no names here: outputs are y0 to y31",
            false => "the names of the chart's outputs; those without a name are y0 to y31",
        };
        let told = || match SIGN_WORDS.contains(&word.text.as_str()) {
            true => Problem::at(line, word.column, format!("'{}', and no name after it", word.text)),
            false if self.plan.is_some_and(|plan| !named(plan, &word.text).is_empty()) => {
                let what = format!("no output is named '{0}', but a node is: write 'node {0}'", word.text);
                Problem::at(line, word.column, what)
            }
            false => unknown(line, word, "output", known).advice(advice),
        };
        output(self.names, &word.text).ok_or_else(told)
    }

    fn step(
        &self,
        line: usize,
        word: &[Word],
        span: &statement::Span,
        expected: &[(bool, statement::Sign)],
        swaps: Vec<Swapped>,
    ) -> Result<Step, Problem> {
        let sign = |sign| self.sign(line, sign);
        let span = match span {
            statement::Span::Times(times) => Span::Times(*times),
            statement::Span::Until { sign: until, most, column, .. } => {
                Span::Until { sign: sign(until)?, most: *most, column: *column }
            }
        };
        let expected: Result<Vec<Expected>, Problem> = expected
            .iter()
            .map(|(at_last, own)| Ok(Expected { at_last: *at_last, sign: sign(own)? }))
            .collect();
        Ok(Step { line, swaps, word: self.word(line, word)?, span, expected: expected? })
    }

    /// The word of a step: no condition, one number, or conditions by their names.
    fn word(&self, line: usize, words: &[Word]) -> Result<u16, Problem> {
        let at = |word: &Word, message: String| {
            let advice = match self.names.conditions.is_empty() {
                true if self.plan.is_none() => {
                    "the names of the chart: --names CHART; without them conditions are x0 to x15"
                }
                true => "there are no names here: conditions are x0 to x15",
                false => "the names of the chart's conditions; those without a name are x0 to x15",
            };
            let named = message.starts_with("no condition");
            let problem = Problem::at(line, word.column, message);
            if named {
                problem.advice(advice)
            } else {
                problem
            }
        };
        match words {
            [one] if one.text.starts_with(|first: char| first.is_ascii_digit()) => {
                number(&one.text).map_err(|message| at(one, message))
            }
            names => names.iter().try_fold(0, |word, name| {
                joined(word, &name.text, self.names).map_err(|message| at(name, message))
            }),
        }
    }

    fn sign(&self, line: usize, sign: &statement::Sign) -> Result<Sign, Problem> {
        Ok(match sign {
            statement::Sign::Output { name, on } => Sign::Output(self.output(line, name)?, *on),
            statement::Sign::Only(names) => {
                let mask = names.iter().try_fold(0, |mask, name| Ok(mask | 1 << self.output(line, name)?));
                Sign::Only(mask?)
            }
            statement::Sign::Node { name, scheme } => Sign::Node(self.node(line, name, scheme.as_ref())?),
            statement::Sign::Code { code, called } => Sign::Code(self.code(line, code, called.as_ref())?),
            statement::Sign::Refusal(number) => match number.text.as_str() {
                "17" => Sign::Refusal(17),
                "18" => Sign::Refusal(18),
                _ => {
                    let what =
                        format!("'{}', where 17 or 18 belongs, the refusals that end a run", number.shown());
                    return Err(Problem::at(line, number.column, what));
                }
            },
        })
    }

    fn code(&self, line: usize, word: &Word, scheme: Option<&Word>) -> Result<Code, Problem> {
        let meaning = match word.text.as_str() {
            "home" => Happening::Home,
            "plain" => Happening::Plain,
            "return" => Happening::Return,
            "drop" => Happening::Drop,
            "call" => Happening::Call(scheme.map_or(Ok(0), |scheme| self.scheme(line, scheme))?),
            digits => {
                let told = |message| Problem::at(line, word.column, message);
                return code(digits).map(Code::Number).map_err(told);
            }
        };
        Ok(Code::Meaning(meaning))
    }

    /// A node by its name, and its scheme where that is said; one that takes a tick.
    fn node(&self, line: usize, name: &Word, scheme: Option<&Word>) -> Result<usize, Problem> {
        let fault = |what: String| Problem::at(line, name.column, what);
        let Some(plan) = self.plan else {
            return Err(fault("an image has no nodes".to_string())
                .advice("the names of the chart that it was made of: --names CHART"));
        };
        let scheme = scheme.map(|word| self.scheme(line, word).map(|number| (number, word))).transpose()?;
        if let Some((number, word)) = scheme.filter(|(number, _)| *number > plan.schemes()) {
            let what = format!("there is no scheme {number}; the highest is {}", plan.schemes());
            return Err(Problem::at(line, word.column, what));
        }
        let found = named(plan, &name.text);
        let among = |found: &[usize]| -> Vec<usize> {
            let is_of =
                |at: &&usize| scheme.as_ref().is_none_or(|(number, _)| plan.nodes[**at].scheme() == *number);
            found.iter().filter(is_of).copied().collect()
        };
        match (&found[..], &among(&found)[..]) {
            ([], _) => {
                let known = plan.names.nodes.values().map(String::as_str).chain(iter::once("end"));
                let advice =
                    "the names of nodes as trace prints them; those without a name are n0, n1 and so on";
                Err(unknown(line, name, "node", known).advice(advice))
            }
            (_, [one]) if plan.marking.stops(*one) => Ok(*one),
            (_, [one]) => Err(no_tick(plan, *one, fault)),
            ([one, ..], []) => {
                Err(fault(format!("node {} belongs to scheme {}", name.text, plan.scheme_of(*one))))
            }
            (all, _) => {
                let each: Vec<String> =
                    all.iter().map(|at| format!("'{} of {}'", name.text, plan.scheme_of(*at))).collect();
                Err(fault(format!("each scheme has its own '{}'", name.text)).advice(listed(&each)))
            }
        }
    }
}

/// The nodes that a name stands for; `begin` and `end` stand for those of every scheme, whatever they are called.
fn named(plan: &Plan, name: &str) -> Vec<usize> {
    let all = 0..plan.nodes.len();
    match name {
        "begin" => all.filter(|at| matches!(plan.nodes[*at], Node::Begin { .. })).collect(),
        "end" => all.filter(|at| matches!(plan.nodes[*at], Node::End { .. })).collect(),
        _ => {
            let given: Vec<usize> =
                plan.names.nodes.iter().filter(|(_, own)| *own == name).map(|(at, _)| *at).collect();
            let numbered = || all.filter(|at| name == format!("n{at}")).collect();
            if given.is_empty() {
                numbered()
            } else {
                given
            }
        }
    }
}

/// Said of a node that is passed through in the tick before it.
fn no_tick(plan: &Plan, node: usize, fault: impl Fn(String) -> Problem) -> Problem {
    let title = plan.node_title(node);
    fault(format!("node {title} takes no tick of its own: it is passed through in the tick before it"))
        .advice("a box, a function or an End before or behind it")
}
