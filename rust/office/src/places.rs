//! `places`: how many places of the stack a chart needs. The number is the library's; the chain or the circle of calls is
//! looked for here and held to it.

use fairleadow::{Answer, Library, Proved, Refusal};

use crate::calls::Calls;
use crate::kind::Kind;
use crate::plan::Plan;
use crate::problem::{counted, listed, Problem};
use crate::source::{self, Source};

/// How many places a chart needs, with a longest chain of calls, or why that cannot be told.
pub fn needed(bytes: &[u8]) -> Result<String, Problem> {
    told(&counted_by_library(bytes)?)
}

/// The names of the schemes of a longest chain of calls, each of which takes a place, or why there is none.
pub fn chain(bytes: &[u8]) -> Result<Vec<String>, Problem> {
    let plan = Plan::read(counted_by_library(bytes)?)?;
    match held(Proved.places(&plan.source.text), Calls::of(&plan.nodes))? {
        (Ok(_), Calls::Chain(schemes)) => Ok(named(&plan, &schemes)),
        (Err(refusal), _) => Err(plan.source.problem(refusal)),
        (Ok(places), Calls::Circle(_)) => Err(differ("a circle of calls is found", Ok(places))),
    }
}

/// The chart whose places the library counts, or why it does not.
fn counted_by_library(bytes: &[u8]) -> Result<Source, Problem> {
    if Kind::of(bytes) == Kind::Image {
        return Err(Problem::new("this is an image; the places needed are told of a chart, by the calls of its schemes")
            .advice("the chart that it was made of; `fairleadow fillings` tells of an image how often stacks of 1 to 32 places fill"));
    }
    let source = source::from_either(bytes)?;
    match Proved.places(&source.text) {
        Ok(_) => Ok(source),
        Err(refusal) => Err(source.problem(refusal)),
    }
}

/// What an accepted chart needs, in words.
pub fn told(source: &Source) -> Result<String, Problem> {
    of_plan(&Plan::read(source.clone())?)
}

fn of_plan(plan: &Plan) -> Result<String, Problem> {
    match held(Proved.places(&plan.source.text), Calls::of(&plan.nodes))? {
        (Ok(places), Calls::Chain(schemes)) => {
            Ok(format!("needs {}: {}", counted(places, "place"), named(plan, &schemes).join(" > ")))
        }
        (Err(Refusal::CallsItself), Calls::Circle(nodes)) => {
            Ok(format!("may need any number of places: {}", round(plan, &nodes)))
        }
        (Err(refusal), _) => Err(plan.source.problem(refusal)),
        (Ok(places), Calls::Circle(_)) => Err(differ("a circle of calls is found", Ok(places))),
    }
}

/// The library's answer with what is found here, or how they differ: a number of places needs a chain of as many schemes, and
/// refusal 20 a circle.
pub(crate) fn held(answer: Answer, calls: Calls) -> Result<(Answer, Calls), Problem> {
    let (found, agrees) = match (&calls, answer) {
        (Calls::Chain(schemes), Ok(places)) => {
            (format!("a chain of {} is found", counted(schemes.len(), "scheme")), schemes.len() == places)
        }
        (Calls::Chain(_), Err(refusal)) => {
            ("no circle of calls is found".to_string(), refusal != Refusal::CallsItself)
        }
        (Calls::Circle(_), answer) => ("a circle of calls is found".to_string(), answer.is_err()),
    };
    match agrees {
        true => Ok((answer, calls)),
        false => Err(differ(&found, answer)),
    }
}

fn differ(found: &str, answer: Answer) -> Problem {
    let answered = match answer {
        Ok(places) => format!("says {}", counted(places, "place")),
        Err(refusal) => format!("refuses with {}", refusal.number()),
    };
    Problem::internal(format!("{found}, and the library {answered}"))
}

fn named(plan: &Plan, schemes: &[u8]) -> Vec<String> {
    schemes.iter().map(|scheme| plan.names.scheme(*scheme)).collect()
}

/// A circle of calls by the names of its schemes.
fn round(plan: &Plan, nodes: &[usize]) -> String {
    let names: Vec<String> = nodes.iter().map(|node| plan.scheme_of(*node)).collect();
    match &names[..] {
        [] => String::new(),
        [one] => format!("{one} calls itself"),
        [first, others @ ..] => format!("{first} calls itself through {}", listed(others)),
    }
}

#[cfg(test)]
mod tests {
    use super::*;
    use crate::source::from_bytes;

    /// The places of one chart are not told with the calls of another.
    #[test]
    fn the_calls_told_are_held_to_the_places() {
        let read = |text: &[u8]| Plan::read(from_bytes(text)).expect("an accepted chart");
        let mut plan = read(include_bytes!("../../../examples/bore.chart"));
        assert_eq!(of_plan(&plan).as_deref(), Ok("needs 2 places: s1 > s2"));
        plan.nodes = read(include_bytes!("../../../examples/home.chart")).nodes;
        let told = "internal error: a chain of 1 scheme is found, and the library says 2 places";
        assert_eq!(of_plan(&plan).expect_err("they differ").words, told);
    }

    #[test]
    fn chains_and_circles_that_the_library_does_not_bear_out_are_told() {
        let (chain, circle) = (|| Calls::Chain(vec![1, 3]), || Calls::Circle(vec![4]));
        for (answer, calls) in
            [(Ok(2), chain()), (Err(Refusal::CallsItself), circle()), (Err(Refusal::ManyRows), chain())]
        {
            assert_eq!(held(answer, calls.clone()), Ok((answer, calls)));
        }
        for (answer, calls, told) in [
            (Ok(3), chain(), "a chain of 2 schemes is found, and the library says 3 places"),
            (Ok(1), chain(), "a chain of 2 schemes is found, and the library says 1 place"),
            (
                Err(Refusal::CallsItself),
                chain(),
                "no circle of calls is found, and the library refuses with 20",
            ),
            (Ok(2), circle(), "a circle of calls is found, and the library says 2 places"),
        ] {
            assert_eq!(
                held(answer, calls).expect_err("they differ").words,
                format!("internal error: {told}")
            );
        }
    }
}
