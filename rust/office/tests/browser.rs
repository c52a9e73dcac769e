//! Pages in a browser: each is opened at some ticks, and stepped by its keys, slider, buttons, rows and nodes; what is
//! lit then is held against the trace. Where dot or the browser is missing it says so in one line and tries nothing.

mod shared;

use std::collections::BTreeMap;
use std::path::PathBuf;

use office::draw::{arc_id, call_id, node_id};
use office::plan::Plan;
use office::source::load;
use office::trace::words::Words;
use office::trace::{swaps, trace, Happening, Opened, Tick, Trace};
use shared::browser::{dom, folder, found};
use shared::{example, run};

/// Steps a page and notes what is lit after each step.
const DRIVER: &str = include_str!("driver.js");

fn main() {
    let browser = match found() {
        Ok(browser) => browser,
        Err(missing) => return println!("browser test left out: {missing}"),
    };
    for (chart, places, words, ticks, swaps) in [
        ("roughing.txt", "32", "random:1", "64", None),
        ("bore.txt", "2", "count", "40", None),
        ("finishing.chart", "32", "0,2,0x12", "30", None),
        // nothing to look for
        ("home.chart", "1", "0", "20", None),
        ("paper.chart", "6", "1", "20", None),
        // refused at a node that no tick took
        ("paper.chart", "2", "random:1", "20", None),
        ("full_stack.txt", "2", "0,0,4,4,4,0,0", "30", None),
        ("swapped.txt", "32", "0,0,4,0,0,0,0,0,0,0,4,4,4,0,0,0,0", "40", Some("0:2=3,20:2=2")),
    ] {
        let case = Case::make(chart, places, words, ticks, swaps);
        case.opens(browser);
        case.steps(browser);
        println!("page of {chart} in {browser}: {} ticks as traced", case.trace.ticks.len());
    }
}

/// A page that the program wrote, and the trace that it shows.
struct Case {
    page: PathBuf,
    plan: Plan,
    trace: Trace,
}

impl Case {
    fn make(chart: &str, places: &str, words: &str, ticks: &str, swaps: Option<&str>) -> Case {
        let page = folder().join(format!("{chart}.html"));
        let (path, file) = (example(chart), page.to_string_lossy());
        let mut args =
            vec!["page", &path, "--places", places, "--words", words, "--ticks", ticks, "-o", &file];
        args.extend(swaps.into_iter().flat_map(|swaps| ["--swap", swaps]));
        let made = run(&args);
        let plan = load(&path).and_then(Plan::read).expect("an accepted chart");
        let words =
            Words::given(words, &plan.names).expect("words").take(Some(ticks.parse().expect("a number")));
        let swaps =
            swaps.map_or(Vec::new(), |text| swaps::given(text, words.len(), &plan.names).expect("swaps"));
        let places = places.parse().expect("a number");
        let trace = trace(&plan, places, &words, &swaps).expect("an accepted chart");
        assert_eq!(made.status, i32::from(trace.stopped.is_some()), "{}", made.said);
        Case { page, plan, trace }
    }

    /// The page as it was written, opened at a tick.
    fn opens(&self, browser: &str) {
        for tick in [5, self.last()] {
            let dom = dom(browser, &self.page, &format!("#tick={tick}"));
            let node = self.stack(tick)[0].clone();
            let body = dom.split("<body").nth(1).and_then(|rest| rest.split('>').next()).expect("a body");
            assert!(body.contains(&format!("data-tick=\"{tick}\"")), "{body}");
            assert!(body.contains(&format!("data-node=\"{node}\"")), "{body}");
            assert_eq!(lit(&dom), [node], "tick {tick}");
        }
    }

    /// A copy of the page with the driver, which steps it.
    fn steps(&self, browser: &str) {
        let page = std::fs::read_to_string(&self.page).expect("the page");
        let driven = page.replace("</body>", &format!("<script>\n{DRIVER}</script>\n</body>"));
        let copy = self.page.with_extension("driven.html");
        std::fs::write(&copy, driven).expect("a folder that can be written");
        let dom = dom(browser, &copy, "");
        let log = between(&dom, "<pre id=\"log\">", "</pre>");
        let seen: Vec<&str> = log.lines().collect();
        let expected: Vec<String> = self.sequence().iter().map(|tick| self.expected(*tick)).collect();
        for (step, (seen, expected)) in seen.iter().zip(&expected).enumerate() {
            assert_eq!(seen, expected, "step {step} of {}", copy.display());
        }
        assert_eq!(seen.len(), expected.len());
        self.found(between(&dom, "<pre id=\"found\">", "</pre>"));
    }

    /// What the driver found: keys that are left alone, what can be reached by keys, and the faintest text.
    fn found(&self, found: &str) {
        let value = |name: &str| {
            let line = found.lines().find_map(|line| line.strip_prefix(name)?.strip_prefix('='));
            line.unwrap_or_else(|| panic!("{name} in {found}"))
        };
        assert_eq!(value("prevented"), "", "keys that are the document's");
        assert_eq!(value("typed"), "2", "a key in a field that is typed in");
        assert_eq!(value("entered"), "3", "a row by Enter");
        assert_eq!(value("field"), "4", "the tick of the field");
        assert_eq!(value("past"), format!("{0} {0}", self.last()), "a tick past the last one");
        assert_eq!(value("spaces"), "pre-wrap", "lines with spaces before them");
        let with =
            |output: &str, tick: &Tick| self.plan.operations(tick.mask).iter().any(|own| own == output);
        let sought: Vec<String> =
            found.lines().filter_map(|line| line.strip_prefix("sought=").map(String::from)).collect();
        assert_eq!(sought, self.searches());
        if sought.is_empty() {
            assert_eq!(value("lost"), "true|true|no tick calls or puts anything out|2");
        }
        for line in found.lines().filter_map(|line| line.strip_prefix("line=")) {
            let (output, ticks) = line.split_once(' ').expect("ticks");
            let on = self.trace.ticks.iter().enumerate().filter(|(_, tick)| with(output, tick));
            let on: Vec<String> = on.map(|(number, _)| number.to_string()).collect();
            assert_eq!(ticks, on.join(","), "{output}");
        }
        let outputs = sought.iter().filter(|search| search.starts_with("tick with ")).count();
        assert_eq!(found.matches("\nline=").count(), outputs);
        assert_eq!(value("graph"), if outputs == 0 { "no output is on in any tick" } else { "" });
        assert!(
            value("why").starts_with("it left node ") || value("why").contains(" takes no row; "),
            "{}",
            value("why")
        );
        assert_eq!(value("reached"), (self.last() + 1 + self.plan.nodes.len()).to_string());
        assert_eq!(value("unnamed"), "0", "what can be reached and has no name");
        assert_eq!(value("fixed"), "0", "refusals that stay where the page scrolls");
        let faintest: f64 =
            value("contrast").split(' ').next().and_then(|ratio| ratio.parse().ok()).expect("a ratio");
        assert!(faintest >= 4.5, "{}", value("contrast"));
    }

    /// What can be looked for, each with the ticks that are found from the last one on, until the search has come round twice, and
    /// what is told of them. What is told goes with the next step.
    fn searches(&self) -> Vec<String> {
        let mut events: BTreeMap<String, Vec<usize>> = BTreeMap::new();
        for (number, tick) in self.trace.ticks.iter().enumerate() {
            let outputs =
                self.plan.operations(tick.mask).into_iter().map(|output| format!("tick with {output}"));
            let happens = match tick.happening() {
                Happening::Call(scheme) => Some(format!("call of {}", self.plan.names.scheme(scheme))),
                Happening::Drop => Some("drop".to_string()),
                _ => None,
            };
            outputs.chain(happens).for_each(|event| events.entry(event).or_default().push(number));
        }
        if self.trace.stopped.is_some() {
            events.insert("refused".to_string(), vec![self.last()]);
        }
        let search = |(event, ticks): (String, Vec<usize>)| {
            let first = |shown: usize| match ticks[0] == shown {
                true => format!("{shown}nowhere else"),
                false => format!("{}none further on: this is the first", ticks[0]),
            };
            let mut found = vec![event, first(self.last())];
            found.extend(ticks[1..].iter().map(usize::to_string));
            found.push(first(ticks[ticks.len() - 1]));
            found.push(String::new());
            found.join("|")
        };
        events.into_iter().map(search).collect()
    }

    /// The ticks that the driver's steps lead to.
    fn sequence(&self) -> Vec<usize> {
        let last = self.last();
        let mut ticks: Vec<usize> = (0..=last).collect();
        // a key at the end, Home and End, which are the document's, left, page up, the slider, a row, two buttons
        let middle = last / 2;
        ticks.extend([last, last, last, last - 1, last - 1, middle, 2, 3, 2]);
        // a click on the node that is lit leads to its next tick
        let node = self.stack(2)[0].clone();
        let at_node = |tick: &usize| self.stack(*tick)[0] == node;
        ticks.push((3..=last).chain(0..3).find(at_node).expect("tick 2 itself"));
        ticks
    }

    /// What is lit and shown at a tick, as the driver notes it.
    fn expected(&self, number: usize) -> String {
        let tick = self.trace.ticks.get(number);
        let stack = self.stack(number);
        let waiting = stack[1..].iter().filter(|node| **node != stack[0]).cloned().collect();
        let parts = [
            number.to_string(),
            stack[0].clone(),
            sorted(waiting),
            sorted(tick.map(|tick| self.lines(tick)).unwrap_or_default()),
            stack.join(" "),
            self.open(number),
            shown(&tick.map(|tick| self.plan.operations(tick.mask)).unwrap_or_default()),
            shown(&self.plan.results(&self.results(number))),
            format!("tick-{number}"),
            number.to_string(),
            format!("#tick={number}"),
            number.to_string(),
            format!(
                "{} of {} place{}",
                stack.len(),
                self.trace.places,
                if self.trace.places == 1 { "" } else { "s" }
            ),
        ];
        parts.join("|")
    }

    /// The last row: the last tick, or the one that was refused.
    fn last(&self) -> usize {
        self.trace.ticks.len() + usize::from(self.trace.stopped.is_some()) - 1
    }

    /// What is open before a tick or the refused one, the bottom first.
    fn opened(&self, number: usize) -> &[Opened] {
        match (self.trace.ticks.get(number), &self.trace.stopped) {
            (Some(tick), _) => &tick.stack,
            (None, Some(stopped)) => &stopped.stack,
            (None, None) => panic!("there is no tick {number}"),
        }
    }

    /// The result bits after a tick, which the refused one leaves as they were.
    fn results(&self, number: usize) -> [bool; 16] {
        let ticks = &self.trace.ticks;
        ticks.get(number).or(ticks.last()).map_or([false; 16], |tick| tick.results)
    }

    /// Its nodes, the innermost first.
    fn stack(&self, number: usize) -> Vec<String> {
        self.opened(number).iter().rev().map(|opened| node_id(opened.node)).collect()
    }

    /// The arcs of a tick, and the line from its call to the scheme that serves it.
    fn lines(&self, tick: &Tick) -> Vec<String> {
        let mut lines: Vec<String> = tick.arcs.iter().map(|arc| arc_id(*arc)).collect();
        if let Happening::Call(_) = tick.happening() {
            lines.push(call_id(&self.plan, tick.node(), tick.server));
        }
        lines
    }

    /// The open schemes, the innermost first.
    fn open(&self, number: usize) -> String {
        let names: Vec<String> =
            self.opened(number).iter().rev().map(|opened| self.plan.open_scheme(opened)).collect();
        names.join(", ")
    }
}

fn sorted(mut names: Vec<String>) -> String {
    names.sort();
    names.dedup();
    names.join(" ")
}

fn shown(names: &[String]) -> String {
    if names.is_empty() {
        "\u{2013}".to_string()
    } else {
        names.join(" ")
    }
}

/// The identifiers of the groups that are lit.
fn lit(dom: &str) -> Vec<String> {
    let groups = dom.split("<g ").skip(1).map(|group| group.split('>').next().unwrap_or(""));
    let lit = groups.filter(|group| between(group, "class=\"", "\"").split(' ').any(|class| class == "lit"));
    lit.map(|group| between(group, "id=\"", "\"").to_string()).collect()
}

/// What stands after one text and before another.
fn between<'a>(text: &'a str, before: &str, after: &str) -> &'a str {
    let rest = text.split_once(before).map_or("", |(_, rest)| rest);
    rest.split(after).next().unwrap_or("")
}
