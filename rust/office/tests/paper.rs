//! Pages on paper: each is printed at its first, a middle and its last tick, and every row is read back below its heading, with the
//! tick and the whole drawing, which stand on the first paper. Where dot, the browser or the reader of papers is missing it says so in one line and tries nothing.

mod shared;

use std::path::{Path, PathBuf};
use std::process::Command;

use office::plan::Plan;
use office::source::load;
use office::trace::table::{cells, HEADINGS};
use office::trace::words::Words;
use office::trace::{trace, Trace};
use shared::browser::{folder, found, installed, printed};
use shared::{example, file, run};

fn main() {
    let browser = match found() {
        Ok(browser) if installed("pdftotext") => browser,
        Ok(_) => {
            return println!(
                "paper test left out: pdftotext is not installed (Debian's package poppler-utils)"
            )
        }
        Err(missing) => return println!("paper test left out: {missing}"),
    };
    let deep = file("nine_schemes.txt", nine_schemes().as_bytes());
    let tall = file("tall.txt", tall().as_bytes());
    let examples = ["roughing.txt", "bore.txt"].map(example);
    // the last is refused, which is told above the drawing
    for (chart, places) in
        [(Path::new(&examples[0]), 32), (Path::new(&examples[1]), 32), (&deep, 32), (&tall, 1)]
    {
        let case = Case::make(chart, places);
        let last = case.last();
        for tick in [0, last / 3, last] {
            let paper = printed(browser, &case.page, &format!("#tick={tick}"));
            case.read(&words(&paper), tick);
        }
        println!("page of {} on paper: {} ticks as traced", chart.display(), last + 1);
    }
}

/// A drawing that is wider than a screen: nine schemes, each of which calls the next.
fn nine_schemes() -> String {
    let scheme = |h: usize| {
        let call = if h < 9 { format!("; call s{}", h + 1) } else { String::new() };
        format!(
            "scheme {h}\n begin -> first_{h}\nfirst_{h}: do y{h} -> ask_{h}\nask_{h}: if x{h} then third_{h} else other_{h}\n\
             third_{h}: do y1{call} -> end\nother_{h}: do y0 -> end\n end\n"
        )
    };
    (1..=9).map(scheme).collect()
}

/// A drawing that is higher than a paper, whose last tick finds the stack full.
fn tall() -> String {
    let boxes: String = (1..30).map(|at| format!("box_{at}: do y{at} -> box_{}\n", at + 1)).collect();
    format!(
        "scheme 1\nbegin -> box_1\n{boxes}box_30: do nothing; call s2 -> end\nend\nscheme 2\nbegin -> end\nend\n"
    )
}

/// A page that the program wrote, and the trace that it shows.
struct Case {
    page: PathBuf,
    plan: Plan,
    trace: Trace,
}

impl Case {
    fn make(chart: &Path, places: usize) -> Case {
        let page = folder().join(chart.file_name().expect("a name")).with_extension("paper.html");
        let (path, file) = (chart.to_string_lossy(), page.to_string_lossy());
        let stack = places.to_string();
        let options = ["--places", &stack, "--words", "random:1", "--ticks", "64", "-o", &file];
        let made = run(&[&["page", &path], &options[..]].concat());
        let plan = load(chart).and_then(Plan::read).expect("an accepted chart");
        let words = Words::given("random:1", &plan.names).expect("words").take(Some(64));
        let trace = trace(&plan, places, &words, &[]).expect("an accepted chart");
        assert_eq!(made.status, i32::from(trace.stopped.is_some()), "{}", made.said);
        Case { page, plan, trace }
    }

    /// The last row: the last tick, or the one that was refused.
    fn last(&self) -> usize {
        self.trace.ticks.len() + usize::from(self.trace.stopped.is_some()) - 1
    }

    /// The tick, the drawing and the rows of a paper.
    fn read(&self, pages: &[Page], tick: usize) {
        let last = self.last();
        let rows: Vec<[String; 9]> = pages.iter().flat_map(Page::rows).collect();
        for (number, traced) in self.trace.ticks.iter().enumerate() {
            let wanted = cells(&self.plan, number, traced).map(|cell| unspaced(&cell));
            let row = rows.get(number).unwrap_or_else(|| panic!("tick {tick}: row {number} is not there"));
            assert_eq!(*row, wanted, "row {number} of the page at tick {tick}");
        }
        assert_eq!(rows.len(), last + 1);
        let first_page = pages[0].text();
        assert!(first_page.contains(&format!("tick {tick} of {last}")), "tick {tick}: {}", first_page);
        for at in 0..self.plan.nodes.len() {
            let name = self.plan.names.node(at);
            let drawn = pages[0].above_headings().any(|word| pages[0].holds(word, &name));
            assert!(
                drawn || name == "begin" || name == "end",
                "tick {tick}: {name} is not drawn on the first page"
            );
        }
    }
}

/// Without spaces, for a cell may be broken into lines, and with the dash that the page has for none.
fn unspaced(text: &str) -> String {
    let text: String = text.split_whitespace().collect();
    if text == "-" {
        "\u{2013}".to_string()
    } else {
        text
    }
}

/// A word on paper, by the upper left corner of its box.
struct Word {
    text: String,
    left: f64,
    right: f64,
    top: f64,
    bottom: f64,
}

struct Page {
    width: f64,
    height: f64,
    words: Vec<Word>,
}

impl Page {
    fn text(&self) -> String {
        let words: Vec<&str> = self.words.iter().map(|word| word.text.as_str()).collect();
        words.join(" ")
    }

    /// Whether this word is on the paper and has this text.
    fn holds(&self, word: &Word, text: &str) -> bool {
        let inside =
            word.left >= 0.0 && word.right <= self.width && word.top >= 0.0 && word.bottom <= self.height;
        inside && word.text == text
    }

    /// The first words of the headings of the table of ticks, which stand in one line.
    fn headings(&self) -> Option<Vec<&Word>> {
        let firsts = HEADINGS.map(|heading| heading.split(' ').next().expect("a word"));
        let line = |first: &Word| -> Option<Vec<&Word>> {
            let here = |text: &&str| {
                self.words.iter().find(|word| word.text == **text && (word.top - first.top).abs() < 0.5)
            };
            firsts.iter().map(here).collect()
        };
        self.words.iter().filter(|word| word.text == "tick").find_map(line)
    }

    /// All words of a page without headings, and those above them elsewhere.
    fn above_headings(&self) -> impl Iterator<Item = &Word> {
        let top = self.headings().map_or(f64::INFINITY, |headings| headings[0].top);
        self.words.iter().filter(move |word| word.top < top)
    }

    /// The rows below the headings, each of what stands in its columns.
    fn rows(&self) -> Vec<[String; 9]> {
        let Some(headings) = self.headings() else { return Vec::new() };
        let end = self.words.windows(2).find(|pair| pair[0].text == "Never" && pair[1].text == "taken");
        let end = end.map_or(f64::INFINITY, |pair| pair[0].top);
        let column =
            |word: &Word| headings.iter().rposition(|heading| heading.left - 1.0 <= word.left).unwrap_or(0);
        let number = |word: &&Word| {
            word.top > headings[0].top + 1.0
                && word.top < end
                && word.right < headings[1].left
                && word.text.bytes().all(|digit| digit.is_ascii_digit())
        };
        let mut tops: Vec<f64> = self.words.iter().filter(number).map(|word| word.top - 1.0).collect();
        tops.sort_by(f64::total_cmp);
        let row = |(at, top): (usize, &f64)| {
            let below = tops.get(at + 1).copied().unwrap_or(end);
            let mut own: Vec<&Word> =
                self.words.iter().filter(|word| word.top >= *top && word.top < below).collect();
            own.sort_by(|a, b| (a.top, a.left).partial_cmp(&(b.top, b.left)).expect("numbers"));
            std::array::from_fn(|k| {
                own.iter().filter(|word| column(word) == k).map(|word| word.text.as_str()).collect()
            })
        };
        tops.iter().enumerate().map(row).collect()
    }
}

/// The words of each page of a paper.
fn words(paper: &Path) -> Vec<Page> {
    let output =
        Command::new("pdftotext").args(["-bbox", &paper.to_string_lossy(), "-"]).output().expect("it starts");
    let text = String::from_utf8(output.stdout).expect("text");
    text.split("<page ").skip(1).map(page).collect()
}

fn page(text: &str) -> Page {
    let words = text.split("<word ").skip(1).map(|word| Word {
        text: unescaped(
            word.split_once('>').and_then(|(_, rest)| rest.split("</word>").next()).unwrap_or(""),
        ),
        left: value(word, "xMin"),
        right: value(word, "xMax"),
        top: value(word, "yMin"),
        bottom: value(word, "yMax"),
    });
    Page { width: value(text, "width"), height: value(text, "height"), words: words.collect() }
}

fn value(text: &str, name: &str) -> f64 {
    let rest = text.split_once(&format!("{name}=\"")).map_or("", |(_, rest)| rest);
    rest.split('"').next().and_then(|value| value.parse().ok()).expect("a number")
}

fn unescaped(text: &str) -> String {
    text.replace("&gt;", ">").replace("&lt;", "<").replace("&quot;", "\"").replace("&amp;", "&")
}
