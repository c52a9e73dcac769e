//! What the commands that trace share: their arguments, the chart, and the trace that is asked for.

use std::ffi::{OsStr, OsString};
use std::path::Path;

use fairleadow::PLACES;

use crate::arguments::Given;
use crate::check::no_image;
use crate::command::Failure;
use crate::image::Image;
use crate::kind::Kind;
use crate::labels::run::{run, LabelRun};
use crate::names::Names;
use crate::output;
use crate::plan::Plan;
use crate::problem::{shortened_to, shown_name, Problem};
use crate::scenario::{play, Played, Scenario, Stage, Vocabulary};
use crate::source;
use crate::subject::Subject;
use crate::trace::swaps::{self, Swap};
use crate::trace::words::Words;
use crate::trace::{self, Trace};

/// The most ticks of one trace.
const MOST_TICKS: usize = 100_000;
/// The words where none are given.
const WORDS: &str = "random:1";

/// The options of a trace.
pub const TRACING: [&str; 5] = ["--places", "--words", "--ticks", "--swap", "--scenario"];

/// What a scenario has of its own.
const OWN: [&str; 3] = ["--words", "--ticks", "--swap"];

/// Their help.
pub const RUNNING_HELP: &str = "
  --places N     places of the stack, 1 to 32; 32 if not given
  --words WORDS  the words, one a tick; bit i of a word is condition i. One of
                   random:SEED     random words, the same for the same seed
                   count           0, 1, 2 and so on
                   0,1,0x8004      these words, decimal, or hexadecimal after 0x
                   wood*3,wood+bore,-
                                   by the names of the conditions that are 1, - for none, *N
                                   repeats; those without a name are x0 to x15
                   FILE            one word a line, # before a comment; - is standard input,
                                   ./FILE one whose name could be a list
                 random:1 if not given, so that every condition is 0 and 1 in turn
  --ticks N      how many ticks, 1 to 100000. If not given, as many as the words of a list
                 or a file, else 64. A list or a file that is shorter begins again.
  --scenario FILE
                 steps with their words, swaps and what is expected, in the place of other words, ticks and
                 swaps (docs/CHARTS.md, Scenarios); - is standard input";

/// The help of the other option of a trace.
pub const SWAP_HELP: &str =
    "  --swap SWAPS   TICK:NUMBER=SCHEME, with commas between them: right before that tick, counted
                 from 0, the number is given to that scheme to serve. Later calls of the number
                 open it; what is open goes on. Both are numbers or names: 4:roughing=finer.";

/// The help of what goes with a file that is written.
pub const FORCE_HELP: &str =
    "  --force        also where the file holds a chart, an image, the notation, a scenario, a patch or a trace,
                 which is lost then";

/// The help of the option that gives an image names.
pub const NAMES_HELP: &str =
    "  --names CHART  where an image is given: the chart that it was made of, whose names are told with the
                 labels. It is refused where the labels are not the chart's; rows may differ";

/// The help of the option by which what is told goes to another program.
pub const FORMAT_HELP: &str = "  --format FORMAT
                 csv or json (docs/CHARTS.md, For other programs), in the place of a report for people";

/// What a command was given that takes both: a chart, or an image with the names of one or without any.
pub enum Held {
    Chart(Box<Plan>),
    Image(Box<Subject>),
}

/// A file without the folders before it.
pub fn title(file: &OsStr) -> String {
    match Path::new(file).file_name() {
        Some(name) if file != "-" => shown_name(name),
        _ => "standard input".to_string(),
    }
}

/// The number that an option has, if it is given.
pub fn number(given: &Given, option: &str) -> Result<Option<usize>, Failure> {
    let parse = |value: &OsStr| {
        let number = value.to_string_lossy().parse();
        number.map_err(|_| Failure::Usage(format!("{option} takes a number, not {}", shown_name(value))))
    };
    given.value(option).map(parse).transpose()
}

/// What a run is made of, and what a scenario came to, where it is one's.
pub struct Run {
    pub places: usize,
    pub words: Vec<u16>,
    pub swaps: Vec<Swap>,
    pub played: Option<Played>,
}

/// The ticks of a chart or of an image, and what a scenario came to, where they are one's.
pub struct Traced<T> {
    pub trace: T,
    pub played: Option<Played>,
}

/// Reads a scenario by the names of a chart.
pub fn scenario(file: &OsStr, vocabulary: &Vocabulary) -> Result<Scenario, Failure> {
    let read = source::read(file).and_then(|bytes| Scenario::read(&bytes, vocabulary));
    read.map_err(|problem| Failure::of(file, problem))
}

/// The chart in a file that gives names; it has an image.
pub fn naming(file: &OsStr) -> Result<Plan, Failure> {
    let plan = source::load(file).and_then(Plan::read).and_then(|plan| plan.image.clone().map(|_| plan));
    plan.map_err(|problem| Failure::of(file, problem))
}

/// What a command that takes one chart, or a file beside it, was given.
pub struct Arguments {
    chart: OsString,
    beside: Option<OsString>,
    given: Given,
}

impl Arguments {
    /// One chart, options with a value, and switches; anything else is told, and two files from standard input.
    pub fn of(args: &[OsString], options: &[&str], switches: &[&str]) -> Result<Arguments, Failure> {
        Arguments::named("chart", args, options, switches)
    }

    /// One file of any sort, and options and switches likewise.
    pub fn of_file(args: &[OsString], options: &[&str], switches: &[&str]) -> Result<Arguments, Failure> {
        Arguments::named("file", args, options, switches)
    }

    /// Two files, each by what it is called, and options and switches likewise.
    pub fn of_two(
        files: [&str; 2],
        args: &[OsString],
        options: &[&str],
        switches: &[&str],
    ) -> Result<Arguments, Failure> {
        let given = Given::of(args, options, switches)?;
        let [chart, beside] = given.two_files(files)?.map(OsStr::to_os_string);
        Arguments { chart, beside: Some(beside), given }.read_once(files)
    }

    fn named(
        what: &str,
        args: &[OsString],
        options: &[&str],
        switches: &[&str],
    ) -> Result<Arguments, Failure> {
        let given = Given::of(args, options, switches)?;
        let chart = given.one_file(what)?.to_os_string();
        Arguments { chart, beside: None, given }.read_once([what, ""])
    }

    /// Refused where two files are standard input.
    fn read_once(self, [first, second]: [&str; 2]) -> Result<Arguments, Failure> {
        let files = [
            (first, Some(self.chart.as_os_str())),
            (second, self.beside.as_deref()),
            ("words", self.value("--words")),
            ("scenario", self.value("--scenario")),
            ("prices", self.value("--prices")),
            ("names", self.value("--names")),
        ];
        let read =
            files.into_iter().filter(|(_, file)| file.is_some_and(|file| file == "-")).map(|(what, _)| what);
        match read.collect::<Vec<&str>>()[..] {
            [first, second, ..] => {
                Err(Failure::Usage(format!("{first} and {second} cannot both be standard input")))
            }
            _ => Ok(self),
        }
    }

    /// The file that is given, or the first of two.
    pub fn chart(&self) -> &OsStr {
        &self.chart
    }

    /// The second of two files.
    pub fn beside(&self) -> &OsStr {
        self.beside.as_deref().unwrap_or_default()
    }

    pub fn has(&self, switch: &str) -> bool {
        self.given.has(switch)
    }

    /// The file that an option names.
    pub fn value(&self, option: &str) -> Option<&OsStr> {
        self.given.value(option)
    }

    /// What an option says that names no file.
    pub fn text(&self, option: &str) -> Option<String> {
        self.value(option).map(|value| value.to_string_lossy().into_owned())
    }

    /// The number that an option has.
    pub fn number(&self, option: &str) -> Result<Option<usize>, Failure> {
        number(&self.given, option)
    }

    /// The chart's file without the folders before it.
    pub fn title(&self) -> String {
        title(&self.chart)
    }

    /// The file that this option has written, if one is: none that is read, and with --force alone one that holds what may be needed.
    pub fn written(&self, option: &str) -> Result<Option<&OsStr>, Failure> {
        let file = self.value(option);
        if file.is_none() && self.has("--force") {
            return Err(Failure::Usage(format!("--force goes with {option}")));
        }
        if let Some(file) = file.filter(|file| *file != "-") {
            let others = ["--scenario", "--names", "--prices"].map(|option| self.value(option));
            let read = [Some(self.chart.as_os_str()), Some(self.words()), self.beside.as_deref()];
            let read: Vec<&OsStr> = read.into_iter().chain(others).flatten().collect();
            output::may_write(file, &read, self.has("--force"))?;
        }
        Ok(file)
    }

    /// A problem of the chart's file.
    pub fn failure(&self, problem: impl std::fmt::Display) -> Failure {
        Failure::of(&self.chart, problem)
    }

    /// Reads the chart or the image.
    pub fn held(&self) -> Result<Held, Failure> {
        let bytes = self.bytes()?;
        let failure = |problem| self.failure(problem);
        if Kind::of(&bytes) == Kind::Image {
            return Ok(Held::Image(Box::new(self.image(bytes)?)));
        }
        // what holds nothing of the kind is told as a chart
        if let Some(kind) = Kind::held(&bytes).filter(|_| self.value("--names").is_some()) {
            return Err(failure(no_image(kind)));
        }
        let plan = source::from_either(&bytes).and_then(Plan::read);
        plan.map(Box::new).map(Held::Chart).map_err(failure)
    }

    /// Reads the chart or the image, for what is the same of both.
    pub fn subject(&self) -> Result<Subject, Failure> {
        match self.held()? {
            Held::Image(subject) => Ok(*subject),
            Held::Chart(plan) => Subject::of(&plan).map_err(|problem| self.failure(problem)),
        }
    }

    /// The image of these bytes, with the names that it is given.
    pub fn image(&self, bytes: Vec<u8>) -> Result<Subject, Failure> {
        let image = Image::read(bytes).map_err(|problem| self.failure(problem))?;
        match self.names()? {
            Some(plan) => Subject::with_names(image, plan).map_err(|problem| self.failure(problem)),
            None => Ok(Subject::without_names(image)),
        }
    }

    /// The chart that gives names, if one does; it has an image.
    pub fn names(&self) -> Result<Option<Plan>, Failure> {
        self.value("--names").map(naming).transpose()
    }

    /// The words as they were given.
    pub fn words(&self) -> &OsStr {
        self.value("--words").unwrap_or(OsStr::new(WORDS))
    }

    /// What a run is fed, as a caption names it; of a list so many words are taken.
    pub fn fed(&self, names: &Names) -> String {
        if let Some(file) = self.value("--scenario") {
            return format!("scenario {}", title(file));
        }
        let words = shown_name(self.words());
        match Words::listed(self.words(), names) {
            Some(list) => format!("words {}", shortened_to(&words, list, "word")),
            None => format!("words {words}"),
        }
    }

    /// The bytes of the chart's file.
    pub fn bytes(&self) -> Result<Vec<u8>, Failure> {
        source::read(&self.chart).map_err(|problem| self.failure(problem))
    }

    /// Runs an image over the run that is asked for.
    pub fn label_run(&self, subject: &Subject) -> Result<Traced<LabelRun>, Failure> {
        let vocabulary = Vocabulary { names: subject.names(), plan: subject.plan() };
        let Run { places, words, swaps, played } = self.run(vocabulary, || Ok(&subject.image))?;
        let trace = run(&subject.image, places, &words, &swaps).map_err(|problem| self.failure(problem))?;
        Ok(Traced { trace, played })
    }

    /// Traces the chart over the run that is asked for.
    pub fn trace(&self, plan: &Plan) -> Result<Traced<Trace>, Failure> {
        let Run { places, words, swaps, played } =
            self.run(Vocabulary::of(plan), || plan.image.as_ref().map_err(Problem::clone))?;
        let trace = trace::trace(plan, places, &words, &swaps).map_err(|problem| self.failure(problem))?;
        Ok(Traced { trace, played })
    }

    /// The run that is asked for, where a scenario is played on an image.
    pub fn run<'a>(
        &self,
        vocabulary: Vocabulary<'a>,
        image: impl FnOnce() -> Result<&'a Image, Problem>,
    ) -> Result<Run, Failure> {
        let Vocabulary { names, plan } = vocabulary;
        let Some(file) = self.value("--scenario") else {
            let (places, words) = self.places_and_words(names)?;
            let swaps = self.swaps(words.len(), names)?;
            return Ok(Run { places, words, swaps, played: None });
        };
        if let Some(other) = OWN.iter().find(|option| self.value(option).is_some()) {
            let why = "which has its own words and swaps";
            return Err(Failure::Usage(format!("{other} does not go with --scenario, {why}")));
        }
        let scenario = scenario(file, &vocabulary)?;
        let places = self.number("--places")?.or(scenario.places).unwrap_or(PLACES);
        trace::fresh(places).map_err(|problem| self.failure(problem))?;
        let stage = Stage { image: image().map_err(|problem| self.failure(problem))?, names, plan };
        let played = play(&scenario, stage, places).map_err(|problem| Failure::of(file, problem))?;
        Ok(Run { places, words: played.words.clone(), swaps: played.swaps.clone(), played: Some(played) })
    }

    /// Tells the step of a scenario that ended a run.
    pub fn met(&self, played: Option<&Played>) -> Result<(), Failure> {
        match (self.value("--scenario"), played.and_then(|played| played.unmet.as_ref())) {
            (Some(file), Some(unmet)) => Err(Failure::of(file, &unmet.words)),
            _ => Ok(()),
        }
    }

    /// The swaps that are asked for, none of them past the last of so many ticks.
    fn swaps(&self, ticks: usize, names: &Names) -> Result<Vec<Swap>, Failure> {
        self.text("--swap").map_or(Ok(Vec::new()), |text| swaps::given(&text, ticks, names))
    }

    /// The places of the stack and the words that are asked for, one at least.
    fn places_and_words(&self, names: &Names) -> Result<(usize, Vec<u16>), Failure> {
        let places = self.number("--places")?.unwrap_or(PLACES);
        let ticks = self.number("--ticks")?;
        if ticks.is_some_and(|ticks| !(1..=MOST_TICKS).contains(&ticks)) {
            return Err(Failure::Usage(format!("--ticks takes 1 to {MOST_TICKS}")));
        }
        let words = Words::given(self.words(), names)?.take(ticks);
        if words.len() > MOST_TICKS {
            let given = words.len();
            return Err(Failure::Usage(format!(
                "{given} words are given; --ticks takes 1 to {MOST_TICKS} of them"
            )));
        }
        Ok((places, words))
    }
}
