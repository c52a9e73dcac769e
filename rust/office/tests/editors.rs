//! The syntax files for editors: their words are those of the notation and of scenarios, and they colour the examples by them.

mod shared;

use std::collections::{BTreeMap, BTreeSet};
use std::fs;
use std::path::{Path, PathBuf};
use std::process::{Command, Stdio};

use office::notation::{words, InterlockKind, KEYWORDS, RESERVED, WHEN_FULL};
use shared::called::example;

fn top() -> PathBuf {
    Path::new(env!("CARGO_MANIFEST_DIR")).join("../..")
}

fn text(path: &str) -> String {
    fs::read_to_string(top().join(path)).expect("a file")
}

/// The notation's own words.
fn notation_words() -> BTreeSet<String> {
    let between =
        [InterlockKind::Never, InterlockKind::Always, InterlockKind::After].map(InterlockKind::between);
    let all = KEYWORDS
        .into_iter()
        .chain(RESERVED)
        .chain(between.into_iter().chain([WHEN_FULL]).flat_map(|words| words.split(' ')));
    all.map(String::from).collect()
}

/// The words of scenarios: each text in the source of their reader that is one word, and the names of codes.
fn scenario_words() -> BTreeSet<String> {
    let is_word = |text: &&str| !text.is_empty() && text.bytes().all(|byte| byte.is_ascii_lowercase());
    let reader = include_str!("../src/scenario/statement.rs");
    let codes = include_str!("../src/scenario/resolve.rs");
    let codes =
        codes.split("fn code(").nth(1).and_then(|rest| rest.split("\n    }\n").next()).expect("it is there");
    [reader, codes]
        .into_iter()
        .flat_map(|source| source.split('"').skip(1).step_by(2))
        .filter(is_word)
        .map(String::from)
        .collect()
}

/// The words between these and the next closing bracket, wherever they stand.
fn grouped(text: &str, open: &str, close: &str, between: &str) -> BTreeSet<String> {
    let groups = text.split(open).skip(1).filter_map(|rest| rest.split(close).next());
    let words = groups.flat_map(|group| group.split(between));
    words.filter(|word| word.bytes().all(|byte| byte.is_ascii_lowercase())).map(String::from).collect()
}

/// The words of a syntax file for Vim.
fn vim_words(text: &str) -> BTreeSet<String> {
    let keywords = text.lines().filter_map(|line| line.strip_prefix("syntax keyword "));
    let keywords = keywords.flat_map(|line| line.split(' ').skip(1)).map(String::from);
    keywords.chain(grouped(text, r"\%(", r"\)", r"\|")).collect()
}

#[test]
fn their_words_are_those_of_the_notation_and_of_scenarios() {
    let when_full: BTreeSet<String> = WHEN_FULL.split(' ').map(String::from).collect();
    let (vim, textmate) =
        (text("editors/vim/syntax/fairleadow.vim"), text("editors/textmate/fairleadow.tmLanguage.json"));
    assert!(
        vim.contains(&format!(r"/\<{WHEN_FULL}\>/")) && textmate.contains(&format!(r"\\b{WHEN_FULL}\\b"))
    );
    let wanted = notation_words();
    assert!(wanted.len() >= 20, "{wanted:?}");
    assert_eq!(vim_words(&vim).union(&when_full).cloned().collect::<BTreeSet<String>>(), wanted);
    let own = grouped(&textmate, "(?:", ")", "|");
    assert_eq!(own.union(&when_full).cloned().collect::<BTreeSet<String>>(), wanted);
    let wanted = scenario_words();
    assert!(wanted.len() >= 19 && wanted.contains("until") && wanted.contains("home"), "{wanted:?}");
    assert_eq!(vim_words(&text("editors/vim/syntax/fairleadow-scenario.vim")), wanted);
    assert_eq!(
        grouped(&text("editors/textmate/fairleadow-scenario.tmLanguage.json"), "(?:", ")", "|"),
        wanted
    );
}

/// What each character of a file is coloured as, by its line and column.
type Colours = BTreeMap<(usize, usize), String>;

fn colours(printed: &str) -> Colours {
    let colour = |line: &str| {
        let mut parts = line.split(' ');
        let [line, column] = [parts.next()?.parse().ok()?, parts.next()?.parse().ok()?];
        Some(((line, column), parts.next().filter(|name| !name.is_empty())?.to_string()))
    };
    printed.lines().filter_map(colour).collect()
}

/// Every example chart in the notation and every example scenario, and one with all that the examples have not.
fn examples(ending: &str) -> Vec<PathBuf> {
    let all = fs::read_dir(example("")).expect("the examples").map(|entry| entry.expect("a file").path());
    let own = Path::new(env!("CARGO_TARGET_TMPDIR")).join(format!("coloured.{ending}"));
    let text = match ending {
        "txt" => "# all of it\noutput 0 clamp\noutput 1 drill\nnever clamp with drill\nalways clamp while drill\ndrill only after clamp\n\
                  scheme 1\nbegin -> never\nnever: do nothing; write 1 -> end\nend\n",
        _ => "until * 2; expect not output until, refusal 17 # so\nswap 2=s3\n\
                   0x1F until node end of s2 at most 9; expect at last code call s2\n",
    };
    fs::write(&own, text).expect("a file");
    let has_it = |path: &PathBuf| path.extension().is_some_and(|own| own == ending);
    all.filter(has_it).chain([own]).collect()
}

/// Every word of the notation that stands where no node is named is coloured, names are not, and nodes, numbers and comments each have
/// a colour of their own.
fn fits(path: &Path, keywords: &BTreeSet<String>, colours: &Colours, [label, number, comment]: [&str; 3]) {
    let text = fs::read_to_string(path).expect("an example");
    for (at, line) in text.lines().enumerate() {
        let words = words(line);
        for (place, word) in words.words.iter().enumerate() {
            let colour = colours.get(&(at + 1, word.column)).map_or("", String::as_str);
            let fits = match word.text.as_str() {
                _ if words.words.get(place + 1).is_some_and(|next| next.text == ":") => {
                    colour.contains(label)
                }
                own if keywords.contains(own) => ![label, number, comment, ""].contains(&colour),
                own if own.starts_with(|first: char| first.is_ascii_digit()) => colour.contains(number),
                _ if word.is_letters() => colour.is_empty(),
                _ => !colour.contains(comment),
            };
            assert!(fits, "{}: {}: {} is {colour:?}", path.display(), at + 1, word.text);
        }
        if let Some(sign) = line.find('#') {
            let column = line[..sign].chars().count() + 1;
            let colour = colours.get(&(at + 1, column)).map_or("", String::as_str);
            assert!(colour.contains(comment), "{}: {}: {colour:?}", path.display(), at + 1);
        }
    }
}

#[test]
fn the_grammars_colour_the_examples() {
    let script = Path::new(env!("CARGO_MANIFEST_DIR")).join("tests/shared/grammar.py");
    for (ending, grammar, words) in
        [("txt", "fairleadow", notation_words()), ("scenario", "fairleadow-scenario", scenario_words())]
    {
        let grammar = top().join(format!("editors/textmate/{grammar}.tmLanguage.json"));
        let examples = examples(ending);
        assert!(examples.len() >= 4);
        for path in examples {
            let output = Command::new("python3").args([&script, &grammar, &path]).output().expect("Python");
            assert_eq!(String::from_utf8_lossy(&output.stderr), "", "{}", path.display());
            let colours = colours(&String::from_utf8(output.stdout).expect("text"));
            fits(&path, &words, &colours, ["label", "numeric", "comment"]);
        }
    }
}

/// Has Vim write what each character of a file is coloured as.
const WRITE: &str = "call writefile(flatten(map(range(1, line('$')), {_, line -> map(range(1, len(getline(line))), {_, column -> \
                     line . ' ' . column . ' ' . synIDattr(synID(line, column, 1), 'name')})})), $COLOURS)";

#[test]
fn vim_knows_the_examples_and_colours_them() {
    let asked = Command::new("vim").arg("--version").output();
    if !asked.is_ok_and(|asked| String::from_utf8_lossy(&asked.stdout).contains("+syntax")) {
        eprintln!("left out: there is no Vim that colours text (Debian's package vim)");
        return;
    }
    let to = Path::new(env!("CARGO_TARGET_TMPDIR")).join("colours");
    let runtime = format!("set runtimepath^={}", top().join("editors/vim").display());
    for (ending, words, comment) in [
        ("txt", notation_words(), "fairleadowComment"),
        ("scenario", scenario_words(), "fairleadowScenarioComment"),
    ] {
        for path in examples(ending) {
            let _ = fs::remove_file(&to);
            let status = Command::new("vim")
                .args(["-u", "NONE", "-i", "NONE", "-n", "-es", "-c", "set nocompatible", "-c", &runtime])
                .args(["-c", "filetype on", "-c", "syntax on", "-c", &format!("edit {}", path.display())])
                .args(["-c", WRITE, "-c", "qall!"])
                .env("COLOURS", &to)
                .stdin(Stdio::null())
                .stdout(Stdio::null())
                .status()
                .expect("Vim starts");
            let written =
                fs::read_to_string(&to).unwrap_or_else(|why| panic!("{}: {why}, {status}", path.display()));
            let number = if ending == "txt" { "fairleadowNumber" } else { "fairleadowScenarioNumber" };
            fits(&path, &words, &colours(&written), ["fairleadowNode", number, comment]);
        }
    }
}
