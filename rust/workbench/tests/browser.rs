//! The page in a browser: its answers are those of the command on examples, on random charts, on images with and without names and on each
//! refusal, a person's steps lead where they should, slips lose nothing, each tab keeps its work, names are no markup, and a key takes no longer
//! than it may. The page is opened from a file, and the network leads nowhere. Where the page or the browser is missing it says so in one line
//! and tries nothing.

#[path = "browser/chromium.rs"]
mod chromium;
#[path = "browser/files.rs"]
mod files;
#[path = "browser/images.rs"]
mod images;
#[path = "browser/sight.rs"]
mod sight;
#[path = "browser/steps.rs"]
mod steps;
#[path = "browser/tabs.rs"]
mod tabs;
#[path = "browser/texts.rs"]
mod texts;

use std::fs;
use std::path::{Path, PathBuf};

use workbench::Json;

/// What works on the page as a person does, by its subjects.
const DRIVER: [&str; 10] = [
    include_str!("driver/hands.js"),
    include_str!("driver/answers.js"),
    include_str!("driver/steps.js"),
    include_str!("driver/slips.js"),
    include_str!("driver/images.js"),
    include_str!("driver/scenarios.js"),
    include_str!("driver/files.js"),
    include_str!("driver/sight.js"),
    include_str!("driver/timed.js"),
    include_str!("driver/begin.js"),
];
const TOP: &str = concat!(env!("CARGO_MANIFEST_DIR"), "/../..");

/// A page is shorter.
const MOST_BYTES: usize = 1_000_000;

/// What the driver found, by name.
type Told = [(String, String)];

fn main() {
    let path = Path::new(TOP).join("target/workbench/fairleadow.html");
    let Ok(page) = fs::read_to_string(&path) else {
        return println!("workbench test left out: there is no page (workbench/build)");
    };
    let Some(browser) = chromium::found() else {
        return println!("workbench test left out: no Chromium is installed (Debian's package chromium)");
    };
    assert!(page.len() < MOST_BYTES, "the page has {} bytes", page.len());
    // the whole policy, which nothing stands behind
    let policy = "<meta http-equiv=\"Content-Security-Policy\" content=\"default-src 'none'; style-src 'unsafe-inline'; \
                  script-src 'unsafe-inline' 'wasm-unsafe-eval'; base-uri 'none'; form-action 'none'\">";
    assert!(page.contains(policy) && page.matches("http-equiv").count() == 1);
    for loading in [" src=", "url(", "@import", "<link"] {
        assert!(!page.contains(loading), "the page has {loading}");
    }
    let opened = |name: &str| told(browser, &driven(&page, name));
    let path = path.canonicalize().expect("it is there");
    let answers = opened("answers");
    assert_eq!(one(&answers, "differing"), "0", "{answers:?}");
    println!("{} texts are answered as by the command", one(&answers, "answers"));
    steps::steps(&opened("steps"));
    steps::swaps(&opened("swaps offered"));
    steps::slips(&opened("slips"));
    steps::marks(&opened("marks"));
    steps::boxes(&opened("boxes"));
    images::images(&opened("images"));
    images::names(&opened("names"));
    files::scenarios(&opened("scenarios"));
    files::files(&opened("files"));
    files::saved(&opened("saves"));
    sight::sight(&opened("sight"));
    sight::narrow(browser, &path);
    sight::keys(browser, &path, &texts::large());
    sight::paper(browser, &path);
    tabs::tabs(browser, &path);
    without_webassembly(browser, &page);
    steps::timed(&opened("timed"));
}

/// A copy of the page with the driver at the end of its script, which does these parts.
fn driven(page: &str, parts: &str) -> PathBuf {
    let names: Vec<Json> = parts.split(' ').map(Json::from).collect();
    let example =
        |name: &str| fs::read_to_string(Path::new(TOP).join("examples").join(name)).expect("an example");
    let patched = Json::Record(vec![
        ("image", example("patched/roughing.image").into()),
        ("chart", example("roughing.txt").into()),
        ("words", images::PATCHED_WORDS.into()),
    ]);
    let asked = Json::Record(vec![
        ("parts", names.into()),
        ("texts", if parts == "answers" { texts::texts().into() } else { Json::Null }),
        ("scenarios", if parts == "scenarios" { texts::scenarios().into() } else { Json::Null }),
        ("files", if parts == "files" { texts::files().into() } else { Json::Null }),
        ("patched", patched),
        ("latin", texts::base64(b"scheme 1 Fr\xE4sen\nbegin -> end\nend\n").into()),
        ("tick", texts::ASKED.into()),
        ("prices", texts::prices().into()),
        ("large", texts::large().into()),
        ("known", steps::KNOWN_ROUNDS.into()),
    ]);
    // what stands in a script ends with no mark of the page
    let asked = asked.to_string().replace('<', "\\u003c");
    let (before, after) = page.rsplit_once("\n})();\n</script>").expect("the end of the page's script");
    let copy = chromium::folder().join(format!("workbench-{}.html", parts.replace(' ', "-")));
    let driver = DRIVER.concat();
    fs::write(&copy, format!("{before}\nconst asked = {asked};\n{{\n{driver}}}\n}})();\n</script>{after}"))
        .expect("a folder that can be written");
    copy
}

/// What the driver found.
fn told(browser: &str, page: &Path) -> Vec<(String, String)> {
    let found = chromium::with(browser, |browser| {
        let tab = browser.open(page)?;
        browser.ask(&tab, "document.getElementById('found')?.textContent")
    });
    let pairs = found.split("\n@").filter_map(|line| line.split_once('='));
    let told: Vec<(String, String)> =
        pairs.map(|(name, value)| (name.to_string(), value.to_string())).collect();
    assert!(told.iter().all(|(name, _)| name != "failed"), "{told:?}");
    told
}

/// A browser that has no WebAssembly says so in a sentence, which stays.
fn without_webassembly(browser: &str, page: &str) {
    let old = chromium::folder().join("workbench-without.html");
    let without = page.replacen("<body>", "<body><script>delete globalThis.WebAssembly;</script>", 1);
    fs::write(&old, without).expect("a folder that can be written");
    let said = chromium::with(browser, |browser| {
        let tab = browser.open(&old)?;
        let said = browser.ask(&tab, "document.getElementById('fault')?.textContent || undefined")?;
        browser.press(&tab, &[("Escape", 0)])?;
        let box_of = "(document.getElementById('unable').hidden + ' ' + document.getElementById('unable-close').hidden)";
        Some([said, browser.ask(&tab, box_of)?])
    });
    assert!(
        said[0].starts_with("This page needs a browser with WebAssembly, which this one does not run"),
        "{}",
        said[0]
    );
    assert_eq!(said[1], "false true");
}

fn all<'a>(told: &'a Told, name: &str) -> Vec<&'a str> {
    told.iter().filter(|(own, _)| own == name).map(|(_, value)| value.as_str()).collect()
}

fn one<'a>(told: &'a Told, name: &str) -> &'a str {
    match all(told, name)[..] {
        [value] => value,
        _ => panic!("{name} in {told:?}"),
    }
}
