//! Texts of all sorts, with what the command says of each.

use std::fs;
use std::io::Write;
use std::path::Path;
use std::process::{Command, Stdio};

use comparison::generate::{charts, damage, images, random::Random};
use comparison::samples;
use reference::frames::text_of;
use workbench::Json;

use super::TOP;

/// A chart of 256 nodes in 16 schemes, in the notation.
pub fn large() -> String {
    let scheme = |h: usize| {
        let call = if h < 16 { format!("; call s{}", h + 1) } else { String::new() };
        let boxes: String = (0..7)
            .map(|at| {
                let next = if at < 6 { format!("ask_{h}_{}", at + 1) } else { "end".to_string() };
                format!(
                    "ask_{h}_{at}: if x{} then box_{h}_{at} else {next}\nbox_{h}_{at}: do y{at}{} -> {next}\n",
                    (h + at) % 16,
                    if at == 3 { call.as_str() } else { "" }
                )
            })
            .collect();
        format!("scheme {h}\nbegin -> ask_{h}_0\n{boxes}end\n\n")
    };
    (1..=16).map(scheme).collect()
}

/// What the command prints and says of a text.
pub fn command(arguments: &[&str], input: &[u8]) -> (bool, String, String) {
    let program = Path::new(env!("CARGO_TARGET_TMPDIR")).join("../release/fairleadow");
    let mut child = Command::new(&program)
        .args(arguments)
        .stdin(Stdio::piped())
        .stdout(Stdio::piped())
        .stderr(Stdio::piped())
        .spawn()
        .unwrap_or_else(|error| panic!("{}: {error}", program.display()));
    // one that is refused before it is read ends without
    let _ = child.stdin.take().expect("a pipe").write_all(input);
    let output = child.wait_with_output().expect("it ends");
    let text = |bytes: Vec<u8>| String::from_utf8(bytes).expect("text");
    (output.status.success(), text(output.stdout), text(output.stderr))
}

/// The tick that is asked about.
pub const ASKED: &str = "4";

/// A price for each output, all different.
pub fn prices() -> String {
    (0..32).map(|output| format!("y{output} {}\n", 101 + 7 * output)).collect()
}

/// A text with what `check` says of it, and where it is run what `trace` prints below its heading, what `why` says of a tick, and what is to
/// pay by `bill`; of an image with the names of a chart, where one is given.
fn asked(name: String, bytes: &[u8], names: Option<&[u8]>, words: &str, places: usize) -> Json {
    let chart = Path::new(env!("CARGO_TARGET_TMPDIR")).join("workbench.names");
    fs::write(&chart, names.unwrap_or_default()).expect("a folder that can be written");
    let chart = chart.display().to_string();
    let naming = if names.is_some() { vec!["--names", &chart] } else { Vec::new() };
    let (accepted, printed, said) = command(&[&["check", "-"], &naming[..]].concat(), bytes);
    let checked = if accepted { printed } else { said };
    // what is wrong with the chart that names is said of that
    let checked = ["standard input", &chart]
        .iter()
        .find_map(|name| checked.strip_prefix(name))
        .expect("a name stands first");
    let checked = checked.trim_start_matches(": ").trim_end();
    let number = places.to_string();
    let run = [&["--words", words, "--places", &number], &naming[..]].concat();
    let (_, traced, _) = command(&[&["trace", "-"], &run[..]].concat(), bytes);
    let traced = traced.split_once("\n\n").map(|(_, report)| report.trim_end().to_string());
    let reason = traced.is_some().then(|| {
        let (done, printed, said) = command(&[&["why", "-", "--tick", ASKED], &run[..]].concat(), bytes);
        let told = if done { printed } else { said };
        told.trim_start_matches("standard input: ").trim_end().to_string()
    });
    let paid = traced.is_some().then(|| {
        let file = Path::new(env!("CARGO_TARGET_TMPDIR")).join("workbench.prices");
        fs::write(&file, prices()).expect("a folder that can be written");
        let file = file.display().to_string();
        let (_, printed, _) = command(&[&["bill", "-", "--prices", &file], &run[..]].concat(), bytes);
        printed.lines().find(|line| line.contains("to pay")).unwrap_or("").to_string()
    });
    Json::Record(vec![
        ("name", name.into()),
        ("bytes", base64(bytes).into()),
        ("names", names.map(|names| String::from_utf8_lossy(names).into_owned()).into()),
        ("checked", checked.into()),
        ("words", words.into()),
        ("places", places.into()),
        ("traced", traced.into()),
        ("reason", reason.into()),
        ("paid", paid.into()),
    ])
}

/// Examples, charts, images and their texts with damage, one text for each refusal, and files that are no chart.
pub fn texts() -> Vec<Json> {
    let mut texts: Vec<(String, Vec<u8>)> = Vec::new();
    let folder = Path::new(TOP).join("examples");
    for entry in fs::read_dir(folder).expect("the examples") {
        let path = entry.expect("an entry").path();
        let ending = path.extension().and_then(|ending| ending.to_str()).unwrap_or("");
        if ["txt", "chart", "image", "prices", "codes"].contains(&ending) {
            let name = path.file_name().expect("a name").to_string_lossy().into_owned();
            texts.push((name, fs::read(&path).expect("an example")));
        }
    }
    texts.sort();
    let examples = texts.clone();
    for seed in 0..120 {
        let random = &mut Random::new(seed);
        let records = charts::chart(random);
        texts.push((format!("chart {seed}"), text_of(&records)));
        texts.push((format!("records {seed}"), text_of(&damage::records(random, &records))));
        let (name, text) = &examples[seed as usize % examples.len()];
        texts.push((format!("{name} {seed}"), damage::text(random, text)));
        texts.push((format!("image {seed}"), images::text(random)));
    }
    for (name, records) in samples::named_charts() {
        texts.push((name, text_of(&records)));
    }
    texts.push(("large".to_string(), large().into_bytes()));
    let image = fs::read_to_string(Path::new(TOP).join("examples/bore.image")).expect("an example");
    let mut lines: Vec<String> = image.split_inclusive('\n').map(str::to_string).collect();
    lines.swap(1, 2);
    texts.push(("lines in another order".to_string(), lines.concat().into_bytes()));
    lines.swap(1, 2);
    // the last row asks for a result of 3, which there is not; the sum is right again
    let row = lines.last_mut().expect("rows");
    let [result, sum] = [12, 20].map(|at| u8::from_str_radix(&row[at..at + 2], 16).expect("digits"));
    row.replace_range(12..14, "03");
    row.replace_range(20..22, &format!("{:02X}", sum.wrapping_add(result).wrapping_sub(3)));
    texts.push(("a row with another result".to_string(), lines.concat().into_bytes()));
    texts.extend(odd().map(|(name, text)| (name.to_string(), text)));
    let words = "0,1,2,4,8,16,32,65535,0,4,4,4,0,0,8,8,1,0,0,0,43690,21845,0,0,0,0,0";
    let told = |(at, (name, text)): (usize, (String, Vec<u8>))| asked(name, &text, None, words, 1 + at % 4);
    let mut texts: Vec<Json> = texts.into_iter().enumerate().map(told).collect();
    let named = |(at, (image, chart)): (usize, (Vec<u8>, Vec<u8>))| {
        asked(format!("image {at} with names"), &image, Some(&chart), words, 1 + at % 4)
    };
    texts.extend(images_with_names().into_iter().enumerate().map(named));
    // each refusal of a chart, of an image and of a run is among them
    let told = Json::from(texts.clone()).to_string();
    for number in (1..=13).chain([17, 19]) {
        assert!(told.contains(&format!("refusal {number}: ")), "no text is refused with {number}");
    }
    texts
}

/// Images, each with a chart that is to give it names: its own, that of another, one that is refused, and what is none.
fn images_with_names() -> Vec<(Vec<u8>, Vec<u8>)> {
    let charts = ["bore", "roughing", "full_stack", "two_blocks", "swapped", "branches", "home"];
    let read = |name: &str| fs::read(Path::new(TOP).join("examples").join(name)).expect("an example");
    let image = |chart: &[u8]| command(&["translate", "-"], chart).1.into_bytes();
    let own = charts.map(|name| read(&format!("{name}.txt"))).map(|chart| (image(&chart), chart));
    let patched = read("patched/roughing.image");
    let forbids = [&read("roughing.txt")[..], b"never spindle with feed\n"].concat();
    let others = [
        (patched.clone(), read("roughing.txt")),
        (patched.clone(), forbids),
        (patched.clone(), read("roughing.chart")),
        (read("bore.image"), read("roughing.txt")),
        (patched.clone(), b"scheme 1\nbegin -> nowhere\nend\n".to_vec()),
        (patched.clone(), read("bore.image")),
        (patched[..100].to_vec(), read("roughing.txt")),
    ];
    own.into_iter().chain(others).collect()
}

/// Scenarios with what `test` says of each on an example chart, and with the scenario that `trace` writes of its run.
pub fn scenarios() -> Vec<Json> {
    let read = |name: &str| fs::read(Path::new(TOP).join("examples").join(name)).expect("an example");
    let kept = ["bore", "full_stack", "swapped"].map(|name| (name, read(&format!("{name}.scenario"))));
    let typed: [(&str, &[u8]); 7] = [
        ("bore", b"- * 3; expect drill\n"),
        ("bore", b"- * 3; expect drill, dril\n"),
        ("bore", b"- until output drill at most 2\n- * 2\n"),
        ("bore", b"places 1\n- * 9\n- * 2\n"),
        ("swapped", b"swap roughing=shaping\n-\n"),
        ("bore", b"# nothing\n"),
        ("bore", b""),
    ];
    let all = kept.into_iter().chain(typed.map(|(name, text)| (name, text.to_vec())));
    let scenarios = all.map(|(name, text)| {
        let chart = Path::new(TOP).join("examples").join(format!("{name}.txt")).display().to_string();
        let (_, verdict, _) = command(&["test", &chart, "-"], &text);
        let (verdict, _) = verdict.split_once("\n\n").expect("a verdict and what was never taken");
        let verdict = verdict.strip_prefix("standard input: ").expect("the name stands first");
        let (_, saved, _) = command(&["trace", &chart, "--scenario", "-", "--save", "-", "--expect"], &text);
        // the first line tells what was run
        let saved = saved.split_once('\n').map(|(_, lines)| lines.to_string());
        Json::Record(vec![
            ("chart", format!("{name}.txt").into()),
            ("bytes", base64(&text).into()),
            ("verdict", verdict.trim_end().trim_start_matches("not run: ").into()),
            ("saved", saved.into()),
        ])
    });
    scenarios.collect()
}

/// Files that are no chart, or no text, or not quite one.
fn odd() -> [(&'static str, Vec<u8>); 8] {
    let bore = fs::read(Path::new(TOP).join("examples/bore.chart")).expect("an example");
    let returns = String::from_utf8(bore).expect("text").replace('\n', "\r\n");
    [
        ("empty", Vec::new()),
        ("too long", vec![b'#'; (1 << 20) + 1]),
        ("no chart", b"Dear sirs,\nthe lathe is broken.\n".to_vec()),
        ("not UTF-8", b"scheme 1 Fr\xE4sen\n".to_vec()),
        ("a picture", b"\x89PNG\r\n\x1A\n\0\0\0\rIHDR\0\0\x02\0".to_vec()),
        ("zeros", vec![0; 40]),
        ("carriage returns", returns.into_bytes()),
        ("a mark before it", b"\xEF\xBB\xBF00010001000000000000FE\n".to_vec()),
    ]
}

/// These files, with what is said of each.
pub fn files() -> Vec<Json> {
    odd().into_iter().map(|(name, text)| asked(name.to_string(), &text, None, "0", 1)).collect()
}

/// The digits of base 64.
pub const DIGITS: &[u8; 64] = b"ABCDEFGHIJKLMNOPQRSTUVWXYZabcdefghijklmnopqrstuvwxyz0123456789+/";

pub fn base64(bytes: &[u8]) -> String {
    let mut text = String::new();
    for three in bytes.chunks(3) {
        let number =
            three.iter().fold(0u32, |number, byte| number << 8 | u32::from(*byte)) << (8 * (3 - three.len()));
        for place in 0..4 {
            let digit = DIGITS[(number >> (18 - 6 * place) & 63) as usize];
            text.push(if place <= three.len() { char::from(digit) } else { '=' });
        }
    }
    text
}
