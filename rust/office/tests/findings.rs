//! What is found in files, for editors and for programs that collect it: each finding with its place, and bad files in each form.

mod shared;

use std::process::Stdio;

use shared::readers::{own, read_by, ROWS};
use shared::{example, run};

/// The lines for editors, and the same findings as SARIF has them, with its required fields.
#[test]
fn findings_have_their_places() {
    let text = std::fs::read_to_string(example("roughing.txt")).expect("an example");
    let interlocked =
        own("größe & so.txt", &format!("{text}\nalways feed while spindle\nalways spindle while feed\n"));
    let slip = own("slip.txt", &text.replace("-> end", "-> edn"));
    let files = [&interlocked, &slip, "no/such.txt"];
    let ran = run(&[&["check", "--format", "lines"], &files[..]].concat());
    let lines: Vec<&str> = ran.printed.lines().collect();
    assert_eq!((ran.status, ran.said.as_str()), (1, "3 of 3 files refused\n"));
    let count = text.lines().count() + 2;
    assert!(
        lines[0].starts_with(&format!(
            "{interlocked}:{count}:1: error: 'always feed while spindle' does not hold: "
        )),
        "{}",
        lines[0]
    );
    assert!(lines[1].starts_with(&format!("{interlocked}:19: warning: ")), "{}", lines[1]);
    assert!(lines[2].starts_with(&format!("{slip}:")) && lines[2].contains(": error: "), "{}", lines[2]);
    assert_eq!(lines[3..], ["no/such.txt: error: there is no such file"]);
    // what is accepted has no line
    let ran = run(&["check", "--format", "lines", &example("bore.txt")]);
    assert_eq!((ran.status, ran.printed.as_str(), ran.said.as_str()), (0, "", ""));
    let script = "\
import json, sys
from urllib.parse import unquote
told = json.loads(sys.stdin.buffer.read())
assert told['version'] == '2.1.0' and told['$schema'].endswith('sarif-schema-2.1.0.json')
[one] = told['runs']
rules = [rule['id'] for rule in one['tool']['driver']['rules']]
assert one['tool']['driver']['name'] == 'fairleadow' and one['columnKind'] == 'unicodeCodePoints'
for result in one['results']:
    assert result['message']['text'] and result['ruleId'] in rules
    for place in result['locations']:
        region = place['physicalLocation'].get('region', {})
        uri = place['physicalLocation']['artifactLocation']['uri']
        assert uri.isascii() and ' ' not in uri
        name = unquote(uri)
        print(result['level'], result['ruleId'], name.removeprefix('file://'), region.get('startLine'), region.get('startColumn'))
print(len(one['results']))
";
    let ran = run(&[&["check", "--format", "sarif"], &files[..]].concat());
    let Some(told) = read_by("python3", &["-c", script], &ran.printed) else { return };
    let told: Vec<&str> = told.lines().collect();
    assert_eq!(told[0], format!("error interlock {interlocked} {count} 1"));
    assert_eq!(told[1], format!("warning warning {interlocked} 19 None"));
    assert!(told[2].starts_with(&format!("error fault {slip} ")), "{}", told[2]);
    assert_eq!(told[3..], ["error fault no/such.txt None None", "4"]);
}

/// Files that are none of these, in each format: a status, and a document that can be read.
#[test]
fn bad_files_are_findings() {
    let chart = std::fs::read_to_string(example("bore.chart")).expect("an example");
    let files = [
        own("empty.txt", ""),
        example(""),
        own("page.txt", "<html>\n\"a, b\"\n</html>\n"),
        own("returns.chart", &chart.replace('\n', "\r\n")),
        own("damaged.chart", &chart.replacen('0', "1", 1)),
    ];
    let script = "import json, sys\njson.loads(sys.stdin.buffer.read())\nprint('read')\n";
    for file in &files {
        for format in ["lines", "csv", "json", "sarif"] {
            let ran = run(&["check", file, "--format", format]);
            assert_eq!((ran.status, ran.said.as_str()), (1, "1 of 1 file refused\n"), "{file}");
            let read = match format {
                "json" | "sarif" => read_by("python3", &["-c", script], &ran.printed),
                "csv" => read_by("python3", &["-c", ROWS], &ran.printed),
                _ => None,
            };
            assert!(read.is_none_or(|read| read == "read\n" || read.lines().count() == 2), "{file}");
        }
    }
    // standard input has no name that leads to it
    let mut command = shared::program(&["check", "-", "--format", "sarif"]);
    let printed = shared::ran(command.stdin(Stdio::null())).printed;
    assert!(printed.contains("\"locations\":[]"), "{printed}");
}
