//! What the shell offers while a call is typed, tried in bash, and that it is what the commands take.

mod shared;

use std::collections::BTreeSet;
use std::fs;
use std::path::{Path, PathBuf};
use std::process::Command;
use std::sync::OnceLock;

use office::usage::Usage;
use shared::called::{fairleadow, file};

/// Has bash read the completion, and prints what it offers for the last of these words.
const OFFERED: &str = r#"
source "$1" && complete -p fairleadow >&2 || exit
function=$(complete -p fairleadow | sed 's/.*-F \([^ ]*\).*/\1/')
shift
COMP_WORDS=("$@") COMP_CWORD=$(($# - 1))
$function
printf '%s\n' "${COMPREPLY[@]}"
"#;

/// A folder with the completion, a chart and a file whose name has a space, made once.
fn folder() -> &'static Path {
    static FOLDER: OnceLock<PathBuf> = OnceLock::new();
    FOLDER.get_or_init(|| {
        let folder = Path::new(env!("CARGO_TARGET_TMPDIR")).to_path_buf();
        let within = folder.join("completion");
        fs::create_dir_all(within.join("sheets")).expect("a folder");
        fs::write(within.join("bore.txt"), file("bore.txt")).expect("a file");
        fs::write(within.join("two words.txt"), "").expect("a file");
        fs::write(within.join("-hyphen.txt"), "").expect("a file");
        let completion = fairleadow(&["completion", "bash"], b"").1;
        fs::write(folder.join("fairleadow.bash"), completion).expect("a file");
        folder
    })
}

fn offered(words: &[&str]) -> Vec<String> {
    let folder = folder();
    let output = Command::new("bash")
        .args(["--norc", "-c", OFFERED, "bash"])
        .arg(folder.join("fairleadow.bash"))
        .arg("fairleadow")
        .args(words)
        .current_dir(folder.join("completion"))
        .output()
        .expect("bash");
    let said = String::from_utf8_lossy(&output.stderr).into_owned();
    assert_eq!(said, "complete -F _fairleadow fairleadow\n");
    let printed = String::from_utf8(output.stdout).expect("text");
    let mut offered: Vec<String> =
        printed.lines().filter(|line| !line.is_empty()).map(String::from).collect();
    offered.sort();
    offered
}

/// The commands of the help, each with its usage line.
fn commands() -> Vec<(String, String)> {
    let help = fairleadow(&["--help"], b"").1;
    let names = help.lines().filter(|line| line.starts_with("  ") && !line.starts_with("   "));
    let usage = |line: &str| {
        let name = line.split_whitespace().next()?.to_string();
        let told = fairleadow(&["help", &name], b"").1;
        let mut lines = told.lines();
        let first = lines.next()?.strip_prefix(&format!("usage: fairleadow {name} "))?;
        // a long one goes on in the next lines
        let more = lines.take_while(|line| line.starts_with("        [")).map(str::trim_start);
        Some((name, [first].into_iter().chain(more).collect::<Vec<&str>>().join(" ")))
    };
    names.map(|line| usage(line).expect("a usage line")).collect()
}

/// Each option that stands in some text of these sources as a word of the program.
fn options_of(folder: &Path, options: &mut BTreeSet<String>) {
    for entry in fs::read_dir(folder).expect("the sources").map(|entry| entry.expect("a file").path()) {
        if entry.is_dir() {
            options_of(&entry, options);
            continue;
        }
        let text = fs::read_to_string(&entry).expect("a source");
        let is_option = |word: &&str| {
            let name = word.strip_prefix("--").or(word.strip_prefix('-').filter(|name| name.len() == 1));
            name.is_some_and(|name| !name.is_empty() && name.bytes().all(|byte| byte.is_ascii_lowercase()))
        };
        options.extend(text.split('"').filter(is_option).map(String::from));
    }
}

/// A command refuses each option of any command that its usage line has not, and takes those that stand there. Its help tells of each,
/// and bash offers these and no others.
#[test]
fn each_command_takes_the_options_of_its_usage_line_and_no_others() {
    let mut options = BTreeSet::new();
    options_of(&Path::new(env!("CARGO_MANIFEST_DIR")).join("src"), &mut options);
    options.retain(|option| !["-h", "--help", "--version", "--man"].contains(&option.as_str()));
    assert!(options.len() >= 15 && options.contains("-o") && options.contains("--scenario"), "{options:?}");
    let commands = commands();
    assert!(commands.len() >= 17);
    for (name, usage) in commands {
        let taken = |option: &&String| {
            let (status, out, told) = fairleadow(&[&name, option], b"");
            assert_eq!((status, out.as_str()), (2, ""), "{name} {option}: {told}");
            !told.starts_with("no option ")
        };
        let taken: BTreeSet<&str> = options.iter().filter(taken).map(String::as_str).collect();
        let usage = Usage::of(&usage);
        assert_eq!(taken, usage.options.iter().map(|option| option.name).collect(), "{name}");
        let help = fairleadow(&["help", &name], b"").1;
        let is_told = |option: &&&str| {
            help.split(|sign: char| sign.is_whitespace() || "[]".contains(sign)).any(|word| word == **option)
        };
        assert_eq!(taken.iter().filter(is_told).count(), taken.len(), "{name}");
        let wanted: BTreeSet<String> =
            taken.iter().map(|option| option.to_string()).chain(["--help".to_string()]).collect();
        assert_eq!(offered(&[&name, "-"]).into_iter().collect::<BTreeSet<String>>(), wanted, "{name}");
    }
}

#[test]
fn commands_options_and_files_are_offered() {
    assert_eq!(offered(&["tr"]), ["trace", "translate"]);
    let all: BTreeSet<String> =
        commands().into_iter().map(|(name, _)| name).chain(["help".to_string()]).collect();
    assert_eq!(offered(&[""]).into_iter().collect::<BTreeSet<String>>(), all);
    assert_eq!(offered(&["--v"]), ["--version"]);
    assert_eq!(offered(&["help", "pl"]), ["places"]);
    assert_eq!(offered(&["trace", "bore.txt", "--s"]), ["--save", "--scenario", "--swap"]);
    assert_eq!(offered(&["trace", ""]), ["-hyphen.txt", "bore.txt", "sheets", "two words.txt"]);
    assert_eq!(offered(&["trace", "two"]), ["two words.txt"]);
    assert_eq!(offered(&["trace", "bore.txt", "--scenario", "b"]), ["bore.txt"]);
    assert_eq!(
        offered(&["trace", "bore.txt", "--scenario", "="]),
        ["-hyphen.txt", "bore.txt", "sheets", "two words.txt"]
    );
    assert_eq!(offered(&["trace", "bore.txt", "--scenario", "=", "b"]), ["bore.txt"]);
    // a number cannot be offered, and after -- there are no options
    assert!(offered(&["trace", "bore.txt", "--places", ""]).is_empty());
    assert_eq!(offered(&["trace", "--", "-"]), ["-hyphen.txt"]);
    assert_eq!(offered(&["completion", ""]), ["bash"]);
    assert_eq!(offered(&["wall", ""]), ["--help"]);
    assert!(offered(&["none", ""]).is_empty());
}

#[test]
fn another_shell_is_told() {
    let usage = "usage: fairleadow completion bash\n";
    let told = |arguments: &[&str]| fairleadow(arguments, b"");
    assert_eq!(told(&["completion"]), (2, String::new(), format!("a shell is missing\n{usage}")));
    let (status, out, said) = told(&["completion", "bsh"]);
    assert_eq!((status, out.as_str()), (2, ""));
    assert_eq!(said, format!("no completion for bsh; did you mean bash?\n{usage}"));
}
