//! Which definitions a reader must believe: those that the contracts of the entry points and the laws of docs/TRACE.md rest on. They are
//! listed in README.md, all others stand in specs/inner; a number of the code is not defined again; and crates.txt names no
//! dependency that a crate does not use.

use std::collections::{BTreeMap, BTreeSet};
use std::fs;
use std::path::PathBuf;

use pages::{read, root};

/// The texts of all files below a folder whose name has one of the endings, by their paths from there without it.
fn texts(folder: PathBuf, endings: &[&str]) -> BTreeMap<String, String> {
    let mut found = BTreeMap::new();
    for entry in fs::read_dir(&folder).into_iter().flatten() {
        let path = entry.expect("an entry").path();
        let stem = path.file_stem().expect("a name").to_string_lossy().into_owned();
        if path.is_dir() && stem != "out" {
            let inside = texts(path, endings).into_iter();
            found.extend(inside.map(|(name, text)| (format!("{stem}/{name}"), text)));
        } else if path.extension().is_some_and(|ending| endings.iter().any(|one| ending == *one)) {
            found.insert(stem, fs::read_to_string(path).expect("a text"));
        }
    }
    found
}

/// The crates of crates.txt with their dependencies.
fn crates() -> Vec<(String, Vec<String>)> {
    read("crates.txt")
        .lines()
        .filter(|line| !line.starts_with('#'))
        .filter_map(|line| line.split_once(':'))
        .map(|(name, needs)| (name.to_owned(), needs.split_whitespace().map(str::to_owned).collect()))
        .collect()
}

/// The spec files, as crate/File or crate/module/inner/File, but for those that only declare others. Those of bench are cases.
fn specs() -> BTreeMap<String, String> {
    let of = |name: String| {
        let files = texts(root().join("crates").join(&name).join("specs"), &["antt"]).into_iter();
        files
            .filter(|(_, text)| {
                !text.lines().all(|line| line.starts_with("pub mod ") || line.starts_with("--"))
            })
            .map(move |(file, text)| (format!("{name}/{file}"), text))
    };
    crates().into_iter().map(|(name, _)| name).filter(|name| name != "bench").flat_map(of).collect()
}

/// A line that imports from a file of a crate: the file, as crate/specs/File, and the names.
struct Import {
    file: String,
    names: Vec<String>,
}

fn imports(text: &str) -> Vec<Import> {
    let import = |line: &str| {
        let (_, rest) = line.split_once("use Rattle.")?;
        let (path, names) = rest.split_once(".{").unwrap_or((rest.split([' ', ';']).next()?, ""));
        let names = names.split([',', '}', ';']).map(|name| name.trim().to_owned());
        Some(Import { file: path.replace('.', "/"), names: names.filter(|name| !name.is_empty()).collect() })
    };
    text.lines().filter_map(import).collect()
}

/// The spec file that an import names, if it is one: not a proof, nor a type that the code declares.
fn spec(import: &Import) -> Option<String> {
    let (name, file) = import.file.split_once("/specs/")?;
    (name != "std" && !file.starts_with("declared/")).then(|| format!("{name}/{file}"))
}

/// The contract of a function: its head, up to the line that opens its body.
fn contract<'a>(text: &'a str, function: &str) -> Option<&'a str> {
    let (_, rest) = text.split_once(&format!("pub fn {function}("))?;
    let body = rest.find("\n{").into_iter().chain(rest.find("\n    {")).min()?;
    Some(&rest[..body])
}

/// The spec files that the contracts of the entry points cite: the trace names these, and all exported functions are among them.
fn cited() -> BTreeSet<String> {
    let trace = read("docs/TRACE.md");
    let row = trace
        .lines()
        .find(|line| line.starts_with("| 1, an answer from every entry point"))
        .expect("the row");
    let (_, list) = row.split_once("contracts of ").expect("a list");
    let mut files = BTreeSet::new();
    for group in list.split_once(", none with").expect("its end").0.split(')') {
        let Some((functions, name)) = group.split_once('(') else { continue };
        let sources = texts(root().join("crates").join(name).join("src"), &["rt"]);
        let functions: Vec<&str> = functions.split('`').skip(1).step_by(2).collect();
        for function in &functions {
            let function = function.rsplit("::").next().expect("a name");
            let mut found = sources.values().filter_map(|text| Some((text, contract(text, function)?)));
            let (text, contract) = found.next().unwrap_or_else(|| panic!("{function} stands in {name}"));
            let words: BTreeSet<&str> =
                contract.split(|c: char| c.is_whitespace() || "()".contains(c)).collect();
            let cites = |import: &&Import| import.names.iter().any(|name| words.contains(name.as_str()));
            files.extend(imports(text).iter().filter(cites).filter_map(spec));
        }
        if functions.is_empty() {
            files.extend(sources.values().flat_map(|text| imports(text)).filter_map(|import| spec(&import)));
        }
    }
    files
}

/// The spec files that the trace names: they state its laws, or carry a rule.
fn traced() -> BTreeSet<String> {
    let trace = read("docs/TRACE.md");
    let word = |c: char| !(c.is_alphanumeric() || c == '_' || c == '/');
    let named = trace.split(word).filter_map(|path| path.split_once("/specs/"));
    named
        .filter(|(name, file)| *name != "bench" && !format!("/{file}").contains("/inner/"))
        .map(|(name, file)| format!("{name}/{file}"))
        .collect()
}

/// All files that the contracts and the laws rest on.
fn believed() -> BTreeSet<String> {
    let specs = specs();
    let mut reached = BTreeSet::new();
    let mut waiting: Vec<String> = cited().into_iter().chain(traced()).collect();
    while let Some(file) = waiting.pop() {
        let text = specs.get(&file).unwrap_or_else(|| panic!("{file} is cited and is not there"));
        if reached.insert(file) {
            waiting.extend(imports(text).iter().filter_map(spec));
        }
    }
    reached
}

#[test]
fn the_inner_files_are_those_that_no_contract_of_an_entry_point_and_no_law_rests_on() {
    let believed = believed();
    for file in specs().keys() {
        assert_eq!(file.contains("/inner/"), !believed.contains(file), "{file} stands in the wrong place");
    }
}

#[test]
fn no_definition_rests_on_a_proof() {
    for (file, text) in specs().into_iter().chain(texts(root().join("crates/bench/specs"), &["antt"])) {
        for import in imports(&text) {
            assert!(import.file.contains("/specs/"), "{file} imports {}", import.file);
        }
    }
}

/// The files that README.md lists, with their numbers of lines, in its order: | subject | crate | File 12, Other 34 |.
fn listed() -> Vec<(String, usize)> {
    let page = read("README.md");
    let (_, table) =
        page.split_once("| Subject | Crate | Files, with their lines |\n").expect("the table is there");
    let mut files = Vec::new();
    for row in table.lines().skip(1).take_while(|line| line.starts_with('|')) {
        let cells: Vec<&str> = row.split('|').map(str::trim).collect();
        for file in cells[3].split(", ") {
            let (file, lines) = file.split_once(' ').expect("a file and its lines");
            files.push((format!("{}/{file}", cells[2]), lines.parse().expect("a number")));
        }
    }
    files
}

#[test]
fn the_list_of_what_to_believe_is_whole_and_each_file_comes_after_what_it_imports() {
    let (specs, listed) = (specs(), listed());
    let names: BTreeSet<String> = listed.iter().map(|(file, _)| file.clone()).collect();
    assert_eq!(names, believed());
    let mut before = BTreeSet::new();
    for (file, lines) in listed {
        assert_eq!(specs[&file].lines().count(), lines, "the lines of {file}");
        for import in imports(&specs[&file]).iter().filter_map(spec) {
            assert!(before.contains(&import), "{file} is listed before {import}");
        }
        assert!(before.insert(file.clone()), "{file} is listed twice");
    }
}

/// Whether a text names a crate, in code as NAME:: or as a library of definitions and proofs.
fn names(text: &str, name: &str) -> bool {
    let inside = |c: char| c.is_alphanumeric() || c == '_' || c == ':';
    let path = format!("{name}::");
    text.contains(&format!("use Rattle.{name}."))
        || text.match_indices(&path).any(|(at, _)| !text[..at].ends_with(inside))
}

#[test]
fn each_crate_uses_all_that_it_depends_on() {
    for (name, needs) in crates() {
        let files = texts(root().join("crates").join(&name), &["rt", "antt"]);
        for need in needs {
            assert!(files.values().any(|text| names(text, &need)), "{name} does not use {need}");
        }
    }
}

/// The names of the constants of a crate's code.
fn constants(name: &str) -> BTreeSet<String> {
    let name_of = |line: &str| Some(line.split_once("const ")?.1.split_once(": ")?.0.to_owned());
    let files = texts(root().join("crates").join(name).join("src"), &["rt"]);
    files.values().flat_map(|text| text.lines().filter_map(name_of).collect::<Vec<String>>()).collect()
}

#[test]
fn no_number_of_the_code_stands_in_a_definition_again() {
    for (name, needs) in crates() {
        let mut numbers = constants(&name);
        numbers.extend(needs.iter().flat_map(|need| constants(need)));
        for (file, text) in texts(root().join("crates").join(&name), &["antt"]) {
            let defined = text.lines().filter_map(|line| line.strip_suffix(" : ℕ")?.rsplit(' ').next());
            for number in defined {
                assert!(!numbers.contains(&number.replace('-', "_")), "{name}/{file} defines {number} again");
            }
        }
    }
}
