//! Each function that the crate hands out has an example, which the tests of the documentation run.

use std::fs;
use std::path::Path;

/// The functions of a source whose heads have no example.
fn without_example(source: &str) -> Vec<&str> {
    let mut found = Vec::new();
    let mut has_example = false;
    for line in source.lines().map(str::trim) {
        if line.starts_with("///") {
            has_example |= line.starts_with("/// ```");
        } else if !line.starts_with("#[") {
            if line.starts_with("pub fn ") && !has_example {
                found.push(line);
            }
            has_example = false;
        }
    }
    found
}

#[test]
fn a_function_without_an_example_is_found() {
    let source = "/// A.\n/// ```\n/// a();\n/// ```\n#[must_use]\npub fn a() {}\n\n/// B.\npub fn b() {}\n";
    assert_eq!(without_example(source), ["pub fn b() {}"]);
}

#[test]
fn each_function_has_an_example() {
    let folder = Path::new(env!("CARGO_MANIFEST_DIR")).join("src");
    let mut functions = 0;
    for file in fs::read_dir(folder).expect("the sources") {
        let path = file.expect("a source").path();
        // the functions of C are told of by their header
        if path.file_name().is_some_and(|name| name == "c.rs") {
            continue;
        }
        let source = fs::read_to_string(&path).expect("a text");
        assert_eq!(without_example(&source), Vec::<&str>::new(), "{}", path.display());
        functions += source.matches(" pub fn ").count();
    }
    assert!(functions > 40, "{functions}");
}
