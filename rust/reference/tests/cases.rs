//! What the program `translate_cases` is expected to print, and the images and codes of the example charts, are what
//! the reference makes of their charts.

use std::fs;
use std::path::{Path, PathBuf};

use reference::frames::CHARACTERS;
use reference::programs;

/// The longest image that is printed whole, in frames; of a longer one the first and the last frame are.
const WHOLE: usize = 60;

fn folder(name: &str) -> PathBuf {
    Path::new(env!("CARGO_MANIFEST_DIR")).join("../..").join(name)
}

fn file(path: &Path) -> Vec<u8> {
    fs::read(path).unwrap_or_else(|error| panic!("{}: {error}", path.display()))
}

#[test]
fn translate_cases_expects_what_the_reference_prints() {
    let cases = folder("crates/translate_cases");
    let mut expected = Vec::new();
    for chart in file(&cases.join("stdin")).split(|character| *character == b'-') {
        let image = programs::translate(chart);
        if image.len() <= WHOLE * CHARACTERS {
            expected.extend(&image);
        } else {
            expected.extend(&image[..CHARACTERS]);
            expected.extend(&image[image.len() - CHARACTERS..]);
        }
        expected.extend(b"-\n");
    }
    assert_eq!(file(&cases.join("stdout")).escape_ascii().to_string(), expected.escape_ascii().to_string());
}

#[test]
fn the_examples_are_what_the_reference_prints() {
    let mut charts = 0;
    for entry in fs::read_dir(folder("examples")).expect("the examples") {
        let path = entry.expect("a file").path();
        if path.extension().is_some_and(|extension| extension == "chart") {
            let example = |kind: &str| file(&path.with_extension(kind));
            assert!(programs::translate(&example("chart")) == example("image"), "{}", path.display());
            assert!(programs::run(&example("image")) == example("codes"), "{}", path.display());
            charts += 1;
        }
    }
    assert!(charts >= 7);
}
