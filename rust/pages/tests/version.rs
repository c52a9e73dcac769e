//! One release: header, crates, change log and the man page on show have one, whose middle number is the version that header, code and
//! wrapper tell. That the archive tells it too, a test of the wrapper says.

use std::fs;

use pages::{between, read, root};

const MANIFEST: &str = "rust/Cargo.toml";

fn release() -> String {
    between(&read(MANIFEST), "[workspace.package]\nversion = \"", "\"").to_owned()
}

#[test]
fn every_place_that_tells_the_release_tells_the_same() {
    let release = release();
    assert_eq!(interface::RELEASE, release);
    assert_eq!(between(&read("include/fairleadow.h"), "#define FAIRLEADOW_RELEASE \"", "\""), release);
    assert_eq!(between(&read("CHANGELOG.md"), "\n## ", " "), release);
    assert_eq!(between(&read("docs/CHARTS.md"), ".TH FAIRLEADOW 1 \"\" \"fairleadow ", "\""), release);
    let mut crates = 0;
    for entry in fs::read_dir(root().join("rust")).expect("the crates") {
        let Ok(manifest) = fs::read_to_string(entry.expect("an entry").path().join("Cargo.toml")) else {
            continue;
        };
        assert!(manifest.contains("\nversion.workspace = true\n"), "{manifest}");
        crates += 1;
    }
    assert!(crates >= 9);
}

#[test]
fn the_middle_number_is_the_version_of_header_code_and_wrapper() {
    let release = release();
    let numbers: Vec<u32> = release.split('.').map(|number| number.parse().expect("a number")).collect();
    let [0, version, _] = numbers[..] else { panic!("{release} is no release before 1.0.0") };
    let header = read("include/fairleadow.h");
    let code = read("crates/fairleadow/src/version_for_c.rt");
    assert_eq!(between(&header, "#define FAIRLEADOW_VERSION ", "\n"), version.to_string());
    assert_eq!(between(&code, "pub const VERSION: u32 = ", ";"), version.to_string());
    assert_eq!(interface::VERSION, version);
}
