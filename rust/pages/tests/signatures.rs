//! Every call has one signature: as the archive's function in include/fairleadow_calls.h, whose types are the same on every processor, so
//! are it in the code that exports it and in the wrapper; as a function of include/fairleadow.h, so is the one that calls the archive's;
//! and the board has each of them by its number.

use std::collections::BTreeMap;
use std::fs;

use pages::{between, read, root};

const HEADER: &str = "include/fairleadow.h";
const CALLS: &str = "include/fairleadow_calls.h";

/// What a function takes, in order, as the wrapper's Rust writes it, and what it returns.
type Signature = (Vec<String>, String);

/// Functions by their names.
type Functions = BTreeMap<String, Signature>;

/// A parameter of C as Rust has it.
fn of_c(declared: &str) -> String {
    let declared = declared.trim();
    // of a list whose length the type tells a call hands over where it begins
    let (declared, listed) = match declared.split_once('[') {
        Some((declared, _)) => (declared, true),
        None => (declared, false),
    };
    let (kind, pointer) = match declared.rsplit_once('*') {
        Some((kind, _name)) => (kind.trim(), true),
        None => (declared.rsplit_once(' ').expect("a name stands behind the type").0, listed),
    };
    let (kind, constant) = kind.strip_prefix("const ").map_or((kind, false), |kind| (kind, true));
    let named = match kind {
        "uint8_t" => "u8",
        "uint16_t" => "u16",
        "uint32_t" => "u32",
        "uint64_t" => "u64",
        "size_t" => "usize",
        "fairleadow_state" => "State",
        other => panic!("{other} is no type of a call"),
    };
    match (pointer, constant) {
        (false, _) => named.to_owned(),
        (true, true) => format!("*const {named}"),
        (true, false) => format!("*mut {named}"),
    }
}

/// The functions of a text that begin so and end so.
fn functions<'a>(text: &'a str, start: &str, end: char) -> Vec<(&'a str, &'a str, &'a str)> {
    text.split(start)
        .skip(1)
        .map(|rest| {
            let (name, rest) = rest.split_once('(').expect("a name stands before what is taken");
            let (taken, rest) = rest.split_once(')').expect("a bracket closes what is taken");
            (name, taken, rest.split_once(end).expect("it ends").0.trim())
        })
        .collect()
}

/// The functions of C that begin so, their names without what they have in common.
fn of_header(text: &str, common: &str, end: char) -> Functions {
    let mut found = Functions::new();
    for (returned, type_of) in [("uint8_t", "u8"), ("uint32_t", "u32")] {
        for (name, taken, _) in functions(text, &common.replace("TYPE", returned), end) {
            let taken = taken.split(',').filter(|each| each.trim() != "void").map(of_c).collect();
            found.insert(name.to_owned(), (taken, type_of.to_owned()));
        }
    }
    found
}

/// The functions of fairleadow.h.
fn of_the_header() -> Functions {
    of_header(&read(HEADER), "\nTYPE fairleadow_", ';')
}

/// The functions of the archive, as C declares them.
fn of_the_archive() -> Functions {
    let calls = read(CALLS);
    let mut found = of_header(between(&calls, "#define", "typedef struct"), "\nTYPE fairleadow_", ';');
    // which is in the archive as the header has it
    found.insert("version".to_owned(), of_the_header()["version"].clone());
    found
}

/// Parameters of Rust without their names.
fn types(taken: &str) -> impl Iterator<Item = &str> {
    taken.split(',').filter_map(|each| Some(each.split_once(": ")?.1.trim()))
}

/// What the code's parameter is to a caller: a slice is where it begins and how long it is.
fn of_code(kind: &str) -> Vec<String> {
    let (kind, pointer) = match (kind.strip_prefix("&mut "), kind.strip_prefix('&')) {
        (Some(kind), _) => (kind, "*mut "),
        (None, Some(kind)) => (kind, "*const "),
        (None, None) => (kind, ""),
    };
    let named = match kind.trim_matches(['[', ']']) {
        "u8; STATE_BYTES" | "State" => "State",
        "usize" => "u64",
        other => other.split(';').next().expect("a type"),
    };
    let handed = format!("{pointer}{named}");
    if kind.starts_with('[') && !kind.contains(';') {
        vec![handed, "u64".to_owned()]
    } else {
        vec![handed]
    }
}

fn of_the_code() -> Functions {
    let mut found = Functions::new();
    for entry in fs::read_dir(root().join("crates/fairleadow/src")).expect("the exported functions") {
        let code = fs::read_to_string(entry.expect("a file").path()).expect("a text");
        for (name, taken, rest) in
            functions(&code, "#[unsafe(no_mangle)]\npub extern \"C\" fn fairleadow_", '{')
        {
            let returned = rest.split_whitespace().nth(1).expect("each returns a number");
            found.insert(name.to_owned(), (types(taken).flat_map(of_code).collect(), returned.to_owned()));
        }
    }
    found
}

fn of_the_wrapper() -> Functions {
    let text = read("rust/fairleadow/src/c.rs");
    let (_, archive) = text.split_once("extern \"C\" {\n").expect("the functions of the archive stand last");
    let declared = functions(archive, "pub fn fairleadow_", ';').into_iter();
    declared
        .map(|(name, taken, rest)| {
            let returned = rest.strip_prefix("-> ").expect("each returns a number");
            (name.to_owned(), (types(taken).map(str::to_owned).collect(), returned.to_owned()))
        })
        .collect()
}

#[test]
fn the_wrapper_declares_the_functions_of_the_archive() {
    assert_eq!(of_the_wrapper(), of_the_archive());
}

/// Of what the archive returns, a byte may have anything above it.
#[test]
fn the_code_exports_the_functions_of_the_archive() {
    let mut exported = of_the_code();
    for (_, returned) in exported.values_mut() {
        assert!(["u8", "u32"].contains(&returned.as_str()));
        *returned = "u32".to_owned();
    }
    assert_eq!(exported, of_the_archive());
}

#[test]
fn the_header_has_the_functions_of_the_archive_with_lengths_of_its_own() {
    let widened = |(taken, _): Signature| -> Signature {
        (taken.iter().map(|kind| kind.replace("usize", "u64")).collect(), "u32".to_owned())
    };
    let header: Functions =
        of_the_header().into_iter().map(|(name, signature)| (name, widened(signature))).collect();
    let mut archive = of_the_archive();
    for name in ["spin", "live_spin"] {
        // a list of states may go to the archive as its bytes
        let (taken, _) = archive.get_mut(name).expect("it is there");
        taken[0] = taken[0].replace("u8", "State");
    }
    assert_eq!(header, archive);
}

#[test]
fn each_function_of_the_header_stands_for_one_that_calls_the_archive() {
    let (calls, mut header) = (read(CALLS), of_the_header());
    header.remove("version");
    assert_eq!(of_header(&calls, "\nstatic inline TYPE fairleadow_c_", '{'), header);
    let mut named: Vec<String> =
        header.keys().map(|name| format!("#define fairleadow_{name} fairleadow_c_{name}")).collect();
    let mut defined: Vec<&str> =
        calls.lines().filter(|line| line.starts_with("#define fairleadow_")).collect();
    named.sort_unstable();
    defined.sort_unstable();
    assert_eq!(defined, named);
}

/// The numbers of the board's program and of those who call it, which has one more, to measure its own stack.
#[test]
fn the_board_numbers_every_function() {
    let program = read("controller/board/board.c");
    let callers = read("rust/board/src/message.rs");
    let listed = |text: &str| -> Vec<String> {
        let lines = text.lines().map(str::trim).filter(|line| !line.is_empty() && !line.starts_with("///"));
        lines.map(|line| line.trim_end_matches(',').replace('_', "").to_lowercase()).collect()
    };
    let numbered = listed(between(&program, "enum {\n", "};"));
    assert_eq!(listed(between(&callers, "pub enum Call {\n", "}\n")), numbered);
    let mut names: Vec<String> = of_the_header().into_keys().collect();
    for name in &names {
        assert!(program.contains(&format!("fairleadow_{name}")), "{name}");
    }
    names.push("known".to_owned());
    let mut names: Vec<String> = names.iter().map(|name| name.replace('_', "")).collect();
    let mut numbered = numbered;
    names.sort_unstable();
    numbered.sort_unstable();
    assert_eq!(numbered, names);
}
