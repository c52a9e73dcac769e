//! The C header has the names and numbers of the code and the sizes of the wrapper; of refusals the test `refusals` holds them.

use pages::read;

fn number(text: &str) -> u64 {
    match text.strip_prefix("0x") {
        Some(digits) => u64::from_str_radix(digits, 16),
        None => text.parse(),
    }
    .unwrap_or_else(|_| panic!("{text} is no number"))
}

/// The constants of a file of the code, as name and number.
fn constants(path: &str) -> Vec<(String, u64)> {
    let constant = |line: &str| {
        let (name, value) = line.strip_prefix("pub const ")?.strip_suffix(';')?.split_once(": u8 = ")?;
        Some((name.to_string(), number(value)))
    };
    read(path).lines().filter_map(constant).collect()
}

/// The number that the header gives a name, in an enumeration or by a macro.
fn in_header(header: &str, name: &str) -> Option<u64> {
    let (listed, defined) = (format!("FAIRLEADOW_{name} = "), format!("#define FAIRLEADOW_{name} "));
    let (_, rest) = header.split_once(&listed).or_else(|| header.split_once(&defined))?;
    rest.split([',', ' ', '\n']).next().map(number)
}

#[test]
fn codes_and_kinds_have_the_numbers_of_the_code() {
    let header = read("include/fairleadow.h");
    let kinds = ["BEGIN", "END", "OPERATION", "CONDITION", "FUNCTION"];
    let ticks = ["PLAIN", "OPERATION_CALL", "FUNCTION_CALL", "RETURN", "HOME"];
    let of_kind = |names: &[&str], path: &str| -> Vec<(String, u64)> {
        constants(path).into_iter().filter(|(name, _)| names.contains(&name.as_str())).collect()
    };
    let (nodes, ticks) =
        (of_kind(&kinds, "crates/charts/src/layout.rt"), of_kind(&ticks, "crates/image/src/layout.rt"));
    let codes: Vec<(String, u64)> = constants("crates/text/src/frames/codes.rt")
        .into_iter()
        .filter(|(name, _)| name.ends_with("_CODE"))
        .collect();
    assert_eq!((codes.len(), nodes.len(), ticks.len()), (6, 5, 5));
    for (name, value) in codes.into_iter().chain(nodes).chain(ticks) {
        assert_eq!(in_header(&header, &name), Some(value), "{name}");
    }
}

#[test]
fn sizes_are_those_of_the_wrapper() {
    let header = read("include/fairleadow.h");
    let sizes = [
        ("LINE", interface::LINE),
        ("RECORD", interface::RECORD),
        ("FRAME", interface::FRAME),
        ("NODES", interface::NODES),
        ("SCHEMES", interface::SCHEMES),
        ("LABELS", interface::LABELS),
        ("ROWS", interface::ROWS),
        ("PLACES", interface::PLACES),
        ("CHART_TEXT", interface::CHART_TEXT),
        ("IMAGE_TEXT", interface::IMAGE_TEXT),
        ("LITTLE_TEXT", interface::LITTLE_TEXT),
        ("RECORDS", interface::RECORDS),
        ("TABLE", interface::TABLE),
        ("SPINDLES", interface::SPINDLES),
        ("STORE", interface::STORE),
        ("OPERATIONS", interface::OPERATIONS),
        ("CONDITIONS", interface::CONDITIONS),
        ("PRICED_WORDS", interface::PRICED_WORDS),
        ("COUNTED_BITS", interface::COUNTED_BITS),
        ("COUNTED_TICKS", interface::COUNTED_TICKS),
    ];
    for (name, size) in sizes {
        assert_eq!(in_header(&header, name), Some(size as u64), "{name}");
    }
}
