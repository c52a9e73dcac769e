//! Tables with commas between their cells, as RFC 4180 has them, but for line feeds at the ends of lines.

/// A cell, between quotation marks where it holds what would end it.
fn cell(text: &str) -> String {
    match text.contains(['"', ',', '\n', '\r']) {
        true => format!("\"{}\"", text.replace('"', "\"\"")),
        false => text.to_string(),
    }
}

/// A heading, and a line for each row.
pub fn table<const N: usize>(heading: [&str; N], rows: impl IntoIterator<Item = [String; N]>) -> String {
    let line = |row: [String; N]| format!("{}\n", row.each_ref().map(|text| cell(text)).join(","));
    [heading.map(str::to_string)].into_iter().chain(rows).map(line).collect()
}

/// A number, or nothing where there is none.
pub fn number<T: ToString>(value: Option<T>) -> String {
    value.map_or(String::new(), |value| value.to_string())
}

#[cfg(test)]
mod tests {
    use super::*;

    #[test]
    fn what_would_end_a_cell_is_quoted() {
        let rows = [["größe", "a,b"], ["it's \"so\"", "two\nlines"], ["", " x "]];
        let written = table(["one", "two"], rows.map(|row| row.map(String::from)));
        assert_eq!(written, "one,two\ngröße,\"a,b\"\n\"it's \"\"so\"\"\",\"two\nlines\"\n, x \n");
    }
}
