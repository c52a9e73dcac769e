//! What a file holds, by what it looks like: a chart's lines, an image's, or the readable notation.

use crate::notation::KEYWORDS;

#[derive(Clone, Copy, Debug, PartialEq, Eq)]
pub enum Kind {
    Chart,
    Image,
    Notation,
}

impl Kind {
    pub fn of(bytes: &[u8]) -> Kind {
        if is_notation(bytes) {
            Kind::Notation
        } else if is_image(bytes) {
            Kind::Image
        } else {
            Kind::Chart
        }
    }

    /// What a file surely holds: none where it has no line of digits or of notation, or is a page.
    pub fn held(bytes: &[u8]) -> Option<Kind> {
        let is_page = bytes.trim_ascii_start().starts_with(b"<");
        let is_held = !is_page && (has_digits(bytes) || is_notation(bytes));
        is_held.then(|| Kind::of(bytes))
    }

    /// `a chart`, `an image`, `the notation`.
    pub fn named(self) -> &'static str {
        match self {
            Kind::Chart => "a chart",
            Kind::Image => "an image",
            Kind::Notation => "the readable notation",
        }
    }
}

/// Whether this could be a line of digits, damaged or not. One may stand in a comment of the notation, and a name may be of the letters
/// A to F alone.
fn like_digits(line: &[u8]) -> bool {
    let line = line.trim_ascii();
    let digits = line.iter().filter(|byte| byte.is_ascii_hexdigit()).count();
    let are_most = line.len() >= 16 && digits * 10 >= line.len() * 9;
    are_most && !line.starts_with(b"#") && !like_notation(&String::from_utf8_lossy(line))
}

/// Whether some line could be one of digits.
pub fn has_digits(bytes: &[u8]) -> bool {
    bytes.split(|byte| *byte == b'\n').any(like_digits)
}

/// Whether this line can only be notation: an arrow or one of the first words of its statements.
fn like_notation(line: &str) -> bool {
    let statement = line.split_once(':').map_or(line, |(_, statement)| statement);
    let starts = |line: &str| line.split_whitespace().next().is_some_and(|word| KEYWORDS.contains(&word));
    line.contains("->") || starts(line) || starts(statement)
}

/// Whether there are comments and nothing else.
fn only_comments(text: &str) -> bool {
    let mut lines = text.lines().map(str::trim).filter(|line| !line.is_empty()).peekable();
    lines.peek().is_some() && lines.all(|line| line.starts_with('#'))
}

/// Also where it is not in UTF-8, so that this is told.
fn is_notation(bytes: &[u8]) -> bool {
    let text = String::from_utf8_lossy(bytes);
    !has_digits(bytes) && (text.lines().any(like_notation) || only_comments(&text))
}

/// By the first line's first byte; where that belongs to neither, by what most lines begin with.
fn is_image(bytes: &[u8]) -> bool {
    let begins = |line: &[u8], with: &[&[u8]]| with.iter().any(|start| line.starts_with(start));
    let chart = |line: &[u8]| begins(line, &[b"00", b"01", b"02", b"03", b"04"]);
    let image = |line: &[u8]| begins(line, &[b"0F", b"0f", b"10", b"11", b"12"]);
    let mut lines = bytes.split(|byte| *byte == b'\n');
    match lines.clone().next() {
        Some(first) if begins(first, &[b"0F", b"0f"]) => true,
        Some(first) if chart(first) => false,
        _ => {
            lines.clone().filter(|line| image(line)).count()
                > lines.by_ref().filter(|line| chart(line)).count()
        }
    }
}

#[cfg(test)]
mod tests {
    use super::*;

    #[test]
    fn files_are_told_apart() {
        assert_eq!(Kind::of(b""), Kind::Chart);
        assert_eq!(Kind::of(b"00010001000000000000fe\r\n"), Kind::Chart);
        assert_eq!(Kind::of(b"# a comment\n00010001000000000000FE\n"), Kind::Chart);
        assert_eq!(Kind::of(b"0F010100000000000000EF\n"), Kind::Image);
        assert_eq!(Kind::of(b"XF010100000000000000EF\n10010000\n11000400\n"), Kind::Image);
        assert_eq!(Kind::of(b"XX010001000000000000FE\n10010000\n01010000\n02\n"), Kind::Chart);
        assert_eq!(Kind::of(b"\r\n scheme 1\r\nbegin -> end\r\nend\r\n"), Kind::Notation);
        assert_eq!(Kind::of(b"# nothing yet\n"), Kind::Notation);
        assert_eq!(Kind::of(b"cut: do spindle\n"), Kind::Notation);
        assert_eq!(Kind::of(b"# 00010001000000000000FE\nscheme 1\n"), Kind::Notation);
        assert_eq!(Kind::of(b"scheme 1 Fr\xE4sen\n"), Kind::Notation);
        let name = "facade".repeat(10);
        for line in [
            format!("output 0 {name}"),
            format!("condition 1 {name}"),
            format!("{name}: end"),
            format!("{name}: do {name}"),
        ] {
            assert_eq!(Kind::of(format!("{line}\nscheme 1\n").as_bytes()), Kind::Notation, "{line}");
        }
        assert_eq!(Kind::of(b"\xFF\xFEs\0c\0"), Kind::Chart);
    }

    #[test]
    fn files_that_hold_none_of_these_are_told_apart() {
        assert_eq!(Kind::held(b"00010001000000000000fe\r\n"), Some(Kind::Chart));
        assert_eq!(Kind::held(b"0F010100000000000000EF\n"), Some(Kind::Image));
        assert_eq!(Kind::held(b"scheme 1\nbegin -> end\nend\n"), Some(Kind::Notation));
        for other in
            ["", "<!doctype html>\n<!-- a -> b -->\n", "0\n0x10 # feeler\n", "spindle 150\n", "Dear sirs,\n"]
        {
            assert_eq!(Kind::held(other.as_bytes()), None, "{other}");
        }
    }
}
