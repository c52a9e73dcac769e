//! Refusals 1 to 3: the text as lines of digits.

use fairleadow::LINE;

use crate::kind::Kind;
use crate::problem::{counted, thousands, Problem, LONE_RETURNS};

/// The digits of a line.
const DIGITS: usize = LINE - 1;

/// Refusal 1: an empty text, a line that is not 22 characters and a line feed, or too many lines.
pub fn length(text: &[u8], kind: Kind, longest: usize) -> Option<Problem> {
    if text.is_empty() {
        return Some(Problem::new("the file is empty").advice("the wrong file, or a transfer that failed"));
    }
    if let Some(mark) = mark(text) {
        return Some(mark);
    }
    let most = longest / LINE;
    let lines = || text.split_inclusive(|byte| *byte == b'\n');
    let broken = lines().position(|line| line.len() != LINE || !line.ends_with(b"\n"));
    match broken {
        Some(at) if at < most || text.len() <= longest => {
            lines().nth(at).map(|line| broken_line(text, at + 1, line))
        }
        _ if text.len() > longest => Some(too_long(text, kind, lines().count(), most)),
        _ => None,
    }
}

fn too_long(text: &[u8], kind: Kind, lines: usize, most: usize) -> Problem {
    let (named, most_lines) = (kind.named(), thousands(most));
    let words = format!("the file has {}, and {named} has at most {most_lines}", counted(lines, "line"));
    let advice = match Kind::of(text) {
        Kind::Image if kind == Kind::Chart => "an image in place of a chart",
        _ => "two texts in one file; the wrong file",
    };
    Problem { line: Some(most + 1), ..Problem::new(words) }.advice(advice)
}

/// The marks that some editors put before a text.
fn mark(text: &[u8]) -> Option<Problem> {
    let problem = |what: &str| {
        let words = format!("the file begins with {what}");
        Problem::on(1, 1, words).advice("the editor's setting: save as plain ASCII text")
    };
    if text.starts_with(b"\xEF\xBB\xBF") {
        Some(problem("a byte order mark, three bytes that no editor shows"))
    } else if text.starts_with(b"\xFF\xFE") || text.starts_with(b"\xFE\xFF") {
        Some(problem("the mark of UTF-16, two bytes for each character"))
    } else {
        None
    }
}

/// A line, its feed included if it has one, that is not 22 characters and a line feed.
fn broken_line(text: &[u8], number: usize, line: &[u8]) -> Problem {
    let Some(line) = line.strip_suffix(b"\n") else {
        return unended(number, line);
    };
    if line.ends_with(b"\r") {
        return carriage_return(text, number, line.len());
    }
    if line.is_empty() {
        return empty(number);
    }
    wrong_length(number, line)
}

fn unended(number: usize, line: &[u8]) -> Problem {
    let advice = "the end of the file: press Enter after the last digit";
    if line.len() == DIGITS {
        let words = format!("the last line, line {number}, has no line feed");
        return Problem::on(number, LINE, words).advice(advice);
    }
    let words = format!(
        "the last line, line {number}, has no line feed and {}, not {DIGITS}",
        counted(line.len(), "character")
    );
    Problem::on(number, line.len().min(DIGITS) + 1, words).advice("an end lost on the cable; the wrong file")
}

fn carriage_return(text: &[u8], number: usize, column: usize) -> Problem {
    let others = text.windows(2).filter(|pair| pair == b"\r\n").count() - 1;
    let too = if others == 0 { String::new() } else { format!(", and so do {others} more") };
    Problem::on(number, column, format!("line {number} ends with a carriage return{too}"))
        .advice("an editor or a transfer that writes DOS line ends: save with line feeds alone")
}

fn empty(number: usize) -> Problem {
    Problem::on(number, 1, format!("line {number} is empty")).advice("a blank line: take it out")
}

fn wrong_length(number: usize, line: &[u8]) -> Problem {
    let odd = line.iter().position(|byte| !byte.is_ascii_hexdigit());
    let and = odd.map_or(String::new(), |at| format!("; column {} is {}", at + 1, character(line[at])));
    let words = format!("line {number} has {}, not {DIGITS}{and}", counted(line.len(), "character"));
    let column = odd.map_or(line.len().min(DIGITS) + 1, |at| at + 1);
    let digits = if line.len() < DIGITS { "a digit lost" } else { "a digit too many" };
    Problem::on(number, column, words)
        .advice(format!("{digits} in this line; spaces or words beside the digits"))
}

/// Refusal 2: the first character of the named line that does not belong there. The lines before it are whole, so the
/// named frame begins where this line does.
pub fn character_of(text: &[u8], index: usize) -> Option<Problem> {
    let frame = text.chunks(LINE).nth(index)?;
    let at = frame.iter().enumerate().position(|(place, byte)| !belongs(place, *byte))?;
    let (number, column, byte) = (index + 1, at + 1, frame[at]);
    Some(match byte {
        b'\n' if at == 0 => empty(number),
        b'\n' => wrong_length(number, &frame[..at]),
        b'\r' if frame.get(at + 1).or(text.get((index + 1) * LINE)) == Some(&b'\n') => {
            carriage_return(text, number, column)
        }
        _ if at == DIGITS => {
            let lost = "a digit too many in this line, or a line feed lost at its end";
            Problem::at(number, column, format!("{} after the {DIGITS} digits", character(byte)))
                .advice(if byte == b'\r' { LONE_RETURNS } else { lost })
        }
        _ => Problem::at(number, column, format!("{} (only 0-9, A-F and a-f)", character(byte)))
            .advice(likely(byte)),
    })
}

fn belongs(place: usize, byte: u8) -> bool {
    if place == DIGITS {
        byte == b'\n'
    } else {
        byte.is_ascii_hexdigit()
    }
}

/// What a character is called.
fn character(byte: u8) -> String {
    match byte {
        b' ' => "a space".into(),
        b'\t' => "a tab".into(),
        b'\r' => "a carriage return".into(),
        b'0'..=b'9' => format!("the digit {}", char::from(byte)),
        b'a'..=b'z' => format!("small letter '{}'", char::from(byte)),
        b'A'..=b'Z' => format!("letter '{}'", char::from(byte)),
        0x21..=0x7E => format!("'{}'", char::from(byte)),
        _ => format!("a character outside plain text, byte {byte:02X}"),
    }
}

/// What was meant, by the character that stands there.
fn likely(byte: u8) -> &'static str {
    match byte {
        b'O' | b'o' => "the letter O typed for the digit 0",
        b'I' | b'l' | b'i' => "a letter typed for the digit 1",
        b'S' | b's' => "the letter S typed for the digit 5",
        b' ' | b'\t' => "spaces between or before the digits",
        _ => "a character garbled on the cable, or words beside the digits",
    }
}

/// The bytes of a line of digits.
pub fn bytes_of(line: &[u8]) -> Option<[u8; 11]> {
    let digits = std::str::from_utf8(line.get(..DIGITS)?).ok()?;
    let mut bytes = [0; 11];
    for (k, byte) in bytes.iter_mut().enumerate() {
        *byte = u8::from_str_radix(&digits[2 * k..2 * k + 2], 16).ok()?;
    }
    Some(bytes)
}

/// Refusal 3: the sum that the named line should have.
pub fn sum(text: &[u8], index: usize) -> Option<Problem> {
    let bytes = bytes_of(text.chunks(LINE).nth(index)?)?;
    let total = bytes[..10].iter().fold(0u8, |sum, byte| sum.wrapping_add(*byte));
    let (wanted, stands) = (total.wrapping_neg(), bytes[10]);
    let what = format!("the sum should be {wanted:02X}, not {stands:02X}");
    let advice = "a wrong digit anywhere in this line; a line changed without its sum";
    (wanted != stands).then(|| Problem::at(index + 1, DIGITS - 1, what).advice(advice))
}
