//! The words that a trace is fed: a list, a file, counted up, or random from a seed.

use std::ffi::OsStr;
use std::path::Path;

use crate::command::Failure;
use crate::names::Names;
use crate::notation::{condition, nearest, Word};
use crate::problem::{shortened, shown_name, thousands, visible, Problem};
use crate::source;

/// How many ticks are made where the words have no end of their own.
pub const TICKS: usize = 64;

/// The most words of a list or of a scenario.
pub const MOST_WORDS: usize = 65_536;

/// How a word without any condition is written.
pub const NO_CONDITION: &str = "-";

/// What stands before the seed of random words.
const RANDOM: &str = "random:";

/// Where words come from.
#[derive(Clone, Debug, PartialEq, Eq)]
pub enum Words {
    List(Vec<u16>),
    Counted,
    Random(u64),
}

impl Words {
    /// From what was given: `random:SEED`, `count`, a list that begins with a digit or is of these names alone, or the name of a file,
    /// where `-` is standard input.
    pub fn given(text: impl AsRef<OsStr>, names: &Names) -> Result<Words, Failure> {
        let file = text.as_ref();
        // what is no text can only be a file
        let text = file.to_str().unwrap_or("");
        let begins_list = |first: char| first.is_ascii_digit();
        match Words::written(text, names) {
            _ if text == NO_CONDITION => {}
            Ok(words) => return Ok(words),
            Err(message) if text.starts_with(RANDOM) || text.starts_with(begins_list) => {
                return Err(Failure::Usage(message));
            }
            Err(message) if is_like_a_list(text) && !Path::new(file).exists() => {
                let is_list = text.contains(['*', '+']) || text.starts_with(NO_CONDITION);
                let no_file = format!("there is no file {}, and ", repeated(text));
                return Err(Failure::Usage(if is_list { message } else { no_file + &message }));
            }
            Err(_) => {}
        }
        let forms =
            "words are random:SEED, count, a list such as 0,1,0x8004 or wood*3,wood+bore,-, or a file";
        let bytes = source::read(file).map_err(|problem| problem.advice(forms));
        bytes.and_then(|bytes| lines(&bytes, names)).map_err(|problem| Failure::of(file, problem))
    }

    /// From what is written out, without a file: `random:SEED`, `count`, or a list by numbers and these names.
    pub fn written(text: &str, names: &Names) -> Result<Words, String> {
        if text == "count" {
            return Ok(Words::Counted);
        }
        let Some(seed) = text.strip_prefix(RANDOM) else {
            return listed(text, names).map(Words::List);
        };
        let told = |_| format!("the seed of {} is no number from 0 to {}", visible(text), u64::MAX);
        seed.parse().map(Words::Random).map_err(told)
    }

    /// How many words a list has that stands in the call; none where it is no list.
    pub fn listed(text: &OsStr, names: &Names) -> Option<usize> {
        let text = text.to_str().filter(|text| *text != NO_CONDITION)?;
        listed(text, names).ok().map(|list| list.len())
    }

    /// So many words. A list is taken once where no number is given, and begins again where the number is larger.
    pub fn take(&self, ticks: Option<usize>) -> Vec<u16> {
        match self {
            Words::List(list) => list.iter().copied().cycle().take(ticks.unwrap_or(list.len())).collect(),
            Words::Counted => (0..ticks.unwrap_or(TICKS)).map(|number| number as u16).collect(),
            Words::Random(seed) => random(*seed, ticks.unwrap_or(TICKS)),
        }
    }
}

/// Whether there is nothing in it but what a list is made of.
fn is_like_a_list(text: &str) -> bool {
    !text.is_empty() && text.chars().all(|c| c.is_alphanumeric() || "_,+*- ".contains(c))
}

/// A list as it was given, as it can be seen and cut where it is long.
fn repeated(list: &str) -> String {
    shortened(&shown_name(list), "word")
}

/// Words with commas between them.
fn listed(text: &str, names: &Names) -> Result<Vec<u16>, String> {
    let told = |message: String| format!("in the words {}: {message}", repeated(text));
    let mut list = Vec::new();
    for piece in text.split(',') {
        let (word, times) = repeats(piece.trim(), names).map_err(told)?;
        if list.len() + times > MOST_WORDS {
            return Err(told(format!("a list has at most {} words", thousands(MOST_WORDS))));
        }
        list.extend(std::iter::repeat_n(word, times));
    }
    Ok(list)
}

/// One word a line, perhaps more than once; what stands after a # is a comment.
fn lines(bytes: &[u8], names: &Names) -> Result<Words, Problem> {
    let text = String::from_utf8_lossy(bytes);
    let mut list = Vec::new();
    for (at, line) in text.trim_start_matches('\u{FEFF}').lines().enumerate() {
        let piece = line.split('#').next().unwrap_or("").trim();
        if !piece.is_empty() {
            let told = |message: String| {
                let advice =
                    if is_of_a_scenario(piece) { "a scenario, which is given by --scenario" } else { "" };
                Problem::new(format!("line {}: {message}", at + 1)).advice(advice)
            };
            let (word, times) = repeats(piece, names).map_err(told)?;
            if times > 1 && list.len() + times > MOST_WORDS {
                return Err(told(format!(
                    "with this line there are more than {} words",
                    thousands(MOST_WORDS)
                )));
            }
            list.extend(std::iter::repeat_n(word, times));
        }
    }
    if list.is_empty() {
        return Err(Problem::new("there is no word in it").advice("one word a line, # before a comment"));
    }
    Ok(Words::List(list))
}

/// Whether a line says more than a word.
pub fn is_of_a_scenario(line: &str) -> bool {
    let first = line.split_whitespace().next();
    line.contains(';') || line.contains(" until ") || matches!(first, Some("swap" | "places"))
}

/// A word, and how often it is given: `wood*3` is three times.
fn repeats(piece: &str, names: &Names) -> Result<(u16, usize), String> {
    let Some((word, count)) = piece.rsplit_once('*') else { return Ok((self::word(piece, names)?, 1)) };
    Ok((self::word(word.trim_end(), names)?, times(count.trim_start())?))
}

/// How often a word is given.
pub fn times(count: &str) -> Result<usize, String> {
    let is_number = !count.is_empty() && count.bytes().all(|digit| digit.is_ascii_digit());
    let number = is_number.then(|| count.parse::<usize>().unwrap_or(usize::MAX));
    match number {
        Some(number) if (1..=MOST_WORDS).contains(&number) => Ok(number),
        _ => Err(format!("'{}', where a number from 1 to {MOST_WORDS} belongs after *", visible(count))),
    }
}

/// A word: a number, or the names of the conditions that are 1 with + between them, or - where none is.
fn word(piece: &str, names: &Names) -> Result<u16, String> {
    if piece == NO_CONDITION {
        return Ok(0);
    }
    if !piece.starts_with(|first: char| first.is_alphabetic() || first == '_') {
        return number(piece);
    }
    piece.split('+').try_fold(0, |word, name| joined(word, name.trim(), names))
}

/// A word with one condition more.
pub fn joined(word: u16, name: &str, names: &Names) -> Result<u16, String> {
    let bit = bit(name, names)?;
    match word & bit {
        0 => Ok(word | bit),
        _ => Err(format!("'{}' stands twice", visible(name))),
    }
}

/// The word of one condition by its name.
fn bit(name: &str, names: &Names) -> Result<u16, String> {
    let own = Word { text: name.to_string(), column: 1 };
    let is_name = own.is_name() && own.is_letters();
    if let Some(number) = condition(names, name) {
        return Ok(1 << number);
    }
    let near = nearest(name, names.conditions.values().map(String::as_str));
    match near {
        Some(near) => Err(format!("no condition is named '{}'; '{near}' is near to it", visible(name))),
        None if is_name && is_hexadecimal(name) => number(name),
        None if is_name => Err(format!("no condition is named '{}'", visible(name))),
        None => Err(format!("'{}' is no name of a condition", visible(name))),
    }
}

/// Whether this could be a word in hexadecimal without its 0x.
fn is_hexadecimal(piece: &str) -> bool {
    (1..=4).contains(&piece.len()) && piece.bytes().all(|digit| digit.is_ascii_hexdigit())
}

/// A word in decimal, or in hexadecimal after 0x. What could be read as either, or as hexadecimal alone, is told so.
pub fn number(piece: &str) -> Result<u16, String> {
    let too_large = |_| format!("'{}' is more than 65535, the largest word", visible(piece));
    let (digits, radix) = match piece.strip_prefix("0x") {
        Some(digits) => (digits, 16),
        None => (piece, 10),
    };
    if digits.is_empty() || !digits.chars().all(|digit| digit.is_digit(radix)) {
        return Err(match is_hexadecimal(piece) {
            true => format!("'{piece}' could only be hexadecimal: write 0x{piece}"),
            false => format!("'{}' is no word: write 0 to 65535, or 0x0 to 0xFFFF", visible(piece)),
        });
    }
    let word = u16::from_str_radix(digits, radix).map_err(too_large)?;
    if radix == 10 && digits.len() > 1 && digits.starts_with('0') {
        return Err(ambiguous(piece, word));
    }
    Ok(word)
}

/// A decimal number with a 0 before it, as other programs print hexadecimal ones.
fn ambiguous(piece: &str, word: u16) -> String {
    let other = u16::from_str_radix(&word.to_string(), 16);
    let hexadecimal = other.map_or(String::new(), |other| format!(", or 0x{word}, which is {other}"));
    format!("'{}' begins with a 0: write {word}{hexadecimal}", visible(piece))
}

/// Words of 16 random bits each (splitmix64), the same for the same seed.
fn random(seed: u64, count: usize) -> Vec<u16> {
    let mut state = seed;
    let mut next = || {
        state = state.wrapping_add(0x9E37_79B9_7F4A_7C15);
        let mixed = (state ^ (state >> 30)).wrapping_mul(0xBF58_476D_1CE4_E5B9);
        let mixed = (mixed ^ (mixed >> 27)).wrapping_mul(0x94D0_49BB_1331_11EB);
        (mixed ^ (mixed >> 31)) as u16
    };
    (0..count).map(|_| next()).collect()
}

#[cfg(test)]
mod tests {
    use super::*;

    #[test]
    fn words_are_decimal_or_hexadecimal() {
        let given = |text: &str| Words::given(text, &Names::default()).expect("words");
        assert_eq!(given("0,1, 0x8004,65535"), Words::List(vec![0, 1, 0x8004, 65535]));
        assert_eq!(given("count"), Words::Counted);
        assert_eq!(given("random:7"), Words::Random(7));
    }

    #[test]
    fn a_piece_that_is_no_word_is_named() {
        for (given, told) in [
            ("0,zz", "in the words 0,zz: no condition is named 'zz'"),
            ("0,,1", "in the words 0,,1: '' is no word"),
            ("0x", "in the words 0x: '0x' is no word"),
            ("0,65536", "in the words 0,65536: '65536' is more than 65535"),
            ("1,-1", "in the words 1,-1: '-1' is no word"),
            ("0,+1", "in the words 0,+1: '+1' is no word"),
            ("0,0010", "in the words 0,0010: '0010' begins with a 0: write 10, or 0x10, which is 16"),
            ("0000", "in the words 0000: '0000' begins with a 0: write 0, or 0x0, which is 0"),
            ("065535", "in the words 065535: '065535' begins with a 0: write 65535"),
            ("065536", "in the words 065536: '065536' is more than 65535"),
            ("0,FFFF", "in the words 0,FFFF: 'FFFF' could only be hexadecimal: write 0xFFFF"),
            ("1f44,00aB", "in the words 1f44,00aB: '1f44' could only be hexadecimal: write 0x1f44"),
            ("12345A", "in the words 12345A: '12345A' is no word"),
            ("FFFF", "there is no file FFFF, and in the words FFFF: 'FFFF' could only be hexadecimal: write 0xFFFF"),
            ("F, 10", "there is no file F, 10, and in the words F, 10: 'F' could only be hexadecimal: write 0xF"),
            ("FFFF,0x10", "there is no file FFFF,0x10, and in the words FFFF,0x10: 'FFFF' could only be hexadecimal: "),
            ("random", "there is no file random, and in the words random: no condition is named 'random'"),
            ("ABCDE", "there is no file ABCDE, and in the words ABCDE: no condition is named 'ABCDE'"),
            ("random:x", "the seed of random:x is no number from 0 to 18446744073709551615"),
            ("random:\u{1B}[31m", "the seed of random:\\u{1b}[31m is no number"),
            ("0,\u{1B}[31m", "in the words 0,\\u{1b}[31m: '\\u{1b}[31m' is no word"),
        ] {
            let Err(Failure::Usage(error)) = Words::given(given, &Names::default()) else { panic!("{given} is no wrong call") };
            assert!(error.starts_with(told), "{given}: {error}");
        }
        for long in [format!("0{}x", ",0".repeat(9_000)), format!("FFFF{}", ",F".repeat(9_000))] {
            let Err(Failure::Usage(error)) = Words::given(long, &Names::default()) else {
                panic!("a long list is no wrong call")
            };
            assert!(error.contains(",... (9,001 words): ") && error.len() < 300, "{error}");
        }
        for given in ["no/such/file", "words.txt", "./random"] {
            let Err(Failure::Refused(error)) = Words::given(given, &Names::default()) else {
                panic!("{given} is a file")
            };
            let told = "there is no such file\n  look for: words are random:SEED, count, a list such as 0,1,0x8004 or";
            assert!(error.starts_with(&format!("{given}: {told}")), "{error}");
        }
    }

    #[test]
    fn a_file_has_one_word_a_line_with_comments() {
        let text = b"# a rehearsal\n0\n0x10 # feeler\n\n65535\n";
        assert_eq!(lines(text, &Names::default()), Ok(Words::List(vec![0, 16, 65535])));
        assert_eq!(lines(b"\xEF\xBB\xBF7\r\n8\r\n", &Names::default()), Ok(Words::List(vec![7, 8])));
        let told = |bytes: &[u8]| lines(bytes, &Names::default()).expect_err("a fault").words;
        assert_eq!(told(b"# nothing\n"), "there is no word in it");
        assert_eq!(told(b"0\n1\n2 3\n"), "line 3: '2 3' is no word: write 0 to 65535, or 0x0 to 0xFFFF");
        assert_eq!(told(b"70000\n"), "line 1: '70000' is more than 65535, the largest word");
        assert!(told(b"0\n\xFF\x01\n").starts_with("line 2: '\u{FFFD}\\u{1}' is no word"));
        assert!(told(&[b'9'; 5_000]).len() < 100);
    }

    #[test]
    fn as_many_words_as_ticks() {
        let list = Words::List(vec![5, 6]);
        assert_eq!(list.take(None), [5, 6]);
        assert_eq!(list.take(Some(5)), [5, 6, 5, 6, 5]);
        assert_eq!(list.take(Some(1)), [5]);
        assert_eq!(Words::Counted.take(Some(3)), [0, 1, 2]);
        assert_eq!(Words::Counted.take(None).len(), TICKS);
        assert_eq!(Words::Random(1).take(None).len(), TICKS);
    }

    #[test]
    fn a_seed_gives_the_same_words_again() {
        assert_eq!(Words::Random(3).take(Some(200)), Words::Random(3).take(Some(200)));
        assert_ne!(Words::Random(3).take(Some(200)), Words::Random(4).take(Some(200)));
        assert_eq!(Words::Random(3).take(Some(10)), Words::Random(3).take(Some(200))[..10]);
        let words = Words::Random(1).take(None);
        for bit in 0..16 {
            let ones = words.iter().filter(|word| **word >> bit & 1 == 1).count();
            assert!((16..=48).contains(&ones), "condition {bit} is 1 in {ones} of {TICKS}");
        }
    }
}
