//! A line of the notation as words and signs, each with its column.

use crate::problem::visible;

/// A word or a sign and where it stands, counted from 1.
#[derive(Clone, Debug, PartialEq, Eq)]
pub struct Word {
    pub text: String,
    pub column: usize,
}

/// The words of a line, its comment, and the column after the last word.
#[derive(Debug)]
pub struct Words {
    pub words: Vec<Word>,
    pub comment: Option<String>,
    pub end: usize,
}

/// Words that the notation itself uses; no name may be one of them.
pub const RESERVED: [&str; 12] =
    ["condition", "output", "scheme", "begin", "end", "do", "nothing", "write", "call", "if", "then", "else"];

/// The most characters of a name.
pub const LONGEST_NAME: usize = 64;

impl Word {
    /// Whether this can name something: it begins with a letter and is not one of the notation's own words.
    pub fn is_name(&self) -> bool {
        self.text.starts_with(|c: char| c.is_alphabetic() || c == '_')
            && !RESERVED.contains(&self.text.as_str())
    }

    /// Whether it is made of what names are made of, and is no sign.
    pub fn is_letters(&self) -> bool {
        self.text.chars().all(in_word)
    }

    /// As it stands, or by its code where it cannot be seen.
    pub fn shown(&self) -> String {
        visible(&self.text)
    }
}

fn in_word(character: char) -> bool {
    character.is_alphanumeric() || character == '_'
}

/// Takes a line apart; a carriage return at its end counts as a space. A sign that the notation does not know is a
/// word of its own, which fits nowhere.
pub fn words(line: &str) -> Words {
    let (statement, comment) = match line.split_once('#') {
        Some((statement, comment)) => (statement, Some(comment.trim_end().to_string())),
        None => (line, None),
    };
    let mut words: Vec<Word> = Vec::new();
    let mut rest = statement;
    let mut column = 1;
    loop {
        let word = rest.trim_start();
        column += rest[..rest.len() - word.len()].chars().count();
        rest = word;
        let Some(first) = rest.chars().next() else { break };
        let length = match rest.find(|c| !in_word(c)) {
            Some(0) if rest.starts_with("->") => 2,
            Some(0) => first.len_utf8(),
            Some(length) => length,
            None => rest.len(),
        };
        words.push(Word { text: rest[..length].to_string(), column });
        column += rest[..length].chars().count();
        rest = &rest[length..];
    }
    Words { words, comment, end: statement.trim_end().chars().count() + 1 }
}

#[cfg(test)]
mod tests {
    use super::*;

    #[test]
    fn words_have_their_columns() {
        let line = words("  größe: do y1,y2 -> end # so\r");
        let shown: Vec<_> = line.words.iter().map(|word| (word.text.as_str(), word.column)).collect();
        let wanted =
            [("größe", 3), (":", 8), ("do", 10), ("y1", 13), (",", 15), ("y2", 16), ("->", 19), ("end", 22)];
        assert_eq!(shown, wanted);
        assert_eq!((line.comment.as_deref(), line.end), (Some(" so"), 25));
    }

    #[test]
    fn other_signs_are_words_of_their_own() {
        let line = words("a=-> »b");
        let shown: Vec<_> = line.words.iter().map(|word| (word.text.as_str(), word.column)).collect();
        assert_eq!(shown, [("a", 1), ("=", 2), ("->", 3), ("»", 6), ("b", 7)]);
    }

    /// A file of the longest size in one line is taken apart at once.
    #[test]
    fn a_long_line_has_its_columns_too() {
        let line = words(&"é -> ".repeat(150_000));
        assert_eq!((line.words.len(), line.words[299_999].column), (300_000, 749_998));
    }

    #[test]
    fn names_begin_with_a_letter_and_are_not_reserved() {
        let name = |text: &str| Word { text: text.into(), column: 1 }.is_name();
        assert!(name("cut") && name("_x2") && name("Fräser") && name("ends"));
        assert!(!name("2cut") && !name("end") && !name("->") && !name("nothing"));
    }
}
