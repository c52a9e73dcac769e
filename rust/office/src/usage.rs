//! What a command takes, by its usage line: words in capitals stand for what is given, others are given as they are, with | between
//! those that one may choose from.

/// What may be given in one place.
#[derive(Clone, Copy, Debug, PartialEq, Eq)]
pub struct Place<'a>(&'a str);

/// An option, with what stands after it if something does.
#[derive(Clone, Copy, Debug, PartialEq, Eq)]
pub struct Choice<'a> {
    pub name: &'a str,
    pub value: Option<Place<'a>>,
}

/// The options and the other words of a usage line.
#[derive(Clone, Debug, Default, PartialEq, Eq)]
pub struct Usage<'a> {
    pub options: Vec<Choice<'a>>,
    pub operands: Vec<Place<'a>>,
}

/// What stands for files; a list of words may be one.
const FILES: [&str; 6] = ["FILE", "CHART", "IMAGE", "PATCH", "SCENARIO", "WORDS"];

impl<'a> Place<'a> {
    /// Whether a file is given here.
    pub fn is_file(self) -> bool {
        FILES.iter().any(|file| self.0.split('.').next() == Some(file))
    }

    /// The words that are given here as they are.
    pub fn words(self) -> impl Iterator<Item = &'a str> {
        let is_word = |word: &&str| word.starts_with(|first: char| first.is_ascii_lowercase());
        self.0.split('|').filter(is_word)
    }
}

impl<'a> Usage<'a> {
    /// Takes a usage line apart. The value of an option stands in the option's own brackets, if it has any.
    pub fn of(arguments: &'a str) -> Usage<'a> {
        let mut usage = Usage::default();
        let mut words = arguments.split_whitespace().filter(|word| *word != "...").peekable();
        while let Some(word) = words.next() {
            let name = word.trim_matches(['[', ']']);
            if !name.starts_with('-') {
                usage.operands.push(Place(name));
                continue;
            }
            let value = words.next_if(|next| !word.ends_with(']') && !next.starts_with(['[', '-']));
            usage.options.push(Choice { name, value: value.map(|value| Place(value.trim_matches(']'))) });
        }
        usage
    }
}

#[cfg(test)]
mod tests {
    use super::*;

    #[test]
    fn options_have_the_values_that_stand_with_them() {
        let usage = Usage::of("CHART SCENARIO ... [--svg] [--trace [--ticks N] [--save FILE [--expect]]] --as tap|junit -o FILE.html");
        let options: Vec<(&str, Option<&str>)> =
            usage.options.iter().map(|option| (option.name, option.value.map(|value| value.0))).collect();
        let wanted = [
            ("--svg", None),
            ("--trace", None),
            ("--ticks", Some("N")),
            ("--save", Some("FILE")),
            ("--expect", None),
            ("--as", Some("tap|junit")),
            ("-o", Some("FILE.html")),
        ];
        assert_eq!(options, wanted);
        assert_eq!(usage.operands, [Place("CHART"), Place("SCENARIO")]);
        assert_eq!(Usage::of("[FRAMES [NUMBER]]").operands, [Place("FRAMES"), Place("NUMBER")]);
    }

    #[test]
    fn files_and_words_are_told_apart() {
        assert!(["FILE", "FILE.html", "CHART", "WORDS"].into_iter().all(|name| Place(name).is_file()));
        assert!(!["N", "FORMAT", "bash"].into_iter().any(|name| Place(name).is_file()));
        assert_eq!(Place("tap|junit").words().collect::<Vec<&str>>(), ["tap", "junit"]);
        assert_eq!(Place("N").words().count() + Place("FILE.html").words().count(), 0);
    }
}
