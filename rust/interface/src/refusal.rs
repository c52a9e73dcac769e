//! Why a call refuses, by the names of the proved library.

use core::error::Error;
use core::fmt;

/// Why a call is refused, by the names of the proved library. A refusal that names a frame has its number from 0, a line of a text or a
/// node of a chart; one that stops a run has how many ticks were finished before it, which count: the state is the one after these. With
/// all others a call has changed nothing but the image of a dry run.
///
/// ```
/// # use interface::Refusal;
/// let refusal = Refusal::BadSum(1);
/// assert_eq!((refusal.number(), refusal.frame()), (3, Some(1)));
/// assert_eq!(refusal.to_string(), "refusal 3 at frame 1: the sum of a frame");
/// ```
#[derive(Clone, Copy, Debug, PartialEq, Eq, Hash)]
#[non_exhaustive]
#[must_use = "what was refused is not done: what a machine should do then is to be said"]
pub enum Refusal {
    /// 1: a length of 0, one that leaves a part of a unit over, or one above the most.
    BadLength,
    /// 2: a frame with a character that is no digit, or without a line feed at its end.
    BadCharacter(usize),
    /// 3: a frame whose bytes do not sum to 0 modulo 256.
    BadSum(usize),
    /// 4: a node with a field outside its values.
    BadField(usize),
    /// 5: a scheme with no Begin or no End, or with two.
    BadScheme,
    /// 6: a node with an arc to no node, into another scheme or to a Begin.
    BadArc(usize),
    /// 7: a node that calls scheme 1 or one that there is not, or a function that calls none.
    BadCall(usize),
    /// 8: a condition on a circle of conditions.
    Circle(usize),
    /// 9: a node to which no path leads from the Begin of its scheme.
    CutOff(usize),
    /// 10: more rows than an image has room for.
    ManyRows,
    /// 11: a header that no image of so many frames has.
    BadHeader,
    /// 12: a frame of another kind or number than its position asks for, or a row behind one of a higher label.
    StrayFrame(usize),
    /// 13: an entry, a label or a row with a field outside its values.
    BadContent(usize),
    /// 14: a stack of no place, or of more than there are.
    BadSize,
    /// 15: a state that does not fit the image.
    Unfit,
    /// 16: a buffer with less room than all that is to be written.
    NoRoom,
    /// 17: a call that finds the stack full and does not drop to a handler.
    Full {
        /// How many ticks were finished before it.
        ticks: usize,
    },
    /// 18: a word that no row of the label matches.
    NoRow {
        /// How many ticks were finished before it.
        ticks: usize,
    },
    /// 19: a handler's mark where scheme 1 begins, or more than one.
    BadMarks,
    /// 20: a circle of calls that scheme 1 leads to.
    CallsItself,
    /// 21: a tick that takes no row, so that no condition is its cause.
    Rowless,
    /// 22: a number that is never called or the handler's, or a scheme that cannot be called.
    BadRebinding,
    /// 23: a label whose rows leave some word out, or match it twice.
    Uneven,
    /// 24: a little chart that there is not.
    NoLittleChart,
    /// 25: a spindle that there is not.
    NoSpindle,
    /// 26: a call that finds all places of the spindles taken.
    NoPlace,
    /// 27: more words than a priced run has.
    ManyWords,
    /// 28: more lists of words than are counted.
    ManyLists,
    /// An answer that is none of these: the archive is of another version.
    Other(u8),
}

/// What each refusal is about, number 1 first, as include/fairleadow.h says it.
const SENSES: [&str; 28] = [
    "the length of the text or of the records",
    "a character other than 0-9, A-F, a-f, line feed",
    "the sum of a frame",
    "a field of a node",
    "a scheme without just one Begin and one End",
    "an arc into another scheme, to a Begin or nowhere",
    "a call of a scheme that cannot be called",
    "a circle of conditions",
    "a node cut off from its Begin",
    "more than 1,024 rows",
    "the image's header",
    "an image frame that stands in a wrong place",
    "a field of an image frame",
    "a stack size other than 1 to 32",
    "a state that does not fit the image",
    "an output buffer that is too short",
    "a call that finds the stack full and drops nothing",
    "no row for the word",
    "a handler's mark on scheme 1, or a second one",
    "a scheme within reach of scheme 1 that can call itself",
    "a state whose tick takes no row",
    "a rebinding of or to a number that is not 2 to H, or of the handler's",
    "a word and bit that match no row, or two rows, of a label from 2 up",
    "a little chart of other than 2 to 4 frames, or a number past the last one",
    "a spindle's number above 3",
    "a call while all 64 places of the spindles are taken",
    "more than 65,536 words in a priced run",
    "lists of more than 16 ticks times conditions, 16 conditions or 65,536 ticks",
];

impl Refusal {
    /// The refusal that is told by its number with an index and a count; there is none where it has not this index or not this count.
    ///
    /// ```
    /// # use interface::Refusal;
    /// assert_eq!(Refusal::told(3, 4, 0), Some(Refusal::BadSum(4)));
    /// assert_eq!(Refusal::told(18, 0, 7), Some(Refusal::NoRow { ticks: 7 }));
    /// for (number, index, count) in [(0, 0, 0), (29, 0, 0), (5, 4, 0), (3, 4, 1), (18, 1, 7)] {
    ///     assert_eq!(Refusal::told(number, index, count), None);
    /// }
    /// ```
    #[must_use]
    pub fn told(number: u8, index: usize, count: usize) -> Option<Refusal> {
        let refusal = match number {
            1 => Refusal::BadLength,
            2 => Refusal::BadCharacter(index),
            3 => Refusal::BadSum(index),
            4 => Refusal::BadField(index),
            5 => Refusal::BadScheme,
            6 => Refusal::BadArc(index),
            7 => Refusal::BadCall(index),
            8 => Refusal::Circle(index),
            9 => Refusal::CutOff(index),
            10 => Refusal::ManyRows,
            11 => Refusal::BadHeader,
            12 => Refusal::StrayFrame(index),
            13 => Refusal::BadContent(index),
            14 => Refusal::BadSize,
            15 => Refusal::Unfit,
            16 => Refusal::NoRoom,
            17 => Refusal::Full { ticks: count },
            18 => Refusal::NoRow { ticks: count },
            19 => Refusal::BadMarks,
            20 => Refusal::CallsItself,
            21 => Refusal::Rowless,
            22 => Refusal::BadRebinding,
            23 => Refusal::Uneven,
            24 => Refusal::NoLittleChart,
            25 => Refusal::NoSpindle,
            26 => Refusal::NoPlace,
            27 => Refusal::ManyWords,
            28 => Refusal::ManyLists,
            _ => return None,
        };
        ((refusal.index(), refusal.ticks()) == (index, count)).then_some(refusal)
    }

    /// Its number, by which callers from C and printed frames know it.
    ///
    /// ```
    /// # use interface::Refusal;
    /// assert_eq!(Refusal::BadLength.number(), 1);
    /// assert_eq!(Refusal::NoRow { ticks: 3 }.number(), 18);
    /// ```
    #[must_use]
    pub fn number(self) -> u8 {
        match self {
            Refusal::BadLength => 1,
            Refusal::BadCharacter(_) => 2,
            Refusal::BadSum(_) => 3,
            Refusal::BadField(_) => 4,
            Refusal::BadScheme => 5,
            Refusal::BadArc(_) => 6,
            Refusal::BadCall(_) => 7,
            Refusal::Circle(_) => 8,
            Refusal::CutOff(_) => 9,
            Refusal::ManyRows => 10,
            Refusal::BadHeader => 11,
            Refusal::StrayFrame(_) => 12,
            Refusal::BadContent(_) => 13,
            Refusal::BadSize => 14,
            Refusal::Unfit => 15,
            Refusal::NoRoom => 16,
            Refusal::Full { .. } => 17,
            Refusal::NoRow { .. } => 18,
            Refusal::BadMarks => 19,
            Refusal::CallsItself => 20,
            Refusal::Rowless => 21,
            Refusal::BadRebinding => 22,
            Refusal::Uneven => 23,
            Refusal::NoLittleChart => 24,
            Refusal::NoSpindle => 25,
            Refusal::NoPlace => 26,
            Refusal::ManyWords => 27,
            Refusal::ManyLists => 28,
            Refusal::Other(number) => number,
        }
    }

    /// The frame that it names, a line of a text or a node, from 0.
    ///
    /// ```
    /// # use interface::Refusal;
    /// assert_eq!(Refusal::BadSum(4).frame(), Some(4));
    /// assert_eq!(Refusal::BadScheme.frame(), None);
    /// ```
    #[must_use]
    pub fn frame(self) -> Option<usize> {
        match self {
            Refusal::BadCharacter(frame)
            | Refusal::BadSum(frame)
            | Refusal::BadField(frame)
            | Refusal::BadArc(frame)
            | Refusal::BadCall(frame)
            | Refusal::Circle(frame)
            | Refusal::CutOff(frame)
            | Refusal::StrayFrame(frame)
            | Refusal::BadContent(frame) => Some(frame),
            _ => None,
        }
    }

    /// The frame that it names, or 0 where it names none.
    ///
    /// ```
    /// # use interface::Refusal;
    /// assert_eq!(Refusal::CutOff(7).index(), 7);
    /// assert_eq!(Refusal::ManyRows.index(), 0);
    /// ```
    #[must_use]
    pub fn index(self) -> usize {
        self.frame().unwrap_or(0)
    }

    /// How many ticks were finished before it, 0 where it stops none.
    ///
    /// ```
    /// # use interface::Refusal;
    /// assert_eq!(Refusal::Full { ticks: 12 }.ticks(), 12);
    /// assert_eq!(Refusal::Unfit.ticks(), 0);
    /// ```
    #[must_use]
    pub fn ticks(self) -> usize {
        match self {
            Refusal::Full { ticks } | Refusal::NoRow { ticks } => ticks,
            _ => 0,
        }
    }

    /// The same where so many more ticks were finished before it.
    ///
    /// ```
    /// # use interface::Refusal;
    /// assert_eq!(Refusal::Full { ticks: 2 }.after(3), Refusal::Full { ticks: 5 });
    /// assert_eq!(Refusal::Unfit.after(3), Refusal::Unfit);
    /// ```
    pub fn after(self, more: usize) -> Refusal {
        match self {
            Refusal::Full { ticks } => Refusal::Full { ticks: more + ticks },
            Refusal::NoRow { ticks } => Refusal::NoRow { ticks: more + ticks },
            other => other,
        }
    }

    /// One line on what it is about.
    ///
    /// ```
    /// # use interface::Refusal;
    /// assert_eq!(Refusal::NoRow { ticks: 3 }.sense(), "no row for the word");
    /// ```
    #[must_use]
    pub fn sense(self) -> &'static str {
        let place = usize::from(self.number()).checked_sub(1);
        place.and_then(|place| SENSES.get(place)).copied().unwrap_or("a number that is no refusal")
    }
}

impl fmt::Display for Refusal {
    fn fmt(&self, f: &mut fmt::Formatter<'_>) -> fmt::Result {
        write!(f, "refusal {}", self.number())?;
        if let Some(frame) = self.frame() {
            write!(f, " at frame {frame}")?;
        }
        if let Refusal::Full { ticks } | Refusal::NoRow { ticks } = self {
            write!(f, " after {ticks} ticks")?;
        }
        write!(f, ": {}", self.sense())
    }
}

impl Error for Refusal {}

#[cfg(test)]
mod tests {
    use std::{format, string::ToString, vec::Vec};

    use super::*;

    /// The refusals by their numbers, with an index and a count where they have them.
    fn all() -> Vec<Refusal> {
        let told =
            |number| [(7, 0), (0, 5), (0, 0)].into_iter().find_map(|(i, c)| Refusal::told(number, i, c));
        (0..=255).filter_map(told).collect()
    }

    /// The cases of the proved library, number 1 first.
    fn cases() -> Vec<&'static str> {
        let source = include_str!("../../../crates/text/src/frames/refusals.rt");
        let cases = source.split("pub enum Refusal {").nth(1).and_then(|after| after.split("\n}").next());
        let lines = cases.expect("it declares them").lines().map(str::trim).filter(|line| !line.is_empty());
        lines.map(|line| line.trim_end_matches(',')).collect()
    }

    #[test]
    fn the_refusals_are_those_of_the_proved_library() {
        let (all, cases) = (all(), cases());
        assert_eq!((all.len(), cases.len()), (28, 28));
        for (number, (refusal, case)) in (1..).zip(all.into_iter().zip(cases)) {
            let shown = format!("{refusal:?}").replace('7', "usize").replace('5', "usize");
            assert_eq!((shown.as_str(), refusal.number()), (case, number));
        }
    }

    #[test]
    fn a_refusal_is_told_by_its_own_number_index_and_count_alone() {
        for number in 0..=255 {
            let mut told = Vec::new();
            for (index, count) in [(0, 0), (7, 0), (0, 5), (7, 5)] {
                if let Some(refusal) = Refusal::told(number, index, count) {
                    assert_eq!((refusal.number(), refusal.index(), refusal.ticks()), (number, index, count));
                    told.push((index, count));
                }
            }
            let wanted: &[(usize, usize)] = match number {
                2..=4 | 6..=9 | 12 | 13 => &[(0, 0), (7, 0)],
                17 | 18 => &[(0, 0), (0, 5)],
                1..=28 => &[(0, 0)],
                _ => &[],
            };
            assert_eq!(told, wanted, "{number}");
        }
    }

    #[test]
    fn every_refusal_has_a_sense_of_its_own() {
        let mut senses: Vec<_> = all().into_iter().map(Refusal::sense).collect();
        senses.sort_unstable();
        senses.dedup();
        assert_eq!(senses.len(), 28);
        for number in [0, 29, 255] {
            assert_eq!(Refusal::Other(number).sense(), "a number that is no refusal");
        }
    }

    #[test]
    fn a_refusal_says_its_number_and_what_it_carries() {
        for refusal in all() {
            let number = refusal.number();
            let said = match number {
                2..=4 | 6..=9 | 12 | 13 => format!("refusal {number} at frame 7: {}", refusal.sense()),
                17 | 18 => format!("refusal {number} after 5 ticks: {}", refusal.sense()),
                _ => format!("refusal {number}: {}", refusal.sense()),
            };
            assert_eq!(refusal.to_string(), said);
        }
    }
}
