//! Libraries that join the labels of an image in one wrong way each: the comparison must find every one.

#[macro_use]
mod common;

use common::is_found;
use reference::entry::image_from_text;
use reference::frames::text_of;
use reference::image::{Image, Label, Row};
use reference::minimise::{lowest_members, matches, together, uneven};
use reference::{as_the_reference, Answer, Library, Reference, Refusal};

faults! {
    // which labels are joined
    JoinsNothing,
    JoinsLabelsOfDifferentKinds,
    JoinsLabelsThatCallDifferentSchemes,
    JoinsLabelsOfDifferentMasks,
    JoinsLabelsOfDifferentResults,
    JoinsLabelsOfDifferentOwners,
    JoinsLabelsByTheirFieldsAlone,
    SplitsOnce,
    LooksAtTheFirstRowsAlone,
    ComparesRowsOneByOne,
    TakesBitsForEqual,
    // the smaller image
    NumbersByTheHighestMember,
    NumbersFromTheLastGroup,
    TakesTheHighestMembersRows,
    TakesTheRowsOfAllMembers,
    LeadsRowsToTheOldLabels,
    LeadsEntriesToTheOldLabels,
    DropsTheHandler,
    JoinsRows,
    // 23
    LetsPassAMissingRow,
    LetsPassTwoRows,
    TriesTheFirstWordAlone,
    TriesOneBit,
    LooksAtLabelsWithRowsAlone,
    LooksAtReachedLabelsAlone,
    ForgetsTheLastLabel,
    LooksForRoomBefore23,
    // what is written and counted
    AsksForRoomForTheGivenImage,
    WritesBeforeARefusal,
    WritesPastTheText,
    CountsLabels,
    CountsTheGivenImage,
}

/// The reference with one fault.
struct Faulty(Fault);

fn rows_of(image: &Image, label: usize) -> Vec<Row> {
    image.rows.iter().filter(|row| usize::from(row.from) == label).copied().collect()
}

/// Whether some word of these and one of these bits match so many rows of a label that the test holds.
fn some(
    rows: &[Row],
    words: impl Iterator<Item = u16> + Clone,
    bits: &[u8],
    test: fn(usize) -> bool,
) -> bool {
    let matched = |word: u16, bit: u8| rows.iter().filter(|row| matches(row, word, bit)).count();
    words.clone().any(|word| bits.iter().any(|bit| test(matched(word, *bit))))
}

impl Faulty {
    /// Whether 23 is given.
    fn uneven(&self, image: &Image) -> bool {
        let count = image.labels.len();
        let asked = image.rows.iter().fold(0, |mask, row| mask | row.care);
        if asked.count_ones() > 10 {
            return uneven(image);
        }
        let words = (0..=u16::MAX).filter(|word| word & !asked == 0);
        let leads = |label: usize| {
            let entered = image.entries.iter().any(|entry| usize::from(*entry) == label);
            entered || image.rows.iter().any(|row| usize::from(row.next) == label)
        };
        let at = |label: usize| {
            let rows = rows_of(image, label);
            match self.0 {
                LetsPassAMissingRow => some(&rows, words.clone(), &[0, 1], |rows| rows > 1),
                LetsPassTwoRows => some(&rows, words.clone(), &[0, 1], |rows| rows < 1),
                TriesTheFirstWordAlone => some(&rows, 0..=0, &[0, 1], |rows| rows != 1),
                TriesOneBit => some(&rows, words.clone(), &[0], |rows| rows != 1),
                LooksAtLabelsWithRowsAlone if rows.is_empty() => false,
                LooksAtReachedLabelsAlone if !leads(label) => false,
                ForgetsTheLastLabel if label + 1 == count => false,
                _ => some(&rows, words.clone(), &[0, 1], |rows| rows != 1),
            }
        };
        (2..count).any(at)
    }

    /// The fields by which labels are told apart at first.
    fn fields(&self, label: &Label) -> Label {
        match self.0 {
            JoinsLabelsOfDifferentKinds => Label { kind: 0, ..*label },
            JoinsLabelsThatCallDifferentSchemes => Label { called: 0, ..*label },
            JoinsLabelsOfDifferentMasks => Label { mask: 0, ..*label },
            JoinsLabelsOfDifferentResults => Label { result: 0, ..*label },
            JoinsLabelsOfDifferentOwners => Label { owner: 0, ..*label },
            _ => *label,
        }
    }

    /// Whether two labels that are not told apart yet lead to labels that are.
    fn leads_apart(&self, image: &Image, apart: &[Vec<bool>], a: usize, b: usize) -> bool {
        let (rows, others) = (rows_of(image, a), rows_of(image, b));
        let led = |r: &Row, s: &Row| apart[usize::from(r.next)][usize::from(s.next)];
        match self.0 {
            LooksAtTheFirstRowsAlone => {
                rows.iter().zip(&others).take(1).any(|(r, s)| led(r, s) && together(r, s))
            }
            ComparesRowsOneByOne => {
                let same = |(r, s): (&Row, &Row)| r.care == s.care && r.values == s.values && !led(r, s);
                rows.len() != others.len() || !rows.iter().zip(&others).all(same)
            }
            TakesBitsForEqual => {
                let bare = |row: &Row| Row { function_bit: 2, ..*row };
                rows.iter().any(|r| others.iter().any(|s| led(r, s) && together(&bare(r), &bare(s))))
            }
            _ => rows.iter().any(|r| others.iter().any(|s| led(r, s) && together(r, s))),
        }
    }

    /// The lowest label from which each is not told apart.
    fn lowest(&self, image: &Image) -> Vec<usize> {
        let count = image.labels.len();
        if self.0 == JoinsNothing {
            return (0..count).collect();
        }
        let differ = |a: &Label, b: &Label| self.fields(a) != self.fields(b);
        let labels = &image.labels;
        let mut apart: Vec<Vec<bool>> =
            labels.iter().map(|a| labels.iter().map(|b| differ(a, b)).collect()).collect();
        for round in 0.. {
            let ends = match self.0 {
                JoinsLabelsByTheirFieldsAlone => true,
                SplitsOnce => round == 1,
                _ => false,
            };
            let pairs = (0..count).flat_map(|b| (0..b).map(move |a| (a, b)));
            let found: Vec<(usize, usize)> =
                pairs.filter(|(a, b)| !apart[*a][*b] && self.leads_apart(image, &apart, *a, *b)).collect();
            if ends || found.is_empty() {
                break;
            }
            found.into_iter().for_each(|(a, b)| (apart[a][b], apart[b][a]) = (true, true));
        }
        (0..count).map(|b| (0..=b).find(|a| !apart[*a][b]).unwrap_or(b)).collect()
    }

    fn joined(&self, image: &Image) -> Image {
        let lowest = match self.0 {
            JoinsNothing
            | JoinsLabelsOfDifferentKinds
            | JoinsLabelsThatCallDifferentSchemes
            | JoinsLabelsOfDifferentMasks
            | JoinsLabelsOfDifferentResults
            | JoinsLabelsOfDifferentOwners
            | JoinsLabelsByTheirFieldsAlone
            | SplitsOnce
            | LooksAtTheFirstRowsAlone
            | ComparesRowsOneByOne
            | TakesBitsForEqual => self.lowest(image),
            _ => lowest_members(image),
        };
        let count = image.labels.len();
        let highest = |group: usize| (0..count).rfind(|label| lowest[*label] == group).unwrap_or(group);
        let mut kept: Vec<usize> = (0..count).filter(|label| lowest[*label] == *label).collect();
        match self.0 {
            NumbersByTheHighestMember => kept.sort_by_key(|group| highest(*group)),
            NumbersFromTheLastGroup => kept[2..].reverse(),
            _ => {}
        }
        let number = |label: u8| {
            let group = lowest[usize::from(label)];
            kept.iter().position(|member| *member == group).unwrap_or(0) as u8
        };
        let mut rows: Vec<Row> = Vec::new();
        for (from, group) in kept.iter().enumerate() {
            let own = match self.0 {
                TakesTheHighestMembersRows => rows_of(image, highest(*group)),
                TakesTheRowsOfAllMembers => (0..count)
                    .filter(|label| lowest[*label] == *group)
                    .flat_map(|l| rows_of(image, l))
                    .collect(),
                _ => rows_of(image, *group),
            };
            for row in own {
                let next = if self.0 == LeadsRowsToTheOldLabels { row.next } else { number(row.next) };
                let row = Row { from: from as u8, next, ..row };
                if self.0 != JoinsRows || !rows.iter().any(|r| r.from == row.from && r.next == row.next) {
                    rows.push(row);
                }
            }
        }
        let entry = |label: &u8| if self.0 == LeadsEntriesToTheOldLabels { *label } else { number(*label) };
        Image {
            handler: if self.0 == DropsTheHandler { 0 } else { image.handler },
            entries: image.entries.iter().map(entry).collect(),
            labels: kept.iter().map(|label| image.labels[*label]).collect(),
            rows,
        }
    }
}

impl Library for Faulty {
    as_the_reference!(
        chart_calls,
        check_image,
        cause,
        list_rows,
        count_fillings,
        prepare,
        run_calls,
        check_table,
        sum,
        rebindings,
        spins,
        value_calls,
    );

    fn minimise(&self, text: &[u8], out: &mut [u8]) -> Answer {
        let Ok(image) = image_from_text(text) else {
            return Reference.minimise(text, out);
        };
        if self.0 == LooksForRoomBefore23 && out.len() < text.len() / 2 {
            return Err(Refusal::NoRoom);
        }
        if self.uneven(&image) {
            return Err(Refusal::Uneven);
        }
        let smaller = text_of(&self.joined(&image).frames());
        let asked = if self.0 == AsksForRoomForTheGivenImage { text.len() } else { smaller.len() };
        if out.len() < asked {
            if self.0 == WritesBeforeARefusal {
                let room = out.len().min(smaller.len());
                out[..room].copy_from_slice(&smaller[..room]);
            }
            return Err(Refusal::NoRoom);
        }
        out[..smaller.len()].copy_from_slice(&smaller);
        if let (WritesPastTheText, Some(past)) = (self.0, out.get_mut(smaller.len())) {
            *past = !*past;
        }
        Ok(match self.0 {
            CountsLabels => self.joined(&image).labels.len(),
            CountsTheGivenImage => text.len(),
            _ => smaller.len(),
        })
    }
}

#[test]
fn every_fault_is_found() {
    for &fault in FAULTS {
        is_found(format_args!("{fault:?}"), &Faulty(fault), 20_000);
    }
}
