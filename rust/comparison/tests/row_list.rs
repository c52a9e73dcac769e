//! The list of each label's rows: that they are the label's and all of them, and that a tick needs no other.

use comparison::generate::{images, runs, states, Random};
use comparison::samples;
use reference::entry;
use reference::frames::text_of;
use reference::image::{image_of, Image};
use reference::machine::{row_label, tick};
use reference::row_list::row_list;
use reference::{Answer, Refusal};

/// Random images that are accepted, patched ones among them.
fn each_image(mut look: impl FnMut(&Image, &mut Random)) {
    for seed in 0..3_000 {
        let random = &mut Random::new(seed);
        let image = images::accepted(random);
        if image_of(&image.frames()).is_ok() {
            look(&image, random);
        }
    }
}

#[test]
fn a_label_has_the_rows_listed_and_no_other() {
    let mut without = 0;
    each_image(|image, _| {
        let (firsts, counts) = row_list(image);
        assert_eq!((firsts.len(), counts.len()), (image.labels.len(), image.labels.len()));
        for (label, (first, count)) in firsts.iter().zip(&counts).enumerate() {
            let range = usize::from(*first)..usize::from(*first + *count);
            let from = |number: usize| usize::from(image.rows[number].from);
            let numbers: Vec<usize> = (0..image.rows.len()).filter(|number| from(*number) == label).collect();
            assert_eq!(numbers, range.collect::<Vec<usize>>());
            assert!(*count > 0 || *first == 0);
            without += usize::from(label > 1 && *count == 0);
        }
        assert_eq!((firsts[0], counts[0], firsts[1], counts[1]), (0, 0, 0, 0));
    });
    assert!(without > 1_000, "too few labels without rows: {without}");
}

#[test]
fn a_tick_needs_only_the_rows_listed_for_its_label() {
    let mut made = 0;
    each_image(|image, random| {
        let (firsts, counts) = row_list(image);
        let state = states::fitting(random, image.shape());
        for word in runs::words(random, 4) {
            let label = usize::from(row_label(image, &state).unwrap_or(0));
            let rows = image.rows[usize::from(firsts[label])..][..usize::from(counts[label])].to_vec();
            let only = Image { rows, ..image.clone() };
            let ticked =
                |image: &Image| tick(image, &state, word).map(|made| (made.mask, made.code, made.state));
            assert_eq!(ticked(&only), ticked(image));
            made += usize::from(label > 1);
        }
    });
    assert!(made > 3_000, "too few ticks took a row: {made}");
}

/// What is answered, and the buffers after it.
fn listed(image: &[u8], room: [usize; 2]) -> (Answer, Vec<u16>, Vec<u16>) {
    let (mut firsts, mut counts) = (vec![9; room[0]], vec![9; room[1]]);
    let answer = entry::list_rows(image, &mut firsts, &mut counts);
    (answer, firsts, counts)
}

#[test]
fn the_rows_of_chart_p() {
    let image = entry::translated(&text_of(&samples::chart_p())).expect("a valid chart");
    let (answer, firsts, counts) = listed(&image, [6, 7]);
    assert_eq!(answer, Ok(5));
    assert_eq!(firsts, [0, 0, 0, 1, 3, 9]);
    assert_eq!(counts, [0, 0, 1, 2, 1, 9, 9]);
    for room in [[4, 5], [5, 4], [0, 0]] {
        let refused = Err(Refusal::NoRoom);
        assert_eq!(listed(&image, room), (refused, vec![9; room[0]], vec![9; room[1]]));
    }
}
