//! Every little chart that the library has: they are those of the reference, and translated and run they make the ticks of the walk.

use comparison::compare::{run_little_charts, Tried};
use proved::{Library, Proved, Refusal, LITTLE_TEXT};
use reference::little::texts;
use reference::Reference;

/// Each number up to some past the last, of each frame count that there is and of some beside.
#[test]
fn each_number_of_each_count_is_fetched_as_by_the_reference() {
    let (mut fetched, mut refused) = (0, 0);
    for frames in 0..=6 {
        for number in 0..texts(frames).len() + 20 {
            for room in [LITTLE_TEXT + 3, 23 * frames, 22 * frames] {
                let made = |library: &dyn Library| {
                    let mut text = vec![0xAA; room];
                    (library.little_chart(frames, number, &mut text), text)
                };
                let (got, wanted) = (made(&Proved), made(&Reference));
                assert_eq!(got, wanted, "{frames} frames, number {number}, room for {room}");
                fetched += usize::from(got.0.is_ok());
                refused += usize::from(got.0 == Err(Refusal::NoLittleChart));
            }
        }
    }
    assert_eq!((fetched, refused), (2 * 668, 3 * 7 * 20));
}

#[test]
fn every_little_chart_makes_the_ticks_of_its_walk() {
    let lists = [(2 * 3) << 4, (18 * 3) << 5, (648 * 3) << 6];
    assert_eq!(run_little_charts(&Proved), Ok(Tried { charts: [2, 18, 648], lists }));
}
