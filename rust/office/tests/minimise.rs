//! The command minimise: what is written, what is told, and what is refused.

mod shared;

use comparison::generate::{alike, Random};
use comparison::samples;
use office::commands::minimise::minimised;
use reference::entry;
use reference::frames::text_of;
use reference::image::image_of;
use shared::{example, file, run, Ran};

fn path(name: &str, bytes: &[u8]) -> String {
    file(name, bytes).to_string_lossy().into_owned()
}

/// An image two of whose labels act alike.
fn alike_image() -> Vec<u8> {
    entry::translated(&text_of(&samples::alike())).expect("a valid chart")
}

#[test]
fn a_chart_in_which_no_labels_act_alike_stays() {
    let Ran { printed, said, status } = run(&["minimise", &example("paper.chart")]);
    assert_eq!((status, said.as_str()), (0, ""));
    assert_eq!(printed, "paper.chart: no two labels act alike; 5 labels and 4 rows stay\n");
    let Ran { printed, status, .. } = run(&["minimise", &example("paper.chart"), "-o", "-"]);
    assert_eq!((status, printed), (0, std::fs::read_to_string(example("paper.image")).expect("an example")));
}

#[test]
fn the_example_is_joined() {
    let Ran { printed, said, status } = run(&["minimise", &example("branches.txt")]);
    assert_eq!((status, said.as_str()), (0, ""));
    assert_eq!(
        printed,
        "branches.txt: saves 2 labels and 2 rows, 92 characters; 7 labels and 6 rows are left\n"
    );
    let smaller = std::fs::read_to_string(example("branches.smaller")).expect("an example");
    for given in ["branches.chart", "branches.image"] {
        assert_eq!(run(&["minimise", &example(given), "-o", "-"]).printed, smaller);
    }
}

#[test]
fn the_smaller_image_is_written_and_what_it_saves_is_told() {
    let image = alike_image();
    let smaller = entry::minimised(&image).expect("a translated chart");
    let (given, out) = (path("alike.image", &image), path("alike.smaller", b""));
    let Ran { printed, said, status } = run(&["minimise", &given, "-o", &out]);
    assert_eq!((status, said.as_str()), (0, ""));
    assert_eq!(
        printed,
        "alike.image: saves 1 label and 1 row, 46 characters; 4 labels and 3 rows are left\n"
    );
    assert_eq!(std::fs::read(&out).expect("it was written"), smaller);
    let Ran { printed, status, .. } = run(&["minimise", &out]);
    assert_eq!(status, 0);
    assert_eq!(printed, "alike.smaller: no two labels act alike; 4 labels and 3 rows stay\n");
}

#[test]
fn a_row_too_few_and_a_row_too_many_are_told_with_their_lines() {
    let image = std::fs::read_to_string(example("paper.image")).expect("an example");
    let without = image
        .replace("0F020400040000000000E7", "0F020400030000000000E8")
        .replace("12030001000102040000E3\n", "");
    let Ran { printed, said, status } = run(&["minimise", &path("few.image", without.as_bytes())]);
    assert_eq!((status, printed.as_str()), (1, ""));
    assert!(said.contains("few.image: line 7: label 3 has no row for word 0x0001\n"), "{said}");
    assert!(said.contains("\n  refusal 23: ") && said.contains("\n  look for: "), "{said}");
    let row = "12020000000002000000EA\n";
    let twice =
        image.replace("0F020400040000000000E7", "0F020400050000000000E6").replace(row, &[row, row].concat());
    let Ran { said, status, .. } = run(&["minimise", &path("many.image", twice.as_bytes())]);
    assert_eq!(status, 1);
    assert!(
        said.contains("many.image: line 10: label 2 has two rows for word 0x0000, this and line 9\n"),
        "{said}"
    );
}

#[test]
fn the_file_given_is_not_written_over() {
    let given = path("kept.image", &alike_image());
    let Ran { said, status, .. } = run(&["minimise", &given, "-o", &given]);
    assert_eq!(status, 2);
    assert!(said.contains("it would be lost"), "{said}");
    assert_eq!(std::fs::read(&given).expect("it is there"), alike_image());
}

/// A reason is found for each 23, and other images are as the reference has them.
#[test]
fn random_images_are_joined_or_told_why_not() {
    let mut refused = 0;
    for seed in 0..2_000 {
        let image = alike::accepted(&mut Random::new(seed));
        assert_eq!(image_of(&image.frames()).as_ref(), Ok(&image), "seed {seed}");
        let text = text_of(&image.frames());
        match minimised(&text) {
            Ok(smaller) => assert_eq!(Ok(smaller), entry::minimised(&text)),
            Err(problem) => {
                assert_eq!(problem.refusal.map(|refusal| refusal.number()), Some(23));
                assert!(problem.words.starts_with("line "), "{}", problem.words);
                refused += 1;
            }
        }
    }
    assert!(refused > 100, "{refused}");
}
