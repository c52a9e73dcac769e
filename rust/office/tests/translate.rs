//! The command translate: the images that the proved program prints, and that nothing is written of a chart that is refused.

mod shared;

use std::fs;
use std::path::Path;

use fairleadow::LINE;
use office::check::translated;
use office::source::from_bytes;
use shared::called::fairleadow;
use shared::{example, file, run};

/// The input and the kept output of a crate of programs.
fn kept(program: &str) -> [Vec<u8>; 2] {
    let folder = Path::new(env!("CARGO_MANIFEST_DIR")).join("../../crates").join(program);
    ["stdin", "stdout"].map(|name| fs::read(folder.join(name)).expect("a kept file"))
}

#[test]
fn each_example_gives_its_image() {
    for name in
        ["bore", "branches", "finishing", "full_stack", "home", "paper", "roughing", "swapped", "two_blocks"]
    {
        let image = fs::read_to_string(example(&format!("{name}.image"))).expect("an example");
        for chart in [format!("{name}.chart"), format!("{name}.txt")] {
            let ran = run(&["translate", &example(&chart)]);
            assert_eq!((ran.status, &ran.printed, ran.said.as_str()), (0, &image, ""), "{chart}");
            let ran = run(&["translate", &example(&chart), "-o", "-"]);
            assert_eq!((ran.status, &ran.printed), (0, &image), "{chart}");
        }
    }
}

#[test]
fn the_image_is_written_and_told() {
    let out = file("translated.image", b"").to_string_lossy().into_owned();
    let ran = run(&["translate", &example("bore.txt"), "-o", &out]);
    assert_eq!((ran.status, ran.said.as_str()), (0, ""));
    assert_eq!(ran.printed, "bore.txt: an image of 2 schemes, 7 labels and 7 rows\n");
    assert_eq!(fs::read(&out).expect("it was written"), fs::read(example("bore.image")).expect("an example"));
    let ran = run(&["translate", &example("bore.txt"), "-o", &out]);
    assert!(ran.status == 2 && ran.said.contains("looks like an image, which would be lost"), "{}", ran.said);
}

/// The kept output of the proved program, and of the program of cases, which prints long images by their first and last line.
#[test]
fn the_proved_programs_print_the_same() {
    let [chart, image] = kept("translate");
    assert_eq!(
        fairleadow(&["translate", "-"], &chart),
        (0, String::from_utf8(image).expect("text"), String::new())
    );
    let [charts, printed] = kept("translate_cases");
    let printed: Vec<&[u8]> = printed.split(|byte| *byte == b'-').collect();
    let (mut images, mut refused) = (0, 0);
    for (at, chart) in charts.split(|byte| *byte == b'-').enumerate() {
        let mut wanted = printed[at].to_vec();
        if at > 0 {
            // the line that holds the sign between two
            wanted.remove(0);
        }
        match translated(&from_bytes(chart)) {
            Ok(image) if image.len() <= 60 * LINE => {
                assert_eq!(image, wanted, "{at}");
                images += 1;
            }
            Ok(image) => {
                assert_eq!([&image[..LINE], &image[image.len() - LINE..]].concat(), wanted, "{at}");
                images += 1;
            }
            Err(problem) => {
                let number = problem.refusal.expect("a number").number();
                assert!(wanted.starts_with(format!("FF{number:02X}").as_bytes()), "{at} {problem}");
                refused += 1;
            }
        }
    }
    // behind the last sign stands nothing more
    assert_eq!(images + refused, printed.len() - 1);
    assert!(images == 11 && refused == 3, "{images} {refused}");
}

/// Bad input is told with its place, and nothing is printed or written.
#[test]
fn what_is_no_chart_writes_nothing() {
    let kept = fs::read(example("branches.image")).expect("an example");
    let out = file("kept_by_translate.image", &kept).to_string_lossy().into_owned();
    let refused = |chart: &str, told: &str| {
        let ran = run(&["translate", chart, "-o", &out, "--force"]);
        assert_eq!((ran.status, ran.printed.as_str()), (1, ""), "{chart}");
        assert!(ran.said.contains(told), "{}", ran.said);
        assert_eq!(fs::read(&out).expect("it is there"), kept);
    };
    let text = fs::read_to_string(example("bore.chart")).expect("an example");
    let written = |name: &str, text: &str| file(name, text.as_bytes()).to_string_lossy().into_owned();
    refused(&written("none.chart", ""), ": the file is empty\n");
    refused(
        &written("dos.chart", &text.replace('\n', "\r\n")),
        ": line 1 ends with a carriage return, and so do 9 more\n",
    );
    refused(&example(""), "this is a directory, not a file\n");
    refused(&example("bore.image"), "bore.image: this is an image; a chart is asked for here\n");
    refused(&example("roughing.prices"), ": line 1, column 1: '#' (only 0-9, A-F and a-f)\n");
    for at in 0..text.len() {
        let mut damaged = text.clone().into_bytes();
        damaged[at] = if damaged[at] == b'7' { b'8' } else { b'7' };
        let problem = office::source::from_either(&damaged)
            .and_then(|source| translated(&source))
            .expect_err("damaged");
        assert!(problem.line.is_some() && !problem.is_internal(), "{at} {problem}");
    }
}
