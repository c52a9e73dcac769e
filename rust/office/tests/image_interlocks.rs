//! Interlocks of a chart on an image that it names: over the image's labels, and its orders on the image's own rows.

mod shared;

use office::image::Image;
use office::interlocks::decided_on;
use office::plan::Plan;
use office::source::from_notation;
use office::subject::Subject;
use shared::readers::own;
use shared::{example, run};

const CHART: &str = "\
condition 0 second
condition 1 third
output 0 a
output 1 b
never a with b
b only after a

scheme 1
       begin -> first
first: do nothing -> one
one:   do a -> ask
ask:   if second then two else end
two:   do b -> end
       end
";

/// The chart, its image, and the image with these lines of a patch.
fn patched(name: &str, lines: &str) -> [String; 3] {
    let chart = own(&format!("{name}.txt"), CHART);
    let [image, other] = ["image", "other.image"].map(|end| own(&format!("{name}.{end}"), ""));
    let made = run(&["translate", &chart, "-o", &image]);
    assert_eq!(made.status, 0, "{}", made.said);
    let patch = own(&format!("{name}.patch"), lines);
    let made = run(&["patch", &image, &patch, "--names", &chart, "-o", &other]);
    assert_eq!(made.status, 0, "{}", made.said);
    [chart, image, other]
}

/// The image as the chart gives it keeps the order. The patch leads past what must be on before, by one word alone: each of its rows matches
/// others too.
#[test]
fn a_patch_that_breaks_an_order_is_told_with_the_words() {
    let lines = "at first when second go to two\nat first when second and not third go to one\n";
    let [chart, image, other] = patched("order", lines);
    let ran = run(&["check", &image, "--names", &chart]);
    assert_eq!((ran.status, ran.said.as_str()), (0, ""));
    let told = ran.printed.split_once("rows\n").map(|(_, told)| told.to_string()).unwrap_or(ran.printed);
    assert!(
        told.contains("  interlock: line 5 of the chart: 'never a with b' holds: no node puts out both\n")
            && told.contains("  interlock: line 6 of the chart: 'b only after a' holds in every run on a stack of any size without swaps: all "),
        "{told}"
    );
    let ran = run(&["check", &other, "--names", &chart]);
    assert_eq!((ran.status, ran.printed.as_str()), (1, ""));
    let told = "line 6 of the chart: 'b only after a' does not hold: by the words 0,3,0 tick 2 puts out b at two (line 13), and no tick \
                before it since the last home tick puts out a\n  look for: ";
    assert!(ran.said.starts_with(&format!("{other}: {told}")), "{}", ran.said);
    // the words do what is told
    let ran = run(&["trace", &other, "--names", &chart, "--words", "0,3,0", "--format", "csv"]);
    let outputs: Vec<&str> = ran.printed.lines().skip(1).filter_map(|row| row.split(',').nth(8)).collect();
    assert_eq!(outputs, ["", "", "b"], "{}", ran.printed);
    // without the chart the image has no interlocks, and in another form the finding is the same
    assert_eq!(run(&["check", &other]).status, 0);
    let ran = run(&["check", &other, "--names", &chart, "--format", "lines"]);
    assert_eq!(ran.status, 1);
    assert!(ran.printed.starts_with(&format!("{other}: error: line 6 of the chart: ")), "{}", ran.printed);
}

/// Of all images with one more row at the first label those break the order whose row leads to the second output by some word.
#[test]
fn each_row_that_leads_past_breaks_the_order() {
    let plan = from_notation(CHART).and_then(Plan::read).expect("an accepted chart");
    let image = plan.image.clone().expect("an image");
    let names = Subject::with_names(image.clone(), plan.clone()).expect("its own labels");
    let [first, two] = ["first", "two"].map(|name| names.labelled(name, 1).expect("a label"));
    let rows: Vec<_> = image.rows().collect();
    let own_row = rows.iter().position(|row| row.from == first).expect("a row");
    let (mut broken, mut kept) = (0, 0);
    for (care, values) in (1..4).flat_map(|care| (0..4).map(move |values| (care, values & care))) {
        for next in 0..image.labels() as u8 {
            let mut rows = rows.clone();
            rows.insert(own_row + 1, office::image::Row { care, values, next, ..rows[own_row] });
            let Ok(other) = Image::read(image.with_rows(&rows)) else { continue };
            let subject = Subject::with_names(other, plan.clone()).expect("the chart's labels");
            let decided = decided_on(&subject, &plan).expect("it is decided");
            assert_eq!(decided.broken.len(), usize::from(next == two), "{care} {values} {next}");
            assert_eq!(decided.held.len() + decided.broken.len(), 2);
            broken += decided.broken.len();
            kept += usize::from(decided.broken.is_empty());
        }
    }
    assert!(broken > 5 && kept > 5, "{broken} {kept}");
}

/// An image has the interlocks of its own chart alone, and a chart has none of another.
#[test]
fn what_is_not_named_so_is_refused() {
    let chart = own("refused.txt", CHART);
    for (call, status, told) in [
        (
            ["check", &example("bore.image"), "--names", &chart],
            1,
            "this is an image; its labels are not the chart's: ",
        ),
        (
            ["check", &example("bore.txt"), "--names", &chart],
            1,
            "this is the readable notation; --names goes with an image\n",
        ),
        (["check", "-", "--names", "-"], 2, "file and names cannot both be standard input\n"),
    ] {
        let ran = run(&call);
        assert_eq!((ran.status, ran.printed.as_str()), (status, ""), "{call:?}");
        assert!(ran.said.contains(told), "{}", ran.said);
    }
}
