//! The command page, without a browser: what stands in the page, that it loads nothing, and its refusals.

mod shared;

use std::path::Path;

use office::image::Image;
use office::page::page;
use office::plan::Plan;
use office::source::{from_bytes, from_notation, Source};
use office::trace::swaps::Swap;
use office::trace::{trace, Trace};
use office::why::reasons;
use shared::sheets::{edited, IMAGE};
use shared::{example, program, ran, run};

const SVG: &str = "<?xml version=\"1.0\"?>\n<!DOCTYPE svg>\n<svg><g id=\"n0\"></g></svg>\n";

fn source(chart: &str) -> Source {
    from_bytes(&std::fs::read(example(chart)).expect("an example"))
}

fn traced(source: Source, places: usize, words: &[u16]) -> (Plan, Trace) {
    let plan = Plan::read(source).expect("an accepted chart");
    let trace = trace(&plan, places, words, &[]).expect("an accepted chart");
    (plan, trace)
}

/// The one line of a page that holds this.
fn line<'a>(page: &'a str, holds: &str) -> &'a str {
    let lines: Vec<&str> = page.lines().filter(|line| line.contains(holds)).collect();
    assert_eq!(lines.len(), 1, "{holds}");
    lines[0]
}

#[test]
fn every_tick_has_a_row_with_what_it_lights() {
    let (plan, trace) = traced(source("paper.chart"), 3, &[0, 0, 1, 0, 0, 0, 0, 0]);
    let page = page(&plan, &trace, "paper.chart", "8 words", SVG);
    assert_eq!(page.matches("<tr id=\"tick-").count(), 8);
    for (tick, stack, lines) in [
        (0, "n2", "n0_0"),
        (1, "n1", "n1_call"),
        (2, "n1 n3", "n3_0 n4_1"),
        (3, "n1 n6", "n6_call"),
        (5, "n1 n6 n5", "n6_0"),
        (6, "n1 n5", "n1_0"),
    ] {
        let row = line(&page, &format!("<tr id=\"tick-{tick}\""));
        assert!(row.contains(&format!("data-stack=\"{stack}\" data-lines=\"{lines}\"")), "{row}");
    }
    let why = "it left node n3 (Begin) of s2 (label 3) and went to node n6 of s2 (label 4)&#10;by row 2 of";
    let decided = "&#10;what decided:&#10;  condition 0 was 1\"";
    let row = line(&page, "<tr id=\"tick-2\"");
    assert!(row.contains(&format!("data-why=\"{why}")) && row.contains(decided), "{row}");
    let row = line(&page, "<tr id=\"tick-3\"");
    assert!(
        row.contains("data-why=\"a call takes no row; node n6 of s2 (label 4) called scheme 2, "),
        "{row}"
    );
    assert!(row.contains("<td>call of s2</td><td><span class=\"chip\">y1</span> </td>"), "{row}");
    assert!(line(&page, "<tr id=\"node-n4\"").ends_with("<td>condition</td><td>\u{2013}</td><td>2</td></tr>"));
    assert!(page.contains("max=\"7\"") && page.contains("every node and arc was taken"));
    assert!(!page.contains("<?xml") && !page.contains("<!DOCTYPE svg"));
}

/// A drop lights what it drops and the handler's first arc, and not the call, which was not made.
#[test]
fn a_drop_has_a_row_and_the_handler_follows() {
    let (plan, trace) = traced(source("full_stack.chart"), 2, &[0, 0, 4, 4, 4, 0, 0, 0]);
    let page = page(&plan, &trace, "full_stack.chart", "", SVG);
    for (tick, stack, lines, happens) in [
        (2, "n1 n4", "n4_0 n5_1", "plain"),
        (3, "n1 n7", "n9_0", "drop of 2, start of s3"),
        (4, "n10", "n10_0 n11_1", "plain"),
        (5, "n10", "n10_0 n11_0", "plain"),
        (6, "n12", "", "return to home"),
        (7, "n3", "n0_0", "home"),
    ] {
        let row = line(&page, &format!("<tr id=\"tick-{tick}\""));
        assert!(row.contains(&format!("data-stack=\"{stack}\" data-lines=\"{lines}\"")), "{row}");
        assert!(row.contains(&format!("<td>{happens}</td>")), "{row}");
    }
}

#[test]
fn a_refusal_and_what_was_never_taken_stand_in_the_page() {
    let (plan, trace) = traced(source("paper.chart"), 2, &[0, 0, 1, 0, 0]);
    let page = page(&plan, &trace, "paper.chart", "", SVG);
    let told = line(&page, "<p id=\"refusal\">");
    assert!(told
        .contains("tick 3, word 0x0000, node n6 of s2: the call of s2 finds the stack full, all 2 places"));
    assert!(
        page.contains("<li>arc n4, x0 = 0 -&gt; n5 of s2</li>") && page.contains("<li>node n6 of s2</li>")
    );
    assert!(line(&page, "<tr id=\"node-n6\"").contains("class=\"never\""));
    // the refused tick is a row like others
    let refused = line(&page, "<tr id=\"tick-3\"");
    assert!(refused.contains("data-stack=\"n1 n6\" data-lines=\"\" class=\"refused\""), "{refused}");
    assert!(refused.contains("<td>refused (17)</td>") && page.contains("max=\"3\""), "{refused}");
}

/// A row that leads elsewhere than the library's state keeps its mark on a page, where each tick has its reason.
#[test]
fn an_internal_error_of_one_tick_is_that_of_all() {
    let (mut plan, trace) = traced(source("paper.chart"), 3, &[0, 0, 1]);
    assert!(reasons(&plan, &trace).is_ok_and(|reasons| reasons[2].starts_with("it left node n3 (Begin)")));
    let mut astray = Image::accepted(edited(IMAGE, 11, 15, "03").into_bytes());
    astray.text = IMAGE.into();
    plan.image = Ok(astray);
    let problem = reasons(&plan, &trace).expect_err("an internal error");
    let told = "internal error: the row told leads to label 3, and the library's state stands at 4";
    assert_eq!(problem.words, told);
}

/// The results are those after the tick before it, and the swaps stand before the refusal.
#[test]
fn a_refused_tick_has_its_swaps_and_the_results() {
    let text = "scheme 1\nbegin -> ask\nask: if call probe then again else end\nagain: do y0; call deep -> end\nend\n\
                scheme 2 probe\nbegin -> yes\nyes: write 1 -> end\nend\n\
                scheme 3 deep\nbegin -> more\nmore: do y1; call probe -> end\nend\n";
    let plan = Plan::read(from_notation(text).expect("the notation")).expect("an accepted chart");
    let swap = Swap { tick: 5, number: 2, scheme: 3 };
    let trace = trace(&plan, 2, &[0; 9], &[swap]).expect("an accepted chart");
    let page = page(&plan, &trace, "", "", SVG);
    let row = line(&page, "class=\"refused\"");
    assert!(row.starts_with("<tr id=\"tick-5\" "), "{row}");
    assert!(row.contains("<td>deep now serves probe; refused (17)</td>"), "{row}");
    assert!(row.ends_with("<td><span class=\"chip\">probe</span> </td></tr>"), "{row}");
}

#[test]
fn a_page_loads_nothing() {
    let (plan, trace) = traced(source("roughing.chart"), 32, &[0, 4, 4, 0, 0]);
    let page = page(&plan, &trace, "roughing.chart", "", SVG);
    for loading in
        ["http:", "https:", "src=", "href=", "url(", "@import", "<link", "<iframe", "fetch(", "import("]
    {
        assert!(!page.contains(loading), "{loading}");
    }
    assert!(page.contains("default-src 'none'"));
    assert!(page.starts_with("<!doctype html>\n") && page.ends_with("</html>\n"));
    assert!(!page.contains("[[") && !page.contains("]]"));
}

#[test]
fn names_cannot_break_the_page() {
    let odd = "</script><b>[[TICKS]] & \"x\"";
    let mut source = source("roughing.chart");
    source.names.nodes.insert(1, odd.to_string());
    source.names.schemes.insert(2, odd.to_string());
    source.names.conditions.insert(2, odd.to_string());
    source.names.operations.insert(0, odd.to_string());
    let (plan, trace) = traced(source, 3, &[4; 9]);
    let page = page(&plan, &trace, odd, odd, SVG);
    assert_eq!(page.matches("</script>").count(), 1);
    assert!(!page.contains("<b>[["));
    assert!(page.contains("&lt;/script&gt;&lt;b&gt;[[TICKS]] &amp; &quot;x&quot;"));
    let rows = trace.ticks.len() + usize::from(trace.stopped.is_some());
    assert_eq!(page.matches("<tr id=\"tick-").count(), rows);
}

fn target(name: &str) -> String {
    Path::new(env!("CARGO_TARGET_TMPDIR")).join(name).to_string_lossy().into_owned()
}

#[test]
fn without_dot_there_is_a_message_and_no_page() {
    let file = target("no_dot.html");
    let ran = ran(program(&["page", &example("paper.chart"), "-o", &file]).env("PATH", ""));
    assert_eq!((ran.status, ran.printed.as_str()), (1, ""));
    assert!(ran.said.starts_with("dot is not installed"), "{}", ran.said);
    assert!(!Path::new(&file).exists());
}

#[test]
fn wrong_arguments_get_the_usage() {
    let (chart, file) = (example("paper.chart"), target("usage.html"));
    for args in [
        vec!["page", &chart],
        vec!["page", "-o", &file],
        vec!["page", &chart, &chart, "-o", &file],
        vec!["page", &chart, "-o"],
        vec!["page", &chart, "-o", &file, "--ticks", "10001"],
    ] {
        let ran = run(&args);
        assert_eq!((ran.status, ran.printed.as_str()), (2, ""), "{args:?}");
        assert!(ran.said.contains("\nusage: fairleadow page CHART "), "{}", ran.said);
    }
    assert!(!Path::new(&file).exists());
    assert_eq!(run(&["page", "--help"]).status, 0);
}

#[test]
fn refusals_of_the_library_leave_no_page() {
    let file = target("refused.html");
    let ran = run(&["page", &example("paper.chart"), "--places", "0", "-o", &file]);
    assert_eq!((ran.status, Path::new(&file).exists()), (1, false));
    assert!(ran.said.contains("\n  refusal 14: "), "{}", ran.said);
}

/// Neither the chart nor the words are written over.
#[test]
fn what_is_read_is_kept() {
    let chart = std::fs::read(example("paper.chart")).expect("an example");
    let [chart, words] = [shared::file("kept.chart", &chart), shared::file("kept.words", b"0\n1\n")];
    for lost in [&chart, &words] {
        let before = std::fs::read(lost).expect("a file");
        let [chart, words, lost] = [&chart, &words, lost].map(|path| path.to_string_lossy());
        let ran = run(&["page", &chart, "--words", &words, "-o", &lost]);
        assert_eq!((ran.status, ran.printed.as_str()), (2, ""));
        assert!(ran.said.starts_with(&format!("{lost} is read by this command")), "{}", ran.said);
        assert_eq!(std::fs::read(&*lost).expect("a file"), before);
    }
}

#[test]
fn a_page_goes_to_standard_output() {
    let folder = Path::new(env!("CARGO_TARGET_TMPDIR"));
    let ran = ran(program(&["page", &example("paper.chart"), "-o", "-"]).current_dir(folder));
    assert!(!folder.join("-").exists());
    if ran.said.starts_with("dot is not installed") {
        return println!("left out: dot is not installed");
    }
    assert_eq!((ran.status, ran.said.as_str()), (0, ""));
    assert!(ran.printed.starts_with("<!doctype html>") && ran.printed.ends_with("</html>\n"));
}
