//! The command draw: its graphviz text, and what dot makes of it where it is installed.

mod shared;

use comparison::generate::{charts, ladders, Random};
use office::draw::{arc_id, call_id, dot, drawing, node_id};
use office::marking::called;
use office::plan::Plan;
use office::source::from_bytes;
use office::trace::{trace, Arc};
use reference::frames::text_of;
use shared::{example, file, program, ran, run, Ran};

fn drawn(chart: &str, rest: &[&str]) -> Ran {
    let chart = example(chart);
    let mut args = vec!["draw", chart.as_str()];
    args.extend(rest);
    run(&args)
}

/// The one line of a drawing with this identifier.
fn line<'a>(drawing: &'a str, id: &str) -> &'a str {
    let wanted = format!("id=\"{id}\"");
    let lines: Vec<&str> = drawing.lines().filter(|line| line.contains(&wanted)).collect();
    assert_eq!(lines.len(), 1, "{id} in\n{drawing}");
    lines[0]
}

#[test]
fn schemes_nodes_arcs_and_calls_are_drawn() {
    let ran = drawn("roughing.chart", &[]);
    assert_eq!((ran.status, ran.said.as_str()), (0, ""));
    let text = &ran.printed;
    assert!(text.starts_with("digraph chart {\n") && text.ends_with("}\n"));
    assert!(text.contains("subgraph cluster_1 {") && text.contains("subgraph cluster_2 {"));
    assert!(line(text, "n5").contains("shape=diamond") && line(text, "n5").contains("<B>x2</B>"));
    assert!(
        line(text, "n7").contains("<B>n7</B></TD></TR><TR><TD>y0 y1 y2</TD></TR><TR><TD>call s2</TD></TR>")
    );
    for (node, label) in [("n0", 0), ("n3", 0), ("n6", 1), ("n1", 2), ("n4", 4), ("n8", 6)] {
        assert!(line(text, node).contains(&format!(">label {label}<")), "{node}");
    }
    assert!(!line(text, "n5").contains(">label "));
    assert!(line(text, "n7_call").contains("n7 -> n4 ") && line(text, "n7_call").contains("style=dashed"));
    assert!(line(text, "n5_1").contains("n5 -> n7 ") && line(text, "n5_1").contains("label=\" 1 \""));
    assert!(!text.contains("penwidth") && !text.contains("never"));
}

#[test]
fn a_trace_marks_what_it_took() {
    let ran = drawn("roughing.chart", &["--trace", "--words", "0", "--ticks", "20"]);
    assert_eq!((ran.status, ran.said.as_str()), (0, ""));
    for id in ["n0_0", "n1_0", "n1_call", "n4_0", "n5_0"] {
        let line = line(&ran.printed, id);
        assert!(line.contains("penwidth=2.2") && line.contains("taken\""), "{line}");
    }
    for id in ["n5_1", "n7_0", "n7_call", "n8_0", "n7", "n8"] {
        let line = line(&ran.printed, id);
        assert!(line.contains("color=\"#b3b8c0\"") && line.contains("never\""), "{line}");
    }
    assert!(ran.printed.contains("20 ticks; never taken: 2 of 9 nodes, 3 of 8 arcs"));
}

#[test]
fn the_handler_is_shown_and_a_dropped_call_was_not_made() {
    let text = drawn("full_stack.chart", &[]).printed;
    assert!(line(&text, "n9")
        .contains("Begin <B>n9</B></TD></TR><TR><TD>when the stack is full</TD></TR></TABLE>"));
    assert_eq!(text.matches("when the stack is full").count(), 1);
    let ran = drawn("full_stack.chart", &["--trace", "--places", "2", "--words", "0,0,4,4,4,0,0"]);
    assert_eq!((ran.status, ran.said.as_str()), (0, ""));
    for id in ["n1_call", "n9_0", "n10_0", "n11_0", "n11_1"] {
        assert!(line(&ran.printed, id).contains("taken\""), "{id}");
    }
    assert!(line(&ran.printed, "n7").contains("taken\"") && line(&ran.printed, "n12").contains("taken\""));
    assert!(line(&ran.printed, "n7_call").contains("never\""));
    let ran = drawn("full_stack.chart", &["--trace", "--words", "0,0,4,4,4,0,0"]);
    assert!(line(&ran.printed, "n7_call").contains("taken\""));
    assert!(line(&ran.printed, "n9").contains("never\""));
}

/// A call leads to the scheme that served it; that of the number called served none here.
#[test]
fn a_swapped_call_leads_to_the_scheme_that_served_it() {
    let words = "0,0,4,0,0,0,0,0,0,0,4,4,4,0,0,0,0";
    let ran = drawn("swapped.txt", &["--trace", "--words", words, "--swap", "0:2=3"]);
    assert_eq!((ran.status, ran.said.as_str()), (0, ""));
    let text = &ran.printed;
    let own = line(text, "n1_call");
    assert!(own.contains("n1 -> n5 ") && own.contains("never\"") && own.contains("#b3b8c0"), "{own}");
    let served = line(text, "n1_call_3");
    assert!(served.contains("n1 -> n9 ") && served.contains("taken\""), "{served}");
    assert!(served.contains("penwidth=2.2") && served.contains("label=\" for roughing \""), "{served}");
    // swapped between two calls, both served
    let ran = drawn("swapped.txt", &["--trace", "--words", words, "--swap", "7:2=3"]);
    for id in ["n1_call", "n1_call_3"] {
        assert!(line(&ran.printed, id).contains("penwidth=2.2"), "{id}");
    }
    assert!(!drawn("swapped.txt", &["--trace", "--words", words]).printed.contains("n1_call_"));
}

#[test]
fn a_trace_that_is_refused_is_drawn_and_told() {
    let ran = drawn("paper.chart", &["--trace", "--places", "1"]);
    assert_eq!(ran.status, 1);
    let told = format!("{}: tick 1, word 0xEC67, node n1 of s1: the call of s2 ", example("paper.chart"));
    assert!(ran.said.starts_with(&told) && ran.said.contains("\n  refusal 17: "), "{}", ran.said);
    assert!(line(&ran.printed, "n1_call").contains("never"));
    let ran = drawn("paper.chart", &["--trace", "--places", "33"]);
    assert_eq!((ran.status, ran.printed.as_str()), (1, ""));
    assert!(ran.said.contains("\n  refusal 14: "), "{}", ran.said);
}

/// A chart with too many rows can be looked at, to see where they come from; it cannot be run.
#[test]
fn too_many_rows_are_drawn_and_not_traced() {
    let text = text_of(&ladders::with_rows(&mut Random::new(3), 1_025));
    let chart = file("rows.chart", &text);
    let chart = chart.to_string_lossy();
    let ran = run(&["draw", &chart]);
    assert_eq!((ran.status, ran.said.as_str()), (0, ""));
    // there is no image that its labels could be those of
    assert!(ran.printed.contains("subgraph cluster_2 {") && !ran.printed.contains(">label "));
    for args in [vec!["draw", &chart, "--trace"], vec!["trace", &chart]] {
        let ran = run(&args);
        assert_eq!((ran.status, ran.printed.as_str()), (1, ""));
        assert!(ran.said.contains("\n  refusal 10: "), "{}", ran.said);
    }
}

#[test]
fn names_cannot_break_the_drawing() {
    let text = std::fs::read(example("roughing.chart")).expect("an example");
    let mut source = from_bytes(&text);
    let odd = "<a & \"b\"> \\n {x}";
    source.names.nodes.insert(1, odd.to_string());
    source.names.schemes.insert(2, odd.to_string());
    source.names.conditions.insert(2, odd.to_string());
    source.names.operations.insert(0, odd.to_string());
    let text = drawing(&Plan::read(source).expect("an accepted chart"), None, odd);
    assert!(line(&text, "n1").contains("<B>&lt;a &amp; &quot;b&quot;&gt; \\n {x}</B>"));
    assert!(text.contains("label=\"scheme <a & \\\"b\\\"> \\\\n {x}\""));
    match dot::svg(&text) {
        Ok(svg) => assert!(svg.contains("id=\"n1\"")),
        Err(_) => missing(),
    }
}

/// A list of 300 words, in a file whose name is long too, leaves the drawing as wide as it is and the page's head short.
#[test]
fn long_lists_and_names_are_cut_in_captions() {
    let text = std::fs::read(example("roughing.txt")).expect("an example");
    let chart = file(&format!("{}.txt", "roughing".repeat(25)), &text);
    let (chart, words) = (chart.to_string_lossy(), vec!["0"; 300].join(","));
    let swaps = vec!["3:2=2"; 100].join(",");
    let tracing = ["--words", &words, "--swap", &swaps];
    let width = |args: &[&str]| {
        let drawn = run(&[&["draw", &chart, "--svg"], args].concat()).printed;
        let (_, rest) = drawn.split_once("width=\"")?;
        rest.split("pt\"").next()?.parse::<usize>().ok()
    };
    let Some(alone) = width(&[]) else { return missing() };
    let traced = width(&[&["--trace"], &tracing[..]].concat()).expect("a width");
    assert!(traced < alone + 200, "{traced} and {alone}");
    let page = run(&[&["page", &chart, "-o", "-"], &tracing[..]].concat()).printed;
    let head = page.lines().find(|line| line.contains("stack of 32 places")).expect("a head");
    assert!(head.contains(",... (300 words)") && head.contains(",... (100 swaps)"), "{head}");
    assert!(head.len() < 300, "{head}");
}

/// What a pointer shows beside it is told in the shop's words, not in dot's.
#[test]
fn titles_are_the_shops_names() {
    let words = ["--trace", "--words", "0,0,4,0,0,0,0,0,0,0,4,4,4,0,0,0,0", "--swap", "0:2=3"];
    let svg = drawn("swapped.txt", &[&["--svg"], &words[..]].concat()).printed;
    if svg.is_empty() {
        return missing();
    }
    for title in [
        "scheme roughing",
        "node more (condition) of roughing",
        "arc more, wood = 1 -&gt; cut of roughing",
        "call of roughing at block of blocks",
        "call of roughing at block of blocks, served by finer",
    ] {
        assert_eq!(svg.matches(&format!("<title>{title}</title>")).count(), 1, "{title}");
    }
    assert!(
        !svg.contains("<title>n") || svg.matches("<title>n").count() == svg.matches("<title>node ").count()
    );
    assert!(!svg.contains("<title>cluster"));
}

/// A number after a text in a piece of a drawing.
fn number(text: &str, before: &str) -> Option<f64> {
    text.split_once(before)?.1.split(['"', ' ', ',']).next()?.parse().ok()
}

/// An underscore reaches below its line: the next line stands further down, and the first one below the upper edge.
#[test]
fn lines_of_a_box_have_room() {
    let svg = drawn("bore.txt", &["--svg"]).printed;
    if svg.is_empty() {
        return missing();
    }
    let nodes: Vec<&str> = svg.split("<g id=\"").filter(|group| group.contains("class=\"node")).collect();
    assert_eq!(nodes.len(), 10);
    for node in nodes {
        let corners =
            node.split_once("points=\"").map_or("", |(_, rest)| rest.split('"').next().unwrap_or(""));
        let heights = corners.split(' ').filter_map(|corner| corner.split_once(',')?.1.parse().ok());
        let mut above = heights.min_by(f64::total_cmp).map(|edge| (edge, 1.2));
        for text in node.split("<text ").skip(1) {
            let (line, size) =
                (number(text, " y=\"").expect("a height"), number(text, "font-size=\"").expect("a size"));
            // a line may be in pieces
            if let Some((above, room)) = above.filter(|(above, _)| *above != line) {
                assert!(line - above >= room * size, "{node}");
            }
            above = Some((line, 1.3));
        }
    }
}

/// Random charts: dot takes each drawing, and every node, arc and call has its group.
#[test]
fn dot_takes_every_drawing() {
    let mut random = Random::new(4);
    let mut tried = 0;
    while tried < 12 {
        let records = charts::chart(&mut random);
        if records.len() > 60 {
            continue;
        }
        tried += 1;
        let plan = Plan::read(from_bytes(&text_of(&records))).expect("an accepted chart");
        let traced = trace(&plan, 32, &[0x5555; 40], &[]).ok();
        let text = drawing(&plan, traced.as_ref().map(|traced| &traced.coverage), "");
        let Ok(svg) = dot::svg(&text) else { return missing() };
        for (at, node) in plan.nodes.iter().enumerate() {
            let mut ids = vec![node_id(at)];
            ids.extend((0..node.arcs().len()).map(|side| arc_id(Arc { from: at, side })));
            ids.extend((called(node) != 0).then(|| call_id(&plan, at, called(node))));
            for id in ids {
                assert_eq!(svg.matches(&format!("<g id=\"{id}\"")).count(), 1, "{id}");
            }
        }
    }
}

/// Where dot is missing that is what the command says; nothing else is a reason for no picture.
fn missing() {
    let ran = drawn("paper.chart", &["--svg"]);
    assert_eq!((ran.status, ran.printed.as_str()), (1, ""));
    assert!(ran.said.starts_with("dot is not installed"), "{}", ran.said);
}

#[test]
fn without_dot_there_is_a_message() {
    let ran = ran(program(&["draw", &example("paper.chart"), "--svg"]).env("PATH", ""));
    assert_eq!((ran.status, ran.printed.as_str()), (1, ""));
    assert_eq!(ran.said, "dot is not installed: it lays the drawing out (Debian's package graphviz)\n");
}

#[test]
fn wrong_arguments_get_the_usage() {
    let chart = example("paper.chart");
    for args in [vec!["draw"], vec!["draw", &chart, "--words", "0"], vec!["draw", &chart, "--png"]] {
        let ran = run(&args);
        assert_eq!((ran.status, ran.printed.as_str()), (2, ""), "{args:?}");
        assert!(ran.said.contains("\nusage: fairleadow draw CHART "), "{}", ran.said);
    }
    assert_eq!(run(&["draw", "--help"]).status, 0);
}
