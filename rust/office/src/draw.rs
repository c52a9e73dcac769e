//! A chart as graphviz text: a cluster a scheme, arcs, and dashed calls. Where a trace is given, what it took is bold
//! and what it never took is grey.

pub mod dot;
pub mod labels;

use crate::chart::Node;
use crate::escape::escaped;
use crate::marking::called;
use crate::plan::Plan;
use crate::trace::{Arc, Coverage};

/// The attributes that hold for all of a drawing.
pub(crate) const COMMON: &str = r##"    graph [fontname="DejaVu Sans", fontsize=12, ranksep=0.35, nodesep=0.35, bgcolor="#ffffff"];
    node [fontname="DejaVu Sans", fontsize=11, fontcolor="#1f2630", color="#37404d"];
    node [shape=box, style=filled, fillcolor="#ffffff", margin="0.12,0.06"];
    edge [fontname="DejaVu Sans", fontsize=10, arrowsize=0.7, color="#37404d"];
"##;
/// A call, from the node that calls to the Begin of the scheme called.
const CALL: &str = r##", style=dashed, constraint=false, color="#3f6ea8""##;
/// What was taken.
const TAKEN: &str = ", penwidth=2.2";
/// What was never taken.
const NEVER: &str = r##", color="#b3b8c0", fontcolor="#5f6672""##;

/// The identifier of a node in drawing and page.
pub fn node_id(at: usize) -> String {
    format!("n{at}")
}

/// The identifier of an arc in drawing and page.
pub fn arc_id(arc: Arc) -> String {
    format!("n{}_{}", arc.from, arc.side)
}

/// The identifier of the call that a node makes, by the scheme that serves it.
pub fn call_id(plan: &Plan, at: usize, server: u8) -> String {
    match server == called(&plan.nodes[at]) {
        true => format!("n{at}_call"),
        false => format!("n{at}_call_{server}"),
    }
}

/// The drawing as SVG, laid out by dot, whose titles, shown beside a pointer, are in the shop's words.
pub fn svg(plan: &Plan, drawing: &str) -> Result<String, String> {
    titled_svg(drawing, |id, title| titled(plan, id, title))
}

/// A drawing as SVG with titles by the identifiers of its parts, and dot's own where there is none.
pub fn titled_svg(drawing: &str, titled: impl Fn(&str, &str) -> Option<String>) -> Result<String, String> {
    let svg = dot::svg(drawing)?;
    let mut pieces = svg.split("<title>");
    let mut named = pieces.next().unwrap_or("").to_string();
    for piece in pieces {
        let (title, rest) = piece.split_once("</title>").unwrap_or((piece, ""));
        let id = named.rsplit_once("<g id=\"").and_then(|(_, group)| group.split('"').next()).unwrap_or("");
        let title = titled(id, title).map_or(title.to_string(), |title| escaped(&title));
        named.push_str(&format!("<title>{title}</title>{rest}"));
    }
    Ok(named)
}

/// A node, an arc, a call or a cluster by its identifier, or by dot's own title where it has none.
pub fn titled(plan: &Plan, id: &str, title: &str) -> Option<String> {
    if let Some(scheme) = title.strip_prefix("cluster_") {
        return Some(format!("scheme {}", plan.names.scheme(scheme.parse().ok()?)));
    }
    let (node, rest) = id.strip_prefix('n')?.split_once('_').unwrap_or((&id[1..], ""));
    let at = node.parse().ok().filter(|at| *at < plan.nodes.len())?;
    let (node, scheme) = (plan.node_title(at), plan.scheme_of(at));
    Some(match rest.strip_prefix("call") {
        _ if rest.is_empty() => format!("node {node} of {scheme}"),
        None => format!("arc {}", plan.arc_title(Arc { from: at, side: rest.parse().ok()? })),
        Some(server) => {
            let called = called(&plan.nodes[at]);
            let server = server.strip_prefix('_').and_then(|server| server.parse().ok()).unwrap_or(called);
            let served = if server == called {
                String::new()
            } else {
                format!(", served by {}", plan.names.scheme(server))
            };
            format!("call of {} at {node} of {scheme}{served}", plan.names.scheme(called))
        }
    })
}

/// The whole drawing with a caption, which may be empty.
pub fn drawing(plan: &Plan, coverage: Option<&Coverage>, caption: &str) -> String {
    let mut text = format!("digraph chart {{\n{COMMON}");
    if !caption.is_empty() {
        text.push_str(&format!("    label={};\n", quoted(&broken(caption))));
    }
    for scheme in 1..=plan.schemes() {
        text.push_str(&cluster(plan, coverage, scheme));
    }
    for at in 0..plan.nodes.len() {
        text.push_str(&arcs(plan, coverage, at));
        text.push_str(&calls(plan, coverage, at));
    }
    text.push_str("}\n");
    text
}

/// How the frame of a scheme begins.
pub(crate) fn frame(scheme: u8, name: &str) -> String {
    let title = quoted(&format!("scheme {name}"));
    format!(
        "    subgraph cluster_{scheme} {{\n        graph [label={title}, labeljust=l, style=\"filled,rounded\", \
         fillcolor=\"#f3f5f8\", color=\"#cdd3db\"];\n"
    )
}

/// The nodes of one scheme.
fn cluster(plan: &Plan, coverage: Option<&Coverage>, scheme: u8) -> String {
    let mut text = frame(scheme, &plan.names.scheme(scheme));
    let own = (0..plan.nodes.len()).filter(|at| plan.nodes[*at].scheme() == scheme);
    for at in own {
        text.push_str(&node(plan, coverage, at));
    }
    text.push_str("    }\n");
    text
}

fn node(plan: &Plan, coverage: Option<&Coverage>, at: usize) -> String {
    let (id, label) = (node_id(at), labels::label(plan, at));
    let taken = coverage.map(|coverage| coverage.node_taken(at));
    format!("        {id} [{}{}, label={label}];\n", marks(&id, "", taken), shape(&plan.nodes[at]))
}

fn shape(node: &Node) -> &'static str {
    match node {
        Node::Begin { .. } | Node::End { .. } => ", style=\"filled,rounded\", fillcolor=\"#e4e8ee\"",
        Node::Operation { .. } => "",
        Node::Condition { .. } => ", shape=diamond, fillcolor=\"#fff6dc\", margin=\"0.06,0.03\"",
        Node::Function { .. } => ", shape=hexagon, fillcolor=\"#e6f4ea\", margin=\"0.02,0.04\"",
    }
}

/// The arcs that leave a node, with the value that takes each of two.
fn arcs(plan: &Plan, coverage: Option<&Coverage>, from: usize) -> String {
    let targets = plan.nodes[from].arcs();
    let mut text = String::new();
    for (side, to) in targets.iter().enumerate() {
        let arc = Arc { from, side };
        let marks = marks(&arc_id(arc), "arc", coverage.map(|coverage| coverage.arc_taken(arc)));
        let value = if targets.len() == 2 { format!(", label=\" {side} \"") } else { String::new() };
        text.push_str(&format!("    {} -> {} [{marks}{value}];\n", node_id(from), node_id(*to)));
    }
    text
}

/// The dashed lines from a call: to the Begin of the scheme called, and to those of others that served it.
fn calls(plan: &Plan, coverage: Option<&Coverage>, at: usize) -> String {
    let scheme = called(&plan.nodes[at]);
    if scheme == 0 {
        return String::new();
    }
    let servers = coverage.into_iter().flat_map(|coverage| coverage.servers(at));
    let others = servers.filter(|server| *server != scheme);
    [scheme].into_iter().chain(others).map(|server| call(plan, coverage, at, server)).collect()
}

fn call(plan: &Plan, coverage: Option<&Coverage>, at: usize, server: u8) -> String {
    let scheme = called(&plan.nodes[at]);
    let begin = node_id(plan.marking.begin(server));
    let taken = coverage.map(|coverage| coverage.call_taken(at, server));
    let marks = marks(&call_id(plan, at, server), "call", taken);
    let name = match server == scheme {
        true => String::new(),
        false => format!(", label={}", quoted(&format!(" for {} ", plan.names.scheme(scheme)))),
    };
    format!("    {} -> {begin} [{marks}{name}];\n", node_id(at))
}

/// The identifier and class of a node or a line, and how it looks: lines are bold where they were taken, and what never
/// was is grey.
pub(crate) fn marks(id: &str, kind: &str, taken: Option<bool>) -> String {
    let (class, look) = match taken {
        None => ("", ""),
        Some(true) if kind.is_empty() => ("taken", ""),
        Some(true) => ("taken", TAKEN),
        Some(false) => ("never", NEVER),
    };
    let classes = format!("{kind} {class}");
    let call = if kind == "call" { CALL } else { "" };
    format!("id=\"{id}\", class=\"{}\"{call}{look}", classes.trim())
}

/// The most characters of a caption's line.
const LONGEST_LINE: usize = 70;

/// A caption in lines that are not too long: broken at spaces where there are some, else anywhere.
pub(crate) fn broken(caption: &str) -> String {
    let mut lines = Vec::new();
    for line in caption.lines() {
        let mut open: Vec<char> = Vec::new();
        for word in line.split(' ') {
            for piece in word.chars().collect::<Vec<char>>().chunks(LONGEST_LINE) {
                if !open.is_empty() && open.len() + 1 + piece.len() > LONGEST_LINE {
                    lines.push(std::mem::take(&mut open));
                }
                open.extend((!open.is_empty()).then_some(' '));
                open.extend(piece);
            }
        }
        lines.push(open);
    }
    let lines: Vec<String> = lines.into_iter().map(String::from_iter).collect();
    lines.join("\n")
}

/// A text between quotation marks.
pub(crate) fn quoted(text: &str) -> String {
    format!("\"{}\"", text.replace('\\', "\\\\").replace('"', "\\\"").replace('\n', "\\n"))
}
