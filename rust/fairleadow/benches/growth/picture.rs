//! The picture of how calls grow: a panel for each, its time over the size, both doubled from mark to mark.

use std::fmt::Write;

use crate::series::SIZES;

pub struct Panel {
    pub title: String,
    pub inputs: String,
    pub sizes: [usize; SIZES],
    pub by: &'static str,
    /// Of the library, and of plain Rust.
    pub nanoseconds: [Vec<f64>; 2],
}

const COLUMNS: usize = 4;
const WIDE: f64 = 270.0;
const HIGH: f64 = 210.0;
const HEAD: f64 = 40.0;
/// Where the lines of a panel are drawn: its left, top, width and height.
const INSIDE: [f64; 4] = [52.0, 46.0, 200.0, 110.0];
const COLOURS: [&str; 2] = ["#1b4f8f", "#c05a00"];
const NAMES: [&str; 2] = ["library", "plain Rust"];

/// A time in the unit that is read best.
fn told(nanoseconds: f64) -> String {
    match nanoseconds {
        n if n < 999.5 => format!("{n:.0} ns"),
        n if n < 9_995.0 => format!("{:.1} µs", n / 1e3),
        n if n < 999_500.0 => format!("{:.0} µs", n / 1e3),
        n => format!("{:.1} ms", n / 1e6),
    }
}

fn panel(out: &mut String, left: f64, top: f64, panel: &Panel) {
    let times = panel.nanoseconds.iter().flatten();
    let (least, most) =
        times.fold((f64::MAX, 0.0f64), |(least, most), time| (least.min(*time), most.max(*time)));
    let [x0, y0, wide, high] = [left + INSIDE[0], top + INSIDE[1], INSIDE[2], INSIDE[3]];
    // at least two doublings, so that what stays the same is drawn flat
    let doublings = (most / least).log2().max(2.0);
    let x = |at: usize| x0 + wide * at as f64 / (SIZES - 1) as f64;
    let y = |time: f64| y0 + high * (1.0 - (time / least).log2() / doublings);
    let mut say = |x: f64, y: f64, class: &str, text: &str| {
        let _ = writeln!(out, "<text x=\"{x:.1}\" y=\"{y:.1}\" class=\"{class}\">{text}</text>");
    };
    say(left + 8.0, top + 18.0, "call", &panel.title);
    say(left + 8.0, top + 34.0, "inputs", &panel.inputs);
    say(x0 - 6.0, y0 + 4.0, "time", &told(least * doublings.exp2()));
    say(x0 - 6.0, y0 + high + 4.0, "time", &told(least));
    say(x0, y0 + high + 18.0, "size", &panel.sizes[0].to_string());
    say(x0 + wide, y0 + high + 18.0, "most", &format!("{} {}", panel.sizes[SIZES - 1], panel.by));
    let _ = writeln!(out, "<rect x=\"{x0:.1}\" y=\"{y0:.1}\" width=\"{wide}\" height=\"{high}\"/>");
    for (times, colour) in panel.nanoseconds.iter().zip(COLOURS) {
        let points: Vec<String> =
            times.iter().enumerate().map(|(at, time)| format!("{:.1},{:.1}", x(at), y(*time))).collect();
        let _ = writeln!(out, "<polyline points=\"{}\" stroke=\"{colour}\"/>", points.join(" "));
    }
}

pub fn drawn(panels: &[Panel]) -> String {
    let (wide, high) = (WIDE * COLUMNS as f64, HEAD + HIGH * panels.len().div_ceil(COLUMNS) as f64);
    let mut out = format!(
        "<svg xmlns=\"http://www.w3.org/2000/svg\" width=\"{wide}\" height=\"{high}\" viewBox=\"0 0 {wide} {high}\">\n\
         <title>Time of each call as its input grows</title>\n\
         <style>text {{ font: 11px sans-serif; fill: #222 }} .call {{ font-weight: bold; font-size: 13px }} .inputs {{ fill: #555 }} \
         .time {{ text-anchor: end }} .most {{ text-anchor: end }} .size {{ text-anchor: middle }} rect {{ fill: none; stroke: #bbb }} \
         polyline {{ fill: none; stroke-width: 2 }}</style>\n\
         <rect width=\"{wide}\" height=\"{high}\" style=\"fill: white; stroke: none\"/>\n"
    );
    for (at, (name, colour)) in NAMES.iter().zip(COLOURS).enumerate() {
        let (x, y) = (20.0 + 120.0 * at as f64, 24.0);
        let _ = writeln!(out, "<polyline points=\"{x},{y} {},{y}\" stroke=\"{colour}\"/>", x + 24.0);
        let _ = writeln!(out, "<text x=\"{}\" y=\"{}\">{name}</text>", x + 30.0, y + 4.0);
    }
    for (at, one) in panels.iter().enumerate() {
        panel(&mut out, WIDE * (at % COLUMNS) as f64, HEAD + HIGH * (at / COLUMNS) as f64, one);
    }
    out + "</svg>\n"
}
