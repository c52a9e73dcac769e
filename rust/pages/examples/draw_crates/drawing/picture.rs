//! The picture of a layout as SVG.

use super::areas::Area;
use super::layout::{Layout, Spot, MARGIN, WIDTH};

/// The height of a line of text, and the area for arcs between two layers.
const LINE: i32 = 15;
const BETWEEN: i32 = 44;
/// Characters in a line of an area.
const CHARACTERS: usize = 28;
/// How far apart arcs meet the edge of an area, and how long the head of an arc is.
const DOORS: i32 = 22;
const HEAD: i32 = 7;

const STYLE: &str = "<style>
rect { fill: #f6f4ee; stroke: #555 }
rect.page { fill: white; stroke: none }
text { font: 11px sans-serif; text-anchor: middle }
text.area { font-weight: bold; font-size: 12px }
path { fill: none; stroke: #777 }
marker path { fill: #777 }
</style>
<marker id=\"head\" viewBox=\"0 0 8 8\" refX=\"1\" refY=\"4\" markerWidth=\"8\" markerHeight=\"8\" orient=\"auto\">
<path d=\"M1 1 L7 4 L1 7 Z\"/>
</marker>
<rect class=\"page\" width=\"100%\" height=\"100%\"/>
";

/// Where a layer stands: all its areas have the same top.
struct Band {
    top: i32,
    bottom: i32,
}

/// The names of an area's crates, in lines.
fn lines(area: &Area) -> Vec<String> {
    let mut lines: Vec<String> = Vec::new();
    for name in &area.crates {
        match lines.last_mut() {
            Some(line) if line.len() + 2 + name.len() <= CHARACTERS => *line += &format!(", {name}"),
            _ => lines.push(name.clone()),
        }
    }
    let last = lines.len().saturating_sub(1);
    lines[..last].iter_mut().for_each(|line| line.push(','));
    lines
}

fn height(area: &Area) -> i32 {
    LINE * (lines(area).len() as i32 + 1) + 10
}

/// The bands of all layers, the lowest layer first and at the foot.
fn bands(areas: &[Area], layout: &Layout) -> Vec<Band> {
    let mut top = MARGIN;
    let mut bands = Vec::new();
    for layer in (0..layout.layers).rev() {
        let here = layout.spots.iter().filter(|spot| spot.layer == layer).filter_map(|spot| spot.area);
        let bottom = top + here.map(|area| height(&areas[area])).max().unwrap_or(0);
        bands.push(Band { top, bottom });
        top = bottom + BETWEEN;
    }
    bands.reverse();
    bands
}

fn boxed(area: &Area, x: i32, top: i32) -> String {
    let (left, tall, head) = (x - WIDTH / 2, height(area), top + LINE);
    let mut text = format!(
        "<rect x=\"{left}\" y=\"{top}\" width=\"{WIDTH}\" height=\"{tall}\" rx=\"5\"/>\n\
         <text x=\"{x}\" y=\"{head}\" class=\"area\">{}</text>\n",
        area.name
    );
    for (y, line) in (head + LINE..).step_by(LINE as usize).zip(lines(area)) {
        text += &format!("<text x=\"{x}\" y=\"{y}\">{line}</text>\n");
    }
    text
}

/// Where an arc meets the area at its first spot: the arcs of one edge stand in the order of the spots that come next.
fn door(layout: &Layout, ways: &[Vec<usize>], way: &[usize]) -> i32 {
    let mut next: Vec<(i32, usize)> = ways
        .iter()
        .filter(|other| other[0] == way[0])
        .map(|other| (layout.spots[other[1]].x, other[1]))
        .collect();
    next.sort();
    let place = next.iter().position(|(_, spot)| *spot == way[1]).expect("the arc is one of them") as i32;
    layout.spots[way[0]].x + (2 * place - next.len() as i32 + 1) * DOORS / 2
}

/// An arc from the lower edge of an area down to the upper edge of another, from one x to another.
fn arc(layout: &Layout, bands: &[Band], way: &[usize], from: i32, to: i32) -> String {
    let mut x = from;
    let mut path = String::new();
    for (k, spot) in way.iter().enumerate().skip(1) {
        let Spot { layer, x: bend, .. } = layout.spots[*spot];
        let ends = k + 1 == way.len();
        let (next, down) = if ends { (to, bands[layer].top - HEAD) } else { (bend, bands[layer].top) };
        let up = bands[layer + 1].bottom;
        let half = (up + down) / 2;
        path += &format!(" V{up} C{x} {half} {next} {half} {next} {down}");
        x = next;
    }
    format!(
        "<path d=\"M{from} {}{path}\" marker-end=\"url(#head)\"/>\n",
        bands[layout.spots[way[0]].layer].top
    )
}

/// Each area with its crates, above the arcs that lead down to the areas that it stands on directly.
pub fn drawn(areas: &[Area]) -> String {
    let layout = Layout::new(areas);
    let bands = bands(areas, &layout);
    let upward: Vec<Vec<usize>> = layout.arcs.iter().map(|way| way.iter().rev().copied().collect()).collect();
    let wide = layout.spots.iter().map(|spot| spot.x + spot.width() / 2).max().unwrap_or(0) + MARGIN;
    let tall = bands.first().map_or(0, |band| band.bottom) + MARGIN;
    let mut picture = format!(
        "<svg xmlns=\"http://www.w3.org/2000/svg\" viewBox=\"0 0 {wide} {tall}\" width=\"{wide}\" height=\"{tall}\">\n"
    );
    picture += STYLE;
    for (way, back) in layout.arcs.iter().zip(&upward) {
        picture += &arc(&layout, &bands, way, door(&layout, &layout.arcs, way), door(&layout, &upward, back));
    }
    for spot in &layout.spots {
        if let Some(area) = spot.area {
            picture += &boxed(&areas[area], spot.x, bands[spot.layer].top);
        }
    }
    picture + "</svg>\n"
}
