//! What lies on the bench as SVG: a frame a scheme with its boxes, lines between them, and dashed calls, with the identifiers and the words of
//! the office program's own drawings.

pub mod chart;
pub mod image;
mod shapes;

use office::escape::escaped;

use crate::layout::{Layout, Outline, Point, Way};
use shapes::Shape;

/// What is drawn: the boxes of all schemes, and in the order of the schemes the frames around them.
pub struct Sheet {
    frames: Vec<Frame>,
    boxes: Vec<Boxed>,
}

/// A scheme: its title, and its boxes, of which the first is where it begins.
struct Frame {
    title: String,
    boxes: Vec<usize>,
}

/// A box: its form with what is written in it, its kind, and what leaves it.
struct Boxed {
    id: String,
    kind: Kind,
    shape: Shape,
    title: String,
    lines: Vec<Line>,
    call: Option<Line>,
}

#[derive(Clone, Copy, PartialEq, Eq)]
enum Kind {
    EdgeOfScheme,
    Operation,
    Condition,
    Function,
    /// Where a scheme begins that takes no tick there.
    Entry,
    /// What is asked on the way between two boxes.
    Asked,
}

/// A line to another box. Of two that leave a box each may have a value that takes it.
struct Line {
    id: String,
    to: usize,
    title: String,
    value: Option<usize>,
}

impl Kind {
    fn class(self) -> &'static str {
        match self {
            Kind::EdgeOfScheme => "node edge-of-scheme",
            Kind::Operation => "node operation",
            Kind::Condition => "node condition",
            Kind::Function => "node function",
            Kind::Entry => "entry",
            Kind::Asked => "asked",
        }
    }

    /// Whether ticks stand for it.
    fn is_place(self) -> bool {
        !matches!(self, Kind::Entry | Kind::Asked)
    }
}

/// What is left free within a scheme's frame, for its title above that, between frames and around all.
const PADDING: f64 = 14.0;
const TITLE: f64 = 22.0;
const BETWEEN: f64 = 26.0;
const MARGIN: f64 = 8.0;
/// Frames grow by so much at once, so that a letter of a name seldom moves the frames beside its own.
const STEP: f64 = 48.0;

/// A frame whose boxes are laid out, and where it stands.
struct Placed<'a> {
    frame: &'a Frame,
    layout: Layout,
    corner: Point,
}

impl Placed<'_> {
    fn of<'a>(sheet: &'a Sheet, frame: &'a Frame) -> Placed<'a> {
        let place =
            |line: &Line| frame.boxes.iter().position(|own| *own == line.to).expect("lines stay in a scheme");
        let outline = |at: &usize| {
            let Boxed { shape, lines, .. } = &sheet.boxes[*at];
            Outline { width: shape.width, height: shape.height, arcs: lines.iter().map(place).collect() }
        };
        let outlines: Vec<Outline> = frame.boxes.iter().map(outline).collect();
        Placed { frame, layout: Layout::of(&outlines), corner: Point { x: 0.0, y: 0.0 } }
    }

    fn width(&self) -> f64 {
        let title = 8.0 * self.frame.title.chars().count() as f64;
        let needed = self.layout.width.max(title) + 2.0 * PADDING;
        (needed / STEP).ceil() * STEP
    }

    fn height(&self) -> f64 {
        self.layout.height + 2.0 * PADDING + TITLE
    }

    /// A point of its layout in the drawing.
    fn shown(&self, point: Point) -> Point {
        Point { x: self.corner.x + PADDING + point.x, y: self.corner.y + PADDING + TITLE + point.y }
    }
}

/// The whole drawing; each frame, line and box stands on a line of the text.
pub fn svg(sheet: &Sheet) -> String {
    let mut frames: Vec<Placed> = sheet.frames.iter().map(|frame| Placed::of(sheet, frame)).collect();
    let (width, height) = arrange(&mut frames);
    let mut places = vec![Point { x: 0.0, y: 0.0 }; sheet.boxes.len()];
    for placed in &frames {
        let boxes = placed.frame.boxes.iter().zip(&placed.layout.places);
        boxes.for_each(|(at, place)| places[*at] = placed.shown(*place));
    }
    let mut text = format!(
        "<svg xmlns=\"http://www.w3.org/2000/svg\" width=\"{width:.0}\" height=\"{height:.0}\" viewBox=\"0 0 {width:.0} {height:.0}\">\n"
    );
    frames.iter().for_each(|placed| text.push_str(&cluster(placed)));
    for (at, own) in sheet.boxes.iter().enumerate() {
        text.extend(own.call.iter().map(|line| call(sheet, &places, at, line)));
    }
    for placed in &frames {
        for (place, at) in placed.frame.boxes.iter().enumerate() {
            text.push_str(&lines(sheet, &places, placed, place, *at));
        }
    }
    for (own, place) in sheet.boxes.iter().zip(&places) {
        let (id, class, title) = (&own.id, own.kind.class(), escaped_title(&own.title));
        // what takes ticks can be reached by the Tab key, and leads to its next tick
        let button = match own.kind.is_place() {
            true => format!(" tabindex=\"-1\" role=\"button\" aria-label=\"{title}: its next tick\""),
            false => String::new(),
        };
        let drawn = own.shape.drawn(*place);
        text.push_str(&format!(
            "<g id=\"{id}\" class=\"{class}\"{button}><title>{title}</title>{drawn}</g>\n"
        ));
    }
    text + "</svg>\n"
}

/// A title on one line of the text.
fn escaped_title(title: &str) -> String {
    escaped(title).replace('\n', "&#10;")
}

/// Puts the frames into rows, about half as wide again as they are high together; how wide and high they are.
fn arrange(frames: &mut [Placed]) -> (f64, f64) {
    let widths: Vec<f64> = frames.iter().map(Placed::width).collect();
    let area: f64 =
        frames.iter().zip(&widths).map(|(frame, width)| (width + BETWEEN) * (frame.height() + BETWEEN)).sum();
    let widest = widths.iter().copied().fold((1.5 * area).sqrt(), f64::max) + 2.0 * MARGIN;
    let (mut x, mut y, mut row, mut right) = (MARGIN, MARGIN, 0.0f64, 0.0f64);
    for (frame, width) in frames.iter_mut().zip(&widths) {
        if x > MARGIN && x + width > widest {
            (x, y, row) = (MARGIN, y + row + BETWEEN, 0.0);
        }
        frame.corner = Point { x, y };
        right = right.max(x + width);
        x += width + BETWEEN;
        row = row.max(frame.height());
    }
    (right + MARGIN, y + row + MARGIN)
}

fn cluster(placed: &Placed) -> String {
    let (Point { x, y }, width, height) = (placed.corner, placed.width(), placed.height());
    format!(
        "<g class=\"cluster\"><rect x=\"{x:.1}\" y=\"{y:.1}\" width=\"{width:.1}\" height=\"{height:.1}\" rx=\"8\"/>\
         <text x=\"{:.1}\" y=\"{:.1}\">{}</text></g>\n",
        x + 10.0,
        y + 18.0,
        escaped(&placed.frame.title)
    )
}

/// The lines that leave a box, with the value that takes each of two.
fn lines(sheet: &Sheet, places: &[Point], placed: &Placed, place: usize, from: usize) -> String {
    let Boxed { shape, lines, .. } = &sheet.boxes[from];
    let ways = &placed.layout.ways[place];
    let aparts = aparts(placed, places, lines, ways, shape.width);
    let mut text = String::new();
    for ((line, way), apart) in lines.iter().zip(ways).zip(aparts) {
        let Boxed { shape: reached, kind, .. } = &sheet.boxes[line.to];
        let start = Point { x: places[from].x + apart, y: places[from].y + shape.edge(apart.abs()) };
        let end = Point { x: places[line.to].x, y: places[line.to].y - reached.height / 2.0 };
        // into what is asked on the way no arrow leads
        let (tip, arrow) = if *kind == Kind::Asked { (0.0, String::new()) } else { (5.0, arrow(end)) };
        let path = match way {
            Way::Down(bends) => {
                down(start, bends.iter().map(|bend| bend.map(|end| placed.shown(end))), end, tip)
            }
            Way::Back(x) => back(start, placed.shown(Point { x: *x, y: 0.0 }).x, end, tip),
        };
        let value = line.value.map_or(String::new(), |value| self::value(start, apart < 0.0, value));
        let (id, title) = (&line.id, escaped_title(&line.title));
        text.push_str(&format!(
            "<g id=\"{id}\" class=\"edge arc\"><title>{title}</title><path d=\"{path}\"/>{arrow}{value}</g>\n"
        ));
    }
    text
}

/// How far from the middle of a box each of its lines begins, so that the one that goes first to the left leaves on the left.
fn aparts(placed: &Placed, places: &[Point], lines: &[Line], ways: &[Way], width: f64) -> Vec<f64> {
    let next = |side: &usize| match &ways[*side] {
        Way::Down(bends) => bends.first().map_or(places[lines[*side].to].x, |bend| placed.shown(bend[0]).x),
        Way::Back(x) => placed.shown(Point { x: *x, y: 0.0 }).x,
    };
    let mut sides: Vec<usize> = (0..lines.len()).collect();
    sides.sort_by(|a, b| next(a).total_cmp(&next(b)));
    let widest = if lines.len() > 2 { width / 3.0 } else { width / 5.0 };
    let mut aparts = vec![0.0; lines.len()];
    if let Some(last) = lines.len().checked_sub(1).filter(|last| *last > 0) {
        for (place, side) in sides.into_iter().enumerate() {
            aparts[side] = widest * (2.0 * place as f64 / last as f64 - 1.0);
        }
    }
    aparts
}

/// Down through bends, in curves that begin and end upright.
fn down(start: Point, bends: impl Iterator<Item = [Point; 2]>, end: Point, tip: f64) -> String {
    let mut path = format!("M{:.1} {:.1}", start.x, start.y);
    let mut from = start;
    for [upper, lower] in bends.chain([[Point { y: end.y - tip, ..end }; 2]]) {
        let middle = (from.y + upper.y) / 2.0;
        path.push_str(&format!(
            "C{:.1} {middle:.1} {:.1} {middle:.1} {:.1} {:.1}",
            from.x, upper.x, upper.x, upper.y
        ));
        if lower != upper {
            path.push_str(&format!("V{:.1}", lower.y));
        }
        from = lower;
    }
    path
}

/// Round on the right and back up, with rounded corners.
fn back(start: Point, x: f64, end: Point, tip: f64) -> String {
    let (under, over, r) = (start.y + 9.0, end.y - 14.0, 6.0);
    let (sx, sy, ex, ey) = (start.x, start.y, end.x, end.y - tip);
    format!(
        "M{sx:.1} {sy:.1}V{:.1}Q{sx:.1} {under:.1} {:.1} {under:.1}H{:.1}Q{x:.1} {under:.1} {x:.1} {:.1}\
         V{:.1}Q{x:.1} {over:.1} {:.1} {over:.1}H{:.1}Q{ex:.1} {over:.1} {ex:.1} {:.1}V{ey:.1}",
        under - r,
        sx + r,
        x - r,
        under - r,
        over + r,
        x - r,
        ex + r,
        over + r
    )
}

fn arrow(end: Point) -> String {
    let Point { x, y } = end;
    format!("<polygon points=\"{x:.1},{y:.1} {:.1},{:.1} {:.1},{:.1}\"/>", x - 3.5, y - 7.0, x + 3.5, y - 7.0)
}

/// The value that takes an arc, beside its beginning.
fn value(start: Point, left: bool, side: usize) -> String {
    let (x, y) = (start.x + if left { -12.0 } else { 6.0 }, start.y + 11.0);
    format!("<text x=\"{x:.1}\" y=\"{y:.1}\">{side}</text>")
}

/// The dashed line from a call to where the scheme called begins.
fn call(sheet: &Sheet, places: &[Point], at: usize, line: &Line) -> String {
    let (from, to) = (places[at], places[line.to]);
    let (half, other) = (sheet.boxes[at].shape.width / 2.0, sheet.boxes[line.to].shape.width / 2.0);
    // to what stands beside it by the near sides, else round on the right
    let (sx, ex, out, back) = if to.x - other > from.x + half {
        (from.x + half, to.x - other, 1.0, -1.0)
    } else if to.x + other < from.x - half {
        (from.x - half, to.x + other, -1.0, 1.0)
    } else {
        (from.x + half, to.x + other, 1.0, 1.0)
    };
    let bow = ((ex - sx).abs() / 2.0).clamp(30.0, 120.0);
    let (id, title) = (&line.id, escaped_title(&line.title));
    format!(
        "<g id=\"{id}\" class=\"edge call\"><title>{title}</title><path d=\"M{sx:.1} {:.1}C{:.1} {:.1} {:.1} {:.1} {ex:.1} {:.1}\"/></g>\n",
        from.y,
        sx + out * bow,
        from.y,
        ex + back * bow,
        to.y,
        to.y
    )
}

#[cfg(test)]
mod tests {
    use super::*;
    use office::image::Image;
    use office::plan::Plan;
    use office::source::from_bytes;
    use office::subject::Subject;

    const BORE: &[u8] = include_bytes!("../../../examples/bore.chart");

    #[test]
    fn names_are_no_markup() {
        let mut plan = Plan::read(from_bytes(BORE)).expect("a chart");
        for at in 0..plan.nodes.len() {
            plan.names.nodes.insert(at, "</text><b>&\"".to_string());
        }
        plan.names.schemes.insert(1, "</svg><script>".to_string());
        let drawn = svg(&chart::sheet(&plan));
        assert!(drawn.contains("&lt;/text&gt;&lt;b&gt;&amp;&quot;") && drawn.contains("scheme &lt;/svg&gt;"));
        assert!(!drawn.contains("<b>") && !drawn.contains("<script"));
    }

    #[test]
    fn every_node_arc_and_call_is_drawn() {
        let plan = Plan::read(from_bytes(BORE)).expect("a chart");
        let drawn = svg(&chart::sheet(&plan));
        assert_eq!(drawn.matches("class=\"node ").count(), plan.nodes.len());
        assert_eq!(drawn.matches("class=\"edge arc\"").count(), plan.arc_count());
        assert_eq!(drawn.matches("class=\"edge call\"").count(), 1);
    }

    #[test]
    fn every_label_row_and_call_of_an_image_is_drawn() {
        for text in [
            include_bytes!("../../../examples/bore.image").as_slice(),
            include_bytes!("../../../examples/branches.image"),
            include_bytes!("../../../examples/full_stack.image"),
        ] {
            let subject = Subject::without_names(Image::read(text.to_vec()).expect("an image"));
            let (drawn, image) = (svg(&image::sheet(&subject)), &subject.image);
            let own = office::labels::run::places(image);
            assert_eq!(drawn.matches("class=\"node ").count(), own.len());
            for (label, scheme) in own {
                let id = office::labels::drawing::place_id(label, scheme);
                assert_eq!(drawn.matches(&format!("id=\"{id}\"")).count(), 1, "{id}");
            }
            for row in image.rows() {
                let way = image::way(&row);
                assert_eq!(drawn.matches(&format!("id=\"{}\"", way[0])).count(), 1, "{}", way[0]);
            }
            let calls = (0..image.labels()).filter(|label| image.called(*label as u8) != 0).count();
            assert_eq!(drawn.matches("class=\"edge call\"").count(), calls);
        }
    }
}
