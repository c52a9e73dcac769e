//! The shape of a box around what is written in it.

use office::columns::width;

use crate::layout::Point;

/// The height of a line, and the room of a letter: plain, bold and small.
const LINE: f64 = 15.0;
const PLAIN: f64 = 7.2;
const BOLD: f64 = 8.1;
const SMALL: f64 = 5.4;

pub enum Form {
    Rounded,
    Rectangle,
    Diamond,
    Hexagon,
    /// The lines alone.
    Bare,
}

/// A form of this size, with lines of text in its middle.
pub struct Shape {
    form: Form,
    lines: Vec<String>,
    pub width: f64,
    pub height: f64,
}

impl Shape {
    /// Around lines with the marks of graphviz.
    pub fn of(form: Form, lines: &[String]) -> Shape {
        let (wide, high) =
            (lines.iter().map(|line| room(line)).fold(0.0, f64::max), LINE * lines.len() as f64);
        let (width, height) = match form {
            Form::Rounded | Form::Rectangle => (wide + 18.0, high + 8.0),
            Form::Diamond => (1.3 * wide + 44.0, 1.3 * high + 14.0),
            Form::Hexagon => (wide + 40.0, high + 8.0),
            Form::Bare => (wide + 8.0, high + 4.0),
        };
        let least = if matches!(form, Form::Bare) { 0.0 } else { 56.0 };
        Shape {
            form,
            lines: lines.iter().map(|line| marked(line)).collect(),
            width: width.max(least),
            height,
        }
    }

    /// How far below the middle its lower edge is, so far from the middle to the side.
    pub fn edge(&self, aside: f64) -> f64 {
        match self.form {
            Form::Diamond => self.height / 2.0 * (1.0 - 2.0 * aside / self.width),
            _ => self.height / 2.0,
        }
    }

    /// The form and its lines around a point.
    pub fn drawn(&self, middle: Point) -> String {
        let Point { x, y } = middle;
        let (left, right) = (x - self.width / 2.0, x + self.width / 2.0);
        let (top, bottom) = (y - self.height / 2.0, y + self.height / 2.0);
        let mut text = match self.form {
            Form::Rounded => {
                let (r, inner) = (10.0, self.width - 20.0);
                format!(
                    "<path d=\"M{:.1} {top:.1}h{inner:.1}a{r} {r} 0 0 1 {r} {r}V{:.1}a{r} {r} 0 0 1 -{r} {r}h-{inner:.1}\
                     a{r} {r} 0 0 1 -{r} -{r}V{:.1}a{r} {r} 0 0 1 {r} -{r}z\"/>",
                    left + r,
                    bottom - r,
                    top + r
                )
            }
            Form::Rectangle => polygon(&[(left, top), (right, top), (right, bottom), (left, bottom)]),
            // a ground, so that no line is seen through the letters
            Form::Bare => {
                let (width, height) = (self.width, self.height);
                format!("<rect x=\"{left:.1}\" y=\"{top:.1}\" width=\"{width:.1}\" height=\"{height:.1}\" rx=\"4\"/>")
            }
            Form::Diamond => polygon(&[(x, top), (right, y), (x, bottom), (left, y)]),
            Form::Hexagon => {
                let (a, b) = (left + 14.0, right - 14.0);
                polygon(&[(a, top), (b, top), (right, y), (b, bottom), (a, bottom), (left, y)])
            }
        };
        let first = y - LINE * (self.lines.len() as f64 - 1.0) / 2.0 + 4.0;
        for (at, line) in self.lines.iter().enumerate() {
            let y = first + LINE * at as f64;
            text.push_str(&format!("<text x=\"{x:.1}\" y=\"{y:.1}\"{line}</text>"));
        }
        text
    }
}

fn polygon(points: &[(f64, f64)]) -> String {
    let points: Vec<String> = points.iter().map(|(x, y)| format!("{x:.1},{y:.1}")).collect();
    format!("<polygon points=\"{}\"/>", points.join(" "))
}

/// What closes the beginning of a line's element, and the line, with SVG's marks in place of graphviz's. A line that has one mark is
/// marked whole: a browser lays it out sooner.
fn marked(line: &str) -> String {
    for (mark, end, class) in [("<B>", "</B>", "name"), ("<FONT POINT-SIZE=\"8\">", "</FONT>", "small")] {
        if let Some(inner) = line.strip_prefix(mark).and_then(|rest| rest.strip_suffix(end)) {
            return format!(" class=\"{class}\">{inner}");
        }
    }
    format!(">{}", line.replace("<B>", "<tspan class=\"name\">").replace("</B>", "</tspan>"))
}

/// The room that a line takes: its letters without the marks, an entity for one letter.
fn room(line: &str) -> f64 {
    let mut letters = String::new();
    for (at, piece) in line.split('<').enumerate() {
        letters.push_str(if at == 0 { piece } else { piece.split_once('>').map_or("", |(_, rest)| rest) });
    }
    for entity in ["&amp;", "&lt;", "&gt;", "&quot;"] {
        letters = letters.replace(entity, "m");
    }
    let letter = match line {
        _ if line.starts_with("<FONT") => SMALL,
        _ if line.contains("<B>") => BOLD,
        _ => PLAIN,
    };
    letter * width(&letters) as f64
}
