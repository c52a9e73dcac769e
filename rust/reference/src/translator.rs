//! From a chart to its image: labels, entries and rows, and refusal 10.

use crate::answer::Refusal;
use crate::chart::{Chart, Kind};
use crate::image::{Image, Label, Row, FUNCTION_CALL, OPERATION_CALL, PLAIN, ROWS};

/// The image of a chart, or refusal 10.
pub fn image_of(chart: &Chart) -> Result<Image, Refusal> {
    let labels = Labels::of(chart);
    Ok(Image {
        handler: chart.handler().unwrap_or(0),
        entries: (1..=chart.schemes()).map(|h| labels.entry(chart, h)).collect(),
        labels: labels.described(chart),
        rows: rows_of(chart, &labels)?,
    })
}

/// How many rows a chart has, counted no further than one past the most that an image holds.
pub fn row_count(chart: &Chart) -> usize {
    match rows_of(chart, &Labels::of(chart)) {
        Ok(rows) => rows.len(),
        Err(_) => ROWS + 1,
    }
}

/// The label of each node that has one, and the nodes of labels 2 up in order.
struct Labels {
    label: Vec<Option<u8>>,
    numbered: Vec<usize>,
}

impl Labels {
    fn of(chart: &Chart) -> Labels {
        let mut labels = Labels { label: Vec::new(), numbered: Vec::new() };
        for (at, node) in chart.nodes.iter().enumerate() {
            let label = match (node.kind, node.scheme) {
                (Kind::Begin | Kind::End, 1) => Some(0),
                (Kind::End, _) => Some(1),
                _ if chart.stops(at) => {
                    labels.numbered.push(at);
                    Some(labels.numbered.len() as u8 + 1)
                }
                _ => None,
            };
            labels.label.push(label);
        }
        labels
    }

    fn entry(&self, chart: &Chart, scheme: u8) -> u8 {
        self.label[chart.start(scheme)].expect("a stop has a label")
    }

    fn described(&self, chart: &Chart) -> Vec<Label> {
        let mut labels = vec![Label::ZERO, Label::ONE];
        labels.extend(self.numbered.iter().map(|at| described(chart, *at)));
        labels
    }
}

/// The label of an operation, a function, or a stopping Begin or condition.
fn described(chart: &Chart, at: usize) -> Label {
    let node = &chart.nodes[at];
    let plain = Label { kind: PLAIN, called: 0, owner: node.scheme, result: 0, mask: 0 };
    match node.kind {
        Kind::Operation => Label {
            kind: if node.argument == 0 { PLAIN } else { OPERATION_CALL },
            called: node.argument,
            result: node.result,
            mask: node.mask,
            ..plain
        },
        Kind::Function => Label { kind: FUNCTION_CALL, called: node.argument, ..plain },
        _ => plain,
    }
}

/// Too many rows.
struct TooMany;

/// A path so far: where it left and what it tested.
#[derive(Clone, Copy)]
struct Path {
    from: u8,
    care: u16,
    values: u16,
    function_bit: u8,
}

struct Rows<'a> {
    chart: &'a Chart,
    labels: &'a Labels,
    rows: Vec<Row>,
}

fn rows_of(chart: &Chart, labels: &Labels) -> Result<Vec<Row>, Refusal> {
    let mut rows = Rows { chart, labels, rows: Vec::new() };
    for (k, at) in labels.numbered.iter().enumerate() {
        let left = rows.leave(k as u8 + 2, *at);
        left.map_err(|TooMany| Refusal::ManyRows)?;
    }
    Ok(rows.rows)
}

impl Rows<'_> {
    /// All rows of one label.
    fn leave(&mut self, label: u8, at: usize) -> Result<(), TooMany> {
        let node = self.chart.nodes[at];
        let path = Path { from: label, care: 0, values: 0, function_bit: 2 };
        match node.kind {
            Kind::Function => {
                self.paths(node.on0, Path { function_bit: 0, ..path })?;
                self.paths(node.on1, Path { function_bit: 1, ..path })
            }
            Kind::Condition => self.test(at, path),
            _ => self.paths(node.on0, path),
        }
    }

    /// All rows that go on from this node: one if it has a label, else those of its test.
    fn paths(&mut self, at: usize, path: Path) -> Result<(), TooMany> {
        match self.labels.label[at] {
            Some(next) => self.add(path, next),
            None => self.test(at, path),
        }
    }

    /// Both sides of a condition, or the side already taken where its number was tested before.
    fn test(&mut self, at: usize, path: Path) -> Result<(), TooMany> {
        let node = self.chart.nodes[at];
        let bit = 1u16 << node.argument;
        if path.care & bit != 0 {
            return self.paths(node.arc(path.values & bit != 0), path);
        }
        let care = path.care | bit;
        self.paths(node.on0, Path { care, ..path })?;
        let values = path.values | bit;
        self.paths(node.on1, Path { care, values, ..path })
    }

    fn add(&mut self, path: Path, next: u8) -> Result<(), TooMany> {
        if self.rows.len() == ROWS {
            return Err(TooMany);
        }
        self.rows.push(Row {
            from: path.from,
            care: path.care,
            values: path.values,
            function_bit: path.function_bit,
            next,
        });
        Ok(())
    }
}
