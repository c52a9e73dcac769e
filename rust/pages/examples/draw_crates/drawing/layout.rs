//! Where areas stand: each in a layer above all that it stands on. An arc that passes a layer bends in it.

use super::areas::Area;

/// The width of an area, what is left free around the picture, and the least distance within a layer.
pub const WIDTH: i32 = 190;
pub const MARGIN: i32 = 12;
const GAP: i32 = 26;
/// How often all layers are put in order; in the last rounds all neighbours count.
const ROUNDS: usize = 40;
const LAST: usize = 3;

/// An area or, where there is none, the bend of an arc; `x` is its middle.
pub struct Spot {
    pub area: Option<usize>,
    pub layer: usize,
    pub x: i32,
}

/// The first spots are the areas, in their order; an arc is the spots on its way, from the upper area to the lower.
pub struct Layout {
    pub spots: Vec<Spot>,
    pub arcs: Vec<Vec<usize>>,
    pub layers: usize,
}

impl Layout {
    pub fn new(areas: &[Area]) -> Layout {
        let mut layout = Layout { spots: Vec::new(), arcs: Vec::new(), layers: 0 };
        for (at, area) in areas.iter().enumerate() {
            let layer = area.below.iter().map(|below| layout.spots[*below].layer + 1).max().unwrap_or(0);
            layout.layers = layout.layers.max(layer + 1);
            layout.spots.push(Spot { area: Some(at), layer, x: 0 });
        }
        for (at, area) in areas.iter().enumerate() {
            for below in &area.below {
                layout.add_arc(at, *below);
            }
        }
        layout.order();
        layout
    }

    fn add_arc(&mut self, upper: usize, lower: usize) {
        let mut way = vec![upper];
        for layer in (self.spots[lower].layer + 1..self.spots[upper].layer).rev() {
            way.push(self.spots.len());
            self.spots.push(Spot { area: None, layer, x: 0 });
        }
        way.push(lower);
        self.arcs.push(way);
    }

    /// Layer by layer, upward and then downward, each spot moves to the middle of its neighbours in the layer before.
    fn order(&mut self) {
        for round in 0..ROUNDS {
            let all = round + LAST >= ROUNDS;
            for layer in 0..self.layers {
                self.place(layer, |there| all || there < layer);
            }
            for layer in (0..self.layers).rev() {
                self.place(layer, |there| all || there > layer);
            }
        }
        let left = self.spots.iter().map(|spot| spot.x - spot.width() / 2).min().unwrap_or(0);
        for spot in &mut self.spots {
            spot.x += MARGIN - left;
        }
    }

    /// Puts the spots of a layer where their neighbours in the layers that count want them, no two nearer than the gap:
    /// halfway between the places that a sweep to the right and one to the left give.
    fn place(&mut self, layer: usize, counts: impl Fn(usize) -> bool) {
        let mut row: Vec<(i32, usize)> = (0..self.spots.len())
            .filter(|spot| self.spots[*spot].layer == layer)
            .map(|spot| (self.wanted(spot, &counts), spot))
            .collect();
        row.sort();
        let apart = |a: usize, b: usize| (self.spots[a].width() + self.spots[b].width()) / 2 + GAP;
        let mut right: Vec<i32> = row.iter().map(|(x, _)| *x).collect();
        let mut left = right.clone();
        for k in 1..row.len() {
            right[k] = right[k].max(right[k - 1] + apart(row[k - 1].1, row[k].1));
        }
        for k in (1..row.len()).rev() {
            left[k - 1] = left[k - 1].min(left[k] - apart(row[k - 1].1, row[k].1));
        }
        for (k, (_, spot)) in row.iter().enumerate() {
            self.spots[*spot].x = (left[k] + right[k]) / 2;
        }
    }

    /// The middle of its neighbours, or where it stands if it has none.
    fn wanted(&self, spot: usize, counts: impl Fn(usize) -> bool) -> i32 {
        let xs: Vec<i32> = self
            .arcs
            .iter()
            .flat_map(|way| way.windows(2))
            .flat_map(|link| [(link[0], link[1]), (link[1], link[0])])
            .filter(|(from, to)| *from == spot && counts(self.spots[*to].layer))
            .map(|(_, to)| self.spots[to].x)
            .collect();
        if xs.is_empty() {
            return self.spots[spot].x;
        }
        xs.iter().sum::<i32>() / xs.len() as i32
    }
}

impl Spot {
    pub fn width(&self) -> i32 {
        self.area.map_or(0, |_| WIDTH)
    }
}
