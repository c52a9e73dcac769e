//! The layers, the bends in them, and the order within each.

use std::collections::BTreeMap;

use super::Outline;

/// How often all layers are put in order by their neighbours.
const ROUNDS: usize = 8;

/// Spots are the boxes, and behind them the bends.
pub struct Layers {
    /// The layer of each spot.
    pub layer: Vec<usize>,
    /// The spots of each layer from left to right.
    pub order: Vec<Vec<usize>>,
    /// The bends of each arc, by box and side.
    pub bends: Vec<Vec<Vec<usize>>>,
    /// The spots that each is joined with, in the layer above and in the layer below.
    pub above: Vec<Vec<usize>>,
    pub below: Vec<Vec<usize>>,
    /// The arcs that lead back up: from, side, to.
    pub back: Vec<(usize, usize, usize)>,
}

impl Layers {
    pub fn of(boxes: &[Outline]) -> Layers {
        let Search { back, mut order, .. } = Search::of(boxes);
        order.reverse();
        let mut layer = vec![0; boxes.len()];
        for from in &order {
            for (side, to) in boxes[*from].arcs.iter().enumerate() {
                if !back.contains(&(*from, side, *to)) {
                    layer[*to] = layer[*to].max(layer[*from] + 1);
                }
            }
        }
        let mut layers = Layers {
            layer,
            order: Vec::new(),
            bends: boxes.iter().map(|own| vec![Vec::new(); own.arcs.len()]).collect(),
            above: vec![Vec::new(); boxes.len()],
            below: vec![Vec::new(); boxes.len()],
            back,
        };
        layers.bend(boxes, &order);
        layers.sort();
        layers
    }

    /// Adds the bends of all arcs, in the order in which the boxes were found.
    fn bend(&mut self, boxes: &[Outline], order: &[usize]) {
        self.order = vec![Vec::new(); self.layer.iter().max().map_or(0, |last| last + 1)];
        let mut shared: BTreeMap<(usize, usize), usize> = BTreeMap::new();
        for from in order.iter().copied() {
            self.order[self.layer[from]].push(from);
            for (side, to) in boxes[from].arcs.iter().copied().enumerate() {
                if self.back.contains(&(from, side, to)) {
                    continue;
                }
                let mut upper = from;
                for layer in self.layer[from] + 1..self.layer[to] {
                    let spot = *shared.entry((to, layer)).or_insert_with(|| self.add(layer));
                    self.join(upper, spot);
                    self.bends[from][side].push(spot);
                    upper = spot;
                }
                self.join(upper, to);
            }
        }
    }

    fn add(&mut self, layer: usize) -> usize {
        let spot = self.layer.len();
        self.layer.push(layer);
        self.above.push(Vec::new());
        self.below.push(Vec::new());
        self.order[layer].push(spot);
        spot
    }

    fn join(&mut self, upper: usize, lower: usize) {
        if !self.below[upper].contains(&lower) {
            self.below[upper].push(lower);
            self.above[lower].push(upper);
        }
    }

    /// Down and up again, each layer by the mean place of its neighbours in the layer before; what has none stays.
    fn sort(&mut self) {
        let mut place = vec![0.0; self.layer.len()];
        let note = |layer: &[usize], place: &mut Vec<f64>| {
            layer.iter().enumerate().for_each(|(at, spot)| place[*spot] = at as f64);
        };
        self.order.iter().for_each(|layer| note(layer, &mut place));
        for round in 0..2 * ROUNDS + 1 {
            let down = round % 2 == 0;
            let neighbours = if down { &self.above } else { &self.below };
            for step in 0..self.order.len() {
                let layer = if down { step } else { self.order.len() - 1 - step };
                let mut spots: Vec<(f64, usize)> = self.order[layer]
                    .iter()
                    .map(|spot| (mean(&neighbours[*spot], &place, *spot), *spot))
                    .collect();
                spots.sort_by(|a, b| a.0.total_cmp(&b.0));
                self.order[layer] = spots.into_iter().map(|(_, spot)| spot).collect();
                note(&self.order[layer], &mut place);
            }
        }
    }
}

/// The mean place of these spots, or the place of the spot itself.
fn mean(neighbours: &[usize], place: &[f64], own: usize) -> f64 {
    match neighbours.len() {
        0 => place[own],
        count => neighbours.iter().map(|spot| place[*spot]).sum::<f64>() / count as f64,
    }
}

/// A search from the first box, then from each that was not found, sides in order: the arcs that lead back to a box on the way, and the boxes
/// as they are left.
struct Search {
    back: Vec<(usize, usize, usize)>,
    order: Vec<usize>,
    found: Vec<Found>,
}

#[derive(Clone, Copy, PartialEq)]
enum Found {
    No,
    OnTheWay,
    Left,
}

impl Search {
    fn of(boxes: &[Outline]) -> Search {
        let mut search = Search { back: Vec::new(), order: Vec::new(), found: vec![Found::No; boxes.len()] };
        for first in 0..boxes.len() {
            if search.found[first] == Found::No {
                search.from(boxes, first);
            }
        }
        search
    }

    fn from(&mut self, boxes: &[Outline], first: usize) {
        let mut way = vec![(first, 0)];
        self.found[first] = Found::OnTheWay;
        while let Some((from, next)) = way.pop() {
            // the last side first, so that read backward the first side comes first
            let Some(side) = boxes[from].arcs.len().checked_sub(next + 1) else {
                self.found[from] = Found::Left;
                self.order.push(from);
                continue;
            };
            way.push((from, next + 1));
            let to = boxes[from].arcs[side];
            match self.found[to] {
                Found::OnTheWay => self.back.push((from, side, to)),
                Found::Left => {}
                Found::No => {
                    self.found[to] = Found::OnTheWay;
                    way.push((to, 0));
                }
            }
        }
    }
}
