//! How far to the right each spot stands: near the middle of its neighbours, in the order of its layer.

use super::layers::Layers;
use super::{width, Outline, BEND, BESIDE};

/// How often all layers are placed; in the last rounds the neighbours on both sides count.
const ROUNDS: usize = 16;
const LAST: usize = 4;

/// The middle of each spot; the leftmost edge is at 0.
pub fn columns(boxes: &[Outline], layers: &Layers) -> Vec<f64> {
    let mut xs = vec![0.0; layers.layer.len()];
    let gaps: Vec<Vec<f64>> = layers.order.iter().map(|layer| gaps(boxes, layer)).collect();
    for (layer, gaps) in layers.order.iter().zip(&gaps) {
        place(layer, gaps, &vec![0.0; layer.len()], &mut xs);
    }
    for round in 0..ROUNDS {
        let both = round + LAST >= ROUNDS;
        for step in 0..layers.order.len() {
            let down = round % 2 == 0;
            let at = if down { step } else { layers.order.len() - 1 - step };
            let wanted: Vec<f64> = layers.order[at]
                .iter()
                .map(|spot| {
                    let (above, below) = (&layers.above[*spot], &layers.below[*spot]);
                    let neighbours =
                        above.iter().filter(|_| both || down).chain(below.iter().filter(|_| both || !down));
                    let (sum, count) =
                        neighbours.fold((0.0, 0.0), |(sum, count), one| (sum + xs[*one], count + 1.0));
                    if count > 0.0 {
                        sum / count
                    } else {
                        xs[*spot]
                    }
                })
                .collect();
            place(&layers.order[at], &gaps[at], &wanted, &mut xs);
        }
    }
    let left = (0..xs.len()).map(|spot| xs[spot] - width(boxes, spot) / 2.0).fold(f64::INFINITY, f64::min);
    xs.iter().map(|x| x - left).collect()
}

/// The least distances between the middles of neighbours in a layer.
fn gaps(boxes: &[Outline], layer: &[usize]) -> Vec<f64> {
    let gap = |pair: &[usize]| {
        let free = if pair.iter().all(|spot| *spot < boxes.len()) { BESIDE } else { BEND };
        (width(boxes, pair[0]) + width(boxes, pair[1])) / 2.0 + free
    };
    layer.windows(2).map(gap).collect()
}

/// As near to what is wanted as the gaps let it be: spots that would come too near to each other move together.
fn place(layer: &[usize], gaps: &[f64], wanted: &[f64], xs: &mut [f64]) {
    let shifts: Vec<f64> = std::iter::once(&0.0)
        .chain(gaps)
        .scan(0.0, |sum, gap| {
            *sum += gap;
            Some(*sum)
        })
        .collect();
    // how many move together, and the mean of what they want
    let mut groups: Vec<(f64, f64)> = Vec::new();
    for (wanted, shift) in wanted.iter().zip(&shifts) {
        let mut group = (1.0, wanted - shift);
        while let Some((count, mean)) = groups.pop_if(|(_, mean)| *mean > group.1) {
            group = (count + group.0, (count * mean + group.0 * group.1) / (count + group.0));
        }
        groups.push(group);
    }
    let means = groups.iter().flat_map(|(count, mean)| std::iter::repeat_n(mean, *count as usize));
    layer.iter().zip(shifts.iter().zip(means)).for_each(|(spot, (shift, mean))| xs[*spot] = shift + mean);
}
