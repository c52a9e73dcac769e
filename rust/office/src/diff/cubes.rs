//! Points that are alike, taken together: each as large a block as can be found, of which some conditions have fixed values.

/// A block: which of the dimensions are fixed, and their values.
#[derive(Clone, Copy, Debug, PartialEq, Eq)]
pub struct Cube {
    pub care: u32,
    pub values: u32,
}

impl Cube {
    /// Its points, among those of so many dimensions.
    fn points(self, dimensions: u32) -> impl Iterator<Item = u32> {
        let free = !self.care & ((1 << dimensions) - 1);
        let mut next = Some(0);
        std::iter::from_fn(move || {
            let point = next?;
            next = Some((point | !free).wrapping_add(1) & free).filter(|next| *next != 0);
            Some(self.values | point)
        })
    }
}

/// Blocks that cover all points whose values are wanted, none of them with a point of another value; so many at most. With them how many
/// points none of them covers.
pub fn covering<T: PartialEq>(values: &[T], wanted: impl Fn(&T) -> bool, most: usize) -> (Vec<Cube>, usize) {
    let dimensions = values.len().trailing_zeros();
    let mut open: Vec<bool> = values.iter().map(wanted).collect();
    let mut cubes = Vec::new();
    for point in 0..values.len() {
        if cubes.len() == most {
            break;
        }
        if open[point] {
            let cube = grown(values, dimensions, point as u32);
            cube.points(dimensions).for_each(|point| open[point as usize] = false);
            cubes.push(cube);
        }
    }
    (cubes, open.into_iter().filter(|open| *open).count())
}

/// A point with as many dimensions left free, one after the other, as leave the value the same.
fn grown<T: PartialEq>(values: &[T], dimensions: u32, point: u32) -> Cube {
    let mut cube = Cube { care: (1 << dimensions) - 1, values: point };
    for bit in (0..dimensions).map(|dimension| 1u32 << dimension) {
        let wider = Cube { care: cube.care & !bit, values: cube.values & !bit };
        if wider.points(dimensions).all(|own| values[own as usize] == values[point as usize]) {
            cube = wider;
        }
    }
    cube
}

#[cfg(test)]
mod tests {
    use super::*;

    #[test]
    fn blocks_cover_what_is_wanted_and_nothing_else() {
        for seed in 0u32..2_000 {
            let dimensions = seed % 5;
            let values: Vec<u32> = (0..1 << dimensions)
                .map(|point: u32| (seed.wrapping_mul(0x9E37_79B9) >> (point % 27)) & 3)
                .collect();
            let (cubes, left) = covering(&values, |value| *value != 0, usize::MAX);
            assert_eq!(left, 0);
            let mut covered = vec![false; values.len()];
            for cube in &cubes {
                let points: Vec<u32> = cube.points(dimensions).collect();
                assert_eq!(points.len(), 1 << (dimensions - cube.care.count_ones()));
                for point in points {
                    assert_eq!(point & cube.care, cube.values);
                    assert_eq!(values[point as usize], values[cube.values as usize]);
                    covered[point as usize] = true;
                }
            }
            assert!(covered.iter().zip(&values).all(|(covered, value)| *covered == (*value != 0)));
        }
    }

    #[test]
    fn what_does_not_fit_is_counted() {
        let parity: Vec<u32> = (0u32..16).map(|point| point.count_ones() & 1).collect();
        let (cubes, left) = covering(&parity, |value| *value == 1, 5);
        assert_eq!((cubes.len(), left), (5, 3));
        assert_eq!(covering(&[7], |_| true, 9), (vec![Cube { care: 0, values: 0 }], 0));
    }
}
