//! Where in the domain a shape is put, and how large it is made.

use crate::limits::{LARGEST, clamped};
use crate::random::Random;

#[derive(Clone, Copy, Debug)]
pub enum Scale {
    /// As it was made, mostly within a few units of the origin.
    AsMade,
    /// Brought to the nearest eighths, so that products are exact and points fall together.
    Eighths,
    /// A shape of up to a thousand units, millions away from the origin.
    Millions,
    /// Stretched until it reaches the limit of the domain.
    Limit,
    /// A small shape so near the limit that most of its own digits are lost.
    Far,
}

/// Half of the shapes stay as they were made: they hold the kinds that the others would blur.
const SCALES: [Scale; 8] = [
    Scale::AsMade,
    Scale::AsMade,
    Scale::AsMade,
    Scale::AsMade,
    Scale::Eighths,
    Scale::Millions,
    Scale::Limit,
    Scale::Far,
];

impl Scale {
    pub fn any(random: &mut Random) -> Scale {
        random.pick(&SCALES)
    }

    pub fn apply(self, points: &mut [[f64; 3]], random: &mut Random) {
        match self {
            Scale::AsMade => {}
            Scale::Eighths => each(points, |_, value| (value * 8.0).round() / 8.0),
            Scale::Millions => {
                let size = 1.0 + 999.0 * random.unit();
                let origin = origin(random, |random| 1e6 * (1.0 + 8.0 * random.unit()));
                each(points, |axis, value| origin[axis] + size * value);
            }
            Scale::Limit => {
                let size = size_to_the_limit(points);
                each(points, |_, value| value * size);
            }
            Scale::Far => {
                let origin = origin(random, |random| LARGEST - random.unit() * 64.0);
                each(points, |axis, value| origin[axis] + value);
            }
        }
        each(points, |_, value| clamped(value));
    }
}

/// Makes a shape so small that its areas, their squares, or its own coordinates vanish.
pub fn shrink(points: &mut [[f64; 3]], random: &mut Random) {
    let halvings = match random.below(4) {
        0 => random.between(230, 290),
        1 => random.between(500, 560),
        2 => random.between(1000, 1074),
        _ => random.between(40, 1074),
    };
    // In two steps, for the last powers are no longer normal numbers.
    let (once, twice) = (halvings / 2, halvings - halvings / 2);
    let [once, twice] = [once, twice].map(|halvings| 0.5_f64.powi(halvings as i32));
    each(points, |_, value| value * once * twice);
}

/// What brings the largest coordinate to the limit. For subnormal ones that factor is no longer a
/// finite number; the largest finite one takes its place, or zeros would turn into NaN.
fn size_to_the_limit(points: &[[f64; 3]]) -> f64 {
    let largest = |most: f64, value: &f64| value.abs().max(most);
    match points.iter().flatten().fold(0.0, largest) {
        0.0 => 1.0,
        most => (LARGEST / most).min(f64::MAX),
    }
}

/// A place whose coordinates have the given size and any signs.
fn origin(random: &mut Random, size: impl Fn(&mut Random) -> f64) -> [f64; 3] {
    [(); 3].map(|()| random.pick(&[1.0, -1.0]) * size(random))
}

fn each(points: &mut [[f64; 3]], change: impl Fn(usize, f64) -> f64) {
    for point in points {
        for (axis, value) in point.iter_mut().enumerate() {
            *value = change(axis, *value);
        }
    }
}
