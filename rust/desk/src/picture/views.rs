//! From where a cell is looked at, and where its points then lie.

/// A place in a view or in the picture.
pub type Flat = [f64; 2];

/// A point of space.
pub type Point = [f64; 3];

/// A direction from which a cell is looked at, with parallel rays. Each direction has length 1 and
/// the three are square to one another.
pub struct View {
    /// A word for it in the picture's ids.
    pub key: &'static str,
    /// What stands above it.
    pub name: &'static str,
    right: Point,
    up: Point,
    toward: Point,
}

/// The four views. The turn of the last has the cosine 4/5 and its tilt the cosine 15/17, so that
/// no sine is computed and every machine draws the same; these are about 37 and 28 degrees.
pub const VIEWS: [View; 4] = [
    View { key: "above", name: "from above", right: [1.0, 0.0, 0.0], up: [0.0, 1.0, 0.0], toward: [0.0, 0.0, 1.0] },
    View {
        key: "south",
        name: "from the south",
        right: [1.0, 0.0, 0.0],
        up: [0.0, 0.0, 1.0],
        toward: [0.0, -1.0, 0.0],
    },
    View { key: "east", name: "from the east", right: [0.0, 1.0, 0.0], up: [0.0, 0.0, 1.0], toward: [1.0, 0.0, 0.0] },
    View {
        key: "aside",
        name: "from above and aside",
        right: [0.8, 0.6, 0.0],
        up: [-0.6 * 8.0 / 17.0, 0.8 * 8.0 / 17.0, 15.0 / 17.0],
        toward: [0.6 * 15.0 / 17.0, -0.8 * 15.0 / 17.0, 8.0 / 17.0],
    },
];

impl View {
    /// Where a point lies in this view: to the right, and up.
    pub fn flat(&self, point: Point) -> Flat {
        [dot(self.right, point), dot(self.up, point)]
    }

    /// How near a point is to the eye: the more, the nearer.
    pub fn nearness(&self, point: Point) -> f64 {
        dot(self.toward, point)
    }
}

fn dot(a: Point, b: Point) -> f64 {
    a[0] * b[0] + a[1] * b[1] + a[2] * b[2]
}

/// An upright box in a view or in the picture.
#[derive(Clone, Copy, Debug, PartialEq)]
pub struct Rect {
    /// Its least coordinates.
    pub low: Flat,
    /// Its largest coordinates.
    pub high: Flat,
}

impl Rect {
    /// The box of this size about a middle.
    pub fn about([x, y]: Flat, [width, height]: Flat) -> Rect {
        let (w, h) = (width / 2.0, height / 2.0);
        Rect { low: [x - w, y - h], high: [x + w, y + h] }
    }

    /// The box of points; without any it is the origin.
    pub fn of(points: impl IntoIterator<Item = Flat>) -> Rect {
        let mut points = points.into_iter();
        let first = points.next().unwrap_or_default();
        points.fold(Rect { low: first, high: first }, |rect, point| Rect {
            low: std::array::from_fn(|k| rect.low[k].min(point[k])),
            high: std::array::from_fn(|k| rect.high[k].max(point[k])),
        })
    }

    /// Its width and its height.
    pub fn size(&self) -> Flat {
        [self.high[0] - self.low[0], self.high[1] - self.low[1]]
    }

    /// Its middle.
    pub fn middle(&self) -> Flat {
        [(self.low[0] + self.high[0]) / 2.0, (self.low[1] + self.high[1]) / 2.0]
    }
}

/// Whether a point is inside an outline, which may touch or cross itself.
pub fn inside(outline: &[Flat], [x, y]: Flat) -> bool {
    crossings(outline, y).filter(|&at| at > x).count() % 2 == 1
}

/// Where an outline crosses a level line.
fn crossings(outline: &[Flat], y: f64) -> impl Iterator<Item = f64> + '_ {
    let next = outline.iter().cycle().skip(1);
    outline.iter().zip(next).filter_map(move |(a, b)| {
        let crosses = (a[1] > y) != (b[1] > y);
        crosses.then(|| a[0] + (y - a[1]) / (b[1] - a[1]) * (b[0] - a[0]))
    })
}

/// A point inside an outline where its number can stand: the mean of the corners for most faces. A
/// face that is seen from its side has no inside, and the mean still lies on it.
pub fn heart(outline: &[Flat]) -> Flat {
    let mean = middle_of(outline);
    if inside(outline, mean) {
        return mean;
    }
    level_middles(outline).first().copied().unwrap_or(mean)
}

/// The middles of the level stretches inside an outline, at some heights, the widest first.
pub fn level_middles(outline: &[Flat]) -> Vec<Flat> {
    let frame = Rect::of(outline.iter().copied());
    let mut stretches: Vec<(f64, Flat)> = Vec::new();
    for part in [0.5, 0.375, 0.625, 0.25, 0.75, 0.125, 0.875] {
        let y = frame.low[1] + part * frame.size()[1];
        let mut xs: Vec<f64> = crossings(outline, y).collect();
        xs.sort_by(f64::total_cmp);
        let pairs = xs.chunks_exact(2).filter(|pair| pair[1] > pair[0]);
        stretches.extend(pairs.map(|pair| (pair[1] - pair[0], [(pair[0] + pair[1]) / 2.0, y])));
    }
    // The sort is stable, so that of equal widths the one nearest to half the height comes first.
    stretches.sort_by(|a, b| b.0.total_cmp(&a.0));
    stretches.into_iter().map(|(_, middle)| middle).collect()
}

/// The mean of points; without any it is the origin.
pub fn middle_of(points: &[Flat]) -> Flat {
    let count = points.len().max(1) as f64;
    std::array::from_fn(|k| points.iter().map(|point| point[k]).sum::<f64>() / count)
}

#[cfg(test)]
mod tests {
    use super::*;

    #[test]
    fn known_points_are_projected() {
        let point = [1.0, 2.0, 4.0];
        let [above, south, east, aside] = &VIEWS;
        assert_eq!((above.flat(point), above.nearness(point)), ([1.0, 2.0], 4.0));
        assert_eq!((south.flat(point), south.nearness(point)), ([1.0, 4.0], -2.0));
        assert_eq!((east.flat(point), east.nearness(point)), ([2.0, 4.0], 1.0));
        // 0.8 + 1.2 to the right; (8 (-0.6 + 1.6) + 15 * 4) / 17 up; (15 (0.6 - 1.6) + 8 * 4) / 17 near.
        let [x, y] = aside.flat(point);
        assert!((x - 2.0).abs() < 1e-15 && (y - 4.0).abs() < 1e-15);
        assert!((aside.nearness(point) - 1.0).abs() < 1e-15);
    }

    #[test]
    fn the_directions_of_a_view_are_square_and_right_handed() {
        for view in &VIEWS {
            let (r, u, t) = (view.right, view.up, view.toward);
            let cross = [r[1] * u[2] - r[2] * u[1], r[2] * u[0] - r[0] * u[2], r[0] * u[1] - r[1] * u[0]];
            for k in 0..3 {
                assert!((cross[k] - t[k]).abs() < 1e-15, "{}", view.name);
            }
            assert!((dot(r, r) - 1.0).abs() < 1e-15 && dot(r, u).abs() < 1e-15);
        }
    }

    #[test]
    fn a_number_stands_inside_its_face() {
        let square = [[0.0, 0.0], [2.0, 0.0], [2.0, 2.0], [0.0, 2.0]];
        assert_eq!(heart(&square), [1.0, 1.0]);
        // A U, whose mean and whose box's middle lie in its opening.
        let u: [Flat; 8] = [[0., 0.], [9., 0.], [9., 9.], [8., 9.], [8., 1.], [1., 1.], [1., 9.], [0., 9.]];
        assert!(!inside(&u, middle_of(&u)) && inside(&u, heart(&u)));
        // A face that is seen from its side has no inside.
        assert_eq!(heart(&[[0.0, 0.0], [4.0, 0.0]]), [2.0, 0.0]);
        assert_eq!(heart(&[]), [0.0, 0.0]);
    }
}
