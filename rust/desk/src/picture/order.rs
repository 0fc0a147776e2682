//! Which face lies before which, as a view shows them.

use super::views::{Flat, Rect, heart, inside};

/// A depth below which two faces are taken to lie at the same depth, in pixels.
const SAME: f64 = 0.01;

/// A face in a view.
pub struct Seen {
    /// Where its corners are drawn.
    pub outline: Vec<Flat>,
    /// A place in it where its number can stand.
    pub heart: Flat,
    /// How near its heart is to the eye.
    near: f64,
    /// Places a little within its corners, and how near they are.
    samples: Vec<(Flat, f64)>,
    /// The box of its corners.
    frame: Rect,
    /// How its nearness grows to the right and down, and what it is at the origin; none where the
    /// face is seen from its side, since then it covers nothing.
    plane: Option<[f64; 3]>,
}

impl Seen {
    /// The face with these corners: to the right, down, and near.
    pub fn new(corners: &[[f64; 3]]) -> Seen {
        let outline: Vec<Flat> = corners.iter().map(|&[x, y, _]| [x, y]).collect();
        let count = corners.len().max(1) as f64;
        let mean: [f64; 3] = std::array::from_fn(|k| corners.iter().map(|c| c[k]).sum::<f64>() / count);
        let plane = plane(corners, mean);
        let heart = heart(&outline);
        let within = |c: &[f64; 3]| -> [f64; 3] { std::array::from_fn(|k| 0.9 * c[k] + 0.1 * mean[k]) };
        let mut seen = Seen {
            heart,
            near: mean[2],
            samples: corners.iter().map(within).map(|[x, y, near]| ([x, y], near)).collect(),
            frame: Rect::of(outline.iter().copied()),
            plane,
            outline,
        };
        seen.near = seen.near_at(heart).unwrap_or(mean[2]);
        seen.samples.push((heart, seen.near));
        seen
    }

    /// How near the face's plane is at a place.
    fn near_at(&self, [x, y]: Flat) -> Option<f64> {
        self.plane.map(|[right, down, origin]| right * x + down * y + origin)
    }

    /// Whether this face lies over a place that is so near.
    fn covers(&self, place: Flat, near: f64) -> bool {
        self.near_at(place).is_some_and(|own| own > near + SAME) && inside(&self.outline, place)
    }

    /// Whether some of this face is covered by the other.
    fn is_behind(&self, other: &Seen) -> bool {
        let apart = |k: usize| self.frame.high[k] < other.frame.low[k] || other.frame.high[k] < self.frame.low[k];
        !apart(0) && !apart(1) && self.samples.iter().any(|&(place, near)| other.covers(place, near))
    }

    /// Whether the middle of this face is covered by any of these.
    pub fn is_covered(&self, others: &[Seen]) -> bool {
        others.iter().any(|other| other.covers(self.heart, self.near))
    }
}

/// How the nearness of a face with this mean grows to the right and down, and what it is at the
/// origin, by the normal of its corners.
fn plane(corners: &[[f64; 3]], mean: [f64; 3]) -> Option<[f64; 3]> {
    let mut normal = [0.0; 3];
    for (a, b) in corners.iter().zip(corners.iter().cycle().skip(1)) {
        for (k, part) in normal.iter_mut().enumerate() {
            let (i, j) = ((k + 1) % 3, (k + 2) % 3);
            *part += (a[i] - b[i]) * (a[j] + b[j] - 2.0 * mean[j]);
        }
    }
    let [x, y, near] = normal;
    // A slope of a thousand is a face seen from its side, up to rounding.
    if near.abs() * 1e3 <= x.abs() + y.abs() || near == 0.0 {
        return None;
    }
    let (right, down) = (-x / near, -y / near);
    Some([right, down, mean[2] - right * mean[0] - down * mean[1]])
}

/// The faces from back to front: a face comes before all that cover it, and else the farther first.
/// Faces that cover each other in a circle have no such order, and then the farthest is taken.
pub fn back_to_front(faces: &[Seen]) -> Vec<usize> {
    let mut ranks: Vec<usize> = (0..faces.len()).collect();
    ranks.sort_by(|&a, &b| faces[a].near.total_cmp(&faces[b].near).then(a.cmp(&b)));
    let mut painter = Painter { faces, begun: vec![false; faces.len()], order: Vec::new() };
    for &face in &ranks {
        painter.paint(face, &ranks);
    }
    painter.order
}

/// What has been put into the order.
struct Painter<'a> {
    faces: &'a [Seen],
    begun: Vec<bool>,
    order: Vec<usize>,
}

impl Painter<'_> {
    /// Puts a face into the order, after all that it covers.
    fn paint(&mut self, face: usize, ranks: &[usize]) {
        if std::mem::replace(&mut self.begun[face], true) {
            return;
        }
        for &other in ranks {
            if !self.begun[other] && self.faces[other].is_behind(&self.faces[face]) {
                self.paint(other, ranks);
            }
        }
        self.order.push(face);
    }
}

#[cfg(test)]
mod tests {
    use super::*;

    fn square(low: f64, high: f64, near: [f64; 4]) -> Seen {
        let [a, b, c, d] = near;
        Seen::new(&[[low, low, a], [high, low, b], [high, high, c], [low, high, d]])
    }

    #[test]
    fn a_plane_is_found_from_its_corners() {
        let slanted = square(0.0, 10.0, [1.0, 21.0, 51.0, 31.0]);
        assert_eq!(slanted.plane, Some([2.0, 3.0, 1.0]));
        assert_eq!(Seen::new(&[[0.0, 0.0, 0.0], [5.0, 0.0, 0.0], [5.0, 0.0, 9.0]]).plane, None);
    }

    #[test]
    fn what_covers_comes_later_even_where_its_mean_is_farther() {
        // The first slants from the eye to far behind, the second lies under its near end.
        let over = square(0.0, 100.0, [100.0, 100.0, -900.0, -900.0]);
        let under = square(5.0, 15.0, [-50.0; 4]);
        assert!(over.near < under.near);
        assert!(under.is_covered(std::slice::from_ref(&over)));
        let faces = [over, under];
        assert_eq!(back_to_front(&faces), [1, 0]);
    }

    #[test]
    fn the_farther_comes_first_and_none_is_lost() {
        let faces = [square(0.0, 4.0, [3.0; 4]), square(0.0, 4.0, [1.0; 4]), square(8.0, 9.0, [2.0; 4])];
        assert_eq!(back_to_front(&faces), [1, 2, 0]);
        // Three boards, each over the next.
        let board = |a: [f64; 3], b: [f64; 3]| {
            let w = if (a[0] - b[0]).abs() > (a[1] - b[1]).abs() { [0.0, 2.0] } else { [2.0, 0.0] };
            let moved = |p: [f64; 3]| [p[0] + w[0], p[1] + w[1], p[2]];
            Seen::new(&[a, b, moved(b), moved(a)])
        };
        let circle = [
            board([0.0, 0.0, 0.0], [20.0, 0.0, 10.0]),
            board([17.0, -2.0, 0.0], [17.0, 20.0, 10.0]),
            board([20.0, 17.0, 0.0], [-2.0, -2.0, 10.0]),
        ];
        let mut order = back_to_front(&circle);
        order.sort_unstable();
        assert_eq!(order, [0, 1, 2]);
    }
}
