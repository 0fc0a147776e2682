//! Random pairs of cells of whose faces some have no area, or hardly any.

use crate::cells::Cell;
use crate::limits::{MOST_CORNERS, MOST_FACES, MOST_VERTICES, clamped};
use crate::pairs;
use crate::random::Random;
use crate::scale::Scale;
use crate::vectors::{Vector, difference, scaled, sum};

/// How a face was made. Where sums are rounded, some of a kind have an area that they should not have.
#[derive(Clone, Copy, Debug)]
pub enum Kind {
    /// As the solid has it.
    Ordinary,
    OneCorner,
    TwoCorners,
    /// All corners in one point: one vertex, and another one at the same place.
    Collapsed,
    /// A corner twice in a row, beside one other corner or two.
    DoubledCorner,
    /// A face of the solid with a corner twice in a row, which keeps its area.
    DoubledInASolid,
    /// Corners along a line.
    Collinear,
    /// From corner to corner, and the same way back.
    ThereAndBack,
    /// A parallelogram of which two corners have changed places, so that its halves cancel.
    BowTie,
    /// A triangle, and the same one mirrored in its first corner and run the other way.
    FigureEight,
    /// So small that squares, products or the inverse of the norm leave the range of f64.
    Underflowing,
}

const KINDS: [Kind; 10] = [
    Kind::OneCorner,
    Kind::TwoCorners,
    Kind::Collapsed,
    Kind::DoubledCorner,
    Kind::DoubledInASolid,
    Kind::Collinear,
    Kind::ThereAndBack,
    Kind::BowTie,
    Kind::FigureEight,
    Kind::Underflowing,
];

/// The kinds that have no area wherever they lie: the first four. The sides of such a face are of no
/// length, or are two that are one another reversed, so that what one adds the next takes off.
const WITHOUT_AREA: usize = 4;

/// Two cells, and how each of their faces was made.
pub struct Made {
    pub cells: [Cell; 2],
    pub kinds: [Vec<Kind>; 2],
}

/// A random pair as the overlaps have it, often on a grid, so that sums are exact, and often with boxes
/// that miss; then some faces of each cell are made into others.
pub fn any(random: &mut Random) -> Made {
    let mut cells = pairs::any(random).cells;
    if random.once_in(2) {
        for cell in &mut cells {
            Scale::Eighths.apply(cell.points_mut(), random);
        }
    }
    if random.once_in(4) {
        cells = apart(cells, random);
    }
    let [(first, kinds), (second, other_kinds)] = cells.map(|cell| changed(cell, random));
    Made {
        cells: [first, second],
        kinds: [kinds, other_kinds],
    }
}

/// The second cell moved along an axis to beyond the first, as far as the domain goes.
fn apart([first, second]: [Cell; 2], random: &mut Random) -> [Cell; 2] {
    let ([low, high], [other_low, _]) = (first.bounds(), second.bounds());
    let axis = random.below(3);
    let mut way = [0.0; 3];
    way[axis] = 2.0 * high[axis] - low[axis] - other_low[axis] + random.pick(&[0.0, 1.0]);
    let second = second.moved(way);
    [first, second]
}

/// The cell with no face, some faces or all faces made into others, and how each was made.
fn changed(cell: Cell, random: &mut Random) -> (Cell, Vec<Kind>) {
    let faces = cell.faces();
    let mut parts = Parts {
        points: cell.points().to_vec(),
        kinds: vec![Kind::Ordinary; faces.len()],
        faces,
    };
    match random.below(8) {
        0 => {}
        1 => parts.change_all(random),
        _ => {
            for _ in 0..random.between(1, 4) {
                let kind = random.pick(&KINDS);
                parts.change_one(kind, random);
            }
        }
    }
    let Parts {
        points,
        faces,
        kinds,
    } = parts;
    if faces.concat().len() > MOST_CORNERS {
        let ordinary = vec![Kind::Ordinary; cell.ends.len()];
        return (cell, ordinary);
    }
    (Cell::new(&points, &faces), kinds)
}

/// A cell in parts, whose faces are made into others.
struct Parts {
    points: Vec<Vector>,
    faces: Vec<Vec<u32>>,
    kinds: Vec<Kind>,
}

impl Parts {
    /// Makes every face into one that has no area; a cell of no face gets one.
    fn change_all(&mut self, random: &mut Random) {
        for place in 0..self.faces.len().max(1) {
            let kind = random.pick(&KINDS[..WITHOUT_AREA]);
            let face = self.face(kind, random);
            self.put(place, face, kind);
        }
    }

    /// Puts a face of a kind in the place of another, or between two.
    fn change_one(&mut self, kind: Kind, random: &mut Random) {
        let face = self.face(kind, random);
        let count = self.faces.len();
        if count == MOST_FACES || count > 0 && random.once_in(2) {
            self.put(random.below(count), face, kind);
        } else {
            let place = random.below(count + 1);
            self.faces.insert(place, face);
            self.kinds.insert(place, kind);
        }
    }

    /// Puts a face in the place of another, or behind all.
    fn put(&mut self, place: usize, face: Vec<u32>, kind: Kind) {
        if place == self.faces.len() {
            self.faces.push(face);
            self.kinds.push(kind);
        } else {
            self.faces[place] = face;
            self.kinds[place] = kind;
        }
    }

    fn face(&mut self, kind: Kind, random: &mut Random) -> Vec<u32> {
        let [a, b] = [(); 2].map(|()| self.any_vertex(random));
        match kind {
            Kind::Ordinary => unreachable!("no face is made into an ordinary one"),
            Kind::OneCorner => vec![a],
            Kind::TwoCorners => vec![a, b],
            Kind::Collapsed => self.collapsed(a, random),
            Kind::DoubledCorner => {
                let mut face = random.pick(&[&[a, a, b][..], &[a, a, b, b]]).to_vec();
                let first = random.below(face.len());
                face.rotate_left(first);
                face
            }
            Kind::DoubledInASolid => self.doubled(random),
            Kind::Collinear => self.collinear(a, b, random),
            Kind::ThereAndBack => {
                let count = random.between(3, 5);
                let there: Vec<u32> = (0..count).map(|_| self.any_vertex(random)).collect();
                let back = there[1..count - 1].iter().rev();
                there.iter().chain(back).copied().collect()
            }
            Kind::BowTie => {
                let [a, b, c] = self.three_corners(random);
                let [p, q, r] = [a, b, c].map(|corner| self.point(corner));
                let d = self.vertex(sum(p, difference(r, q)), b);
                vec![a, c, b, d]
            }
            Kind::FigureEight => {
                let [a, b, c] = self.three_corners(random);
                let middle = scaled(self.point(a), 2.0);
                let [e, f] = [b, c].map(|corner| {
                    let mirrored = difference(middle, self.point(corner));
                    self.vertex(mirrored, corner)
                });
                vec![a, b, c, a, f, e]
            }
            Kind::Underflowing => self.underflowing(a, random),
        }
    }

    /// Some corners at one place: a vertex, and another whose zeros have the other sign.
    fn collapsed(&mut self, at: u32, random: &mut Random) -> Vec<u32> {
        let turned = |value: f64| if value == 0.0 { -value } else { value };
        let again = self.vertex(self.point(at).map(turned), at);
        let count = random.between(3, 6);
        (0..count).map(|_| random.pick(&[at, again])).collect()
    }

    /// A face of the solid with one corner twice, or a point twice where there is no face.
    fn doubled(&mut self, random: &mut Random) -> Vec<u32> {
        let mut face = match self.faces.len() {
            0 => vec![0],
            count => self.faces[random.below(count)].clone(),
        };
        if !face.is_empty() {
            let place = random.below(face.len());
            face.insert(place, face[place]);
        }
        face
    }

    /// Corners on the way from one vertex to another, at parts of it that are exact or not.
    fn collinear(&mut self, from: u32, to: u32, random: &mut Random) -> Vec<u32> {
        let (start, way) = (
            self.point(from),
            difference(self.point(to), self.point(from)),
        );
        let count = random.between(3, 6);
        (0..count)
            .map(|_| {
                let any = random.unit();
                let part = random.pick(&[0.0, 0.25, 0.5, 0.75, 1.0, any]);
                self.vertex(sum(start, scaled(way, part)), from)
            })
            .collect()
    }

    /// A face about the origin, or about the place of a vertex along one axis, whose other coordinates
    /// are small: about the root of the least product, the root of its root, or any.
    fn underflowing(&mut self, beside: u32, random: &mut Random) -> Vec<u32> {
        let halvings = match random.below(4) {
            0 => random.between(255, 285),
            1 => random.between(508, 516),
            2 => random.between(530, 545),
            _ => random.between(40, 1074),
        };
        let small = scaled([1.0; 3], power_of_half(halvings));
        let whole = random.once_in(2);
        let axis = random.below(3);
        let level = match random.below(3) {
            0 => Some(self.point(beside)[axis]),
            1 => Some(0.0),
            _ => None,
        };
        let count = random.between(3, 5);
        (0..count)
            .map(|_| {
                let mut point = small.map(|part| {
                    let any = random.signed();
                    let times = match whole {
                        true => random.whole(2),
                        false => random.pick(&[0.0, 1.0, 1.0 + f64::EPSILON, any]),
                    };
                    part * times
                });
                point[axis] = level.unwrap_or(point[axis]);
                self.vertex(point, beside)
            })
            .collect()
    }

    /// Three corners of a face that has them, one after the other, or any three vertices.
    fn three_corners(&self, random: &mut Random) -> [u32; 3] {
        let count = self.faces.len();
        if count > 0
            && let face = &self.faces[random.below(count)]
            && face.len() >= 3
        {
            let first = random.below(face.len());
            return [0, 1, 2].map(|step| face[(first + step) % face.len()]);
        }
        [(); 3].map(|()| self.any_vertex(random))
    }

    fn any_vertex(&self, random: &mut Random) -> u32 {
        random.below(self.points.len()) as u32
    }

    fn point(&self, vertex: u32) -> Vector {
        self.points[vertex as usize]
    }

    /// A vertex at a point, brought into the domain; another one where there may be no more.
    fn vertex(&mut self, point: Vector, otherwise: u32) -> u32 {
        if self.points.len() == MOST_VERTICES {
            return otherwise;
        }
        self.points.push(point.map(clamped));
        self.points.len() as u32 - 1
    }
}

/// In two steps, for the last powers are no longer normal numbers.
fn power_of_half(halvings: usize) -> f64 {
    let (once, twice) = (halvings / 2, halvings - halvings / 2);
    0.5_f64.powi(once as i32) * 0.5_f64.powi(twice as i32)
}

#[cfg(test)]
mod tests {
    use super::*;
    use crate::refusals;

    /// All pairs pass the checks but for faces of no corner, which any cell may have, and each face has
    /// its kind.
    #[test]
    fn pairs_are_sound() {
        let mut random = Random::new(8);
        for _ in 0..5000 {
            let made = any(&mut random);
            for (cell, kinds) in made.cells.iter().zip(&made.kinds) {
                assert_eq!(refusals::of_cell(cell, false), None);
                assert_eq!(cell.ends.len(), kinds.len());
            }
        }
    }

    /// Of each kind some have no area and some have a plane, but for those that can have but one.
    #[test]
    fn kinds_have_no_area_or_have_some() {
        let mut random = Random::new(9);
        for (place, &kind) in KINDS.iter().enumerate() {
            let mut found = [0, 0];
            for _ in 0..2000 {
                let cell = pairs::any(&mut random).cells[0].clone();
                let mut parts = Parts {
                    points: cell.points().to_vec(),
                    kinds: Vec::new(),
                    faces: cell.faces(),
                };
                let face = parts.face(kind, &mut random);
                if !face.is_empty() {
                    let cell = Cell::new(&parts.points, std::slice::from_ref(&face));
                    found[usize::from(cell.has_no_area(&face))] += 1;
                }
            }
            let [some, none] = found;
            assert!(none > 20, "{kind:?} {found:?}");
            assert!(some > 20 || place < WITHOUT_AREA, "{kind:?} {found:?}");
            assert!(some == 0 || place >= WITHOUT_AREA, "{kind:?} {found:?}");
        }
    }
}
