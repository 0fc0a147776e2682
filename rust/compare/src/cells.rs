//! Random cells, questions about them, and damaged copies of them.

use std::f64::consts::TAU;

use crate::calls::{Calls, print_list};
use crate::comparison::Compared;
use crate::limits::{LARGEST, MOST_CORNERS, MOST_FACES, MOST_VERTICES, clamped};
use crate::random::Random;
use crate::refusals::{has_bad_ends, of_cell};
use crate::scale::Scale;
use crate::shrink::{Input, Shrink, fewer_vertices, in_groups, within};

/// A cell as SCOPE 2 lists it.
#[derive(Clone, Debug, PartialEq)]
pub struct Cell {
    pub coords: Vec<f64>,
    pub corners: Vec<u32>,
    pub ends: Vec<u32>,
}

impl Cell {
    pub fn new(points: &[[f64; 3]], faces: &[Vec<u32>]) -> Cell {
        let mut cell = Cell {
            coords: points.as_flattened().to_vec(),
            corners: Vec::new(),
            ends: Vec::new(),
        };
        cell.set_faces(faces);
        cell
    }

    /// A cell with nothing but one face.
    pub fn of_one_face(coords: &[f64], corners: &[u32]) -> Cell {
        Cell {
            coords: coords.to_vec(),
            corners: corners.to_vec(),
            ends: vec![corners.len() as u32],
        }
    }

    pub fn points(&self) -> &[[f64; 3]] {
        self.coords.as_chunks::<3>().0
    }

    pub fn points_mut(&mut self) -> &mut [[f64; 3]] {
        self.coords.as_chunks_mut::<3>().0
    }

    /// The corners of one face. The ends must be sound.
    pub fn face(&self, number: u32) -> &[u32] {
        let start = match number {
            0 => 0,
            _ => self.ends[number as usize - 1],
        };
        &self.corners[start as usize..self.ends[number as usize] as usize]
    }

    /// The faces as lists of their own. The ends must be sound.
    pub fn faces(&self) -> Vec<Vec<u32>> {
        let numbers = 0..self.ends.len() as u32;
        numbers.map(|number| self.face(number).to_vec()).collect()
    }

    fn set_faces(&mut self, faces: &[Vec<u32>]) {
        self.corners = faces.concat();
        self.ends.clear();
        let mut end = 0;
        for face in faces {
            end += face.len() as u32;
            self.ends.push(end);
        }
    }

    /// The same vertices with other faces, made from its own.
    pub fn with_faces(mut self, change: impl FnOnce(&mut Vec<Vec<u32>>)) -> Cell {
        let mut faces = self.faces();
        change(&mut faces);
        self.set_faces(&faces);
        self
    }

    /// The cell with every point changed.
    pub fn with_points(mut self, change: impl Fn([f64; 3]) -> [f64; 3]) -> Cell {
        for point in self.points_mut() {
            *point = change(*point);
        }
        self
    }

    /// The cell moved by a way, as far as the domain goes.
    pub fn moved(self, way: [f64; 3]) -> Cell {
        self.with_points(|point| [0, 1, 2].map(|axis| clamped(point[axis] + way[axis])))
    }

    /// The points of a face, in order.
    pub fn outline(&self, face: &[u32]) -> Vec<[f64; 3]> {
        face.iter()
            .map(|&corner| self.points()[corner as usize])
            .collect()
    }

    /// The plane of a face, by the Rust with the rule of SCOPE 1 for hypot.
    pub fn plane(&self, face: &[u32]) -> [f64; 4] {
        oracle::ruled::plane_of_face(self.points(), &as_usize(face))
    }

    /// Whether a face has no area: whether its three Newell sums, as the Rust computes them, are all 0.
    pub fn has_no_area(&self, face: &[u32]) -> bool {
        let (sums, _) = oracle::ruled::face_plane(self.points(), &as_usize(face));
        sums.iter().all(|&sum| sum == 0.0)
    }

    /// How many faces have none. None may be empty.
    pub fn count_of_no_area(&self) -> usize {
        let faces = self.faces();
        faces.iter().filter(|face| self.has_no_area(face)).count()
    }

    /// The same cell in the oracle's form. The coordinates must be in threes.
    pub fn for_the_rust(&self) -> oracle::Cell<'_> {
        oracle::Cell::flat(&self.coords, &self.corners, &self.ends)
    }

    /// The least and the greatest of each coordinate.
    pub fn bounds(&self) -> [[f64; 3]; 2] {
        let mut low = [f64::INFINITY; 3];
        let mut high = [f64::NEG_INFINITY; 3];
        for point in self.points() {
            for axis in 0..3 {
                low[axis] = low[axis].min(point[axis]);
                high[axis] = high[axis].max(point[axis]);
            }
        }
        [low, high]
    }
}

impl Input for Cell {
    fn print(&self) {
        self.print_as("");
    }
}

impl Shrink for Cell {
    /// Fewer faces and corners, then fewer vertices, then plainer coordinates.
    fn shrink(&mut self, fails: &mut dyn FnMut(&Cell) -> bool) {
        if has_bad_ends(self) {
            within(self, |cell| &mut cell.corners, Vec::shrink, fails);
            within(self, |cell| &mut cell.ends, Vec::shrink, fails);
        } else {
            self.shrink_faces(fails);
        }
        let mut tried = self.clone();
        fewer_vertices(
            &mut self.coords,
            &mut self.corners,
            &mut |coords, corners| {
                tried.coords = coords.to_vec();
                tried.corners = corners.to_vec();
                fails(&tried)
            },
        );
        within(self, |cell| &mut cell.coords, in_groups::<3>, fails);
    }
}

impl Cell {
    /// Prints the lists with a prefix before their names, so that two cells can be pasted together.
    pub fn print_as(&self, prefix: &str) {
        print_list(&format!("{prefix}coords"), "f64", &self.coords);
        print_list(&format!("{prefix}corners"), "u32", &self.corners);
        print_list(&format!("{prefix}ends"), "u32", &self.ends);
    }

    /// Leaves out faces and corners, each end following. The ends must be sound.
    fn shrink_faces(&mut self, fails: &mut dyn FnMut(&Cell) -> bool) {
        let mut faces = self.faces();
        let mut tried = self.clone();
        faces.shrink(&mut |fewer| {
            tried.set_faces(fewer);
            fails(&tried)
        });
        self.set_faces(&faces);
    }
}

/// Corners as the Rust takes those of a single face.
pub fn as_usize(corners: &[u32]) -> Vec<usize> {
    corners.iter().map(|&corner| corner as usize).collect()
}

/// A random cell and how it was made.
pub struct Made {
    pub cell: Cell,
    pub kind: Kind,
    pub scale: Scale,
}

#[derive(Clone, Copy, Debug)]
pub enum Kind {
    // Sound solids, their faces outward.
    Box,
    RotatedBox,
    Tetrahedron,
    Wedge,
    ConvexPrism,
    Bipyramid,
    /// 60 faces: two caps of triangles and bands of quadrilaterals.
    Sphere,
    /// A prism over an outline that is not convex.
    ConcavePrism,
    // Solids that something happened to.
    Torn,
    Backward,
    ThinFaces,
    RepeatedCorners,
    Warped,
    // No solids at all.
    Soup,
    NoFaces,
    /// Every list as long as it may be.
    Full,
}

const SOLIDS: [Kind; 8] = [
    Kind::Box,
    Kind::RotatedBox,
    Kind::Tetrahedron,
    Kind::Wedge,
    Kind::ConvexPrism,
    Kind::Bipyramid,
    Kind::Sphere,
    Kind::ConcavePrism,
];

/// The solids that are convex by their making, before rounding: the first seven.
const CONVEX_SOLIDS: usize = 7;

const OTHERS: [Kind; 8] = [
    Kind::Torn,
    Kind::Backward,
    Kind::ThinFaces,
    Kind::RepeatedCorners,
    Kind::Warped,
    Kind::Soup,
    Kind::NoFaces,
    Kind::Full,
];

/// A random cell that passes the checks 1 to 4. Thin faces may have no corner at all.
pub fn any(random: &mut Random) -> Made {
    let kind = random.pick(&[SOLIDS, OTHERS].concat());
    made(kind, random)
}

/// A random cell that is convex by its making, as the overlaps take it.
pub fn any_convex(random: &mut Random) -> Made {
    let kind = random.pick(&SOLIDS[..CONVEX_SOLIDS]);
    made(kind, random)
}

fn made(kind: Kind, random: &mut Random) -> Made {
    let scale = Scale::any(random);
    let mut cell = kind.cell(random);
    scale.apply(cell.points_mut(), random);
    Made { cell, kind, scale }
}

impl Kind {
    fn cell(self, random: &mut Random) -> Cell {
        match self {
            Kind::Box => any_box(random),
            Kind::RotatedBox => rotated(any_box(random), random),
            Kind::Tetrahedron => tetrahedron(random),
            Kind::Wedge => any_wedge(random),
            Kind::ConvexPrism => {
                let sides = random.between(3, 24);
                prism(&outline(sides, random, 1.0), random)
            }
            Kind::ConcavePrism => {
                let sides = random.between(4, 40);
                prism(&outline(sides, random, 0.3), random)
            }
            Kind::Bipyramid => bipyramid(random),
            Kind::Sphere => rotated(sphere(6, 10), random),
            Kind::Torn => torn(any_solid(random), random),
            Kind::Backward => backward(any_solid(random), random),
            Kind::ThinFaces => with_thin_faces(any_solid(random), random),
            Kind::RepeatedCorners => with_repeated_corners(any_solid(random), random),
            Kind::Warped => warped(any_solid(random), random),
            Kind::Soup => soup(random),
            Kind::NoFaces => no_faces(random),
            Kind::Full => full(random),
        }
    }
}

fn any_solid(random: &mut Random) -> Cell {
    random.pick(&SOLIDS).cell(random)
}

// Solids.

/// A box of whole or any sides, its faces in the order of HEX8_FACES.
pub fn any_box(random: &mut Random) -> Cell {
    let whole = random.once_in(2);
    let [x, y, z] = [(); 3].map(|()| match whole {
        true => random.between(1, 4) as f64,
        false => 0.1 + random.unit(),
    });
    box_of([x, y, z])
}

/// A prism over a triangle.
pub fn any_wedge(random: &mut Random) -> Cell {
    prism(&outline(3, random, 1.0), random)
}

/// The cube from 0 to 1.
pub fn unit_cube() -> Cell {
    box_of([1.0; 3])
}

fn box_of([x, y, z]: [f64; 3]) -> Cell {
    let low = [[0.0, 0.0], [x, 0.0], [x, y], [0.0, y]];
    let mut cell = prism_between(&low, 0.0, z);
    cell.set_faces(&[
        vec![0, 3, 2, 1],
        vec![4, 5, 6, 7],
        vec![0, 1, 5, 4],
        vec![2, 3, 7, 6],
        vec![1, 2, 6, 5],
        vec![3, 0, 4, 7],
    ]);
    cell
}

fn tetrahedron(random: &mut Random) -> Cell {
    let mut points = [(); 4].map(|()| any_point(random));
    let faces = [vec![0, 1, 3], vec![1, 2, 3], vec![2, 0, 3], vec![0, 2, 1]];
    // The faces look outward when the first three points run counter-clockwise below the fourth.
    if oracle::plain::tet_volume(&points) < 0.0 {
        points.swap(2, 3);
    }
    Cell::new(&points, &faces)
}

/// A counter-clockwise outline around the origin, its points between `least` and 1 away from it.
fn outline(sides: usize, random: &mut Random, least: f64) -> Vec<[f64; 2]> {
    (0..sides)
        .map(|side| {
            let angle = TAU * (side as f64 + 0.8 * random.unit()) / sides as f64;
            let far = least + (1.0 - least) * random.unit();
            [far * angle.cos(), far * angle.sin()]
        })
        .collect()
}

fn prism(base: &[[f64; 2]], random: &mut Random) -> Cell {
    let low = random.signed();
    let cell = prism_between(base, low, low + 0.1 + random.unit());
    if random.once_in(2) {
        rotated(cell, random)
    } else {
        cell
    }
}

/// The prism over a counter-clockwise base: bottom, top, then the sides in order.
fn prism_between(base: &[[f64; 2]], low: f64, high: f64) -> Cell {
    let sides = base.len() as u32;
    let at = |height: f64| base.iter().map(move |&[x, y]| [x, y, height]);
    let points: Vec<[f64; 3]> = at(low).chain(at(high)).collect();
    let mut faces = vec![(0..sides).rev().collect(), (sides..2 * sides).collect()];
    for side in 0..sides {
        let next = (side + 1) % sides;
        faces.push(vec![side, next, next + sides, side + sides]);
    }
    Cell::new(&points, &faces)
}

/// Two pyramids on one base. Three uneven sides might leave the tips outside, so four are the least.
fn bipyramid(random: &mut Random) -> Cell {
    let sides = random.between(4, 40);
    let mut points: Vec<[f64; 3]> = outline(sides, random, 1.0)
        .iter()
        .map(|&[x, y]| [x, y, 0.0])
        .collect();
    points.push([0.0, 0.0, 0.2 + random.unit()]);
    points.push([0.0, 0.0, -0.2 - random.unit()]);
    let (sides, top, bottom) = (sides as u32, sides as u32, sides as u32 + 1);
    let mut faces = Vec::new();
    for side in 0..sides {
        let next = (side + 1) % sides;
        faces.push(vec![side, next, top]);
        faces.push(vec![next, side, bottom]);
    }
    Cell::new(&points, &faces)
}

/// A sphere cut into bands from pole to pole, each of as many faces as there are sectors.
pub fn sphere(bands: u32, sectors: u32) -> Cell {
    let south = [0.0, 0.0, -1.0];
    let mut points = vec![south];
    for ring in 1..bands {
        let height = TAU / 2.0 * f64::from(ring) / f64::from(bands) - TAU / 4.0;
        for sector in 0..sectors {
            let angle = TAU * f64::from(sector) / f64::from(sectors);
            points.push([
                height.cos() * angle.cos(),
                height.cos() * angle.sin(),
                height.sin(),
            ]);
        }
    }
    points.push([0.0, 0.0, 1.0]);
    Cell::new(&points, &sphere_faces(bands, sectors))
}

fn sphere_faces(bands: u32, sectors: u32) -> Vec<Vec<u32>> {
    let north = (bands - 1) * sectors + 1;
    let at = |ring: u32, sector: u32| 1 + (ring - 1) * sectors + sector % sectors;
    let mut faces = Vec::new();
    for sector in 0..sectors {
        faces.push(vec![0, at(1, sector + 1), at(1, sector)]);
        for ring in 1..bands - 1 {
            let (low, high) = (ring, ring + 1);
            faces.push(vec![
                at(low, sector),
                at(low, sector + 1),
                at(high, sector + 1),
                at(high, sector),
            ]);
        }
        faces.push(vec![
            at(bands - 1, sector),
            at(bands - 1, sector + 1),
            north,
        ]);
    }
    faces
}

/// Turns a cell about all three axes.
pub fn rotated(mut cell: Cell, random: &mut Random) -> Cell {
    for axis in 0..3 {
        let (sin, cos) = (TAU * random.unit()).sin_cos();
        let (u, v) = ((axis + 1) % 3, (axis + 2) % 3);
        for point in cell.points_mut() {
            let (a, b) = (point[u], point[v]);
            point[u] = cos * a - sin * b;
            point[v] = sin * a + cos * b;
        }
    }
    cell
}

// Mishaps.

/// Loses a face, or moves one corner of a face to a vertex of its own.
fn torn(mut cell: Cell, random: &mut Random) -> Cell {
    let vertices = cell.points().len() as u32;
    let face = random.below(cell.ends.len());
    if random.once_in(2) {
        return cell.with_faces(|faces| {
            faces.remove(face);
        });
    }
    let corner = random.below(cell.faces()[face].len());
    cell.coords.extend(any_point(random));
    cell.with_faces(|faces| faces[face][corner] = vertices)
}

/// Runs some faces the other way, at least one.
fn backward(cell: Cell, random: &mut Random) -> Cell {
    cell.with_faces(|faces| {
        for _ in 0..random.between(1, 3) {
            let face = random.below(faces.len());
            faces[face].reverse();
        }
    })
}

/// Adds faces of no, one or two corners.
fn with_thin_faces(cell: Cell, random: &mut Random) -> Cell {
    let vertices = cell.points().len();
    cell.with_faces(|faces| {
        for _ in 0..random.between(1, 3) {
            let face = any_face(random.below(3), vertices, random);
            faces.insert(random.below(faces.len() + 1), face);
        }
    })
}

/// Lets some corners stand twice, next to each other or apart.
fn with_repeated_corners(cell: Cell, random: &mut Random) -> Cell {
    cell.with_faces(|faces| {
        for _ in 0..random.between(1, 4) {
            let face = random.below(faces.len());
            let corner = random.pick(&faces[face]);
            let place = random.below(faces[face].len() + 1);
            faces[face].insert(place, corner);
        }
    })
}

/// Moves vertices a little, so that faces are no longer in one plane.
fn warped(mut cell: Cell, random: &mut Random) -> Cell {
    let far = random.pick(&[1e-15, 1e-9, 1e-4, 0.1]);
    for value in &mut cell.coords {
        *value += far * random.signed();
    }
    cell
}

// No solids.

fn soup(random: &mut Random) -> Cell {
    let vertices = random.between(1, 30);
    let whole = random.once_in(2);
    let points: Vec<[f64; 3]> = (0..vertices)
        .map(|_| match whole {
            true => [random.whole(3), random.whole(3), random.whole(3)],
            false => any_point(random),
        })
        .collect();
    let faces: Vec<Vec<u32>> = (0..random.below(20))
        .map(|_| any_face(random.between(1, 9), vertices, random))
        .collect();
    Cell::new(&points, &faces)
}

fn no_faces(random: &mut Random) -> Cell {
    let points: Vec<[f64; 3]> = (0..random.between(1, 6))
        .map(|_| any_point(random))
        .collect();
    Cell::new(&points, &[])
}

fn full(random: &mut Random) -> Cell {
    let points: Vec<[f64; 3]> = (0..MOST_VERTICES).map(|_| any_point(random)).collect();
    let faces: Vec<Vec<u32>> = (0..MOST_FACES)
        .map(|_| any_face(MOST_CORNERS / MOST_FACES, MOST_VERTICES, random))
        .collect();
    Cell::new(&points, &faces)
}

pub fn any_face(corners: usize, vertices: usize, random: &mut Random) -> Vec<u32> {
    (0..corners)
        .map(|_| random.below(vertices) as u32)
        .collect()
}

pub fn any_point(random: &mut Random) -> [f64; 3] {
    [(); 3].map(|()| random.signed())
}

// Questions about a cell.

/// A point to ask about: near the cell, on it, or level with one of its vertices.
pub fn any_query(cell: &Cell, random: &mut Random) -> [f64; 3] {
    let [low, high] = cell.bounds();
    let inside = [0, 1, 2].map(|axis| {
        let share = 1.2 * random.unit() - 0.1;
        clamped(low[axis] + share * (high[axis] - low[axis]))
    });
    let vertex = random.pick(cell.points());
    let other = random.pick(cell.points());
    match random.below(6) {
        0 => vertex,
        // Halfway between two vertices: often on an edge or on a face.
        1 => [0, 1, 2].map(|axis| vertex[axis] / 2.0 + other[axis] / 2.0),
        // Level with a vertex, so that the ray runs through it.
        2 => [inside[0], vertex[1], vertex[2]],
        3 => [inside[0], vertex[1], inside[2]],
        _ => inside,
    }
}

/// A second cell for an overlap: the same one, moved to touch, to overlap or to miss, or another.
pub fn partner(cell: &Cell, random: &mut Random) -> Cell {
    let [low, high] = cell.bounds();
    let share = match random.below(6) {
        0 => return any_convex(random).cell,
        1 => return fitted(any_convex(random).cell, [low, high]),
        2 => 0.0,
        3 => 1.0,
        4 => 1.5,
        _ => 0.5 * random.unit(),
    };
    let mut way = [0.0; 3];
    let axis = random.below(3);
    way[axis] = share * (high[axis] - low[axis]);
    cell.clone().moved(way)
}

/// The cell brought to about the bounds of another one, so that the two overlap.
pub fn fitted(cell: Cell, [low, high]: [[f64; 3]; 2]) -> Cell {
    let [own_low, own_high] = cell.bounds();
    let fit = |axis: usize, value: f64| {
        let width = own_high[axis] - own_low[axis];
        let share = if width > 0.0 {
            (value - own_low[axis]) / width
        } else {
            0.5
        };
        clamped(low[axis] + share * (high[axis] - low[axis]))
    };
    cell.with_points(|point| [0, 1, 2].map(|axis| fit(axis, point[axis])))
}

// Damage.

/// A damaged copy and the refusal that it was made for.
pub struct Damaged {
    pub what: &'static str,
    pub refusal: u8,
    pub cell: Cell,
}

/// A way to damage a cell, or `None` where the cell has nothing to damage so.
type Damage = fn(Cell, &mut Random) -> Option<Cell>;

const DAMAGES: [(u8, &str, Damage); 17] = [
    (1, "one coordinate lost", |mut cell, _| {
        cell.coords.pop();
        Some(cell)
    }),
    (1, "one coordinate too many", |mut cell, _| {
        cell.coords.push(0.0);
        Some(cell)
    }),
    (1, "no vertex", |mut cell, _| {
        cell.coords.clear();
        Some(cell)
    }),
    (1, "257 vertices", |mut cell, _| {
        cell.coords.resize(3 * (MOST_VERTICES + 1), 0.0);
        Some(cell)
    }),
    (1, "257 faces", |mut cell, _| {
        let end = cell.corners.len() as u32;
        cell.ends.resize(MOST_FACES + 1, end);
        Some(cell)
    }),
    (1, "2,049 corners", |mut cell, _| {
        cell.corners.resize(MOST_CORNERS + 1, 0);
        if let Some(last) = cell.ends.last_mut() {
            *last = MOST_CORNERS as u32 + 1;
        }
        Some(cell)
    }),
    (2, "not a number", |cell, random| {
        with_coordinate(cell, f64::NAN, random)
    }),
    (2, "infinite", |cell, random| {
        with_coordinate(cell, f64::INFINITY, random)
    }),
    (2, "minus infinite", |cell, random| {
        with_coordinate(cell, f64::NEG_INFINITY, random)
    }),
    (2, "just above the limit", |cell, random| {
        with_coordinate(cell, LARGEST.next_up(), random)
    }),
    (2, "just below minus the limit", |cell, random| {
        with_coordinate(cell, -LARGEST.next_up(), random)
    }),
    (3, "an end that falls", |mut cell, random| {
        let places: Vec<usize> = (1..cell.ends.len())
            .filter(|&k| cell.ends[k - 1] > 0)
            .collect();
        let place = *places.get(random.below(places.len().max(1)))?;
        cell.ends[place] = cell.ends[place - 1] - 1;
        Some(cell)
    }),
    (3, "the last end too high", |mut cell, _| {
        *cell.ends.last_mut()? += 1;
        Some(cell)
    }),
    (3, "corners after the last end", |mut cell, _| {
        cell.corners.push(0);
        (cell.corners.len() <= MOST_CORNERS).then_some(cell)
    }),
    (4, "the first corner out of range", |cell, random| {
        let vertices = cell.points().len() as u32;
        with_corner(cell, vertices, random)
    }),
    (4, "the largest corner", |cell, random| {
        with_corner(cell, u32::MAX, random)
    }),
    (5, "a face of no corner", |cell, random| {
        let place = random.below(cell.ends.len() + 1);
        let cell = cell.with_faces(|faces| faces.insert(place, Vec::new()));
        (cell.ends.len() <= MOST_FACES).then_some(cell)
    }),
];

fn with_coordinate(mut cell: Cell, value: f64, random: &mut Random) -> Option<Cell> {
    let place = random.below(cell.coords.len());
    cell.coords[place] = value;
    Some(cell)
}

fn with_corner(mut cell: Cell, number: u32, random: &mut Random) -> Option<Cell> {
    let place = random.below(cell.corners.len().max(1));
    *cell.corners.get_mut(place)? = number;
    Some(cell)
}

/// Every damage of a sound cell that the cell allows, one to a copy.
pub fn damaged(cell: &Cell, random: &mut Random) -> Vec<Damaged> {
    let mut copies = Vec::new();
    for (refusal, what, damage) in DAMAGES {
        if let Some(cell) = damage(cell.clone(), random) {
            copies.push(Damaged {
                what,
                refusal,
                cell,
            });
        }
    }
    copies
}

/// A copy with one damage at random. Some damages suit every sound cell, so one is found.
pub fn any_damaged(cell: &Cell, random: &mut Random) -> Cell {
    loop {
        let (_, _, damage) = random.pick(&DAMAGES);
        if let Some(copy) = damage(cell.clone(), random) {
            return copy;
        }
    }
}

/// A copy with two damages at once, of which the checks must name the lower. The ends and corners
/// are damaged first, for the other damages do not read them.
pub fn doubly_damaged(cell: &Cell, random: &mut Random) -> Option<Damaged> {
    let later = random.pick(&DAMAGES);
    let earlier = random.pick(&DAMAGES);
    if earlier.0 >= later.0 || earlier.0 > 2 {
        return None;
    }
    let once = later.2(cell.clone(), random)?;
    let twice = earlier.2(once, random)?;
    Some(Damaged {
        what: "two damages",
        refusal: earlier.0,
        cell: twice,
    })
}

/// A cell whose lists are each about as long as they may be, or short; some are too long. It has many
/// faces, for the cost of a cut may grow with the cube of a face's corners.
fn any_near_limits(random: &mut Random) -> Cell {
    let mut length = |shortest: usize, most: usize| match random.below(3) {
        0 => random.between(shortest, most),
        _ => random.between(most - 2, most + 2),
    };
    let vertices = length(1, MOST_VERTICES);
    let faces = length(MOST_FACES / 2, MOST_FACES);
    let corners = length(0, MOST_CORNERS);
    let points: Vec<[f64; 3]> = (0..vertices).map(|_| any_point(random)).collect();
    let mut ends: Vec<u32> = (0..faces)
        .map(|_| random.between(0, corners) as u32)
        .collect();
    ends.sort_unstable();
    ends[faces - 1] = corners as u32;
    Cell {
        coords: points.into_flattened(),
        corners: any_face(corners, vertices, random),
        ends,
    }
}

/// Hands on random cells, all damaged copies of every fourth, and now and then one near the limits.
pub fn compare_many(
    calls: &mut Calls,
    count: u64,
    seed: u64,
    mut compare: impl FnMut(&mut Calls, &Cell, &mut Random) -> Compared,
) -> Compared {
    let mut random = Random::new(seed);
    for _ in 0..count {
        let made = any(&mut random);
        calls.count("cells", made.kind);
        compare(calls, &made.cell, &mut random)?;
        if random.once_in(4) {
            let once = damaged(&made.cell, &mut random);
            let twice = doubly_damaged(&made.cell, &mut random);
            for copy in once.into_iter().chain(twice) {
                calls.count("damaged copies", copy.what);
                compare(calls, &copy.cell, &mut random)?;
            }
        }
        if random.once_in(64) {
            let cell = any_near_limits(&mut random);
            calls.count("near the limits: refused", of_cell(&cell, false));
            compare(calls, &cell, &mut random)?;
        }
    }
    Ok(())
}

#[cfg(test)]
mod tests {
    use super::*;

    #[test]
    fn cells_near_the_limits_are_sound_or_refused_for_their_size() {
        let mut random = Random::new(4);
        let refusals: Vec<Option<u8>> = (0..200)
            .map(|_| of_cell(&any_near_limits(&mut random), false))
            .collect();
        let sound = refusals.iter().filter(|refusal| refusal.is_none()).count();
        let too_long = refusals
            .iter()
            .filter(|&&refusal| refusal == Some(1))
            .count();
        assert!(sound > 20 && too_long > 20 && sound + too_long == 200);
    }
}
