//! Surfaces to be turned: faces over vertices that are numbered from 0, without coordinates.
//!
//! Those that can be closed are made closed; which faces run backward is decided later.

use std::collections::{BTreeMap, BTreeSet};

use crate::cells::{self, Cell};
use crate::random::Random;
use crate::turn_judge::{Side, holds_a_vertex_twice, occurrences, sides};

#[derive(Clone, Debug)]
pub struct Surface {
    pub vertices: u32,
    pub faces: Vec<Vec<u32>>,
}

impl Surface {
    pub fn of_cell(cell: &Cell) -> Surface {
        Surface {
            vertices: cell.points().len() as u32,
            faces: cell.faces(),
        }
    }

    fn of_triangles(vertices: u32, triangles: &[[u32; 3]]) -> Surface {
        let faces = triangles.iter().map(|face| face.to_vec()).collect();
        Surface { vertices, faces }
    }

    pub fn corners(&self) -> usize {
        self.faces.iter().map(Vec::len).sum()
    }
}

// Surfaces that can be closed.

/// A box, a tetrahedron, a prism, a sphere and the like.
pub fn solid(random: &mut Random) -> Surface {
    Surface::of_cell(&cells::any_convex(random).cell)
}

pub fn pyramid(random: &mut Random) -> Surface {
    let sides = random.between(3, 24) as u32;
    let mut faces = vec![(0..sides).rev().collect()];
    faces.extend((0..sides).map(|side| vec![side, (side + 1) % sides, sides]));
    let vertices = sides + 1;
    Surface { vertices, faces }
}

/// Two equal faces back to back.
pub fn pillow(random: &mut Random) -> Surface {
    let vertices = random.between(3, 9) as u32;
    let faces = vec![(0..vertices).collect(), (0..vertices).rev().collect()];
    Surface { vertices, faces }
}

pub fn torus(random: &mut Random) -> Surface {
    if random.once_in(8) {
        return seven_vertices();
    }
    grid(
        random.between(3, 7) as u32,
        random.between(3, 7) as u32,
        false,
    )
}

/// A torus in which every two vertices are joined.
fn seven_vertices() -> Surface {
    let at = |vertex: u32| vertex % 7;
    let two = |i: u32| [[i, at(i + 1), at(i + 3)], [i, at(i + 3), at(i + 2)]];
    Surface::of_triangles(7, (0..7).map(two).collect::<Vec<_>>().as_flattened())
}

/// A grid whose last row meets the first, and whose last column meets the first as it is, or turned
/// over: a torus or a Klein bottle.
pub fn grid(columns: u32, rows: u32, turned_over: bool) -> Surface {
    let at = |column: u32, row: u32| {
        let over = turned_over && column == columns;
        let row = if over { 2 * rows - row } else { row };
        column % columns * rows + row % rows
    };
    let mut faces = Vec::new();
    for column in 0..columns {
        for row in 0..rows {
            let (right, up) = (column + 1, row + 1);
            faces.push(vec![
                at(column, row),
                at(right, row),
                at(right, up),
                at(column, up),
            ]);
        }
    }
    let vertices = columns * rows;
    Surface { vertices, faces }
}

// Surfaces that cannot.

pub fn klein_bottle(random: &mut Random) -> Surface {
    grid(
        random.between(3, 7) as u32,
        random.between(3, 7) as u32,
        true,
    )
}

pub fn projective_plane(random: &mut Random) -> Surface {
    match random.below(3) {
        0 => hemicube(),
        1 => Surface::of_triangles(6, &HEMI_ICOSAHEDRON),
        _ => disc_with_opposite_points_joined(
            random.between(2, 4) as u32,
            random.between(3, 6) as u32,
        ),
    }
}

pub fn hemicube() -> Surface {
    let faces = vec![vec![0, 1, 2, 3], vec![0, 1, 3, 2], vec![0, 2, 1, 3]];
    Surface { vertices: 4, faces }
}

const HEMI_ICOSAHEDRON: [[u32; 3]; 10] = [
    [0, 1, 2],
    [0, 2, 3],
    [0, 3, 4],
    [0, 4, 5],
    [0, 5, 1],
    [1, 2, 4],
    [2, 3, 5],
    [3, 4, 1],
    [4, 5, 2],
    [5, 1, 3],
];

/// Rings about a pole, each of twice so many vertices; on the last, opposite points are one vertex.
fn disc_with_opposite_points_joined(rings: u32, half: u32) -> Surface {
    let round = 2 * half;
    let at = |ring: u32, place: u32| {
        let round = if ring == rings { half } else { round };
        1 + (ring - 1) * 2 * half + place % round
    };
    let mut faces = Vec::new();
    for place in 0..round {
        let next = place + 1;
        faces.push(vec![0, at(1, place), at(1, next)]);
        for ring in 1..rings {
            let out = ring + 1;
            faces.push(vec![
                at(ring, next),
                at(ring, place),
                at(out, place),
                at(out, next),
            ]);
        }
    }
    let vertices = 1 + (rings - 1) * round + half;
    Surface { vertices, faces }
}

// Surfaces with a border.

/// A band of faces side by side, whose ends meet as they are or turned over.
pub fn band(random: &mut Random, turned_over: bool) -> Surface {
    let columns = random.between(3, 12) as u32;
    let at = |column: u32, row: u32| {
        let over = turned_over && column == columns;
        column % columns * 2 + if over { 1 - row } else { row }
    };
    let face = |column| {
        let right = column + 1;
        vec![at(column, 0), at(right, 0), at(right, 1), at(column, 1)]
    };
    Surface {
        vertices: 2 * columns,
        faces: (0..columns).map(face).collect(),
    }
}

// Surfaces out of cycles.

/// Cycles whose sides all differ, and other cycles over the same sides: each side occurs twice, and no
/// face holds a vertex twice. Where the other cycles run along the sides one way, they close the first
/// ones from behind; where they run either way, there is mostly no choice that closes.
pub fn covered_twice(
    vertices: u32,
    most_sides: usize,
    one_way: bool,
    random: &mut Random,
) -> Surface {
    let first = any_cycles(vertices, most_sides, random);
    let mut second = cycles_anew(&first, one_way, random);
    second.iter_mut().for_each(|face| face.reverse());
    let faces = [first, second].concat();
    Surface { vertices, faces }
}

/// A covering of any size that a cell may have.
pub fn any_covered_twice(one_way: bool, random: &mut Random) -> Surface {
    let vertices = random.between(3, 20) as u32;
    let most_sides = random.between(3, 60);
    covered_twice(vertices, most_sides, one_way, random)
}

/// Random cycles over sides that are not used before, as many as are found in some tries.
fn any_cycles(vertices: u32, most_sides: usize, random: &mut Random) -> Vec<Vec<u32>> {
    let mut used: BTreeSet<Side> = BTreeSet::new();
    let mut cycles = Vec::new();
    for _ in 0..8 + most_sides / 2 {
        let left = most_sides - used.len();
        if left < 3 {
            break;
        }
        let longest = left.min(vertices as usize).min(12);
        let mut cycle: Vec<u32> = (0..vertices).collect();
        random.shuffle(&mut cycle);
        cycle.truncate(random.between(3, longest));
        if sides(&cycle).all(|side| !used.contains(&side)) {
            used.extend(sides(&cycle));
            cycles.push(cycle);
        }
    }
    cycles
}

/// Walks along the sides of cycles, each once, and cuts off a cycle whenever a vertex comes again.
fn cycles_anew(cycles: &[Vec<u32>], one_way: bool, random: &mut Random) -> Vec<Vec<u32>> {
    let mut onward: BTreeMap<u32, Vec<u32>> = BTreeMap::new();
    for cycle in cycles {
        for (place, &from) in cycle.iter().enumerate() {
            let to = cycle[(place + 1) % cycle.len()];
            onward.entry(from).or_default().push(to);
            if !one_way {
                onward.entry(to).or_default().push(from);
            }
        }
    }
    let mut found = Vec::new();
    for start in onward.keys().copied().collect::<Vec<u32>>() {
        let mut walk = vec![start];
        while let Some(next) = taken_any(&mut onward, walk[walk.len() - 1], random) {
            if !one_way {
                let back = onward
                    .get_mut(&next)
                    .expect("sides are listed from both ends");
                back.retain(|&to| to != walk[walk.len() - 1]);
            }
            match walk.iter().position(|&vertex| vertex == next) {
                None => walk.push(next),
                Some(place) => {
                    found.push(walk[place..].to_vec());
                    walk.truncate(place + 1);
                }
            }
        }
    }
    found
}

/// Takes one of the sides that go on from a vertex.
fn taken_any(onward: &mut BTreeMap<u32, Vec<u32>>, from: u32, random: &mut Random) -> Option<u32> {
    let ways = onward.get_mut(&from)?;
    if ways.is_empty() {
        return None;
    }
    Some(ways.swap_remove(random.below(ways.len())))
}

// Changes that leave a closed surface closed.

/// Splits sides and faces, puts vertices into faces, and makes one face of two, at random.
pub fn refined(mut surface: Surface, random: &mut Random) -> Surface {
    for _ in 0..random.between(1, 12) {
        let face = random.below(surface.faces.len());
        match random.below(4) {
            0 => split_side(&mut surface, face, random),
            1 => split_face(&mut surface, face, random),
            2 => put_vertex(&mut surface, face),
            _ => merge_any(&mut surface, random),
        }
    }
    surface
}

/// Makes one face of two, many times over.
pub fn coarsened(mut surface: Surface, random: &mut Random) -> Surface {
    for _ in 0..random.between(1, surface.faces.len()) {
        merge_any(&mut surface, random);
    }
    surface
}

/// A new vertex on one side of a face, in every face that has this side.
fn split_side(surface: &mut Surface, face: usize, random: &mut Random) {
    let all: Vec<Side> = sides(&surface.faces[face]).collect();
    let split = random.pick(&all);
    for face in &mut surface.faces {
        let places = sides(face).enumerate();
        let places: Vec<usize> = places
            .filter(|&(_, side)| side == split)
            .map(|(place, _)| place + 1)
            .collect();
        for &place in places.iter().rev() {
            face.insert(place, surface.vertices);
        }
    }
    surface.vertices += 1;
}

/// Cuts a face in two, from a corner to another that is not beside it. Now and then there is such a
/// side already.
fn split_face(surface: &mut Surface, face: usize, random: &mut Random) {
    let corners = &mut surface.faces[face];
    if corners.len() < 4 {
        return;
    }
    corners.rotate_left(random.below(4));
    let other = random.between(2, corners.len() - 2);
    let mut second = corners.split_off(other);
    second.push(corners[0]);
    corners.push(second[0]);
    surface.faces.push(second);
}

/// A new vertex in the middle of a face, joined to its corners.
fn put_vertex(surface: &mut Surface, face: usize) {
    let corners = surface.faces.swap_remove(face);
    for (place, &corner) in corners.iter().enumerate() {
        let next = corners[(place + 1) % corners.len()];
        surface.faces.push(vec![corner, next, surface.vertices]);
    }
    surface.vertices += 1;
}

/// Makes one face of two that share a side, if that holds no vertex twice.
fn merge_any(surface: &mut Surface, random: &mut Random) {
    let all: Vec<Side> = occurrences(&surface.faces).into_keys().collect();
    let side = random.pick(&all);
    if let Some(faces) = merged(&surface.faces, side) {
        surface.faces = faces;
    }
}

/// The two faces that have a side, where there are two.
pub fn both_on(faces: &[Vec<u32>], side: Side) -> Option<[usize; 2]> {
    let has_it = |&face: &usize| sides(&faces[face]).any(|other| other == side);
    let both: Vec<usize> = (0..faces.len()).filter(has_it).collect();
    both.try_into().ok()
}

/// The faces with those two made one that have a side, where the new one holds no vertex twice. It
/// takes the place and the direction of the first.
pub fn merged(faces: &[Vec<u32>], side: Side) -> Option<Vec<Vec<u32>>> {
    let [first, second] = both_on(faces, side)?;
    // Each begins where the side ends, so the side runs from its last corner to its first.
    let mut kept = beginning_after(&faces[first], side);
    let mut added = beginning_after(&faces[second], side);
    if added[0] == kept[0] {
        added.reverse();
    }
    kept.extend(&added[1..added.len() - 1]);
    if holds_a_vertex_twice(&kept) {
        return None;
    }
    let mut faces = faces.to_vec();
    faces[first] = kept;
    faces.remove(second);
    Some(faces)
}

fn beginning_after(face: &[u32], side: Side) -> Vec<u32> {
    let place = sides(face).position(|other| other == side);
    let place = place.expect("the face has the side");
    let mut face = face.to_vec();
    let length = face.len();
    face.rotate_left((place + 1) % length);
    face
}

// Two surfaces in one.

/// How a second surface stands to the first.
#[derive(Clone, Copy, Debug)]
pub enum Contact {
    Apart,
    /// They share one vertex.
    Vertex,
    /// They share two corners in a row, so that their side occurs four times.
    Side,
    /// They share a face: it is dropped from both, and a closed surface is left.
    Opened,
    /// They share a face, which one has. Its sides occur three times.
    Wall,
    /// They share a face, which both have. Its sides occur four times.
    DoubleWall,
}

/// Both surfaces, the faces of the second behind those of the first. None where a face is to be shared
/// and no two have as many corners.
pub fn together(
    first: &Surface,
    second: &Surface,
    contact: Contact,
    random: &mut Random,
) -> Option<Surface> {
    let (mut faces, mut others) = (first.faces.clone(), second.faces.clone());
    let shares = |one: &[u32], other: &[u32]| match contact {
        Contact::Apart => Some(0),
        Contact::Vertex => Some(1),
        Contact::Side => Some(2),
        Contact::Opened | Contact::Wall | Contact::DoubleWall => {
            (one.len() == other.len()).then_some(one.len())
        }
    };
    let mut meeting = Vec::new();
    for (one, face) in faces.iter().enumerate() {
        for (other, face_behind) in others.iter().enumerate() {
            meeting.extend(shares(face, face_behind).map(|shared| (one, other, shared)));
        }
    }
    if meeting.is_empty() {
        return None;
    }
    let (one, other, shared) = random.pick(&meeting);
    // The shared face lies in the second as it is seen from behind.
    let from_behind = faces[one].iter().rev();
    let mut numbers: BTreeMap<u32, u32> = BTreeMap::new();
    numbers.extend(
        others[other]
            .iter()
            .copied()
            .zip(from_behind.copied())
            .take(shared),
    );
    let mut vertices = first.vertices;
    for corner in others.iter_mut().flatten() {
        *corner = *numbers.entry(*corner).or_insert_with(|| {
            vertices += 1;
            vertices - 1
        });
    }
    if matches!(contact, Contact::Opened | Contact::Wall) {
        others.remove(other);
    }
    if matches!(contact, Contact::Opened) {
        faces.remove(one);
    }
    faces.extend(others);
    Some(Surface { vertices, faces })
}
