//! Random cells whose backward faces are to be turned, and copies of them with one thing wrong.

use crate::cells::{self, Cell};
use crate::limits::{BAD_NUMBERS, LARGEST, MOST_CORNERS, MOST_FACES, MOST_VERTICES};
use crate::random::Random;
use crate::refusals::has_bad_ends;
use crate::turn_surfaces::{
    Contact, Surface, any_covered_twice, band, coarsened, covered_twice, grid, hemicube,
    klein_bottle, pillow, projective_plane, pyramid, refined, solid, together, torus,
};

/// A random cell and how it was made.
pub struct Made {
    pub cell: Cell,
    pub kind: &'static str,
    pub backward: Backward,
}

/// A way to make a surface, in the direction in which it is closed where it can be.
type Make = fn(&mut Random) -> Surface;

const KINDS: [(&str, Make); 20] = [
    // These can be closed.
    ("solid", solid),
    ("pyramid", pyramid),
    ("pillow", pillow),
    ("torus", torus),
    ("refined", |random| refined(any_closing(random), random)),
    ("coarsened", |random| coarsened(any_closing(random), random)),
    ("cycles one way", |random| any_covered_twice(true, random)),
    ("several groups", |random| several(any_closing, random)),
    // These cannot, mostly.
    ("Klein bottle", klein_bottle),
    ("projective plane", projective_plane),
    ("cross-caps", cross_caps),
    ("cycles either way", |random| {
        any_covered_twice(false, random)
    }),
    ("one group of several", |random| {
        several(any_one_sided, random)
    }),
    // These fail a condition, mostly.
    ("Moebius band", |random| band(random, true)),
    ("ring", |random| band(random, false)),
    ("shared sides", shared_sides),
    ("vertex doubled in a face", with_doubled_vertex),
    // These may be anything.
    ("thin faces only", thin_faces_only),
    ("full lists", full),
    ("any cell", |random| {
        Surface::of_cell(&cells::any(random).cell)
    }),
];

pub fn any(random: &mut Random) -> Made {
    let (kind, make) = random.pick(&KINDS);
    let mut surface = make(random);
    let backward = random.pick(&BACKWARD);
    backward.apply(&mut surface.faces, random);
    if random.once_in(4) {
        add_thin_faces(&mut surface, random);
    }
    drawn_otherwise(&mut surface, random);
    let cell = with_coordinates(&surface, random);
    Made {
        cell,
        kind,
        backward,
    }
}

/// Which faces run backward.
#[derive(Clone, Copy, Debug)]
pub enum Backward {
    None,
    First,
    One,
    Few,
    Half,
    All,
}

const BACKWARD: [Backward; 6] = [
    Backward::None,
    Backward::First,
    Backward::One,
    Backward::Few,
    Backward::Half,
    Backward::All,
];

impl Backward {
    fn apply(self, faces: &mut [Vec<u32>], random: &mut Random) {
        if faces.is_empty() {
            return;
        }
        let times = match self {
            Backward::None => 0,
            Backward::First => return faces[0].reverse(),
            Backward::One => 1,
            Backward::Few => 3,
            Backward::Half => faces.len(),
            Backward::All => return faces.iter_mut().for_each(|face| face.reverse()),
        };
        for _ in 0..times {
            let face = random.below(faces.len());
            faces[face].reverse();
        }
    }
}

// Kinds.

fn any_closing(random: &mut Random) -> Surface {
    let make: Make = random.pick(&[solid, pyramid, pillow, torus]);
    make(random)
}

fn any_one_sided(random: &mut Random) -> Surface {
    let make: Make = random.pick(&[klein_bottle, projective_plane]);
    make(random)
}

/// A surface of the given kind and some that can be closed, apart or with a vertex in common.
fn several(make: Make, random: &mut Random) -> Surface {
    let mut all = make(random);
    for _ in 0..random.between(1, 4) {
        let other = any_closing(random);
        let contact = random.pick(&[Contact::Apart, Contact::Vertex]);
        all = together(&all, &other, contact, random).unwrap_or(all);
    }
    all
}

/// A surface with projective planes put in the place of faces.
fn cross_caps(random: &mut Random) -> Surface {
    let make: Make = random.pick(&[solid, pyramid, torus]);
    let mut surface = make(random);
    for _ in 0..random.between(1, 3) {
        let mut caps = [hemicube(), projective_plane(random)];
        random.shuffle(&mut caps);
        let mut put = caps
            .iter()
            .filter_map(|cap| together(&surface, cap, Contact::Opened, random));
        surface = put.next().unwrap_or(surface);
    }
    surface
}

/// Two surfaces with a side or a face in common, or one with a face that occurs twice.
fn shared_sides(random: &mut Random) -> Surface {
    let mut surface = any_closing(random);
    let contact = random.pick(&[Contact::Side, Contact::Wall, Contact::DoubleWall]);
    let other = any_closing(random);
    match together(&surface, &other, contact, random) {
        Some(both) => both,
        None => {
            let doubled = surface.faces[random.below(surface.faces.len())].clone();
            surface.faces.push(doubled);
            surface
        }
    }
}

/// Two vertices that are drawn as one, mostly two of one face; or a corner that is drawn twice.
fn with_doubled_vertex(random: &mut Random) -> Surface {
    let mut surface = refined(any_closing(random), random);
    let face = random.below(surface.faces.len());
    let one = random.pick(&surface.faces[face]);
    let other = random.pick(&surface.faces[face]);
    if random.once_in(4) {
        let place = random.below(surface.faces[face].len());
        surface.faces[face].insert(place, one);
    } else {
        let corners = surface.faces.iter_mut().flatten();
        corners
            .filter(|corner| **corner == other)
            .for_each(|corner| *corner = one);
    }
    surface
}

fn thin_faces_only(random: &mut Random) -> Surface {
    let mut surface = Surface {
        vertices: random.between(1, 9) as u32,
        faces: Vec::new(),
    };
    for _ in 0..random.between(0, 3) {
        add_thin_faces(&mut surface, random);
    }
    surface
}

/// Adds faces of no, one or two corners. Those of two corners mostly have a vertex of their own, and are
/// alone on their side.
fn add_thin_faces(surface: &mut Surface, random: &mut Random) {
    for _ in 0..random.between(1, 3) {
        let vertices = surface.vertices as usize;
        let face = match random.below(6) {
            0 | 1 => cells::any_face(random.below(2), vertices, random),
            2 => cells::any_face(2, vertices, random),
            _ => {
                surface.vertices += 1;
                vec![random.below(vertices) as u32, surface.vertices - 1]
            }
        };
        let place = random.below(surface.faces.len() + 1);
        surface.faces.insert(place, face);
    }
}

/// Lists as long as they may be, or one longer.
fn full(random: &mut Random) -> Surface {
    let most = MOST_VERTICES as u32;
    let turned_over = random.once_in(2);
    let mut surface = match random.below(4) {
        0 => grid(16, 16, turned_over),
        1 => long_pillows(),
        2 => covered_twice(most, MOST_CORNERS / 2, random.once_in(2), random),
        _ => several(any_closing, random),
    };
    let more: [usize; 3] = random.pick(&[[0; 3], [0; 3], [1, 0, 0], [0, 1, 0], [0, 0, 1]]);
    if random.once_in(2) {
        surface.vertices = surface.vertices.max(most + more[0] as u32);
    }
    if random.once_in(2) {
        let corner = random.below(most as usize) as u32 % surface.vertices;
        while surface.corners() < MOST_CORNERS + more[1] && surface.faces.len() < MOST_FACES {
            surface.faces.push(vec![corner]);
        }
    }
    if random.once_in(2) {
        let faces = surface.faces.len().max(MOST_FACES + more[2]);
        surface.faces.resize(faces, Vec::new());
    }
    surface
}

/// Four pillows over the same 256 vertices, 2,048 corners in all: each goes round in steps of its own.
fn long_pillows() -> Surface {
    let vertices = MOST_VERTICES as u32;
    let round = |step: u32| -> Vec<u32> {
        let places = 0..vertices;
        places.map(|place| place * step % vertices).collect()
    };
    let faces = [1, 3, 5, 7].into_iter().flat_map(|step| {
        let face = round(step);
        let behind = face.iter().rev().copied().collect();
        [face, behind]
    });
    Surface {
        vertices,
        faces: faces.collect(),
    }
}

// How a surface is drawn.

/// Puts the faces into another order, begins them at other corners and numbers the vertices anew, some
/// of them of no use.
fn drawn_otherwise(surface: &mut Surface, random: &mut Random) {
    if !random.once_in(4) {
        random.shuffle(&mut surface.faces);
    }
    if !random.once_in(4) {
        for face in surface.faces.iter_mut().filter(|face| !face.is_empty()) {
            let place = random.below(face.len());
            face.rotate_left(place);
        }
    }
    if random.once_in(4) && surface.vertices < MOST_VERTICES as u32 {
        surface.vertices += 1;
    }
    if !random.once_in(4) {
        let mut numbers: Vec<u32> = (0..surface.vertices).collect();
        random.shuffle(&mut numbers);
        let corners = surface.faces.iter_mut().flatten();
        corners.for_each(|corner| *corner = numbers[*corner as usize]);
    }
}

/// Random points; now and then a coordinate at the limit of the domain or outside.
fn with_coordinates(surface: &Surface, random: &mut Random) -> Cell {
    let vertices = 0..surface.vertices;
    let points: Vec<[f64; 3]> = vertices.map(|_| cells::any_point(random)).collect();
    let mut cell = Cell::new(&points, &surface.faces);
    let place = random.below(cell.coords.len());
    match random.below(32) {
        0 => cell.coords[place] = random.pick(&BAD_NUMBERS),
        1 => cell.coords[place] = f64::NEG_INFINITY,
        2 | 3 => cell.coords[place] = random.pick(&[LARGEST, -LARGEST]),
        4 => cell.coords.fill(-0.0),
        _ => {}
    }
    cell
}

// One thing wrong.

/// A way to draw a cell wrongly, or `None` where the cell has nothing to draw so.
type Mishap = fn(Cell, &mut Random) -> Option<Cell>;

const MISHAPS: [(&str, Mishap); 9] = [
    ("a corner changed", |mut cell, random| {
        let place = random.below(cell.corners.len().max(1));
        let vertex = random.below(cell.points().len()) as u32;
        *cell.corners.get_mut(place)? = vertex;
        Some(cell)
    }),
    ("a corner doubled", |cell, random| {
        let face = any_of_corners(&cell, 1, random)?;
        Some(cell.with_faces(|faces| {
            let corner = random.pick(&faces[face]);
            let place = random.below(faces[face].len() + 1);
            faces[face].insert(place, corner);
        }))
    }),
    ("a corner left out", |cell, random| {
        let face = any_of_corners(&cell, 1, random)?;
        Some(cell.with_faces(|faces| {
            let place = random.below(faces[face].len());
            faces[face].remove(place);
        }))
    }),
    ("two corners swapped", |cell, random| {
        let face = any_of_corners(&cell, 2, random)?;
        Some(cell.with_faces(|faces| {
            let places = [(); 2].map(|()| random.below(faces[face].len()));
            faces[face].swap(places[0], places[1]);
        }))
    }),
    ("a face removed", |cell, random| {
        let face = any_of_corners(&cell, 0, random)?;
        Some(cell.with_faces(|faces| {
            faces.remove(face);
        }))
    }),
    ("a face doubled", |cell, random| {
        let face = any_of_corners(&cell, 0, random)?;
        Some(cell.with_faces(|faces| {
            let place = random.below(faces.len() + 1);
            faces.insert(place, faces[face].clone());
        }))
    }),
    ("a face doubled from behind", |cell, random| {
        let face = any_of_corners(&cell, 0, random)?;
        Some(cell.with_faces(|faces| {
            let behind = faces[face].iter().rev().copied().collect();
            faces.insert(random.below(faces.len() + 1), behind);
        }))
    }),
    ("an end moved", |mut cell, random| {
        let last = cell.ends.len().checked_sub(1)?;
        let place = random.below(last.max(1));
        let low = place.checked_sub(1).map_or(0, |before| cell.ends[before]);
        let high = *cell.ends.get(place + 1)?;
        let end = &mut cell.ends[place];
        let moved = [end.saturating_sub(1), *end + 1];
        *end = random.pick(&moved).clamp(low, high);
        Some(cell)
    }),
    ("an end left out", |mut cell, random| {
        let last = cell.ends.len().checked_sub(1)?;
        cell.ends.remove(random.below(last.max(1)));
        (!has_bad_ends(&cell)).then_some(cell)
    }),
];

/// A face of at least so many corners.
fn any_of_corners(cell: &Cell, least: usize, random: &mut Random) -> Option<usize> {
    let numbers = 0..cell.ends.len();
    let fitting: Vec<usize> = numbers
        .filter(|&number| cell.face(number as u32).len() >= least)
        .collect();
    fitting.get(random.below(fitting.len().max(1))).copied()
}

/// Every mishap that a sound cell allows, one to a copy.
pub fn mishaps(cell: &Cell, random: &mut Random) -> Vec<(&'static str, Cell)> {
    let mut copies = Vec::new();
    for (what, mishap) in MISHAPS {
        if let Some(copy) = mishap(cell.clone(), random) {
            copies.push((what, copy));
        }
    }
    copies
}

#[cfg(test)]
mod tests {
    use super::*;
    use crate::refusals;
    use crate::turn_judge::turned;

    /// How often a kind is refused with a number, 0 for none, out of 200 that are only made.
    fn answers(make: Make) -> [usize; 13] {
        let mut random = Random::new(5);
        let mut answers = [0; 13];
        for _ in 0..200 {
            let surface = make(&mut random);
            let points = vec![[0.0; 3]; surface.vertices as usize];
            let judged = turned(&Cell::new(&points, &surface.faces));
            let number = judged.as_ref().err().copied().unwrap_or(0);
            if let Ok(turned) = judged {
                assert_eq!(
                    turned.reversals, 0,
                    "made with a face backward: {surface:?}"
                );
            }
            answers[usize::from(number)] += 1;
        }
        answers
    }

    #[test]
    fn surfaces_are_what_they_are_made_for() {
        for make in [solid, pyramid, pillow, torus] {
            assert_eq!(answers(make)[0], 200);
        }
        assert_eq!(answers(|random| any_covered_twice(true, random))[0], 200);
        assert_eq!(answers(|random| several(any_closing, random))[0], 200);
        assert_eq!(
            answers(|random| coarsened(any_closing(random), random))[0],
            200
        );
        assert!(answers(|random| refined(any_closing(random), random))[0] > 150);
        for make in [klein_bottle, projective_plane] {
            assert_eq!(answers(make)[12], 200);
        }
        assert_eq!(answers(|random| several(any_one_sided, random))[12], 200);
        assert!(answers(cross_caps)[12] > 150);
        assert_eq!(answers(|random| band(random, true))[11], 200);
        assert_eq!(answers(|random| band(random, false))[11], 200);
        assert_eq!(answers(shared_sides)[11], 200);
    }

    #[test]
    fn cycles_either_way_are_refused_12_or_turned() {
        let mut random = Random::new(6);
        let mut met = [0; 13];
        for _ in 0..500 {
            let surface = any_covered_twice(false, &mut random);
            let points = vec![[0.0; 3]; surface.vertices as usize];
            let judged = turned(&Cell::new(&points, &surface.faces));
            met[usize::from(judged.err().unwrap_or(0))] += 1;
        }
        assert!(
            met[0] > 50 && met[12] > 50 && met[0] + met[12] == 500,
            "{met:?}"
        );
    }

    #[test]
    fn full_lists_are_full_or_too_long() {
        let mut random = Random::new(8);
        let mut met = [false; 13];
        let mut fullest = [0; 3];
        for _ in 0..500 {
            let surface = full(&mut random);
            let points = vec![[0.0; 3]; surface.vertices as usize];
            let cell = Cell::new(&points, &surface.faces);
            let judged = turned(&cell);
            if judged.is_ok() {
                let lengths = [points.len(), cell.ends.len(), cell.corners.len()];
                fullest = [0, 1, 2].map(|list| fullest[list].max(lengths[list]));
            }
            met[usize::from(judged.err().unwrap_or(0))] = true;
        }
        assert!(met[0] && met[1] && met[12]);
        assert_eq!(fullest, [MOST_VERTICES, MOST_FACES, MOST_CORNERS]);
    }

    #[test]
    fn mishaps_pass_the_first_four_checks() {
        let mut random = Random::new(9);
        for _ in 0..500 {
            let made = any(&mut random);
            if refusals::of_cell(&made.cell, false).is_none() {
                for (what, copy) in mishaps(&made.cell, &mut random) {
                    let refusal = refusals::of_cell(&copy, false);
                    // A full list may become too long.
                    assert!(matches!(refusal, None | Some(1)), "{what}: {copy:?}");
                }
            }
        }
    }
}
