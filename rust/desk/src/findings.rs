//! What the library answers of a cell, and which of its sides and faces are to be looked at.

use std::collections::BTreeMap;

use wegrusamt::{Cell, CellBuf, Refusal, space};

/// What was found about a cell: its measures, or why the library refuses it.
pub type Findings = Result<Measured, Refusal>;

/// A cell that the library measures.
#[derive(Clone, Debug, PartialEq)]
pub struct Measured {
    /// The volume.
    pub volume: f64,
    /// Whether the cell is closed.
    pub closed: bool,
    /// The faces that lie against the others: turned, they close the cell.
    pub against: Vec<usize>,
    /// The sides that run more often one way than the other, by the numbers of their vertices.
    pub torn: Vec<Side>,
    /// Why no turning of faces closes the cell, where none does.
    pub unturnable: Option<Refusal>,
    /// The faces that are cut short.
    pub short: Vec<ShortFace>,
    /// How many groups its faces form that no side joins, those under three corners not counted.
    pub groups: usize,
    /// What the cell measures about a local origin, where a face is cut short; a refusal where the
    /// moved cell is beyond the limits.
    pub local: Option<Result<Local, Refusal>>,
}

/// A side that runs more often one way than the other.
#[derive(Clone, Copy, Debug, PartialEq, Eq)]
pub struct Side {
    /// The vertex from which it runs more often.
    pub from: u32,
    /// The vertex to which it then runs.
    pub to: u32,
    /// How often it runs that way.
    pub there: usize,
    /// How often it runs back, less than there.
    pub back: usize,
}

/// A face that gave fewer triangles than it should.
#[derive(Clone, Debug, PartialEq, Eq)]
pub struct ShortFace {
    /// The face.
    pub face: usize,
    /// How many triangles it gave.
    pub triangles: usize,
    /// The vertices of the ring that the cut left.
    pub left: Vec<u32>,
}

/// What a cell measures when it has been moved to a local origin.
#[derive(Clone, Debug, PartialEq)]
pub struct Local {
    /// The whole numbers that were taken off every vertex.
    pub vector: [f64; 3],
    /// For each axis whether the move along it was exact; where it is not, nothing was moved along it.
    pub exact: [bool; 3],
    /// How many faces are cut short there.
    pub short: usize,
    /// The volume there.
    pub volume: f64,
}

impl Measured {
    /// Whether the cell has a surface, is closed, and every face is fully cut.
    pub fn is_sound(&self) -> bool {
        self.groups > 0 && self.closed && self.short.is_empty()
    }
}

/// Has the library measure a cell, and finds what is to be looked at.
pub fn examine(cell: &CellBuf) -> Findings {
    let asked = cell.as_cell();
    let survey = asked.survey(&[])?;
    let mut found = Measured {
        volume: survey.volume,
        closed: survey.closed,
        against: Vec::new(),
        torn: Vec::new(),
        unturnable: None,
        short: Vec::new(),
        groups: surfaces(asked),
        local: None,
    };
    if !survey.closed {
        found.torn = torn_sides(asked);
        match against_the_others(asked) {
            Ok(faces) => found.against = faces,
            Err(refusal) => found.unturnable = Some(refusal),
        }
    }
    if survey.short > 0 {
        found.short = short_faces(asked)?;
        found.local = Some(about_local_origin(cell));
    }
    Ok(found)
}

/// The sides of a face: from each corner to the next and from the last to the first, where the two
/// differ.
pub fn sides(face: &[u32]) -> impl Iterator<Item = (u32, u32)> + '_ {
    let next = face.iter().cycle().skip(1);
    face.iter().zip(next).map(|(&i, &j)| (i, j)).filter(|(i, j)| i != j)
}

/// The sides that run more often one way than the other, in the order of their lower and then their
/// higher vertex.
fn torn_sides(cell: Cell<'_>) -> Vec<Side> {
    // For each side without direction: how often it runs up, and how often down.
    let mut runs: BTreeMap<(u32, u32), [usize; 2]> = BTreeMap::new();
    for (i, j) in cell.faces().flat_map(sides) {
        runs.entry((i.min(j), i.max(j))).or_default()[usize::from(i > j)] += 1;
    }
    let torn = runs.into_iter().filter(|(_, [up, down])| up != down);
    torn.map(|((low, high), [up, down])| {
        let (from, to) = if up > down { (low, high) } else { (high, low) };
        Side { from, to, there: up.max(down), back: up.min(down) }
    })
    .collect()
}

/// The faces that lie against the others: of each group of faces joined by sides the smaller part,
/// of the two that `turn_faces` tells apart. Where they are of one size it is the part that
/// `turn_faces` reverses.
pub fn against_the_others(cell: Cell<'_>) -> Result<Vec<usize>, Refusal> {
    let (turned, _) = cell.turn_faces()?;
    let reversed: Vec<bool> = {
        let after = Cell::new(cell.points, &turned, cell.ends);
        cell.faces().zip(after.faces()).map(|(f, g)| f != g).collect()
    };
    let group = groups(cell);
    let mut parts = vec![[0usize; 2]; reversed.len()];
    for (face, &turns) in reversed.iter().enumerate() {
        parts[group[face]][usize::from(turns)] += 1;
    }
    let named = |&face: &usize| {
        let [kept, turns] = parts[group[face]];
        reversed[face] == (turns <= kept)
    };
    Ok((0..reversed.len()).filter(named).collect())
}

/// How many groups have a face of three corners or more: the others have no surface.
pub fn surfaces(cell: Cell<'_>) -> usize {
    let group = groups(cell);
    let mut with_surface = vec![false; group.len()];
    for (face, corners) in cell.faces().enumerate() {
        with_surface[group[face]] |= corners.len() > 2;
    }
    with_surface.into_iter().filter(|&surface| surface).count()
}

/// For each face the lowest face of its group, of those joined by sides.
fn groups(cell: Cell<'_>) -> Vec<usize> {
    fn lowest(of: &mut [usize], mut face: usize) -> usize {
        while of[face] != face {
            of[face] = of[of[face]];
            face = of[face];
        }
        face
    }
    // Faces that have a side stand behind each other once the sides are in order.
    let mut having: Vec<(u32, u32, usize)> = Vec::with_capacity(cell.corners.len());
    for (face, corners) in cell.faces().enumerate() {
        having.extend(sides(corners).map(|(i, j)| (i.min(j), i.max(j), face)));
    }
    having.sort_unstable();
    let mut of: Vec<usize> = (0..cell.ends.len()).collect();
    for pair in having.windows(2) {
        let [(a, b, face), (c, d, other)] = [pair[0], pair[1]];
        if (a, b) == (c, d) {
            let [low, high] = [face, other].map(|face| lowest(&mut of, face));
            of[low.max(high)] = low.min(high);
        }
    }
    (0..of.len()).map(|face| lowest(&mut of, face)).collect()
}

/// The faces of three corners or more that give fewer triangles than their corners less two.
fn short_faces(cell: Cell<'_>) -> Result<Vec<ShortFace>, Refusal> {
    let mut short = Vec::new();
    for (face, corners) in cell.faces().enumerate() {
        let triangles = cell.triangles(face)?.triangles;
        if triangles.len() + 2 < corners.len() {
            let left = ring_left(corners, &triangles);
            short.push(ShortFace { face, triangles: triangles.len(), left });
        }
    }
    Ok(short)
}

/// The ring that is left of a face when its triangles are cut off: each takes its middle corner.
fn ring_left(corners: &[u32], triangles: &[[u32; 3]]) -> Vec<u32> {
    let mut ring = corners.to_vec();
    for &[a, b, c] in triangles {
        let n = ring.len();
        let tip = (0..n).find(|&k| [ring[(k + n - 1) % n], ring[k], ring[(k + 1) % n]] == [a, b, c]);
        if let Some(tip) = tip {
            ring.remove(tip);
        }
    }
    ring
}

/// Measures the cell about a local origin. Where it cannot be moved exactly as a whole, each axis is
/// moved by itself, with the other coordinates set to 0 in the call, as docs/LIMITS.md says.
fn about_local_origin(cell: &CellBuf) -> Result<Local, Refusal> {
    let mut moved = cell.clone();
    let (vector, exact) = match moved.to_local() {
        Ok(vector) => (vector, [true; 3]),
        Err(Refusal::Inexact) => axis_by_axis(&mut moved.points),
        Err(refusal) => return Err(refusal),
    };
    let survey = moved.as_cell().survey(&[])?;
    Ok(Local { vector, exact, short: survey.short, volume: survey.volume })
}

/// Moves the points along each axis along which that is exact, and answers what was taken off and
/// which axes these are.
fn axis_by_axis(points: &mut [[f64; 3]]) -> ([f64; 3], [bool; 3]) {
    let (mut vector, mut exact) = ([0.0; 3], [false; 3]);
    for axis in 0..3 {
        let mut along: Vec<[f64; 3]> =
            points.iter().map(|point| std::array::from_fn(|k| if k == axis { point[k] } else { 0.0 })).collect();
        // Only 15 is refused here: a list that passed 1 and 2 passes them with 0 in place of some coordinates.
        if let Ok(taken) = space::to_local(&mut along) {
            (vector[axis], exact[axis]) = (taken[axis], true);
            for (point, moved) in points.iter_mut().zip(&along) {
                point[axis] = moved[axis];
            }
        }
    }
    (vector, exact)
}

#[cfg(test)]
mod tests {
    use super::*;

    /// The faces of a tetrahedron over four vertices, all outward.
    const TETRAHEDRON: [[u32; 3]; 4] = [[0, 2, 1], [0, 1, 3], [1, 2, 3], [2, 0, 3]];

    /// Two tetrahedra in one cell, with the faces that are named traced backward.
    fn two_groups(backward: &[usize]) -> CellBuf {
        let points = [[0.0; 3], [1.0, 0.0, 0.0], [0.0, 1.0, 0.0], [0.0, 0.0, 1.0]];
        let far = points.map(|[x, y, z]| [x + 5.0, y, z]);
        let mut faces: Vec<[u32; 3]> = TETRAHEDRON.to_vec();
        faces.extend(TETRAHEDRON.map(|face| face.map(|corner| corner + 4)));
        backward.iter().for_each(|&face| faces[face].reverse());
        CellBuf::from_faces([points, far].concat(), faces)
    }

    #[test]
    fn of_each_group_the_smaller_part_is_named() {
        // What is traced backward, and what is named: of the second group the larger part is backward.
        let cases: [(&[usize], &[usize]); 6] = [
            (&[], &[]),
            (&[2], &[2]),
            (&[0], &[0]),
            (&[1, 4, 5, 6], &[1, 7]),
            (&[0, 1, 2, 3], &[]),
            // Two of four: those that do not go with the lowest face.
            (&[0, 1], &[2, 3]),
        ];
        for (backward, named) in cases {
            let cell = two_groups(backward);
            assert_eq!(against_the_others(cell.as_cell()).as_deref(), Ok(named), "{backward:?}");
        }
    }

    #[test]
    fn a_group_is_known_by_its_lowest_face() {
        assert_eq!(groups(two_groups(&[]).as_cell()), [0, 0, 0, 0, 4, 4, 4, 4]);
        assert_eq!(surfaces(two_groups(&[]).as_cell()), 2);
        let thin = CellBuf::from_faces([[0.0; 3]; 3], [&[0, 1][..], &[], &[2]]);
        assert_eq!(surfaces(thin.as_cell()), 0);
    }

    #[test]
    fn torn_sides_have_their_direction_and_their_counts() {
        let points = [[0.0; 3], [1.0, 0.0, 0.0], [0.0, 1.0, 0.0], [0.0, 0.0, 1.0]];
        let found = |faces: &[[u32; 3]]| torn_sides(CellBuf::from_faces(points, faces).as_cell());
        assert_eq!(found(&TETRAHEDRON), []);
        let side = |from, to, there, back| Side { from, to, there, back };
        // Without the face [2, 0, 3] its sides run once, against it.
        assert_eq!(found(&TETRAHEDRON[..3]), [side(0, 2, 1, 0), side(3, 0, 1, 0), side(2, 3, 1, 0)]);
        // With the face [0, 2, 1] twice its sides run twice and once back.
        let doubled = [&TETRAHEDRON[..], &TETRAHEDRON[..1]].concat();
        assert_eq!(found(&doubled), [side(1, 0, 2, 1), side(0, 2, 2, 1), side(2, 1, 2, 1)]);
    }

    #[test]
    fn a_closed_cell_is_one_without_torn_sides() {
        for backward in 0..256u32 {
            let faces: Vec<usize> = (0..8).filter(|face| backward >> face & 1 == 1).collect();
            let cell = two_groups(&faces);
            assert_eq!(torn_sides(cell.as_cell()).is_empty(), cell.as_cell().closed().unwrap(), "{faces:?}");
        }
    }

    #[test]
    fn the_ring_that_is_left_has_the_corners_that_no_triangle_took() {
        let foot = [[0.0, 0.0], [0.05, 0.0], [0.05, 0.25], [0.0, 0.25]];
        let at = |z| foot.map(|[x, y]| [8588590.0 + x, 8529546.0 + y, 2969498.0 + z]);
        let faces = [[0, 3, 2, 1], [4, 5, 6, 7], [0, 1, 5, 4], [2, 3, 7, 6], [1, 2, 6, 5], [3, 0, 4, 7]];
        let box_ = CellBuf::from_faces([at(0.0), at(2.0)].concat(), faces);
        // A face that goes round twice is cut in part.
        let star = CellBuf::from_faces(
            [[0.0, 0.0, 0.0], [2.0, 0.0, 0.0], [1.0, 2.0, 0.0], [0.0, 1.0, 0.0], [2.0, 1.0, 0.0], [1.0, -1.0, 0.0]],
            [[0, 2, 1, 3, 4, 5, 0, 2, 4]],
        );
        for cell in [box_, star] {
            let found = examine(&cell).unwrap();
            assert_eq!(found.short.len(), cell.as_cell().survey(&[]).unwrap().short);
            assert!(!found.short.is_empty());
            for short in &found.short {
                let corners = cell.as_cell().faces().nth(short.face).unwrap().len();
                assert_eq!(short.left.len(), corners - short.triangles);
            }
        }
    }

    #[test]
    fn a_triangle_takes_its_middle_corner() {
        assert_eq!(ring_left(&[4, 7, 5, 6, 8], &[[7, 5, 6], [8, 4, 7]]), [7, 6, 8]);
        assert_eq!(ring_left(&[4, 7, 5, 6, 8], &[]), [4, 7, 5, 6, 8]);
    }
}
