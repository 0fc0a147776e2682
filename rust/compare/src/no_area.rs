//! `compare no_area`: pairs of cells of whose faces some have no area or hardly any, by the port and by
//! the Rust: the planes of all faces, which faces have no area, and the overlap of the two with how many
//! there are in each.
//!
//! A face has no area where its three Newell sums are all 0, as the Rust computes them. The port is not
//! asked for that.

use crate::calls::Calls;
use crate::cells::Cell;
use crate::comparison::{Compared, ask};
use crate::no_area_cells::{self, Made};
use crate::overlap::{self, by_the_ruled, of_two};
use crate::random::Random;
use crate::refusals;
use crate::retold::boxes_meet;
use crate::turning;
use crate::work::beside_the_limit;

/// The most faces of a cell whose planes are asked for one by one.
const MOST_PLANES_ASKED: usize = 32;

/// Asks about random pairs of cells, and about damaged copies of every eighth.
pub fn compare(calls: &mut Calls, count: u64, seed: u64) -> Compared {
    let random = &mut Random::new(seed);
    for _ in 0..count {
        let made = no_area_cells::any(random);
        count_made(calls, &made);
        ask(calls, &made.cells, random, compare_pair)?;
        if random.once_in(8) {
            let cells = overlap::damaged(made.cells, random);
            ask(calls, &cells, random, compare_pair)?;
        }
    }
    Ok(())
}

fn compare_pair(calls: &mut Calls, cells: &[Cell; 2], random: &mut Random) {
    of_two(beside_the_limit, by_the_ruled)(calls, cells, random);
    for cell in cells {
        turning::no_area(calls, cell, random);
        for face in faces_asked(cell, random) {
            turning::plane(calls, cell, face, random);
        }
    }
}

/// All faces, or some random ones of many, and one that is not there.
fn faces_asked(cell: &Cell, random: &mut Random) -> Vec<u32> {
    let count = cell.ends.len();
    let mut faces: Vec<u32> = match count <= MOST_PLANES_ASKED {
        true => (0..count as u32).collect(),
        false => (0..MOST_PLANES_ASKED)
            .map(|_| random.below(count) as u32)
            .collect(),
    };
    faces.push(count as u32);
    faces
}

/// How many faces of a cell have no area, for the counts.
#[derive(Debug)]
enum Share {
    NoFaces,
    None,
    Some,
    All,
}

impl Share {
    fn of(without: usize, faces: usize) -> Share {
        match (without, faces) {
            (_, 0) => Share::NoFaces,
            (0, _) => Share::None,
            _ if without == faces => Share::All,
            _ => Share::Some,
        }
    }
}

/// How the boxes of two cells lie, for the counts.
#[derive(Clone, Copy, Debug)]
enum Boxes {
    Meet,
    Miss,
}

/// Counts a pair by its boxes and its faces by their kind, where no cell of it is refused.
fn count_made(calls: &mut Calls, Made { cells, kinds }: &Made) {
    let refusal = |cell| refusals::of_cell(cell, true);
    let refused = cells.iter().find_map(refusal);
    calls.count("pairs refused", refused);
    if refused.is_some() {
        return;
    }
    let boxes = match boxes_meet(&cells[0], &cells[1]) {
        true => Boxes::Meet,
        false => Boxes::Miss,
    };
    calls.count("boxes", boxes);
    if cells.iter().any(|cell| cell.count_of_no_area() > 0) {
        calls.count("boxes of pairs with faces of no area", boxes);
    }
    for (cell, kinds) in cells.iter().zip(kinds) {
        let share = Share::of(cell.count_of_no_area(), kinds.len());
        calls.count("faces of a cell that have no area", share);
        for (face, kind) in cell.faces().iter().zip(kinds) {
            calls.count(title(cell, face), kind);
        }
    }
}

/// The title under which a face is counted.
fn title(cell: &Cell, face: &[u32]) -> &'static str {
    if cell.has_no_area(face) {
        "faces that have no area"
    } else if cell.plane(face).iter().all(|part| part.is_finite()) {
        "faces of a finite plane"
    } else {
        "faces of a plane that is not finite"
    }
}

#[cfg(test)]
mod tests {
    use super::*;
    use crate::calls::Lent;
    use crate::comparison::tests::smallest_of;
    use crate::ours;
    use crate::overlap::VOLUME;

    fn any(random: &mut Random) -> [Cell; 2] {
        no_area_cells::any(random).cells
    }

    /// The smallest pair on which an overlap with wrong counts is found, where they are made from the
    /// right ones.
    fn found_by_counts(wrong: impl Fn(&[Cell; 2], &mut [usize])) -> [Cell; 2] {
        smallest_of(any, |calls, cells, random| {
            let expected = overlap::expected(cells, calls, &mut by_the_ruled);
            let choice = beside_the_limit;
            VOLUME.ask_for_counts(
                calls,
                &expected,
                choice,
                random,
                |first, second, out, counts| {
                    let [one, two] = cells;
                    let answer =
                        ours::convex_intersection_volume(one, two, first, second, out, counts);
                    if answer == 0 {
                        wrong(cells, counts);
                    }
                    answer
                },
            );
        })
    }

    fn counts_of(cells: &[Cell; 2]) -> [usize; 2] {
        cells.each_ref().map(Cell::count_of_no_area)
    }

    /// Counts that are not made where the boxes miss.
    #[test]
    fn counts_are_held_where_the_boxes_miss() {
        let small = found_by_counts(|[one, two], counts| {
            if !boxes_meet(one, two) {
                counts[..2].fill(0);
            }
        });
        assert_eq!(counts_of(&small).iter().sum::<usize>(), 1);
        assert!(!boxes_meet(&small[0], &small[1]));
    }

    #[test]
    fn counts_in_the_wrong_order_are_found() {
        let small = found_by_counts(|_, counts| counts.swap(0, 1));
        assert_eq!(counts_of(&small).iter().sum::<usize>(), 1);
    }

    /// A count that leaves out faces under three corners.
    #[test]
    fn a_count_without_thin_faces_is_found() {
        let small = found_by_counts(|cells, counts| {
            for (cell, count) in cells.iter().zip(counts) {
                *count -= cell.faces().iter().filter(|face| face.len() < 3).count();
            }
        });
        assert_eq!(counts_of(&small).iter().sum::<usize>(), 1);
    }

    /// The smallest cell on which wrong flags are found, each of which is made from a face and its right
    /// flag.
    fn found_by_flags(wrong: impl Fn(&Cell, u32, usize) -> usize) -> Cell {
        let one = |random: &mut Random| any(random)[0].clone();
        smallest_of(one, |calls, cell, random| {
            let expected = turning::told_no_area(cell);
            let places = cell.ends.len();
            calls.asked("no_area_faces", places, expected, random, |out| {
                let answer = ours::no_area_faces(cell, out);
                if answer == 0 {
                    for (face, flag) in (0..places as u32).zip(out) {
                        *flag = wrong(cell, face, *flag);
                    }
                }
                answer
            });
        })
    }

    /// Flags that tell faces of few corners alone.
    #[test]
    fn flags_by_the_number_of_corners_are_found() {
        let small = found_by_flags(|cell, face, _| usize::from(cell.face(face).len() < 3));
        assert_eq!(small.ends.len(), 1);
        assert!(small.corners.len() == 3 && small.has_no_area(&small.corners));
    }

    /// Flags that tell a plane that is not finite.
    #[test]
    fn flags_of_planes_that_are_not_finite_are_found() {
        let small = found_by_flags(|cell, face, _| {
            let plane = cell.plane(cell.face(face));
            usize::from(!plane.iter().all(|part| part.is_finite()))
        });
        assert_eq!(small.ends.len(), 1);
        assert!(!small.has_no_area(&small.corners));
    }

    /// Flags of which the last is not written.
    #[test]
    fn a_flag_that_is_left_out_is_found() {
        let small = found_by_flags(|cell, face, flag| {
            let is_last = face as usize + 1 == cell.ends.len();
            if is_last { usize::MARK } else { flag }
        });
        assert_eq!(small.ends.len(), 1);
    }

    /// The smallest cell on which a wrong plane of its first face is found.
    fn found_by_plane(wrong: impl Fn(&mut [f64], &mut [usize])) -> Cell {
        let one = |random: &mut Random| any(random)[0].clone();
        smallest_of(one, |calls, cell, random| {
            turning::plane_by(calls, cell, 0, random, |out, area| {
                let answer = ours::plane_of_face(cell, 0, out, area);
                if answer == 0 {
                    wrong(out, area);
                }
                answer
            });
        })
    }

    /// A plane whose length underflows is told as no area, which leaves its numbers alone.
    #[test]
    fn a_plane_that_is_told_as_no_area_is_found() {
        let small = found_by_plane(|out, area| {
            if area[0] == 1 && !out[..4].iter().all(|part| part.is_finite()) {
                area[0] = 0;
                out[..4].fill(f64::MARK);
            }
        });
        assert!(!small.has_no_area(small.face(0)));
    }

    /// The Rust's plane is written where a face has no area.
    #[test]
    fn a_plane_that_is_written_without_area_is_found() {
        let small = found_by_plane(|out, area| {
            if area[0] == 0 {
                out.fill(f64::NAN);
            }
        });
        assert!(small.has_no_area(small.face(0)));
    }
}
