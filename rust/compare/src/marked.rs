//! Faces in one list, each ended by a mark, as `point_in_phed` takes them: by the port and by the Rust.

use oracle::plain as rust;

use crate::calls::{Calls, print_list, unless_refused};
use crate::cells::Cell;
use crate::limits::{FACE_END, LONGEST_LIST};
use crate::random::Random;
use crate::shrink::{Input, Shrink, fewer_vertices, in_groups, within};
use crate::{ours, refusals};

/// Vertices, faces over them, and the points that are asked about.
#[derive(Clone)]
pub struct Marked {
    pub coords: Vec<f64>,
    pub list: Vec<u32>,
    pub queries: Vec<[f64; 3]>,
}

impl Marked {
    /// The faces of a cell. The ends of a damaged one are not read.
    pub fn of_cell(cell: &Cell, queries: &[[f64; 3]], random: &mut Random) -> Marked {
        Marked {
            coords: cell.coords.clone(),
            list: match refusals::of_cell(cell, false) {
                None => with_marks(cell, random),
                Some(_) => cell.corners.clone(),
            },
            queries: queries.to_vec(),
        }
    }
}

/// The faces as one list, with or without a mark after the last one.
fn with_marks(cell: &Cell, random: &mut Random) -> Vec<u32> {
    let mut list = cell.faces().join(&FACE_END);
    if random.once_in(2) {
        list.push(FACE_END);
    }
    // Now and then the list is one entry too long, or as long as it may be.
    if random.once_in(64) {
        list.resize(LONGEST_LIST + random.below(2), FACE_END);
    }
    list
}

impl Input for Marked {
    fn print(&self) {
        print_list("coords", "f64", &self.coords);
        print_list("list", "u32", &self.list);
        print_list("queries", "[f64; 3]", &self.queries);
    }
}

impl Shrink for Marked {
    fn shrink(&mut self, fails: &mut dyn FnMut(&Marked) -> bool) {
        within(self, |marked| &mut marked.queries, Vec::shrink, fails);
        within(self, |marked| &mut marked.list, Vec::shrink, fails);
        let mut tried = self.clone();
        fewer_vertices(&mut self.coords, &mut self.list, &mut |coords, list| {
            tried.coords = coords.to_vec();
            tried.list = list.to_vec();
            fails(&tried)
        });
        within(self, |marked| &mut marked.coords, in_groups::<3>, fails);
    }
}

pub fn compare(calls: &mut Calls, marked: &Marked, random: &mut Random) {
    let Marked {
        coords,
        list,
        queries,
    } = marked;
    for &query in queries {
        let expected = unless_refused(refusals::of_marked(coords, list, query), || {
            let points = coords.as_chunks::<3>().0;
            vec![usize::from(rust::point_in_phed(query, points, list))]
        });
        calls.asked("point_in_phed", 1, expected, random, |out| {
            ours::point_in_phed(coords, list, query, out)
        });
    }
}

#[cfg(test)]
mod tests {
    use super::*;
    use crate::cells;
    use crate::comparison::tests::smallest_of;

    /// The slip 'the last face left out where no mark ends it'.
    fn without_an_open_face(coords: &[f64], list: &[u32], query: [f64; 3]) -> usize {
        let closed = list.iter().rposition(|&corner| corner == FACE_END);
        let list = &list[..closed.map_or(0, |place| place + 1)];
        let points = coords.as_chunks::<3>().0;
        usize::from(rust::point_in_phed(query, points, list))
    }

    fn any(random: &mut Random) -> Marked {
        let cell = cells::any_convex(random).cell;
        let query = cells::any_query(&cell, random);
        Marked::of_cell(&cell, &[query], random)
    }

    #[test]
    fn a_lost_last_face_shrinks_to_one_triangle() {
        let small = smallest_of(any, |calls, marked, _| {
            for &query in &marked.queries {
                if refusals::of_marked(&marked.coords, &marked.list, query).is_none() {
                    let points = marked.coords.as_chunks::<3>().0;
                    let wanted = rust::point_in_phed(query, points, &marked.list);
                    let found = without_an_open_face(&marked.coords, &marked.list, query);
                    calls.gave("point_in_phed", found, usize::from(wanted));
                }
            }
        });
        assert_eq!(small.list, [0, 1, 2]);
        assert_eq!(small.coords.len(), 9);
        assert_eq!(small.queries.len(), 1);
    }
}
