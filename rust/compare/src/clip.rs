//! `compare clip`: faces clipped by planes and outlines of the plane clipped by each other, by the
//! port and by the Rust.
//!
//! Every input is asked about with work lists of different lengths, most of them beside the limit of
//! room. Both lists are held to what must stand in them, number by number.

use oracle::ruled as rust;

use crate::calls::{Calls, same_lists};
use crate::clips::{self, Case};
use crate::comparison::{Compared, ask};
use crate::outlines::{self, Pair};
use crate::random::Random;
use crate::retold::{self, Clipped};
use crate::work::{Choice, Entry, Work, beside_the_limit};
use crate::{ours, refusals};

const CLIP_FACE: Entry = Entry {
    name: "clip_face",
    dimension: 3,
    values: 2,
    counts: 0,
};
const CLIP_CONVEX: Entry = Entry {
    name: "clip_convex",
    dimension: 2,
    values: 2,
    counts: 0,
};
const AREA: Entry = Entry {
    name: "convex_intersection_area",
    dimension: 2,
    values: 1,
    counts: 0,
};

/// Clips random faces and as many outlines of the plane, shrunk copies of every eighth face, and damaged
/// copies of every fourth of both.
pub fn compare(calls: &mut Calls, count: u64, seed: u64) -> Compared {
    let random = &mut Random::new(seed);
    for _ in 0..count {
        let case = clips::any(random);
        ask(calls, &case, random, by_planes(beside_the_limit))?;
        if random.once_in(8) {
            let case = clips::shrunk_to_an_end(&case, random);
            ask(calls, &case, random, by_planes(beside_the_limit))?;
        }
        let pair = outlines::any(random);
        ask(calls, &pair, random, by_edges(beside_the_limit))?;
        if random.once_in(4) {
            let case = clips::damaged(case, random);
            ask(calls, &case, random, by_planes(beside_the_limit))?;
            let pair = outlines::damaged(pair, random);
            ask(calls, &pair, random, by_edges(beside_the_limit))?;
        }
    }
    Ok(())
}

/// How a face by planes is compared, with lists as they are chosen.
pub fn by_planes(choice: Choice) -> impl Fn(&mut Calls, &Case, &mut Random) {
    move |calls, case, random| {
        let expected = told_face(case, calls).map(shown);
        CLIP_FACE.ask(calls, &expected, choice, random, |first, second, shown| {
            let Case { cell, planes, .. } = case;
            ours::clip_face(cell, case.face, planes, case.eps, first, second, shown)
        });
    }
}

/// How an outline by the edges of another is compared, with lists as they are chosen.
pub fn by_edges(choice: Choice) -> impl Fn(&mut Calls, &Pair, &mut Random) {
    move |calls, pair, random| {
        let Pair { subject, clip } = pair;
        let told = told_pair(pair, calls);
        let area = told.as_ref().map(area).map_err(|&number| number);
        AREA.ask(calls, &area, choice, random, |first, second, out| {
            ours::convex_intersection_area(subject, clip, first, second, out)
        });
        let expected = told.map(shown);
        CLIP_CONVEX.ask(calls, &expected, choice, random, |first, second, shown| {
            ours::clip_convex(subject, clip, first, second, shown)
        });
    }
}

/// What clipping came to, for the counts.
#[derive(Debug)]
enum Left {
    Nothing,
    Whole,
    Cut,
    CutAndDoubledDropped,
    NoRoomInAnyList,
}

impl Left {
    fn of<const D: usize>(told: &Clipped<D>) -> Left {
        if told.is_too_long() {
            Left::NoRoomInAnyList
        } else if told.left.is_empty() {
            Left::Nothing
        } else if told.cuts == 0 {
            Left::Whole
        } else if told.dropped == 0 {
            Left::Cut
        } else {
            Left::CutAndDoubledDropped
        }
    }
}

/// What the planes leave of the face, which must be what the Rust says; or a refusal.
fn told_face(case: &Case, calls: &mut Calls) -> Result<Clipped<3>, u8> {
    let refusal =
        refusals::of_planes(&case.planes).or_else(|| refusals::of_face(&case.cell, case.face));
    if let Some(number) = refusal {
        return Err(number);
    }
    let face = case.cell.outline(case.cell.face(case.face));
    let planes = case.planes.as_chunks::<4>().0;
    let told = retold::clip_face(&face, planes, case.eps);
    calls.count("faces", Left::of(&told));
    expect_told(calls, &told, CLIP_FACE.name, || {
        rust::clip_face_by_polyhedron(&face, planes, case.eps).unwrap_or_default()
    });
    Ok(told)
}

/// What the edges leave of the subject, which must be what the Rust says; or a refusal.
fn told_pair(pair: &Pair, calls: &mut Calls) -> Result<Clipped<2>, u8> {
    let refusal = refusals::of_points2(&pair.subject).or_else(|| refusals::of_points2(&pair.clip));
    if let Some(number) = refusal {
        return Err(number);
    }
    let subject = pair.subject.as_chunks::<2>().0;
    let clip = pair.clip.as_chunks::<2>().0;
    let told = retold::clip_convex(subject, clip);
    calls.count("outlines", Left::of(&told));
    expect_told(calls, &told, CLIP_CONVEX.name, || {
        rust::clip_convex(subject, clip)
    });
    Ok(told)
}

/// Holds what was told again to the Rust's answer, where some list has room for it.
fn expect_told<const D: usize>(
    calls: &mut Calls,
    told: &Clipped<D>,
    entry: &'static str,
    by_the_rust: impl FnOnce() -> Vec<[f64; D]>,
) {
    if !told.is_too_long() {
        let left = by_the_rust();
        let same = same_lists(told.left.as_flattened(), left.as_flattened());
        calls.expect(same, entry, "told again is not what the Rust says");
    }
}

/// The count and the list in which the outline ends; both 0 where nothing is left.
fn shown<const D: usize>(told: Clipped<D>) -> Work<usize> {
    let list = if told.left.is_empty() {
        0
    } else {
        told.cuts % 2
    };
    Work {
        most: told.most,
        values: vec![told.left.len(), list],
        counts: Vec::new(),
        shown: told.left.into_flattened(),
        shown_in: list,
    }
}

fn area(told: &Clipped<2>) -> Work<f64> {
    Work {
        most: told.most,
        values: vec![rust::signed_area2(&told.left).abs()],
        counts: Vec::new(),
        shown: Vec::new(),
        shown_in: 0,
    }
}

#[cfg(test)]
mod tests {
    use super::*;
    use crate::comparison::tests::smallest_of;

    /// A clipping that applies only the first plane.
    fn by_the_first_plane(case: &Case) -> Vec<[f64; 3]> {
        let planes = case.planes.as_chunks::<4>().0;
        let first = &planes[..planes.len().min(1)];
        let face = case.cell.outline(case.cell.face(case.face));
        retold::clip_face(&face, first, case.eps).left
    }

    #[test]
    fn a_lost_second_plane_shrinks_to_two_planes() {
        let small = smallest_of(clips::any, |calls, case, _| {
            if let Ok(told) = told_face(case, calls) {
                let same = same_lists(
                    told.left.as_flattened(),
                    by_the_first_plane(case).as_flattened(),
                );
                calls.gave("clip_face", same, true);
            }
        });
        assert_eq!(small.planes.len(), 8);
        assert_eq!((small.face, small.cell.ends.len()), (0, 1));
        assert!(small.cell.corners.len() <= 3);
    }

    /// The slip 'emptying a 2-point subject when there is no edge'.
    #[test]
    fn an_emptied_subject_shrinks_to_one_point_at_the_origin() {
        let small = smallest_of(outlines::any, |calls, pair, random| {
            let expected = told_pair(pair, calls).map(shown);
            let choice = beside_the_limit;
            CLIP_CONVEX.ask(calls, &expected, choice, random, |first, second, shown| {
                let Pair { subject, clip } = pair;
                let answer = ours::clip_convex(subject, clip, first, second, shown);
                if answer == 0 && subject.len() < 6 {
                    first.fill(0.0);
                    shown[0] = 0;
                }
                answer
            });
        });
        assert_eq!(small.subject, [0.0, 0.0]);
        assert!(small.clip.is_empty());
    }
}
