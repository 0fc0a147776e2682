//! `compare most-tests`: how many tests of turn × direction the cutting of one face can take.
//!
//! A ring of m > 3 corners takes at most m tests in each of two passes, so a face of n corners takes
//! at most n² + n − 12 of them (request 10). That is proved (`TestsWithin`,
//! crates/cut/specs/Tests.antt), and so is that faces of 4 to 9 corners reach it
//! (crates/worked/specs/Tests.antt). Here the Rust counts, and the port must count as many.
//!
//! For each n from 3 to 9 two faces are shown: the one with the most tests that is found among small
//! whole numbers, on which every sum and product is exact, and the one with the most that is known at
//! all. The first is searched for in climbs. What the climbs find is only found: there may be more.
//! The second is built, rests on rounding, and takes as many tests as there may be. Faces that do
//! so are built for every n from 5 to 256, too. And for n from 4 to 6 every face on a small grid of
//! whole numbers is tried.

use crate::cells::Cell;
use crate::cut::{COUNTS, most_tests};
use crate::limits::MOST_VERTICES;
use crate::random::Random;
use crate::refusals::is_bad_number;
use crate::{Outcome, count_and_seed, ours};

/// A point of the plane in which a face is cut.
type Point = [f64; 2];

const FEWEST_CORNERS: usize = 3;
const MOST_CORNERS: usize = 9;

pub fn run(words: &[String]) -> Result<Outcome, String> {
    let (climbs, seed) = count_and_seed(words, 5_000)?;
    let mut random = Random::new(seed);
    let rows: Vec<Row> = (FEWEST_CORNERS..=MOST_CORNERS)
        .map(|corners| Row::new(corners, climbs, &mut random.fork()))
        .collect();

    println!("{climbs} climbs for each number of corners, seed {seed}");
    println!("corners  whole  known  n*n+n-12");
    for row in &rows {
        row.print();
    }
    for row in &rows {
        row.print_faces();
    }
    let are_full = (FIVE.len()..=MOST_VERTICES).all(takes_the_most_on_the_curve);
    println!("every face of 5 to {MOST_VERTICES} corners on the curve takes n*n+n-12: {are_full}");
    let on_grids = GRIDS.map(|grid| grid.searched());
    let are_sound = rows.iter().all(Row::is_sound) && on_grids.iter().all(Face::is_sound);
    Ok(Outcome::of(are_full && are_sound))
}

/// What is known of the faces with so many corners.
struct Row {
    corners: usize,
    whole: Face,
    known: Face,
}

impl Row {
    fn new(corners: usize, climbs: u64, random: &mut Random) -> Self {
        let whole = most_of_whole(corners, climbs, random);
        let known = built(corners).unwrap_or_else(|| whole.clone());
        Row {
            corners,
            whole,
            known,
        }
    }

    fn print(&self) {
        println!(
            "{:7}  {:5}  {:5}  {:8}",
            self.corners,
            self.whole.tests,
            self.known.tests,
            most_tests(self.corners)
        );
    }

    fn print_faces(&self) {
        for (kind, face) in [("whole", &self.whole), ("known", &self.known)] {
            println!(
                "{} corners, {kind}: tests {}, triangles {}, points {:?}",
                self.corners,
                face.tests,
                face.triangles.len(),
                face.points
            );
        }
    }

    /// Whether both faces are sound, and the known one takes as many tests as there may be. Of three
    /// corners none is built; there may be no test, and any face will do.
    fn is_sound(&self) -> bool {
        self.whole.is_sound() && self.known.is_sound() && self.known.takes_the_most()
    }
}

/// A face in the plane, and how it is cut.
#[derive(Clone)]
struct Face {
    points: Vec<Point>,
    triangles: Vec<[usize; 3]>,
    tests: usize,
}

impl Face {
    fn new(points: Vec<Point>) -> Self {
        let (triangles, tests) = cut(&points);
        Face {
            points,
            triangles,
            tests,
        }
    }

    /// Whether the face is one that may be asked about, is cut by the port as by the Rust, and takes no
    /// more tests than there may be.
    fn is_sound(&self) -> bool {
        self.is_in_the_domain() && self.is_ours() && self.tests <= self.limit()
    }

    fn takes_the_most(&self) -> bool {
        self.tests == self.limit()
    }

    fn limit(&self) -> usize {
        most_tests(self.points.len())
    }

    fn is_in_the_domain(&self) -> bool {
        !self.points.as_flattened().iter().any(|&x| is_bad_number(x))
    }

    /// Whether the port cuts the face in the same way, with as many tests.
    fn is_ours(&self) -> bool {
        let points = in_space(&self.points);
        let corners: Vec<u32> = (0..points.len() as u32).collect();
        let cell = Cell::of_one_face(points.as_flattened(), &corners);
        let mut out = vec![[0; 3]; points.len().saturating_sub(2)];
        let mut counts = [0; COUNTS];
        let answer = ours::triangles(&cell, 0, &mut out, &mut counts);
        out.truncate(counts[0]);
        let triangles: Vec<[usize; 3]> = out
            .iter()
            .map(|t| t.map(|corner| corner as usize))
            .collect();
        let same = (answer, &triangles, counts[1]) == (0, &self.triangles, self.tests);
        if !same {
            println!("the port cuts this face in another way: {points:?}");
        }
        same
    }
}

/// The triangles of a face and how many tests were made, by the Rust, in the build that counts them.
fn cut(points: &[Point]) -> (Vec<[usize; 3]>, usize) {
    let points = in_space(points);
    let places: Vec<usize> = (0..points.len()).collect();
    let (triangles, tests) = oracle::counted::ear_clip_tests(&points, &places);
    (triangles, tests.all())
}

/// The points of a face, which stands at x = 0. There two of its Newell sums are 0, so it is seen along
/// the first axis, as y and z, whatever the third sum is.
fn in_space(points: &[Point]) -> Vec<[f64; 3]> {
    points.iter().map(|&[y, z]| [0.0, y, z]).collect()
}

/// 2^27, and the next whole number.
const NEAR: f64 = (1 << 27) as f64;
const FAR: f64 = NEAR + 1.0;

/// A unit square far from the origin, run clockwise, as in crates/worked/specs/Tests.antt and
/// tests/vectors/on_cuts.py. Its area comes out as 0, since (2^27 + 1)² is rounded to 2^54 + 2^28. So
/// the direction is +1, every turn is −1, and both passes over the ring of four go to its end.
const SQUARE: [Point; 4] = [[NEAR, NEAR], [NEAR, FAR], [FAR, FAR], [FAR, NEAR]];

/// 2^-52, in which the points near the origin are measured. A difference from 4 up to 8 is rounded to
/// a multiple of 4 TINY, so the points at (7, −5) and (6, −4) see those points moved by up to 2 TINY.
const TINY: f64 = f64::EPSILON;

/// Five points that take as many tests as there may be. With the first few points of `BEHIND` added
/// they still do.
///
/// That needs rings in which every turn but the last is below 0 and the last corner is blocked, so
/// that both passes go to the end and the last corner is cut off; and so on down to a ring of four
/// in which every turn is below 0.
///
/// Where all differences are exact there are none from five corners on. Rounding a product never
/// changes which of two is larger; it can only make them equal. So a point that is found left or right
/// of a line lies there. In the ring of five p1 cannot block the last corner, p4, since it would have
/// to lie left of the line from p4 to p0, which is the very product that is below 0 as the turn at p0.
/// So p2 does. Then it lies left of the line from p3 to p4, while the turn at p3 says that it lies
/// right of it. Here the turn at p3 comes from the differences from p2, and p4 − p2 is exact. The
/// blocking comes from those from p3, which are rounded, and there p2 has changed sides.
const FIVE: [Point; 5] = [
    [7.0, -5.0],
    [7.0 - 16.0 * TINY, -5.0 + 8.0 * TINY],
    [2.0 * TINY, TINY],
    [6.0, -4.0],
    [-6.0 * TINY, 6.0 * TINY],
];

/// The points p5 to p8, behind the five. The larger rings are blocked by p2 again. For that it must
/// lie right of the line from p0 to p4, in the triangle of p0, p3 and p4, and left of the same line,
/// in that of p0, p4 and p5, and so on with p5, p6 and p7. The former comes from the differences from
/// p4, the latter from those from p0, which are rounded.
const BEHIND: [Point; 4] = [
    [-2.0 * TINY, 3.0 * TINY],
    [3.0 * TINY, -TINY],
    [4.0 * TINY, -2.0 * TINY],
    [11.0 * TINY, -10.0 * TINY],
];

/// A face that takes as many tests as there may be.
fn built(corners: usize) -> Option<Face> {
    match corners {
        4 => Some(Face::new(SQUARE.to_vec())),
        5..=MOST_CORNERS => Some(Face::new([&FIVE, &BEHIND[..corners - 5]].concat())),
        _ => None,
    }
}

/// Whether the five, with points on a curve behind them, take as many tests as there may be.
fn takes_the_most_on_the_curve(corners: usize) -> bool {
    let face = Face::new(with_a_curve(corners));
    face.is_sound() && face.takes_the_most()
}

/// The five, with points on a curve behind them.
fn with_a_curve(corners: usize) -> Vec<Point> {
    let behind: Vec<Point> = (0..corners - FIVE.len()).map(on_the_curve).collect();
    [&FIVE, &behind[..]].concat()
}

/// The points of a face of four corners or more that takes as many tests as there may be, in order.
pub fn of_most_tests(corners: usize) -> Vec<[f64; 3]> {
    let points = match corners {
        4 => SQUARE.to_vec(),
        _ => with_a_curve(corners),
    };
    in_space(&points)
}

/// A point of a parabola that begins at p5, so short that p0 sees all of it where it sees p5, and run
/// so that every turn is below 0.
fn on_the_curve(place: usize) -> Point {
    const STEPS_IN_TINY: f64 = 1_048_576.0;
    let step = place as f64;
    [
        (-2.0 + step / STEPS_IN_TINY) * TINY,
        (3.0 - step * (step + 1.0) / STEPS_IN_TINY) * TINY,
    ]
}

/// A search of every face of so many corners on a square grid of whole numbers from 0 on, so many of
/// them along a side. Corners may share a point.
struct Grid {
    corners: usize,
    side: usize,
}

const GRIDS: [Grid; 3] = [
    Grid {
        corners: 4,
        side: 5,
    },
    Grid {
        corners: 5,
        side: 6,
    },
    Grid {
        corners: 6,
        side: 4,
    },
];

impl Grid {
    /// Searches, prints the most tests that a face takes, and gives such a face.
    fn searched(&self) -> Face {
        let Grid { corners, side } = self;
        let most = self.most();
        println!(
            "every face of {corners} corners on {side} x {side} points: most {}",
            most.tests
        );
        most
    }

    /// The first face of those with the most tests.
    fn most(&self) -> Face {
        let mut points = self.first();
        let mut most = Face::new(points.clone());
        while self.go_on(&mut points) {
            if cut(&points).1 > most.tests {
                most = Face::new(points.clone());
            }
        }
        most
    }

    fn first(&self) -> Vec<Point> {
        vec![[0.0; 2]; self.corners]
    }

    /// Goes on to the next face, with the coordinates for digits, and says whether there is one. The
    /// first comes after the last.
    fn go_on(&self, points: &mut [Point]) -> bool {
        let largest = (self.side - 1) as f64;
        for x in points.as_flattened_mut() {
            if *x < largest {
                *x += 1.0;
                return true;
            }
            *x = 0.0;
        }
        false
    }
}

/// Whole numbers from 0 to this one are searched in climbs.
const LARGEST_WHOLE: usize = 16;

/// Faces tried in one climb.
const STEPS: usize = 3_000;

/// A face with so many tests fewer is kept once in this many times, to the power of the loss.
const ODDS: usize = 4;

/// The face of small whole numbers with the most tests that some climbs find, in plain numbers.
fn most_of_whole(corners: usize, climbs: u64, random: &mut Random) -> Face {
    let mut best = Face::new(any_whole_points(corners, random));
    for _ in 0..climbs {
        let top = climb(corners, random);
        if top.tests > best.tests {
            best = top;
        }
    }
    plainer(best)
}

fn any_whole_points(corners: usize, random: &mut Random) -> Vec<Point> {
    (0..corners).map(|_| any_whole_point(random)).collect()
}

fn any_whole_point(random: &mut Random) -> Point {
    [(); 2].map(|()| random.between(0, LARGEST_WHOLE) as f64)
}

/// Moves one point after another. A move is kept where no test is lost, and now and then where some
/// are. Gives the best face on the way.
fn climb(corners: usize, random: &mut Random) -> Face {
    let mut points = any_whole_points(corners, random);
    let mut tests = cut(&points).1;
    let mut best = (tests, points.clone());
    for _ in 0..STEPS {
        let place = random.below(corners);
        let before = points[place];
        points[place] = moved(&points, place, random);
        let now = cut(&points).1;
        if now < tests && !random.once_in(odds_of(tests - now)) {
            points[place] = before;
            continue;
        }
        tests = now;
        if tests > best.0 {
            best = (tests, points.clone());
        }
    }
    Face::new(best.1)
}

fn odds_of(loss: usize) -> usize {
    ODDS.pow(loss.min(16) as u32)
}

/// Another point for a place: any, or one beside the point there, or one beside another point.
fn moved(points: &[Point], place: usize, random: &mut Random) -> Point {
    let beside = match random.below(3) {
        0 => return any_whole_point(random),
        1 => points[place],
        _ => random.pick(points),
    };
    beside.map(|x| (x + random.whole(1)).clamp(0.0, LARGEST_WHOLE as f64))
}

/// Lowers one coordinate after another, as long as no test is lost.
fn plainer(face: Face) -> Face {
    let mut points = face.points;
    while lower_one(&mut points, face.tests) {}
    Face::new(points)
}

/// Lowers the first coordinate that can be lowered with no test lost, as far as that goes.
fn lower_one(points: &mut [Point], tests: usize) -> bool {
    for place in 0..points.len() {
        for axis in 0..2 {
            let before = points[place][axis];
            for lower in 0..before as usize {
                points[place][axis] = lower as f64;
                if cut(points).1 >= tests {
                    return true;
                }
            }
            points[place][axis] = before;
        }
    }
    false
}

#[cfg(test)]
mod tests {
    use std::collections::HashSet;

    use super::*;

    #[test]
    fn built_faces_take_the_most_tests() {
        for corners in 4..=MOST_CORNERS {
            let face = built(corners).expect("a face is built");
            assert_eq!(face.tests, most_tests(corners));
            assert!(face.is_sound() && face.takes_the_most());
        }
    }

    #[test]
    fn a_row_whose_known_face_takes_too_few_tests_is_not_sound() {
        let few = Face::new(vec![[0.0, 0.0], [1.0, 0.0], [1.0, 1.0], [0.0, 1.0]]);
        let row_of = |known| Row {
            corners: 4,
            whole: few.clone(),
            known,
        };
        assert!(row_of(Face::new(SQUARE.to_vec())).is_sound());
        assert!(!row_of(few.clone()).is_sound());
    }

    #[test]
    fn the_port_cuts_faces_of_whole_points_as_the_rust_does() {
        let mut random = Random::new(1);
        for _ in 0..20_000 {
            let corners = random.between(3, 12);
            let face = Face::new(any_whole_points(corners, &mut random));
            assert!(face.is_sound());
        }
    }

    #[test]
    fn a_quad_over_nine_points_takes_three_at_most() {
        let point = |k: usize| [(k % 3) as f64, (k / 3) as f64];
        let most = (0..9usize.pow(4)).map(|k| {
            let places = [k % 9, k / 9 % 9, k / 81 % 9, k / 729];
            cut(&places.map(point)).1
        });
        assert_eq!(most.max(), Some(3));
    }

    #[test]
    fn every_face_on_a_grid_is_tried_once() {
        let grid = Grid {
            corners: 4,
            side: 3,
        };
        let mut points = grid.first();
        let mut seen = HashSet::new();
        loop {
            assert!(seen.insert(format!("{points:?}")));
            if !grid.go_on(&mut points) {
                break;
            }
        }
        assert_eq!(seen.len(), 9usize.pow(4));
        assert_eq!(grid.most().tests, 3);
    }
}
