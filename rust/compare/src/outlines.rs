//! Random inputs of clipping in the plane: two outlines.

use crate::calls::print_list;
use crate::faces;
use crate::limits::{BAD_NUMBERS, MOST_POINTS};
use crate::random::Random;
use crate::scale::Scale;
use crate::shrink::{Input, Shrink, in_groups, within};

/// A subject and the outline that clips it, two numbers a point.
#[derive(Clone)]
pub struct Pair {
    pub subject: Vec<f64>,
    pub clip: Vec<f64>,
}

impl Input for Pair {
    fn print(&self) {
        print_list("subject", "f64", &self.subject);
        print_list("clip", "f64", &self.clip);
    }
}

impl Shrink for Pair {
    fn shrink(&mut self, fails: &mut dyn FnMut(&Pair) -> bool) {
        within(self, |pair| &mut pair.subject, in_groups::<2>, fails);
        within(self, |pair| &mut pair.clip, in_groups::<2>, fails);
    }
}

type Outline = Vec<[f64; 2]>;

pub fn any(random: &mut Random) -> Pair {
    let (subject, clip) = match random.below(9) {
        0..=2 => (any_convex(random), any_convex(random)),
        3 => (any_square(random), any_square(random)),
        4 => beside_itself(any_convex(random), random),
        5 => (any_few(random), any_few(random)),
        6 => (any_outline(random), any_convex(random)),
        7 => any_comb_and_box(random),
        _ => (any_outline(random), any_outline(random)),
    };
    scaled(subject, clip, random)
}

/// Where in the domain both lie, and how large they are.
fn scaled(subject: Outline, clip: Outline, random: &mut Random) -> Pair {
    let joined = subject.iter().chain(&clip);
    let mut points: Vec<[f64; 3]> = joined.map(|&[x, y]| [x, y, 0.0]).collect();
    Scale::any(random).apply(&mut points, random);
    let flat: Outline = points.iter().map(|&[x, y, _]| [x, y]).collect();
    let (subject, clip) = flat.split_at(subject.len());
    Pair {
        subject: subject.as_flattened().to_vec(),
        clip: clip.as_flattened().to_vec(),
    }
}

/// A number of points: mostly few.
fn any_count(random: &mut Random) -> usize {
    match random.below(400) {
        0 => MOST_POINTS,
        1..=3 => random.between(65, MOST_POINTS),
        4..=40 => random.between(13, 64),
        _ => random.between(3, 12),
    }
}

/// A convex outline, counter-clockwise but for one in eight.
fn any_convex(random: &mut Random) -> Outline {
    let (x, y) = (random.signed(), random.signed());
    let count = any_count(random);
    let moved = |[a, b]: [f64; 2]| [a + x, b + y];
    let mut outline: Outline = match random.below(2) {
        0 => faces::regular(count),
        _ => faces::convex(count, random),
    };
    if random.once_in(8) {
        outline.reverse();
    }
    outline.into_iter().map(moved).collect()
}

/// A box of small whole numbers. Two of them often share edges or corners.
fn any_square(random: &mut Random) -> Outline {
    let (x, y) = (random.whole(2), random.whole(2));
    let (width, height) = (random.between(1, 3) as f64, random.between(1, 3) as f64);
    vec![
        [x, y],
        [x + width, y],
        [x + width, y + height],
        [x, y + height],
    ]
}

/// A comb and a box across its teeth, so that the outline grows with each edge.
fn any_comb_and_box(random: &mut Random) -> (Outline, Outline) {
    let comb = faces::comb(any_count(random));
    let right = comb.len() as f64;
    let low = random.pick(&[0.0, 0.5, 1.0, 1.5, 2.0]);
    let high = random.pick(&[2.5, 4.0, 4.5, 5.0, 6.0]);
    let clip = vec![[-1.0, low], [right, low], [right, high], [-1.0, high]];
    (comb, clip)
}

/// An outline and itself, or itself moved along one of its edges or mirrored over it.
fn beside_itself(outline: Outline, random: &mut Random) -> (Outline, Outline) {
    let place = random.below(outline.len());
    let (a, b) = (outline[place], outline[(place + 1) % outline.len()]);
    let other = match random.below(4) {
        0 => outline.clone(),
        1 => {
            let moved = |&[x, y]: &[f64; 2]| [x + b[0] - a[0], y + b[1] - a[1]];
            outline.iter().map(moved).collect()
        }
        // Turned about the middle of the edge: the two then share that edge and nothing else.
        _ => {
            let turned = |&[x, y]: &[f64; 2]| [a[0] + b[0] - x, a[1] + b[1] - y];
            outline.iter().map(turned).collect()
        }
    };
    (outline, other)
}

/// Fewer than three points, or somewhat more.
fn any_few(random: &mut Random) -> Outline {
    let mut outline = any_square(random);
    outline.truncate(random.below(5));
    outline
}

/// An outline of any kind, mostly not convex.
fn any_outline(random: &mut Random) -> Outline {
    let count = any_count(random);
    faces::any_outline(count, random)
}

/// A pair of which one list or both are damaged.
pub fn damaged(pair: Pair, random: &mut Random) -> Pair {
    let Pair { subject, clip } = pair;
    match random.below(3) {
        0 => Pair {
            subject: damaged_list(subject, random),
            clip,
        },
        1 => Pair {
            subject,
            clip: damaged_list(clip, random),
        },
        _ => Pair {
            subject: damaged_list(subject, random),
            clip: damaged_list(clip, random),
        },
    }
}

/// A list with half a point, a point too many, or a bad number.
fn damaged_list(mut list: Vec<f64>, random: &mut Random) -> Vec<f64> {
    match random.below(4) {
        0 => list.push(0.5),
        1 => list.resize(2 * MOST_POINTS + random.pick(&[1, 2]), 0.5),
        _ => {
            list.extend([0.5, 0.5]);
            let place = random.below(list.len());
            list[place] = random.pick(&BAD_NUMBERS);
        }
    }
    list
}

#[cfg(test)]
mod tests {
    use super::*;
    use crate::refusals;

    #[test]
    fn pairs_are_sound_and_damage_is_seen() {
        let mut random = Random::new(9);
        let refusal = |pair: &Pair| {
            refusals::of_points2(&pair.subject).or_else(|| refusals::of_points2(&pair.clip))
        };
        for _ in 0..5000 {
            let pair = any(&mut random);
            assert_eq!(refusal(&pair), None);
            assert!(refusal(&damaged(pair, &mut random)).is_some());
        }
    }
}
