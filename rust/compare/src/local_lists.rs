//! Random lists of vertices to be moved to a local origin, and damaged copies of them.

use crate::cells;
use crate::limits::{BAD_NUMBERS, LARGEST, MOST_VERTICES, clamped};
use crate::random::Random;

/// A random list, three numbers a vertex, and what it is.
pub struct Made {
    pub kind: &'static str,
    pub coords: Vec<f64>,
}

/// Numbers at the limits: of the domain, of the whole numbers, of the digits about 1, of all f64.
const LIMITS: [f64; 14] = [
    0.0,
    -0.0,
    1.0,
    -1.0,
    1.0_f64.next_down(),
    -1.0_f64.next_up(),
    LARGEST,
    -LARGEST,
    LARGEST.next_down(),
    1.0 - LARGEST,
    f64::EPSILON,
    -f64::EPSILON / 2.0,
    -f64::MIN_POSITIVE,
    5e-324,
];

/// A list that passes the checks 1 and 2, of at least one vertex.
pub fn any(random: &mut Random) -> Made {
    let (kind, points) = match random.below(10) {
        0..=2 => ("solids far away", far_solid(random)),
        3 => ("cells", cells::any(random).cell.points().to_vec()),
        4 => ("any magnitudes", many(random, any_magnitude)),
        5 => ("whole numbers", many(random, any_whole)),
        6 => ("limits", many(random, |random| random.pick(&LIMITS))),
        7 => ("beside powers of two", many(random, beside_a_power)),
        8 => ("about 53 digits", about_the_last_digit(random)),
        _ => ("the last stays behind", last_stays_behind(random)),
    };
    Made {
        kind,
        coords: points.into_flattened(),
    }
}

/// A solid of any size at a whole place, near or far: every coordinate is rounded there. Half of them
/// begin at any vertex.
fn far_solid(random: &mut Random) -> Vec<[f64; 3]> {
    let cell = match random.below(3) {
        0 => cells::any_box(random),
        1 => cells::any_wedge(random),
        _ => cells::any_convex(random).cell,
    };
    let size = random.pick(&[0.001, 0.05, 1.0, 30.0, 1e6]);
    let reach = random.pick(&[100, 10_000_000, 1 << 40]);
    let place = [(); 3].map(|()| random.whole(reach));
    let cell = cell.with_points(|point| point.map(|number| size * number));
    let mut points = cell.moved(place).points().to_vec();
    if random.once_in(2) {
        random.shuffle(&mut points);
    }
    points
}

/// Some vertices, mostly few.
fn many(random: &mut Random, number: impl Fn(&mut Random) -> f64) -> Vec<[f64; 3]> {
    let count = match random.below(50) {
        0 => MOST_VERTICES,
        1..=5 => random.between(9, MOST_VERTICES),
        _ => random.between(1, 8),
    };
    (0..count)
        .map(|_| [(); 3].map(|()| number(random)))
        .collect()
}

fn any_whole(random: &mut Random) -> f64 {
    random.whole(1 << 40)
}

fn any_sign(random: &mut Random) -> f64 {
    random.pick(&[1.0, -1.0])
}

/// A number of many digits or few: anywhere in the domain, near the whole numbers, or subnormal.
fn any_magnitude(random: &mut Random) -> f64 {
    // 1023 stands for 1, and 1062 for what is below 2^40.
    let exponent = match random.below(8) {
        0 => 0,
        1 => random.between(0, 1062),
        2..=4 => random.between(1023 - 60, 1023),
        _ => random.between(1023, 1062),
    };
    let left_out = random.below(53);
    let fraction = random.bits() >> 12 >> left_out << left_out;
    any_sign(random) * f64::from_bits((exponent as u64) << 52 | fraction)
}

/// A power of two, or one of its next neighbours.
fn beside_a_power(random: &mut Random) -> f64 {
    let exponent = random.between(1023 - 60, 1023 + 40) as u64;
    let bits = (exponent << 52) + random.between(0, 4) as u64 - 2;
    any_sign(random) * clamped(f64::from_bits(bits))
}

/// Vertices of which one number, less the local origin, has 53 binary digits or one more: the difference is
/// 2^53 and a little, or 2^53 less a little, in the number's own last digits.
fn about_the_last_digit(random: &mut Random) -> Vec<[f64; 3]> {
    let digits = random.between(13, 53);
    // At most 2^53 steps of 2^-digits, and with a half below 2^40.
    let whole = random.between(1, (1 << (53 - digits)).min((1 << 40) - 1)) as i64;
    let steps = (1 << 53) - (whole << digits) + random.pick(&[-3, -1, 1, 3]);
    let (sign, axis) = (any_sign(random), random.below(3));

    let mut points = many(random, |random| random.whole(64) / 4.0);
    points.truncate(MOST_VERTICES - 1);
    points.push([1.0; 3]);
    let other = random.between(1, points.len() - 1);
    points[0][axis] = sign * (whole as f64 + random.pick(&[0.0, 0.5]));
    points[other][axis] = -sign * (steps as f64 / (1_u64 << digits) as f64);
    points
}

/// Vertices of which every number can be moved but the very last: that has a digit of 2^-53 or less,
/// and lies on the other side of 0 than the local origin, which is at least 1 in magnitude there.
fn last_stays_behind(random: &mut Random) -> Vec<[f64; 3]> {
    let mut points = many(random, |random| random.whole(1 << 20) / 8.0);
    points.truncate(MOST_VERTICES - 1);
    let sign = any_sign(random);
    points[0][2] = sign * random.between(8, 1 << 20) as f64 / 8.0;
    let small = random.pick(&[f64::EPSILON / 2.0, 1e-20, 1e-300, 5e-324]);
    points.push([random.whole(9), random.whole(9), -sign * small]);
    points
}

/// Copies of other lengths: no vertex, one, as many as there may be, one more, and not in threes.
pub fn of_other_lengths(coords: &[f64]) -> Vec<Vec<f64>> {
    let most = 3 * MOST_VERTICES;
    let beside = [coords.len() - 1, coords.len() + 1, coords.len() + 2];
    let lengths = [0, 1, 3, 4, most - 1, most, most + 1, most + 3];
    let around = |length: usize| coords.iter().cycle().take(length).copied().collect();
    beside.into_iter().chain(lengths).map(around).collect()
}

/// Copies with a number out of the domain, in the first place, in the last or anywhere.
pub fn with_bad_numbers(coords: &[f64], random: &mut Random) -> Vec<Vec<f64>> {
    let bad = BAD_NUMBERS.into_iter().chain([f64::NEG_INFINITY]);
    bad.map(|bad| {
        let any = random.below(coords.len());
        let place = random.pick(&[0, coords.len() - 1, any, any]);
        let mut copy = coords.to_vec();
        copy[place] = bad;
        copy
    })
    .collect()
}

#[cfg(test)]
mod tests {
    use super::*;
    use crate::local_judge::moved;
    use crate::refusals;

    #[test]
    fn lists_are_sound_and_damage_is_seen() {
        let mut random = Random::new(5);
        for _ in 0..5000 {
            let Made { kind, coords } = any(&mut random);
            assert_eq!(refusals::of_points(&coords), None, "{kind} {coords:?}");
            for copy in with_bad_numbers(&coords, &mut random) {
                assert_eq!(refusals::of_points(&copy), Some(2), "{kind} {copy:?}");
            }
            let lengths = of_other_lengths(&coords);
            let refused = |copy: &&Vec<f64>| refusals::of_points(copy) == Some(1);
            assert_eq!(lengths.iter().filter(refused).count(), lengths.len() - 2);
        }
    }

    #[test]
    fn only_the_last_number_stays_behind() {
        let mut random = Random::new(6);
        for _ in 0..1000 {
            let mut coords = last_stays_behind(&mut random).into_flattened();
            assert_eq!(moved(&coords), Err(15), "{coords:?}");
            *coords.last_mut().expect("there are two vertices") = 0.0;
            assert!(moved(&coords).is_ok(), "{coords:?}");
        }
    }

    #[test]
    fn about_half_of_the_last_digits_are_held() {
        let mut random = Random::new(7);
        let lists = (0..1000).map(|_| about_the_last_digit(&mut random).into_flattened());
        let held = lists.filter(|coords| moved(coords).is_ok()).count();
        assert!((300..700).contains(&held), "{held}");
    }
}
