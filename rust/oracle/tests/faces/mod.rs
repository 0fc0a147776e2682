//! Faces for the tests: the seven corners of SCOPE 16, and random ones. Coordinates are whole numbers
//! below 2^31 in magnitude.

pub type Vector = [i128; 3];
pub type Triangle = [usize; 3];

pub fn as_floats(points: &[Vector]) -> Vec<[f64; 3]> {
    points.iter().map(|p| p.map(|x| x as f64)).collect()
}

/// The corner list started at another place.
pub fn started_at(start: usize, face: &[usize]) -> Vec<usize> {
    [&face[start..], &face[..start]].concat()
}

pub fn plus(a: Vector, b: Vector) -> Vector {
    [a[0] + b[0], a[1] + b[1], a[2] + b[2]]
}

pub fn level(points: &[[i128; 2]]) -> Vec<Vector> {
    points.iter().map(|p| [p[0], p[1], 0]).collect()
}

#[rustfmt::skip]
pub fn seven() -> Vec<Vector> {
    level(&[[0, 0], [10, 0], [0, 10], [0, 0], [0, -1], [-1, -1], [-1, 0]])
}

/// Numbers that look random, by a seed.
pub struct Random(pub u64);

impl Random {
    pub fn below(&mut self, n: u64) -> u64 {
        self.0 ^= self.0 << 13;
        self.0 ^= self.0 >> 7;
        self.0 ^= self.0 << 17;
        self.0 % n
    }

    /// From −limit to limit.
    fn whole(&mut self, limit: i128) -> i128 {
        self.below(2 * limit as u64 + 1) as i128 - limit
    }
}

/// The places of so many different vertices, which may coincide. They lie within a few units or
/// some thousand of each other: at one height, in one slanting plane, or anywhere. One list in
/// three lies up to 2^30 from the origin along each axis, where products of coordinates are mostly
/// rounded.
pub fn random_points(corners: u64, random: &mut Random) -> Vec<Vector> {
    let width = [2, 3, 6, 1000][random.below(4) as usize];
    let kind = random.below(3);
    let (by_x, by_y) = (random.whole(2), random.whole(2));
    let far = if random.below(3) == 0 { 1 << 30 } else { 0 };
    let place = [random.whole(far), random.whole(far), random.whole(far)];
    let point = |_| {
        let (x, y) = (random.whole(width), random.whole(width));
        let z = match kind {
            0 => 0,
            1 => by_x * x + by_y * y,
            _ => random.whole(width),
        };
        plus(place, [x, y, z])
    };
    (0..corners).map(point).collect()
}
