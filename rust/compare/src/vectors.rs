//! The few rules of vectors in space that the random inputs are made with.

pub type Vector = [f64; 3];

pub fn sum(a: Vector, b: Vector) -> Vector {
    [0, 1, 2].map(|axis| a[axis] + b[axis])
}

pub fn scaled(a: Vector, by: f64) -> Vector {
    a.map(|part| by * part)
}

pub fn difference(a: Vector, b: Vector) -> Vector {
    sum(a, scaled(b, -1.0))
}

pub fn dot(a: Vector, b: Vector) -> f64 {
    a[0] * b[0] + a[1] * b[1] + a[2] * b[2]
}

pub fn cross(a: Vector, b: Vector) -> Vector {
    [
        a[1] * b[2] - a[2] * b[1],
        a[2] * b[0] - a[0] * b[2],
        a[0] * b[1] - a[1] * b[0],
    ]
}

/// The same way with length 1, or the vector itself where it has no length.
pub fn unit(a: Vector) -> Vector {
    let length = dot(a, a).sqrt();
    if length > 0.0 {
        a.map(|part| part / length)
    } else {
        a
    }
}
