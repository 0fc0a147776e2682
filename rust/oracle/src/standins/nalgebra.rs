//! Stands in for `nalgebra`: points and vectors of the plane, for `contains_stable` alone, which
//! the port leaves out.

use std::ops::{Add, Mul, Sub};

#[derive(Clone, Copy)]
pub(crate) struct Point2<T> {
    x: T,
    y: T,
}

#[derive(Clone, Copy)]
pub(crate) struct Vector2<T> {
    x: T,
    y: T,
}

impl<T> Point2<T> {
    pub(crate) fn new(x: T, y: T) -> Self {
        Point2 { x, y }
    }
}

impl Vector2<f64> {
    pub(crate) fn dot(&self, other: &Self) -> f64 {
        self.x * other.x + self.y * other.y
    }

    pub(crate) fn norm_squared(&self) -> f64 {
        self.dot(self)
    }
}

impl Sub for Point2<f64> {
    type Output = Vector2<f64>;

    fn sub(self, other: Self) -> Vector2<f64> {
        Vector2 {
            x: self.x - other.x,
            y: self.y - other.y,
        }
    }
}

impl Add<Vector2<f64>> for Point2<f64> {
    type Output = Point2<f64>;

    fn add(self, step: Vector2<f64>) -> Point2<f64> {
        Point2 {
            x: self.x + step.x,
            y: self.y + step.y,
        }
    }
}

impl Mul<Vector2<f64>> for f64 {
    type Output = Vector2<f64>;

    fn mul(self, vector: Vector2<f64>) -> Vector2<f64> {
        Vector2 {
            x: self * vector.x,
            y: self * vector.y,
        }
    }
}
