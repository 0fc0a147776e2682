//! The entries on lists of points, in space and in the plane, by the port and by the Rust; for
//! `to_local`, which the Rust has not, by the second teller.

use oracle::plain as rust;

use crate::calls::{Calls, departure, print_list, unless_refused};
use crate::random::Random;
use crate::shrink::{Input, Shrink, in_groups, within};
use crate::{local, ours, refusals};

/// A list of points, D numbers each; or of numbers that are not so many.
#[derive(Clone)]
pub struct Points<const D: usize>(pub Vec<f64>);

impl<const D: usize> Input for Points<D> {
    fn print(&self) {
        print_list("points", "f64", &self.0);
    }
}

impl<const D: usize> Shrink for Points<D> {
    fn shrink(&mut self, fails: &mut dyn FnMut(&Points<D>) -> bool) {
        within(self, |points| &mut points.0, in_groups::<D>, fails);
    }
}

pub fn compare_in_space(calls: &mut Calls, Points(numbers): &Points<3>, random: &mut Random) {
    let by = |values: &dyn Fn(&[[f64; 3]]) -> Vec<f64>| {
        unless_refused(refusals::of_points(numbers), || {
            values(numbers.as_chunks::<3>().0)
        })
    };
    let normal = by(&|points| rust::newell_normal(points).to_vec());
    calls.asked("newell_normal", 3, normal, random, |out| {
        ours::newell_normal(numbers, out)
    });
    let centroid = by(&|points| rust::vertex_centroid3(points).to_vec());
    calls.asked("vertex_centroid", 3, centroid, random, |out| {
        ours::vertex_centroid(numbers, out)
    });
    let bounds = by(&|points| rust::bounds_iter3(points).as_flattened().to_vec());
    calls.asked_for_bounds("list_bounds", 6, bounds, random, |out| {
        ours::list_bounds(numbers, out)
    });
    local::compare_list(calls, numbers, ours::to_local);
}

pub fn compare_in_the_plane(calls: &mut Calls, Points(numbers): &Points<2>, random: &mut Random) {
    let refusal = refusals::of_points2(numbers);
    let by = |values: &dyn Fn(&[[f64; 2]]) -> Vec<f64>| {
        unless_refused(refusal, || values(numbers.as_chunks::<2>().0))
    };
    let area = by(&|points| vec![rust::signed_area2(points)]);
    calls.asked("signed_area2", 1, area, random, |out| {
        ours::signed_area2(numbers, out)
    });
    let centroid = by(&|points| rust::vertex_centroid2(points).to_vec());
    calls.asked("vertex_centroid2", 2, centroid, random, |out| {
        ours::vertex_centroid2(numbers, out)
    });
    let bounds = by(&|points| rust::bounds_iter2(points).as_flattened().to_vec());
    calls.asked_for_bounds("bounds2", 4, bounds, random, |out| {
        ours::bounds2(numbers, out)
    });
    turned(calls, numbers, refusal);
}

/// The list itself is lent, and a refused one stays as it is.
fn turned(calls: &mut Calls, numbers: &[f64], refusal: Option<u8>) {
    let mut by_the_rust = numbers.to_vec();
    if refusal.is_none() {
        rust::into_ccw2(by_the_rust.as_chunks_mut::<2>().0);
    }
    let mut turned = numbers.to_vec();
    let answer = ours::into_ccw2(&mut turned);
    let departure = departure("points", &turned, &by_the_rust);
    let wanted = refusal.unwrap_or(0);
    calls.held("into_ccw2", &[numbers.len()], answer, wanted, departure);
}

#[cfg(test)]
mod tests {
    use super::*;
    use crate::cells;
    use crate::comparison::tests::smallest_of;

    /// A mean that leaves out the last of more than two points.
    fn without_the_last(numbers: &[f64], out: &mut [f64]) -> u8 {
        let used = if numbers.len() > 6 {
            &numbers[..numbers.len() - 3]
        } else {
            numbers
        };
        ours::vertex_centroid(used, out)
    }

    #[test]
    fn a_wrong_mean_shrinks_to_three_points() {
        let any = |random: &mut Random| Points::<3>(cells::any(random).cell.coords);
        let Points(small) = smallest_of(any, |calls, Points(numbers), random| {
            let expected = unless_refused(refusals::of_points(numbers), || {
                rust::vertex_centroid3(numbers.as_chunks::<3>().0).to_vec()
            });
            calls.asked("vertex_centroid", 3, expected, random, |out| {
                without_the_last(numbers, out)
            });
        });
        assert_eq!(small.len(), 9);
        assert_eq!(small.iter().filter(|&&value| value != 0.0).count(), 1);
    }
}
