//! Makes a failing input as small and as plain as it can be while it still fails.

/// Most tries of one input. A comparison ends with the first input that fails, so a person waits for
/// them once.
const MOST_TRIES: usize = 20_000;

/// What can be made smaller or plainer.
pub trait Shrink: Clone {
    /// Tries smaller and plainer forms of itself, one after another, and becomes each that still fails.
    /// None of them may lead back to an earlier one.
    fn shrink(&mut self, fails: &mut dyn FnMut(&Self) -> bool);
}

/// What a comparison asks about.
pub trait Input: Shrink {
    /// Prints itself so that it can be pasted into a test.
    fn print(&self);
}

/// The smallest form found that still fails: rounds of tries until one keeps nothing more.
pub fn smallest<S: Shrink>(mut input: S, mut fails: impl FnMut(&S) -> bool) -> S {
    let mut tries = 0;
    loop {
        let mut kept = false;
        input.shrink(&mut |smaller| {
            tries += 1;
            let keep = tries <= MOST_TRIES && fails(smaller);
            kept |= keep;
            keep
        });
        if !kept {
            return input;
        }
    }
}

/// Becomes another form where that one still fails.
pub fn turn_into<S>(input: &mut S, other: S, fails: &mut dyn FnMut(&S) -> bool) {
    if fails(&other) {
        *input = other;
    }
}

/// Shrinks a part in its own way while the rest stays as it is.
pub fn within<W: Clone, P: Clone>(
    whole: &mut W,
    part: impl Fn(&mut W) -> &mut P,
    shrink: impl Fn(&mut P, &mut dyn FnMut(&P) -> bool),
    fails: &mut dyn FnMut(&W) -> bool,
) {
    let mut tried = whole.clone();
    shrink(part(whole), &mut |smaller| {
        part(&mut tried).clone_from(smaller);
        fails(&tried)
    });
}

/// The first of some values that still fails. They come plainest first, so that a value that is there
/// already ends the search.
fn plainest<S: Copy>(
    value: &mut S,
    plainer: impl IntoIterator<Item = S>,
    same: fn(S, S) -> bool,
    fails: &mut dyn FnMut(&S) -> bool,
) {
    let new = plainer
        .into_iter()
        .take_while(|&other| !same(other, *value));
    if let Some(other) = new.into_iter().find(|other| fails(other)) {
        *value = other;
    }
}

impl Shrink for f64 {
    fn shrink(&mut self, fails: &mut dyn FnMut(&f64) -> bool) {
        let value = *self;
        let sixteenth = (value * 16.0).round() / 16.0;
        let plainer = [0.0, value.signum(), value.round(), sixteenth];
        plainest(self, plainer, |a, b| a.to_bits() == b.to_bits(), fails);
    }
}

impl Shrink for u32 {
    fn shrink(&mut self, fails: &mut dyn FnMut(&u32) -> bool) {
        let plainer = [0, *self / 2, self.saturating_sub(1)];
        plainest(self, plainer, |a, b| a == b, fails);
    }
}

impl<S: Shrink, const N: usize> Shrink for [S; N] {
    fn shrink(&mut self, fails: &mut dyn FnMut(&[S; N]) -> bool) {
        for place in 0..N {
            within(self, |items| &mut items[place], S::shrink, fails);
        }
    }
}

impl<S: Shrink> Shrink for Vec<S> {
    fn shrink(&mut self, fails: &mut dyn FnMut(&Vec<S>) -> bool) {
        shorten(self, fails);
        for place in 0..self.len() {
            within(self, |items| &mut items[place], S::shrink, fails);
        }
    }
}

/// Leaves out stretches of a list, long ones first.
fn shorten<T: Clone>(list: &mut Vec<T>, fails: &mut dyn FnMut(&Vec<T>) -> bool) {
    let mut length = list.len();
    while length > 0 {
        let mut start = 0;
        while start + length <= list.len() {
            let before = list.len();
            let mut shorter = list.clone();
            shorter.drain(start..start + length);
            turn_into(list, shorter, fails);
            if list.len() == before {
                start += length;
            }
        }
        length /= 2;
    }
}

/// Shrinks a list of numbers that stand in groups, such as the coordinates of points: whole groups are
/// left out, unless the list holds no whole number of them.
pub fn in_groups<const N: usize>(list: &mut Vec<f64>, fails: &mut dyn FnMut(&Vec<f64>) -> bool) {
    let (groups, rest) = list.as_chunks::<N>();
    if rest.is_empty() {
        let mut groups = groups.to_vec();
        shorten(&mut groups, &mut |fewer| {
            fails(&fewer.as_flattened().to_vec())
        });
        *list = groups.into_flattened();
    } else {
        shorten(list, fails);
    }
    plain_numbers(list, fails);
}

/// Puts zeros in the place of stretches of numbers, long ones first, for some inputs fail only while
/// several numbers go together; then a plainer number in each place.
pub fn plain_numbers(list: &mut Vec<f64>, fails: &mut dyn FnMut(&Vec<f64>) -> bool) {
    let mut length = list.len();
    while length > 1 {
        for start in (0..=list.len() - length).step_by(length) {
            let stretch = start..start + length;
            if list[stretch.clone()]
                .iter()
                .any(|number| number.to_bits() != 0)
            {
                let mut plainer = list.clone();
                plainer[stretch].fill(0.0);
                turn_into(list, plainer, fails);
            }
        }
        length /= 2;
    }
    for place in 0..list.len() {
        within(list, |numbers| &mut numbers[place], f64::shrink, fails);
    }
}

/// Leaves out vertices that no corner names, all of them or else one by one, and numbers the rest anew.
pub fn fewer_vertices(
    coords: &mut Vec<f64>,
    corners: &mut Vec<u32>,
    fails: &mut dyn FnMut(&[f64], &[u32]) -> bool,
) {
    let mut turn_into = |kept: &[u32], coords: &mut Vec<f64>, corners: &mut Vec<u32>| {
        let (fewer, numbered) = over_vertices(kept, coords, corners);
        let is_new = fewer.len() < coords.len() || numbered != *corners;
        if is_new && fails(&fewer, &numbered) {
            (*coords, *corners) = (fewer, numbered);
        }
    };
    turn_into(&by_first_mention(coords, corners), coords, corners);
    for vertex in (0..coords.len() as u32 / 3).rev() {
        if !corners.contains(&vertex) {
            let mut kept: Vec<u32> = (0..coords.len() as u32 / 3).collect();
            kept.remove(vertex as usize);
            turn_into(&kept, coords, corners);
        }
    }
}

/// The vertices that corners name, in the order in which they do.
fn by_first_mention(coords: &[f64], corners: &[u32]) -> Vec<u32> {
    let mut named = Vec::new();
    for &corner in corners {
        if (corner as usize) < coords.len() / 3 && !named.contains(&corner) {
            named.push(corner);
        }
    }
    named
}

/// The coordinates of some vertices only, and the corners by their new numbers. A corner that names no
/// vertex stays as it is, and names none afterwards.
fn over_vertices(kept: &[u32], coords: &[f64], corners: &[u32]) -> (Vec<f64>, Vec<u32>) {
    let (points, rest) = coords.as_chunks::<3>();
    let number = |&corner: &u32| {
        let place = kept.iter().position(|&vertex| vertex == corner);
        place.map_or(corner, |place| place as u32)
    };
    let numbers = kept.iter().flat_map(|&vertex| points[vertex as usize]);
    let coords = numbers.chain(rest.iter().copied()).collect();
    (coords, corners.iter().map(number).collect())
}

#[cfg(test)]
mod tests {
    use super::*;

    #[test]
    fn a_list_loses_all_that_does_not_matter() {
        let list: Vec<u32> = (0..1000).collect();
        let small = smallest(list, |list| {
            list.iter().any(|&item| item > 700) && list.len() > 2
        });
        assert_eq!(small, [0, 0, 701]);
    }

    #[test]
    fn numbers_become_plain_as_far_as_they_can() {
        let fails = |numbers: &[f64; 4]| {
            numbers[1] < 0.0 && numbers[2] > 2.03 && numbers[2] < 2.1 && numbers[3].is_nan()
        };
        let small = smallest([3.7, -12.34, 2.05, f64::NAN], fails);
        assert_eq!(small[..3], [0.0, -1.0, 2.0625]);
    }

    #[test]
    fn whole_groups_are_left_out_of_numbers() {
        let mut numbers = vec![1.0, 1.0, 5.0, 6.0, 7.0, 1.0];
        in_groups::<2>(&mut numbers, &mut |numbers| {
            numbers.chunks(2).any(|group| group == [5.0, 6.0])
        });
        assert_eq!(numbers, [5.0, 6.0]);
    }

    #[test]
    fn vertices_are_numbered_by_first_mention() {
        let mut coords: Vec<f64> = (0..12).map(f64::from).collect();
        let mut corners = vec![3, 9, 1, 3];
        fewer_vertices(&mut coords, &mut corners, &mut |_, _| true);
        assert_eq!(coords, [9.0, 10.0, 11.0, 3.0, 4.0, 5.0]);
        assert_eq!(corners, [0, 9, 1, 0]);
    }

    #[test]
    fn a_vertex_that_no_corner_names_may_matter() {
        let mut coords: Vec<f64> = (0..12).map(f64::from).collect();
        let mut corners = vec![3, 9, 3];
        let matters = |coords: &[f64], _: &[u32]| coords.contains(&6.0);
        fewer_vertices(&mut coords, &mut corners, &mut { matters });
        assert_eq!(coords, [6.0, 7.0, 8.0, 9.0, 10.0, 11.0]);
        assert_eq!(corners, [1, 9, 1]);
    }

    #[test]
    fn what_is_numbered_already_is_not_tried_again() {
        let (mut coords, mut corners) = (vec![f64::NAN; 6], vec![0, 1]);
        fewer_vertices(&mut coords, &mut corners, &mut |_, _| panic!("tried"));
    }

    #[test]
    fn an_input_that_always_fails_ends() {
        let mut tries = 0;
        let small = smallest(vec![f64::NAN; 5000], |_| {
            tries += 1;
            true
        });
        assert!(small.is_empty());
        assert!(tries <= MOST_TRIES);
    }
}
