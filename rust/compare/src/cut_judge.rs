//! Checks triangles against a face by request 9 alone: the second teller of `check_cut`.
//!
//! The Rust has no such check. Here every side of every triangle is counted in a table, and each
//! part of the request's sentence is asked of the table in turn.

/// Corners of a face that is checked, and triangles of a list.
pub const FEWEST_CORNERS: u32 = 3;
pub const MOST_CHECKED_CORNERS: u32 = 256;
pub const MOST_TRIANGLES: usize = 254;

/// The second teller. It keeps its table from one list to the next, so that a list costs no new
/// one.
#[derive(Default)]
pub struct Judge {
    runs: Vec<u16>,
}

impl Judge {
    /// Whether a list of places is a cut of a face of so many corners; or the refusal, 1, then 4.
    pub fn is_cut(&mut self, corners: u32, places: &[u32]) -> Result<bool, u8> {
        if let Some(number) = refusal(corners, places) {
            return Err(number);
        }
        let triangles = places.as_chunks::<3>().0;
        Ok(triangles.len() == corners as usize - 2
            && triangles.iter().all(has_three_different_places)
            && self.has_right_sides(corners, triangles))
    }

    /// Whether each side of the face occurs in exactly one triangle in its own direction and in
    /// none reversed, and every other side that occurs does so once each way. No place may be twice
    /// in a triangle.
    pub fn has_right_sides(&mut self, corners: u32, triangles: &[[u32; 3]]) -> bool {
        let at = |from: u32, to: u32| (from * corners + to) as usize;
        self.runs.clear();
        self.runs.resize((corners * corners) as usize, 0);
        for &[a, b, c] in triangles {
            for (from, to) in [(a, b), (b, c), (c, a)] {
                self.runs[at(from, to)] += 1;
            }
        }
        (0..corners).all(|low| {
            (low + 1..corners).all(|high| {
                let upward = self.runs[at(low, high)];
                let downward = self.runs[at(high, low)];
                if high == low + 1 {
                    // A side of the face, from a place to the next.
                    (upward, downward) == (1, 0)
                } else if (low, high) == (0, corners - 1) {
                    // A side of the face, from the last place to the first.
                    (upward, downward) == (0, 1)
                } else {
                    (upward, downward) == (0, 0) || (upward, downward) == (1, 1)
                }
            })
        })
    }
}

/// 1 for a number of corners out of range, places not in threes or too many triangles; 4 for a
/// place that is not below the number of corners.
pub fn refusal(corners: u32, places: &[u32]) -> Option<u8> {
    let no_face = !(FEWEST_CORNERS..=MOST_CHECKED_CORNERS).contains(&corners);
    let no_list = !places.len().is_multiple_of(3) || places.len() / 3 > MOST_TRIANGLES;
    if no_face || no_list {
        Some(1)
    } else if places.iter().any(|&place| place >= corners) {
        Some(4)
    } else {
        None
    }
}

pub fn has_three_different_places(&[a, b, c]: &[u32; 3]) -> bool {
    a != b && b != c && c != a
}

#[cfg(test)]
mod tests {
    use super::*;
    use std::collections::BTreeSet;

    fn answer(corners: u32, triangles: &[[u32; 3]]) -> Result<bool, u8> {
        Judge::default().is_cut(corners, triangles.as_flattened())
    }

    #[test]
    fn both_cuts_of_a_square_are_accepted() {
        assert_eq!(answer(4, &[[0, 1, 2], [0, 2, 3]]), Ok(true));
        assert_eq!(answer(4, &[[1, 2, 3], [3, 0, 1]]), Ok(true));
        assert_eq!(answer(4, &[[2, 3, 0], [1, 2, 0]]), Ok(true));
        assert_eq!(answer(3, &[[1, 2, 0]]), Ok(true));
    }

    #[test]
    fn other_lists_are_not() {
        // A triangle doubled, in the place of another and beside it.
        assert_eq!(answer(4, &[[0, 1, 2], [0, 1, 2]]), Ok(false));
        assert_eq!(answer(4, &[[0, 1, 2], [0, 2, 3], [0, 1, 2]]), Ok(false));
        // One turned round, all turned round.
        assert_eq!(answer(4, &[[0, 1, 2], [0, 3, 2]]), Ok(false));
        assert_eq!(answer(4, &[[2, 1, 0], [3, 2, 0]]), Ok(false));
        // One missing, all missing.
        assert_eq!(answer(4, &[[0, 1, 2]]), Ok(false));
        assert_eq!(answer(4, &[]), Ok(false));
        // Of both cuts one.
        assert_eq!(answer(4, &[[0, 1, 2], [3, 0, 1]]), Ok(false));
        // A place twice in a triangle.
        assert_eq!(answer(4, &[[0, 1, 2], [0, 2, 2]]), Ok(false));
        assert_eq!(answer(3, &[[0, 0, 0]]), Ok(false));
    }

    #[test]
    fn a_list_whose_sides_are_all_right_may_have_too_many_triangles() {
        let cut = [[0, 1, 2], [0, 2, 3], [0, 3, 4], [0, 4, 5]];
        assert_eq!(answer(6, &cut), Ok(true));
        // Both faces of a triangle of which no side is there yet.
        let beside = [&cut[..], &[[1, 3, 5], [5, 3, 1]]].concat();
        assert!(Judge::default().has_right_sides(6, &beside));
        assert_eq!(answer(6, &beside), Ok(false));
    }

    #[test]
    fn refusals_come_in_their_order() {
        let places = [9; 3 * 255];
        for corners in [0, 1, 2, 257, u32::MAX] {
            assert_eq!(refusal(corners, &[]), Some(1));
            assert_eq!(refusal(corners, &places[..3]), Some(1));
        }
        assert_eq!(refusal(3, &[]), None);
        assert_eq!(refusal(256, &places), Some(1));
        assert_eq!(refusal(9, &places), Some(1));
        assert_eq!(refusal(9, &places[3..]), Some(4));
        assert_eq!(refusal(10, &places[3..]), None);
        for length in [1, 2, 4, 5, 761] {
            assert_eq!(refusal(9, &places[..length]), Some(1));
        }
        assert_eq!(refusal(3, &[0, 1, u32::MAX]), Some(4));
    }

    /// The ways to cut the ring of places from `first` to `last`: the triangle on the side between
    /// the two has its third place anywhere, and leaves a ring on either side.
    fn all_cuts(first: u32, last: u32) -> Vec<BTreeSet<[u32; 3]>> {
        if last == first + 1 {
            return vec![BTreeSet::new()];
        }
        let mut cuts = Vec::new();
        for third in first + 1..last {
            for below in all_cuts(first, third) {
                for above in all_cuts(third, last) {
                    let mut cut: BTreeSet<[u32; 3]> = below.union(&above).copied().collect();
                    cut.insert([first, third, last]);
                    cuts.push(cut);
                }
            }
        }
        cuts
    }

    /// Every triangle of three different places over so many corners, from its lowest place on.
    fn proper_from_the_lowest(corners: u32) -> Vec<[u32; 3]> {
        let lowest = |a: u32| {
            let others = move |b: u32| (a + 1..corners).map(move |c| [a, b, c]);
            (a + 1..corners).flat_map(others)
        };
        let all = (0..corners).flat_map(lowest);
        all.filter(has_three_different_places).collect()
    }

    /// The sets of so many triangles out of a list that are accepted.
    fn accepted(corners: u32, of: &[[u32; 3]], chosen: &mut Vec<[u32; 3]>) -> usize {
        if chosen.len() == corners as usize - 2 {
            return usize::from(answer(corners, chosen) == Ok(true));
        }
        let mut count = 0;
        for (place, &triangle) in of.iter().enumerate() {
            chosen.push(triangle);
            count += accepted(corners, &of[place + 1..], chosen);
            chosen.pop();
        }
        count
    }

    #[test]
    fn exactly_the_cuts_of_a_ring_are_accepted() {
        for (corners, ways) in [(3, 1), (4, 2), (5, 5), (6, 14), (7, 42), (8, 132), (9, 429)] {
            let cuts = all_cuts(0, corners - 1);
            assert_eq!(cuts.len(), ways, "{corners}");
            for cut in &cuts {
                let cut: Vec<[u32; 3]> = cut.iter().copied().collect();
                assert_eq!(answer(corners, &cut), Ok(true), "{cut:?}");
            }
            if corners <= 6 {
                let triangles = proper_from_the_lowest(corners);
                let accepted = accepted(corners, &triangles, &mut Vec::new());
                assert_eq!(accepted, ways, "{corners}");
            }
        }
    }
}
