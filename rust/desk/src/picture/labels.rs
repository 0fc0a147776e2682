//! Where numbers stand in a view so that each can be read.

use super::text::width;
use super::views::{Flat, Rect};

/// The size of the letters of a label.
pub const SIZE: f64 = 12.0;

/// How many numbers stand in one label before the others are only counted.
const MOST_NUMBERS: usize = 4;

/// How far labels stand from their spot. Those of the first distance need no line to it.
pub const DISTANCES: [f64; 4] = [6.0, 18.0, 32.0, 50.0];

/// What speaks too much against a place: a label there would hide another or leave the view.
const TOO_MUCH: f64 = 120.0;

/// The directions in which a label may stand from its spot. They are written down, since sines can
/// differ from machine to machine.
const DIRECTIONS: [Flat; 12] = [
    [1.0, 0.0],
    [0.866, 0.5],
    [0.5, 0.866],
    [0.0, 1.0],
    [-0.5, 0.866],
    [-0.866, 0.5],
    [-1.0, 0.0],
    [-0.866, -0.5],
    [-0.5, -0.866],
    [0.0, -1.0],
    [0.5, -0.866],
    [0.866, -0.5],
];

/// Things that lie at one spot of a view, by their numbers in the file.
pub struct Group {
    /// The spot.
    pub spot: Flat,
    /// The numbers.
    pub numbers: Vec<String>,
}

impl Group {
    /// The numbers as a label shows them.
    pub fn text(&self) -> String {
        let shown = self.numbers[..self.numbers.len().min(MOST_NUMBERS)].join(", ");
        match self.numbers.len().saturating_sub(MOST_NUMBERS) {
            0 => shown,
            more => format!("{shown} +{more}"),
        }
    }
}

/// Gathers what lies so close together that two labels would cover each other.
pub fn gathered(things: impl IntoIterator<Item = (Flat, String)>) -> Vec<Group> {
    let mut groups: Vec<Group> = Vec::new();
    for (spot, number) in things {
        let near = |group: &&mut Group| (group.spot[0] - spot[0]).abs() < 3.0 && (group.spot[1] - spot[1]).abs() < 3.0;
        match groups.iter_mut().find(near) {
            Some(group) => group.numbers.push(number),
            None => groups.push(Group { spot, numbers: vec![number] }),
        }
    }
    groups
}

/// The room that a label takes.
pub fn room(text: &str) -> Flat {
    [width(text, SIZE) + 6.0, SIZE + 4.0]
}

/// What is taken already in a view.
pub struct Sheet {
    /// The box in which all labels should stand.
    pub frame: Rect,
    /// The middle, from which labels stand away.
    pub middle: Flat,
    /// The boxes that are taken.
    pub taken: Vec<Rect>,
    /// The lines that labels should not cover.
    pub lines: Vec<[Flat; 2]>,
}

/// A place that a label may take, and what speaks against it.
struct Place {
    rect: Rect,
    distance: f64,
    cost: f64,
}

impl Sheet {
    /// Takes the best place about a spot, where there is one. The second answer is whether a line
    /// should lead there.
    pub fn beside(&mut self, spot: Flat, size: Flat) -> Option<(Rect, bool)> {
        let places = self.around(spot, size);
        let best = self.take(places)?;
        Some((best.rect, best.distance > DISTANCES[0]))
    }

    /// Takes the best of these spots itself, or where all are bad the best place about the first.
    pub fn upon(&mut self, spots: &[Flat], size: Flat) -> Option<(Rect, bool)> {
        let mut places = Vec::new();
        for &spot in spots {
            let rect = Rect::about(spot, size);
            places.push(Place { rect, distance: 0.0, cost: self.cost(&rect) });
        }
        places.extend(spots.first().map(|&spot| self.around(spot, size)).unwrap_or_default());
        let best = self.take(places)?;
        Some((best.rect, best.distance > 0.0))
    }

    /// Takes the best of these places, unless even that hides too much.
    fn take(&mut self, places: Vec<Place>) -> Option<Place> {
        // Of equal costs the first place stays, so that the choice is the same everywhere.
        let best = places.into_iter().reduce(|a, b| if b.cost < a.cost { b } else { a })?;
        if best.cost >= TOO_MUCH {
            return None;
        }
        self.taken.push(best.rect);
        Some(best)
    }

    /// The places about a spot.
    fn around(&self, spot: Flat, size: Flat) -> Vec<Place> {
        let outward = direction(self.middle, spot);
        let mut places = Vec::new();
        for distance in DISTANCES {
            for [dx, dy] in DIRECTIONS {
                let reach = [distance + size[0] / 2.0, distance + size[1] / 2.0];
                let rect = Rect::about([spot[0] + dx * reach[0], spot[1] + dy * reach[1]], size);
                let inward = 1.0 - (dx * outward[0] + dy * outward[1]);
                let cost = self.cost(&rect) + 5.0 * inward + distance - DISTANCES[0];
                places.push(Place { rect, distance, cost });
            }
        }
        places
    }

    /// What speaks against a box: other labels most, then the frame, then lines.
    fn cost(&self, rect: &Rect) -> f64 {
        // A number of which a little is hidden can be read as another number.
        let hides = |taken: &Rect| match shared(taken, rect) {
            0.0 => 0.0,
            area => TOO_MUCH + area,
        };
        let covered: f64 = self.taken.iter().map(hides).sum();
        let outside = rect.size()[0] * rect.size()[1] - shared(&self.frame, rect);
        let out = if outside > 1.0 { TOO_MUCH } else { 0.0 };
        if covered + out >= TOO_MUCH {
            // No line can make it worse, and there may be thousands.
            return covered + out;
        }
        let cut = self.lines.iter().filter(|&&line| cuts(line, rect)).count();
        14.0 * cut as f64
    }
}

/// The area that two boxes share.
fn shared(a: &Rect, b: &Rect) -> f64 {
    let along = |k: usize| (a.high[k].min(b.high[k]) - a.low[k].max(b.low[k])).max(0.0);
    along(0) * along(1)
}

/// The direction from one place to another; up where there is none.
fn direction(from: Flat, to: Flat) -> Flat {
    let [x, y] = [to[0] - from[0], to[1] - from[1]];
    let length = (x * x + y * y).sqrt();
    if length > 1e-6 { [x / length, y / length] } else { [0.0, -1.0] }
}

/// Whether a line has a stretch in a box.
fn cuts([a, b]: [Flat; 2], rect: &Rect) -> bool {
    // The part of the line that is within the box along one axis, cut down by the other.
    let (mut first, mut last) = (0.0f64, 1.0f64);
    for k in 0..2 {
        let run = b[k] - a[k];
        if run == 0.0 {
            if a[k] < rect.low[k] || a[k] > rect.high[k] {
                return false;
            }
            continue;
        }
        let (s, t) = ((rect.low[k] - a[k]) / run, (rect.high[k] - a[k]) / run);
        (first, last) = (first.max(s.min(t)), last.min(s.max(t)));
    }
    first <= last
}

#[cfg(test)]
mod tests {
    use super::*;

    fn sheet() -> Sheet {
        let frame = Rect { low: [0.0, 0.0], high: [200.0, 200.0] };
        Sheet { frame, middle: [100.0, 100.0], taken: Vec::new(), lines: Vec::new() }
    }

    #[test]
    fn a_label_stands_away_from_the_middle() {
        let (rect, line) = sheet().beside([150.0, 100.0], [20.0, 10.0]).unwrap();
        assert_eq!(rect.low, [156.0, 95.0]);
        assert!(!line);
    }

    #[test]
    fn labels_do_not_cover_each_other() {
        let mut sheet = sheet();
        for k in 0..12 {
            assert!(sheet.beside([100.0 + f64::from(k), 120.0], [26.0, 14.0]).is_some());
        }
        for (k, a) in sheet.taken.iter().enumerate() {
            for b in &sheet.taken[..k] {
                assert_eq!(shared(a, b), 0.0);
            }
        }
    }

    #[test]
    fn a_label_upon_its_spot_gives_way_to_a_line() {
        let spots = [[50.0, 60.0], [50.0, 90.0]];
        assert_eq!(sheet().upon(&spots, [20.0, 10.0]).unwrap().0.middle(), spots[0]);
        let mut lined = sheet();
        lined.lines.push([[0.0, 60.0], [200.0, 60.0]]);
        assert_eq!(lined.upon(&spots, [20.0, 10.0]).unwrap().0.middle(), spots[1]);
        let (rect, leads) = lined.upon(&spots[..1], [20.0, 10.0]).unwrap();
        assert!(!cuts(lined.lines[0], &rect) && leads);
    }

    #[test]
    fn a_label_without_room_is_left_out() {
        let mut sheet = sheet();
        let placed = (0..200).filter(|_| sheet.beside([100.0, 100.0], [40.0, 20.0]).is_some()).count();
        assert!((8..60).contains(&placed));
        sheet.taken.push(sheet.frame);
        assert!(sheet.upon(&[[20.0, 20.0]], [10.0, 10.0]).is_none());
    }

    #[test]
    fn what_lies_at_one_spot_shares_a_label() {
        let spots = [[10.0, 10.0], [11.0, 9.0], [50.0, 10.0]];
        let things = spots.iter().enumerate().map(|(k, &spot)| (spot, k.to_string()));
        let texts: Vec<String> = gathered(things).iter().map(Group::text).collect();
        assert_eq!(texts, ["0, 1", "2"]);
        let many = (0..6).map(|k| ([0.0, 0.0], k.to_string()));
        assert_eq!(gathered(many)[0].text(), "0, 1, 2, 3 +2");
    }

    #[test]
    fn lines_cut_boxes_that_they_cross() {
        let rect = Rect { low: [0.0, 0.0], high: [10.0, 10.0] };
        assert!(cuts([[-5.0, 5.0], [15.0, 6.0]], &rect));
        assert!(cuts([[2.0, 2.0], [2.0, 2.0]], &rect));
        assert!(!cuts([[-5.0, 8.0], [2.0, 15.0]], &rect));
        assert!(!cuts([[20.0, 0.0], [20.0, 10.0]], &rect));
    }
}
