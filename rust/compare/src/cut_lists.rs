//! Random lists of triangles to be checked against a face: cuts, damaged cuts, and lists whose
//! sides meet each other and that are no cut of the face.

use crate::calls::print_list;
use crate::cut_judge::{MOST_CHECKED_CORNERS, MOST_TRIANGLES, has_three_different_places};
use crate::random::Random;
use crate::shrink::{Input, Shrink, turn_into, within};

/// How many corners a face has, and the places of triangles over it, as someone sends them.
#[derive(Clone, Debug, PartialEq)]
pub struct Sent {
    pub corners: u32,
    pub places: Vec<u32>,
}

impl Sent {
    pub fn new(corners: u32, triangles: &[[u32; 3]]) -> Sent {
        Sent {
            corners,
            places: triangles.as_flattened().to_vec(),
        }
    }

    fn triangles(&self) -> &[[u32; 3]] {
        self.places.as_chunks::<3>().0
    }

    fn triangles_mut(&mut self) -> &mut [[u32; 3]] {
        self.places.as_chunks_mut::<3>().0
    }

    /// A corner of the face and the next become one, and triangles that both are in are left out: a
    /// cut stays one.
    fn merged(&self, place: u32) -> Sent {
        let lowered = |other: u32| other - u32::from(other > place);
        let all = self.triangles().iter().map(|t| t.map(lowered));
        let left: Vec<[u32; 3]> = all.filter(has_three_different_places).collect();
        Sent::new(self.corners - 1, &left)
    }
}

impl Input for Sent {
    fn print(&self) {
        println!("let n: u32 = {};", self.corners);
        print_list("places", "u32", &self.places);
    }
}

impl Shrink for Sent {
    /// Fewer corners with their triangles, then fewer triangles or numbers, then plainer places.
    fn shrink(&mut self, fails: &mut dyn FnMut(&Sent) -> bool) {
        let is_in_threes = self.places.len().is_multiple_of(3);
        if is_in_threes {
            for place in (0..self.corners.min(MOST_CHECKED_CORNERS)).rev() {
                let fewer = self.merged(place);
                turn_into(self, fewer, fails);
            }
            let mut triangles = self.triangles().to_vec();
            let corners = self.corners;
            triangles.shrink(&mut |fewer| fails(&Sent::new(corners, fewer)));
            self.places = triangles.into_flattened();
        } else {
            within(self, |sent| &mut sent.places, Vec::shrink, fails);
        }
        within(self, |sent| &mut sent.corners, u32::shrink, fails);
    }
}

/// A random list and what it is.
pub struct Made {
    pub kind: &'static str,
    pub sent: Sent,
}

/// Something that can happen to a list.
type Damage = fn(&mut Sent, &mut Random);

/// A list of another making, for a face of so many corners.
type Other = fn(u32, &mut Random) -> Vec<[u32; 3]>;

const DAMAGES: [(&str, Damage); 14] = [
    ("a side exchanged for the other", exchange_a_side),
    ("a triangle doubled", double),
    ("triangles turned round", turn_round),
    ("one side of a chord turned round", turn_a_sheet_round),
    ("triangles missing", leave_out),
    ("triangles more", add_some),
    ("a place changed", change_a_place),
    ("two places exchanged", exchange_two_places),
    ("corners of two triangles exchanged", exchange_two_corners),
    ("a triangle of fewer places", flatten),
    ("a place that is not there", stray),
    ("numbers not in threes", spoil_threes),
    ("as many triangles as may be, or more", fill),
    ("another number of corners", change_corners),
];

/// What each is, and how many corners the face has at least.
const OTHERS: [(&str, u32, Other); 8] = [
    ("a cut of another ring", 4, of_another_ring),
    ("two sheets joined", 5, two_sheets),
    ("a tetrahedron beside a smaller cut", 7, tetrahedron_beside),
    ("a pillow beside a smaller cut", 5, pillow_beside),
    ("a pillow in the place of two triangles", 4, pillow_in_place),
    ("a cut, and more that closes", 4, more_that_closes),
    ("a band with a twist", 5, twisted_band),
    ("any triangles", 3, any_triangles),
];

/// A random list: a cut, one that something happened to, once or twice, or one of another making.
pub fn any(random: &mut Random) -> Made {
    let corners = any_corners(random);
    match random.below(16) {
        0..=3 => Made {
            kind: "cuts",
            sent: any_cut(corners, random),
        },
        4..=10 => {
            let (kind, damage) = random.pick(&DAMAGES);
            let mut sent = any_cut(corners, random);
            damage(&mut sent, random);
            Made { kind, sent }
        }
        11 => {
            let mut sent = any_cut(corners, random);
            for _ in 0..2 {
                random.pick(&DAMAGES).1(&mut sent, random);
            }
            let kind = "damaged twice";
            Made { kind, sent }
        }
        _ => {
            let (kind, fewest, other) = random.pick(&OTHERS);
            let corners = corners.max(fewest);
            let mut triangles = other(corners, random);
            mix(&mut triangles, random);
            let sent = Sent::new(corners, &triangles);
            Made { kind, sent }
        }
    }
}

/// A number of corners in the range: mostly small, and now and then the largest.
fn any_corners(random: &mut Random) -> u32 {
    let corners = match random.below(16) {
        0 => MOST_CHECKED_CORNERS as usize,
        1 => random.between(129, MOST_CHECKED_CORNERS as usize),
        2..=3 => random.between(17, 128),
        4..=7 => random.between(8, 16),
        _ => random.between(3, 7),
    };
    corners as u32
}

// Cuts.

/// A cut that takes one ear after another off a ring. `ear` says which place of the ring is the
/// next tip, from how many it has.
fn cut_off(mut ring: Vec<u32>, mut ear: impl FnMut(usize) -> usize) -> Vec<[u32; 3]> {
    let mut triangles = Vec::new();
    while ring.len() > 2 {
        let length = ring.len();
        let tip = ear(length);
        let around = [tip + length - 1, tip, tip + 1];
        triangles.push(around.map(|place| ring[place % length]));
        ring.remove(tip);
    }
    triangles
}

/// A cut of a ring of places, its ears taken off at random places.
fn cut_anywhere(ring: Vec<u32>, random: &mut Random) -> Vec<[u32; 3]> {
    cut_off(ring, |length| random.below(length))
}

/// The cut from the first place to all others.
pub fn fan(corners: u32) -> Vec<[u32; 3]> {
    cut_off((0..corners).collect(), |_| 1)
}

/// The cut along a zigzag, ears being taken off both ends in turn.
pub fn strip(corners: u32) -> Vec<[u32; 3]> {
    let ear = |length: usize| {
        if length.is_multiple_of(2) {
            0
        } else {
            length - 1
        }
    };
    cut_off((0..corners).collect(), ear)
}

/// A random cut, its triangles in any order and each from any of its places on.
pub fn any_cut(corners: u32, random: &mut Random) -> Sent {
    let mut triangles = match random.below(8) {
        0 => fan(corners),
        1 => strip(corners),
        _ => cut_anywhere((0..corners).collect(), random),
    };
    mix(&mut triangles, random);
    Sent::new(corners, &triangles)
}

fn mix(triangles: &mut [[u32; 3]], random: &mut Random) {
    random.shuffle(triangles);
    for triangle in triangles {
        triangle.rotate_left(random.below(3));
    }
}

// What can happen to a list. A list of no triangle, or of too few, may stay as it is.

fn any_of(count: usize, random: &mut Random) -> Option<usize> {
    (count > 0).then(|| random.below(count))
}

/// The two triangles on an inner side give way to those on the other diagonal of their four places:
/// a cut stays one.
fn exchange_a_side(sent: &mut Sent, random: &mut Random) {
    let triangles = sent.triangles_mut();
    let Some(one) = any_of(triangles.len(), random) else {
        return;
    };
    let [a, b, c] = triangles[one];
    let beyond = |&[p, q, r]: &[u32; 3]| {
        let turns = [[p, q, r], [q, r, p], [r, p, q]];
        turns.iter().find(|t| (t[0], t[1]) == (b, a)).map(|t| t[2])
    };
    let mut others = triangles.iter().enumerate();
    let found = others.find_map(|(two, triangle)| Some((two, beyond(triangle)?)));
    if let Some((two, d)) = found {
        triangles[one] = [d, b, c];
        triangles[two] = [c, a, d];
    }
}

/// A triangle stands twice: in the place of another, or behind the last.
fn double(sent: &mut Sent, random: &mut Random) {
    let count = sent.triangles().len();
    let Some(one) = any_of(count, random) else {
        return;
    };
    let triangle = sent.triangles()[one];
    match count > 1 && random.once_in(2) {
        true => {
            let two = (one + random.between(1, count - 1)) % count;
            sent.triangles_mut()[two] = triangle;
        }
        false => sent.places.extend(triangle),
    }
}

/// One triangle runs the other way; now and then some do, or all.
fn turn_round(sent: &mut Sent, random: &mut Random) {
    let count = sent.triangles().len();
    let Some(one) = any_of(count, random) else {
        return;
    };
    match random.below(4) {
        0 => sent.triangles_mut().iter_mut().for_each(|t| t.reverse()),
        1 => {
            for triangle in sent.triangles_mut() {
                if random.once_in(2) {
                    triangle.reverse();
                }
            }
        }
        _ => sent.triangles_mut()[one].reverse(),
    }
}

/// All triangles run the other way that lie on one side of a chord, the longest side of a triangle.
/// The face's sides are reversed there, and the chord is run twice one way.
fn turn_a_sheet_round(sent: &mut Sent, random: &mut Random) {
    let Some(one) = any_of(sent.triangles().len(), random) else {
        return;
    };
    let [a, b, c] = sent.triangles()[one];
    let between = a.min(b).min(c)..=a.max(b).max(c);
    for triangle in sent.triangles_mut() {
        if triangle.iter().all(|place| between.contains(place)) {
            triangle.reverse();
        }
    }
}

/// One triangle is missing, or a few.
fn leave_out(sent: &mut Sent, random: &mut Random) {
    let mut triangles = sent.triangles().to_vec();
    for _ in 0..random.pick(&[1, 1, 1, 2, 5]) {
        if let Some(one) = any_of(triangles.len(), random) {
            triangles.remove(one);
        }
    }
    sent.places = triangles.into_flattened();
}

/// One triangle more, or a triangle and the same turned round.
fn add_some(sent: &mut Sent, random: &mut Random) {
    let corners = sent.corners.max(1) as usize;
    let mut triangle = [(); 3].map(|()| random.below(corners) as u32);
    sent.places.extend(triangle);
    if random.once_in(2) {
        triangle.reverse();
        sent.places.extend(triangle);
    }
}

fn change_a_place(sent: &mut Sent, random: &mut Random) {
    let corners = sent.corners.max(2) as usize;
    if let Some(one) = any_of(sent.places.len(), random) {
        // Another place of the face, far away or next to it.
        let anywhere = random.between(1, corners - 1);
        let by = random.pick(&[1, corners - 1, anywhere]);
        let changed = (sent.places[one] as usize + by) % corners;
        sent.places[one] = changed as u32;
    }
}

/// Two numbers of the list, or two places wherever they are named.
fn exchange_two_places(sent: &mut Sent, random: &mut Random) {
    let Some(one) = any_of(sent.places.len(), random) else {
        return;
    };
    let two = random.below(sent.places.len());
    if random.once_in(2) {
        sent.places.swap(one, two);
        return;
    }
    let (a, b) = (sent.places[one], sent.places[two]);
    for place in &mut sent.places {
        *place = match *place {
            other if other == a => b,
            other if other == b => a,
            other => other,
        };
    }
}

/// Two triangles give each other one of their places.
fn exchange_two_corners(sent: &mut Sent, random: &mut Random) {
    let count = sent.triangles().len();
    if count > 1 {
        let one = random.below(count);
        let two = (one + random.between(1, count - 1)) % count;
        let [p, q] = [(); 2].map(|()| random.below(3));
        sent.places.swap(3 * one + p, 3 * two + q);
    }
}

/// A triangle names one place twice, or three times.
fn flatten(sent: &mut Sent, random: &mut Random) {
    let count = sent.triangles().len();
    if let Some(one) = any_of(count, random) {
        let triangle = &mut sent.triangles_mut()[one];
        let kept = random.below(3);
        match random.once_in(4) {
            true => *triangle = [triangle[kept]; 3],
            false => triangle[(kept + random.between(1, 2)) % 3] = triangle[kept],
        }
    }
}

/// A place is the number of corners, or above it.
fn stray(sent: &mut Sent, random: &mut Random) {
    let corners = sent.corners;
    if let Some(one) = any_of(sent.places.len(), random) {
        let beyond = [corners, corners, corners.saturating_add(1), 256, u32::MAX];
        sent.places[one] = random.pick(&beyond);
    }
}

/// One number or two too many, or too few.
fn spoil_threes(sent: &mut Sent, random: &mut Random) {
    let length = sent.places.len();
    match random.below(4) {
        0 => sent.places.truncate(length.saturating_sub(1)),
        1 => sent.places.truncate(length.saturating_sub(2)),
        2 => sent.places.push(0),
        _ => sent.places.extend([0, 1]),
    }
}

/// So many triangles that they are just not too many, or just too many.
fn fill(sent: &mut Sent, random: &mut Random) {
    let most = MOST_TRIANGLES;
    let count = random.pick(&[most - 1, most, most, most + 1, most + 1, most + 2, 1000]);
    if !sent.places.is_empty() {
        let numbers = sent.places.iter().cycle().take(3 * count);
        sent.places = numbers.copied().collect();
    }
}

/// A corner more or less, or a number out of the range.
fn change_corners(sent: &mut Sent, random: &mut Random) {
    let other = [0, 1, 2, 257, u32::MAX];
    sent.corners = match random.below(4) {
        0 => sent.corners.saturating_sub(1),
        1 => sent.corners.saturating_add(1),
        _ => random.pick(&other),
    };
}

// Lists of another making. Each has as many triangles as a cut, where nothing else is said.

/// So many different places of a face, in the order of its corners.
fn some_places(count: usize, corners: u32, random: &mut Random) -> Vec<u32> {
    let mut places: Vec<u32> = (0..corners).collect();
    random.shuffle(&mut places);
    places.truncate(count);
    places.sort();
    places
}

/// The places of the face in another order. Now and then they run backward.
fn of_another_ring(corners: u32, random: &mut Random) -> Vec<[u32; 3]> {
    let mut ring: Vec<u32> = (0..corners).collect();
    match random.below(4) {
        0 => ring.reverse(),
        1 => ring.swap(0, random.below(corners as usize)),
        _ => random.shuffle(&mut ring),
    }
    cut_anywhere(ring, random)
}

/// Cuts of two rings that share two places, and with them all places of the face.
fn two_sheets(corners: u32, random: &mut Random) -> Vec<[u32; 3]> {
    let one = some_places(random.between(3, corners as usize - 1), corners, random);
    let mut shared = one.clone();
    random.shuffle(&mut shared);
    let is_in_two = |place: &u32| !one.contains(place) || shared[..2].contains(place);
    let two: Vec<u32> = (0..corners).filter(is_in_two).collect();
    let sheets = [cut_anywhere(one.clone(), random), cut_anywhere(two, random)];
    sheets.concat()
}

/// The four faces of a tetrahedron: every side of it is run once each way.
fn tetrahedron([a, b, c, d]: [u32; 4]) -> [[u32; 3]; 4] {
    [[a, b, c], [a, c, d], [a, d, b], [b, d, c]]
}

fn any_tetrahedron(corners: u32, random: &mut Random) -> [[u32; 3]; 4] {
    let mut places = some_places(4, corners, random);
    random.shuffle(&mut places);
    tetrahedron([places[0], places[1], places[2], places[3]])
}

/// Four corners of the face are passed over by the cut.
fn tetrahedron_beside(corners: u32, random: &mut Random) -> Vec<[u32; 3]> {
    let ring = some_places(corners as usize - 4, corners, random);
    let cut = cut_anywhere(ring, random);
    [&cut[..], &any_tetrahedron(corners, random)].concat()
}

/// A ring cut twice, the second time turned round.
fn pillow(ring: Vec<u32>, random: &mut Random) -> Vec<[u32; 3]> {
    let below = cut_anywhere(ring.iter().rev().copied().collect(), random);
    let above = cut_anywhere(ring, random);
    [below, above].concat()
}

/// Two corners of the face are passed over by the cut for each triangle pair of the pillow.
fn pillow_beside(corners: u32, random: &mut Random) -> Vec<[u32; 3]> {
    let pairs = random.between(1, (corners as usize - 3) / 2);
    let ring = some_places(corners as usize - 2 * pairs, corners, random);
    let cut = cut_anywhere(ring, random);
    let ring = some_places(pairs + 2, corners, random);
    [cut, pillow(ring, random)].concat()
}

/// The last two triangles of a cut give way to a triangle and the same turned round.
fn pillow_in_place(corners: u32, random: &mut Random) -> Vec<[u32; 3]> {
    let cut = cut_anywhere((0..corners).collect(), random);
    let ring = some_places(3, corners, random);
    [&cut[..cut.len() - 2], &pillow(ring, random)].concat()
}

/// A cut and a closed surface beside it. Where no side of that is in the cut, every side is right,
/// and only the number of triangles tells.
fn more_that_closes(corners: u32, random: &mut Random) -> Vec<[u32; 3]> {
    let cut = cut_anywhere((0..corners).collect(), random);
    match random.once_in(2) {
        true => [&cut[..], &any_tetrahedron(corners, random)].concat(),
        false => {
            let ring = some_places(random.between(3, corners.min(6) as usize), corners, random);
            [cut, pillow(ring, random)].concat()
        }
    }
}

/// Each triangle has its place and the next two in a ring that is not all of the face. Every other
/// one is turned round or none is, and the last ones meet the first ones.
fn twisted_band(corners: u32, random: &mut Random) -> Vec<[u32; 3]> {
    let mut ring = some_places(corners as usize - 2, corners, random);
    if random.once_in(2) {
        random.shuffle(&mut ring);
    }
    let is_turned = random.once_in(2);
    let triangle = |first: usize| {
        let [a, b, c] = [0, 1, 2].map(|next| ring[(first + next) % ring.len()]);
        match is_turned && first % 2 == 1 {
            true => [c, b, a],
            false => [a, b, c],
        }
    };
    (0..ring.len()).map(triangle).collect()
}

/// As many triangles as a cut has, of any places.
fn any_triangles(corners: u32, random: &mut Random) -> Vec<[u32; 3]> {
    let mut triangle = || [(); 3].map(|()| random.below(corners as usize) as u32);
    (2..corners).map(|_| triangle()).collect()
}

#[cfg(test)]
mod tests {
    use super::*;
    use crate::cut_judge::Judge;
    use std::collections::{BTreeMap, HashMap};

    #[test]
    fn fans_strips_and_random_cuts_are_cuts() {
        let (judge, random) = (&mut Judge::default(), &mut Random::new(1));
        for corners in 3..=MOST_CHECKED_CORNERS {
            for triangles in [fan(corners), strip(corners)] {
                assert_eq!(judge.is_cut(corners, triangles.as_flattened()), Ok(true));
            }
            let cut = any_cut(corners, random);
            assert_eq!(judge.is_cut(corners, &cut.places), Ok(true));
        }
        assert_eq!(fan(5), [[0, 1, 2], [0, 2, 3], [0, 3, 4]]);
        assert_eq!(strip(6), [[5, 0, 1], [4, 5, 1], [4, 1, 2], [3, 4, 2]]);
    }

    #[test]
    fn an_exchanged_side_leaves_a_cut() {
        let (judge, random) = (&mut Judge::default(), &mut Random::new(2));
        let mut changed = 0;
        for _ in 0..1000 {
            let corners = any_corners(random);
            let cut = any_cut(corners, random);
            let mut other = cut.clone();
            exchange_a_side(&mut other, random);
            assert_eq!(judge.is_cut(corners, &other.places), Ok(true));
            changed += usize::from(other != cut);
        }
        assert!(changed > 300, "{changed}");
    }

    #[test]
    fn a_cut_stays_one_where_two_corners_become_one() {
        let (judge, random) = (&mut Judge::default(), &mut Random::new(6));
        for _ in 0..100 {
            let mut sent = any_cut(any_corners(random), random);
            while sent.corners > 3 {
                sent = sent.merged(random.below(sent.corners as usize - 1) as u32);
                assert_eq!(judge.is_cut(sent.corners, &sent.places), Ok(true));
            }
        }
    }

    /// Whether every side is run as often one way as the other.
    fn is_closed(triangles: &[[u32; 3]]) -> bool {
        let mut more: HashMap<(u32, u32), i32> = HashMap::new();
        for &[a, b, c] in triangles {
            for (from, to) in [(a, b), (b, c), (c, a)] {
                *more.entry((from, to)).or_default() += 1;
                *more.entry((to, from)).or_default() -= 1;
            }
        }
        more.values().all(|&more| more == 0)
    }

    #[test]
    fn tetrahedra_and_pillows_close() {
        let random = &mut Random::new(3);
        assert!(is_closed(&tetrahedron([0, 1, 2, 3])));
        assert!(is_closed(&pillow(vec![4, 2, 7, 1, 0], random)));
        assert!(!is_closed(&fan(5)));
    }

    #[test]
    fn lists_that_are_no_cut_have_as_many_triangles() {
        let random = &mut Random::new(4);
        for (kind, fewest, other) in OTHERS {
            for corners in fewest..=MOST_CHECKED_CORNERS {
                let count = other(corners, random).len();
                let may_be_more = kind == "a cut, and more that closes";
                let is_right = count == corners as usize - 2;
                assert!(is_right || may_be_more, "{kind} {corners}");
            }
        }
    }

    #[test]
    fn every_answer_is_met_and_most_kinds_can_be_no_cut() {
        let (judge, random) = (&mut Judge::default(), &mut Random::new(5));
        let mut answers: BTreeMap<Result<bool, u8>, usize> = BTreeMap::new();
        let mut kinds: BTreeMap<&str, [usize; 2]> = BTreeMap::new();
        for _ in 0..20_000 {
            let Made { kind, sent } = any(random);
            let judged = judge.is_cut(sent.corners, &sent.places);
            *answers.entry(judged).or_default() += 1;
            kinds.entry(kind).or_default()[usize::from(judged == Ok(true))] += 1;
        }
        let met: Vec<&Result<bool, u8>> = answers.keys().collect();
        assert_eq!(met, [&Ok(false), &Ok(true), &Err(1), &Err(4)]);
        assert!(answers.values().all(|&times| times > 200), "{answers:?}");
        assert_eq!(kinds.len(), 2 + DAMAGES.len() + OTHERS.len());
        for (kind, [no, _]) in kinds {
            let is_cut = kind == "cuts" || kind == "a side exchanged for the other";
            assert_eq!(no == 0, is_cut, "{kind}");
        }
    }
}
