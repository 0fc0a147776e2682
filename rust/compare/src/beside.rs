//! The unmodified Rust, with the machine's hypot, beside the build with the rule of SCOPE 1 for it, the
//! nearest f64: how often their planes and overlaps differ, and by what.

use oracle::{plain, ruled};

use crate::calls::{Given, same_lists};
use crate::cells::Cell;
use crate::pairs::Kind;
use crate::shrink::Input;
use crate::tally::Tally;

/// Most units in the last place that are counted as a difference of rounding.
const LAST_PLACES: u64 = 4;

/// The share of the first cell's volume up to which overlaps are counted as differing by rounding.
const SMALL_SHARE: f64 = 1e-12;

pub struct Beside {
    title: &'static str,
    planes: Tally,
    /// The planes that differ in the last places, by units.
    units: Tally,
    volumes: Tally,
    /// The pairs with a grave difference, by their kind.
    pairs: Tally,
    parts: usize,
    different_parts: usize,
    largest_share: f64,
    /// For each grave difference the pair with the fewest corners.
    examples: [Option<Example>; GRAVE.len()],
}

/// Both volumes of a pair, the unmodified Rust's first.
struct Example {
    volumes: [f64; 2],
    cells: [Cell; 2],
}

/// How the planes of a face differ.
#[derive(Debug)]
enum Planes {
    Equal,
    InLastPlaces,
    InMore,
    FiniteInTheUnmodifiedOnly,
    FiniteInTheRuledOnly,
}

/// How the volumes of a pair differ.
#[derive(Clone, Copy, Debug, PartialEq)]
enum Volumes {
    Equal,
    /// By no more than a small share of the first cell's volume.
    ByRounding,
    ByMore,
    OneIsZero,
    OneIsNoNumber,
}

const GRAVE: [Volumes; 3] = [Volumes::ByMore, Volumes::OneIsZero, Volumes::OneIsNoNumber];

impl Beside {
    pub fn new(title: &'static str) -> Self {
        Beside {
            title,
            planes: Tally::new("  planes of faces"),
            units: Tally::new("  planes that differ in the last places, by units"),
            volumes: Tally::new("  overlaps"),
            pairs: Tally::new("  pairs whose overlaps differ by more than rounding"),
            parts: 0,
            different_parts: 0,
            largest_share: 0.0,
            examples: [const { None }; GRAVE.len()],
        }
    }

    /// Asks `plain` and `ruled` about a pair of some kind, and gives the overlap by `ruled`.
    pub fn add(&mut self, kind: Kind, cells: &[Cell; 2]) -> f64 {
        let [first, second] = cells.each_ref().map(Cell::for_the_rust);
        for cell in [first, second] {
            for (a, b) in plain::planes(cell).iter().zip(&ruled::planes(cell)) {
                self.add_planes(a, b);
            }
        }
        let unmodified = plain::convex_intersection_volume(first, second);
        let ruled = ruled::convex_intersection_volume(first, second);
        self.add_volumes([unmodified, ruled], kind, cells);
        ruled
    }

    fn add_planes(&mut self, unmodified: &[f64; 4], ruled: &[f64; 4]) {
        let parts = unmodified.iter().zip(ruled);
        self.parts += unmodified.len();
        self.different_parts += parts.filter(|(a, b)| !a.same(**b)).count();
        let differ = Planes::of(unmodified, ruled);
        if let Planes::InLastPlaces = differ {
            self.units.add(units(unmodified, ruled));
        }
        self.planes.add(differ);
    }

    fn add_volumes(&mut self, volumes: [f64; 2], kind: Kind, cells: &[Cell; 2]) {
        let share = share(volumes, &cells[0]);
        let differ = Volumes::of(volumes, share);
        self.volumes.add(differ);
        self.largest_share = self.largest_share.max(share);
        if let Some(place) = GRAVE.iter().position(|&grave| grave == differ) {
            self.pairs.add(kind);
            self.keep_smaller(place, volumes, cells);
        }
    }

    fn keep_smaller(&mut self, place: usize, volumes: [f64; 2], cells: &[Cell; 2]) {
        let corners = |[first, second]: &[Cell; 2]| first.corners.len() + second.corners.len();
        let smaller = |kept: &Example| corners(cells) < corners(&kept.cells);
        if self.examples[place].as_ref().is_none_or(smaller) {
            let cells = cells.clone();
            self.examples[place] = Some(Example { volumes, cells });
        }
    }

    pub fn print(&self) {
        println!("{}", self.title);
        self.planes.print();
        self.units.print();
        println!(
            "  parts of planes: {} of {} differ",
            self.different_parts, self.parts
        );
        self.volumes.print();
        self.pairs.print();
        println!(
            "  largest share of the first cell's volume by which two differ: {:e}",
            self.largest_share
        );
        for (kind, example) in GRAVE.iter().zip(&self.examples) {
            if let Some(example) = example {
                println!("  an overlap that differs {kind:?}:");
                example.print();
            }
        }
    }
}

impl Example {
    fn print(&self) {
        let [unmodified, ruled] = self.volumes;
        println!("// unmodified {unmodified:e}, ruled {ruled:e}");
        self.cells.print();
    }
}

impl Planes {
    fn of(unmodified: &[f64; 4], ruled: &[f64; 4]) -> Planes {
        let is_finite = |plane: &[f64; 4]| plane.iter().all(|part| part.is_finite());
        if same_lists(unmodified, ruled) {
            Planes::Equal
        } else if is_finite(unmodified) && !is_finite(ruled) {
            Planes::FiniteInTheUnmodifiedOnly
        } else if is_finite(ruled) && !is_finite(unmodified) {
            Planes::FiniteInTheRuledOnly
        } else if units(unmodified, ruled) <= LAST_PLACES {
            Planes::InLastPlaces
        } else {
            Planes::InMore
        }
    }
}

/// By how many units in the last place two planes differ, in the part in which they differ most. On two
/// sides of 0 it is more than any number of them.
fn units(unmodified: &[f64; 4], ruled: &[f64; 4]) -> u64 {
    let of_part = |(a, b): (&f64, &f64)| {
        if a.is_sign_positive() == b.is_sign_positive() {
            a.to_bits().abs_diff(b.to_bits())
        } else {
            u64::MAX
        }
    };
    let parts = unmodified.iter().zip(ruled).map(of_part);
    parts.fold(0, u64::max)
}

impl Volumes {
    fn of([a, b]: [f64; 2], share: f64) -> Volumes {
        if a.same(b) {
            Volumes::Equal
        } else if !a.is_finite() || !b.is_finite() {
            Volumes::OneIsNoNumber
        } else if a == 0.0 || b == 0.0 {
            Volumes::OneIsZero
        } else if share <= SMALL_SHARE {
            Volumes::ByRounding
        } else {
            Volumes::ByMore
        }
    }
}

/// By what share of the first cell's volume two overlaps differ, or of the larger one of them where
/// that is more. NaN where one is no number.
fn share([a, b]: [f64; 2], first: &Cell) -> f64 {
    let whole = plain::volume(first.for_the_rust()).max(a).max(b);
    if a.same(b) {
        0.0
    } else {
        (a - b).abs() / whole
    }
}
