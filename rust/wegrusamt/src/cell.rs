//! A cell with flat faces, and what can be asked of it.

use crate::{Refusal, c, work};

/// What is known of a cell's shape.
#[derive(Clone, Copy, Debug, Default, PartialEq, Eq, Hash)]
#[repr(u8)]
pub enum Shape {
    /// It is convex.
    Convex = 0,
    /// It is not convex.
    Concave = 1,
    /// Nothing is known: [`Cell::is_convex`] computes it.
    #[default]
    Unknown = 2,
}

/// A plane: a unit normal and an offset. Inside is where `normal · x <= offset`.
///
/// Clipping takes a plane as it is; nothing checks that its normal has length 1.
#[derive(Clone, Copy, Debug, PartialEq)]
#[repr(C)]
pub struct Plane {
    /// The normal, which points out.
    pub normal: [f64; 3],
    /// The offset along the normal.
    pub offset: f64,
}

impl Plane {
    /// Whether two planes are the same, with the inside on the same side: normals within 1e-10 of
    /// each other's direction, and offsets that differ by at most the tolerance.
    pub fn same_side(&self, other: &Plane, tolerance: f64) -> bool {
        let [[ax, ay, az], [bx, by, bz]] = [self.normal, other.normal];
        let yes = c::plane_same_side(ax, ay, az, self.offset, bx, by, bz, other.offset, tolerance);
        yes != 0
    }

    /// Whether they are the same with the inside on opposite sides.
    pub fn coplanar_opposite(&self, other: &Plane, tolerance: f64) -> bool {
        let [[ax, ay, az], [bx, by, bz]] = [self.normal, other.normal];
        let (d, e) = (self.offset, other.offset);
        c::plane_coplanar_opposite(ax, ay, az, d, bx, by, bz, e, tolerance) != 0
    }
}

/// How many points, corners and faces a sound cell has, and what is known of its shape.
#[derive(Clone, Copy, Debug, PartialEq, Eq)]
pub struct Description {
    /// The points.
    pub points: usize,
    /// The corners of all faces together.
    pub corners: usize,
    /// The faces.
    pub faces: usize,
    /// What is known of the shape.
    pub shape: Shape,
}

/// A face cut into triangles, and how many tests were made.
#[derive(Clone, Debug, PartialEq, Eq)]
pub struct FaceCut {
    /// The triangles in the order of the cut: n - 2 of them for n >= 3 corners, or fewer where the
    /// cut stops short.
    pub triangles: Vec<[u32; 3]>,
    /// How many tests the cut made. A test asks whether the turn at a corner of the ring that is
    /// left, times the direction of the face, is at least 0; a ring of three is not tested. There
    /// are at most n² + n - 12 tests for n >= 3 corners, and none below; after a test at most n
    /// points of the ring are held against the corner's triangle.
    pub tests: usize,
}

/// All that the cell report says of a cell.
#[derive(Clone, Copy, Debug, PartialEq)]
pub struct Survey {
    /// How many triangles the faces are cut into.
    pub triangles: usize,
    /// Whether the cell is closed: see [`Cell::closed`].
    pub closed: bool,
    /// How many faces of n >= 3 corners gave fewer than n - 2 triangles.
    pub short: usize,
    /// How many of the query points the cell contains.
    pub contained: usize,
    /// The volume.
    pub volume: f64,
}

/// The volume that two cells share, and how many faces of each have no area: see
/// [`Cell::no_area_faces`]. They are counted over all faces, even where the cells lie apart.
#[derive(Clone, Copy, Debug, PartialEq)]
pub struct Overlap {
    /// The volume.
    pub volume: f64,
    /// How many faces of the cell that is asked have no area.
    pub no_area: usize,
    /// How many faces of the other cell have none.
    pub no_area_other: usize,
}

/// A cell: points, corners (numbers of points) and ends. Face k has the corners from the end before
/// it (0 for the first) up to its own end.
///
/// A cell lends its lists and copies nothing, and nothing is checked when it is made: every
/// question checks the lists and is answered or refused. Unless said otherwise a question is
/// refused as [`Refusal::Size`], [`Refusal::Number`], [`Refusal::Ends`] or [`Refusal::Index`].
///
/// ```
/// use wegrusamt::Cell;
///
/// let points = [
///     [0.0, 0.0, 0.0], [1.0, 0.0, 0.0], [1.0, 1.0, 0.0], [0.0, 1.0, 0.0],
///     [0.0, 0.0, 1.0], [1.0, 0.0, 1.0], [1.0, 1.0, 1.0], [0.0, 1.0, 1.0],
/// ];
/// let corners = [
///     0, 3, 2, 1,  4, 5, 6, 7,  0, 1, 5, 4,
///     2, 3, 7, 6,  1, 2, 6, 5,  3, 0, 4, 7,
/// ];
/// let ends = [4, 8, 12, 16, 20, 24];
/// let cube = Cell::new(&points, &corners, &ends);
///
/// assert_eq!(cube.volume()?, 1.0);
/// assert_eq!(cube.centroid()?, [0.5, 0.5, 0.5]);
/// assert_eq!(cube.bounds()?, [[0.0; 3], [1.0; 3]]);
/// assert!(cube.closed()?);
/// assert!(cube.contains([0.5, 0.5, 0.5])?);
/// assert_eq!(cube.triangles(0)?.triangles, [[1, 0, 3], [3, 2, 1]]);
/// # Ok::<(), wegrusamt::Refusal>(())
/// ```
#[derive(Clone, Copy, Debug, PartialEq)]
pub struct Cell<'a> {
    /// The points, three coordinates each.
    pub points: &'a [[f64; 3]],
    /// The corners of all faces, as numbers of points.
    pub corners: &'a [u32],
    /// Where each face ends in the corners.
    pub ends: &'a [u32],
}

impl<'a> Cell<'a> {
    /// The cell over these lists. Nothing is checked yet.
    pub fn new(points: &'a [[f64; 3]], corners: &'a [u32], ends: &'a [u32]) -> Self {
        Cell {
            points,
            corners,
            ends,
        }
    }

    /// The volume, |v6| / 6, summed about the mean of the points.
    pub fn volume(&self) -> Result<f64, Refusal> {
        let mut out = [0.0];
        let number = c::volume(self.coords(), self.corners, self.ends, &mut out);
        Refusal::answer(number, out[0])
    }

    /// The mean of the points.
    pub fn centroid(&self) -> Result<[f64; 3], Refusal> {
        let mut out = [0.0; 3];
        let number = c::centroid(self.coords(), self.corners, self.ends, &mut out);
        Refusal::answer(number, out)
    }

    /// The centroid of the volume; the first point where |v6| < 1e-30.
    pub fn geometric_centroid(&self) -> Result<[f64; 3], Refusal> {
        let mut out = [0.0; 3];
        let number = c::geometric_centroid(self.coords(), self.corners, self.ends, &mut out);
        Refusal::answer(number, out)
    }

    /// The box of all points: the least coordinates, then the largest.
    pub fn bounds(&self) -> Result<[[f64; 3]; 2], Refusal> {
        let mut out = [[0.0; 3]; 2];
        let number = c::bounds(
            self.coords(),
            self.corners,
            self.ends,
            out.as_flattened_mut(),
        );
        Refusal::answer(number, out)
    }

    /// The longest side of that box.
    pub fn scale(&self) -> Result<f64, Refusal> {
        let mut out = [0.0];
        let number = c::scale(self.coords(), self.corners, self.ends, &mut out);
        Refusal::answer(number, out[0])
    }

    /// Whether face sides from i to j are as many as from j to i, for all points i and j that
    /// differ.
    pub fn closed(&self) -> Result<bool, Refusal> {
        let mut out = [0];
        let number = c::closed(self.coords(), self.corners, self.ends, &mut out);
        Refusal::answer(number, out[0] != 0)
    }

    /// Whether the ray from the point along +x crosses an odd number of faces.
    pub fn contains(&self, [x, y, z]: [f64; 3]) -> Result<bool, Refusal> {
        let mut out = [0];
        let number = c::contains(self.coords(), self.corners, self.ends, x, y, z, &mut out);
        Refusal::answer(number, out[0] != 0)
    }

    /// The corner list with the backward faces turned, so that the cell becomes closed, and how many
    /// faces are reversed in it: see [`turn_faces()`], which turns a list in place.
    ///
    /// ```
    /// use wegrusamt::Cell;
    ///
    /// let points = [[0.0; 3], [1.0, 0.0, 0.0], [0.0, 1.0, 0.0], [0.0, 0.0, 1.0]];
    /// let corners = [0, 2, 1,  3, 1, 0,  1, 2, 3,  2, 0, 3];
    /// let traced = Cell::new(&points, &corners, &[3, 6, 9, 12]);
    ///
    /// let (turned, reversed) = traced.turn_faces()?;
    /// assert_eq!(reversed, 1);
    /// assert_eq!(turned, [0, 2, 1,  0, 1, 3,  1, 2, 3,  2, 0, 3]);
    /// # Ok::<(), wegrusamt::Refusal>(())
    /// ```
    pub fn turn_faces(&self) -> Result<(Vec<u32>, usize), Refusal> {
        let mut corners = self.corners.to_vec();
        let reversed = turn_faces(self.points, &mut corners, self.ends)?;
        Ok((corners, reversed))
    }

    /// Whether the cell is convex: every point lies on one side of the plane of each face. What is
    /// known of the shape is answered as it is, and computed only where it is unknown.
    pub fn is_convex(&self, known: Shape) -> Result<bool, Refusal> {
        let mut out = [0];
        let number = c::is_convex(
            self.coords(),
            self.corners,
            self.ends,
            known as u8,
            &mut out,
        );
        Refusal::answer(number, out[0] != 0)
    }

    /// The cell's counts, where nothing is wrong with its lists; the shape is the one handed in.
    pub fn describe(&self, known: Shape) -> Result<Description, Refusal> {
        let mut out = [0; 4];
        let number = c::describe(
            self.coords(),
            self.corners,
            self.ends,
            known as u8,
            &mut out,
        );
        let [points, corners, faces, _] = out;
        let description = Description {
            points,
            corners,
            faces,
            shape: known,
        };
        Refusal::answer(number, description)
    }

    /// The triangles into which a face is cut, as numbers of points, and how many tests that took.
    ///
    /// ```
    /// use wegrusamt::Cell;
    ///
    /// let outline = [[0, 0], [10, 0], [0, 10], [0, 0], [0, -1], [-1, -1], [-1, 0]];
    /// let points = outline.map(|[x, y]| [f64::from(x), f64::from(y), 0.0]);
    /// let cell = Cell::new(&points, &[0, 1, 2, 3, 4, 5, 6], &[7]);
    ///
    /// // The cut stops short of five triangles, after the twelfth test.
    /// let cut = cell.triangles(0)?;
    /// assert_eq!(cut.triangles, [[6, 0, 1], [6, 1, 2], [2, 3, 4]]);
    /// assert_eq!(cut.tests, 12);
    /// # Ok::<(), wegrusamt::Refusal>(())
    /// ```
    pub fn triangles(&self, face: usize) -> Result<FaceCut, Refusal> {
        self.cut_by(c::triangles, face)
    }

    /// The same triangles by place: each number is the corner's place in the face's own corners,
    /// from 0 to n - 1, and not the number of its point. Looked up there they are those of
    /// [`Cell::triangles`], and the tests are as many. [`check_cut`](crate::check_cut) takes
    /// triangles by place.
    ///
    /// ```
    /// use wegrusamt::{Cell, check_cut};
    ///
    /// let points = [[0.0; 3], [1.0, 0.0, 0.0], [1.0, 1.0, 0.0], [0.0, 1.0, 0.0]];
    /// let square = Cell::new(&points, &[3, 2, 1, 0], &[4]);
    ///
    /// let places = square.triangle_places(0)?.triangles;
    /// assert_eq!(places, [[3, 0, 1], [1, 2, 3]]);
    /// assert_eq!(square.triangles(0)?.triangles, [[0, 3, 2], [2, 1, 0]]);
    /// assert!(check_cut(4, &places)?);
    /// # Ok::<(), wegrusamt::Refusal>(())
    /// ```
    pub fn triangle_places(&self, face: usize) -> Result<FaceCut, Refusal> {
        self.cut_by(c::triangle_places, face)
    }

    /// What an entry that cuts a face writes, in lists that have room for it.
    fn cut_by(&self, cut: Cut, face: usize) -> Result<FaceCut, Refusal> {
        // Where the ends are bad this is not the face, but then the cell is refused.
        let most = self.faces().nth(face).map_or(0, <[u32]>::len);
        let mut out = vec![[0; 3]; most.saturating_sub(2)];
        let mut count = [0; 2];
        let number = cut(
            self.coords(),
            self.corners,
            self.ends,
            face_number(face),
            &mut out,
            &mut count,
        );
        let [triangles, tests] = count;
        out.truncate(triangles);
        let cut = FaceCut {
            triangles: out,
            tests,
        };
        Refusal::answer(number, cut)
    }

    /// All that the cell report says of the cell and of at most 256 query points.
    pub fn survey(&self, queries: &[[f64; 3]]) -> Result<Survey, Refusal> {
        let mut counts = [0; 4];
        let mut volume = [0.0];
        let number = c::survey(
            self.coords(),
            self.corners,
            self.ends,
            queries.as_flattened(),
            &mut counts,
            &mut volume,
        );
        let [triangles, closed, short, contained] = counts;
        let survey = Survey {
            triangles,
            closed: closed != 0,
            short,
            contained,
            volume: volume[0],
        };
        Refusal::answer(number, survey)
    }

    /// The plane of a face, or `None` where it has no area: where its three Newell sums, as they are
    /// computed, are all 0. Also refused as [`Refusal::EmptyFace`] where any face has no corners.
    ///
    /// A normal that only underflows in its length stays a plane; parts of it are NaN or infinite, as
    /// SCOPE 11 says.
    ///
    /// ```
    /// use wegrusamt::Cell;
    ///
    /// let points = [[0.0; 3], [1.0, 0.0, 0.0], [0.0, 1.0, 0.0], [2.0, 0.0, 0.0]];
    /// let cell = Cell::new(&points, &[0, 1, 2, 0, 1, 3], &[3, 6]);
    ///
    /// let plane = cell.plane_of_face(0)?.expect("a triangle has a plane");
    /// assert_eq!((plane.normal, plane.offset), ([0.0, 0.0, 1.0], 0.0));
    /// // The corners of the second face lie on a line.
    /// assert_eq!(cell.plane_of_face(1)?, None);
    /// # Ok::<(), wegrusamt::Refusal>(())
    /// ```
    pub fn plane_of_face(&self, face: usize) -> Result<Option<Plane>, Refusal> {
        let mut out = [0.0; 4];
        let mut area = [0];
        let number = c::plane_of_face(
            self.coords(),
            self.corners,
            self.ends,
            face_number(face),
            &mut out,
            &mut area,
        );
        let [x, y, z, offset] = out;
        let plane = Plane {
            normal: [x, y, z],
            offset,
        };
        Refusal::answer(number, (area[0] != 0).then_some(plane))
    }

    /// Whether each face has no area, in order: whether [`Cell::plane_of_face`] gives no plane of it.
    /// Also refused as [`Refusal::EmptyFace`].
    ///
    /// ```
    /// use wegrusamt::Cell;
    ///
    /// let points = [[0.0; 3], [1.0, 0.0, 0.0], [0.0, 1.0, 0.0], [2.0, 0.0, 0.0]];
    /// let cell = Cell::new(&points, &[0, 1, 2, 0, 1, 3, 2], &[3, 6, 7]);
    /// assert_eq!(cell.no_area_faces()?, [false, true, true]);
    /// # Ok::<(), wegrusamt::Refusal>(())
    /// ```
    pub fn no_area_faces(&self) -> Result<Vec<bool>, Refusal> {
        let mut out = vec![0; self.ends.len()];
        let number = c::no_area_faces(self.coords(), self.corners, self.ends, &mut out);
        Refusal::answer(number, out.iter().map(|&flag| flag != 0).collect())
    }

    /// What is left of a face inside all of the planes, at most 256, or `None` where nothing is. A
    /// point is inside a plane up to the distance `eps`. With no planes the face itself is left.
    ///
    /// The work lists are made here, as long as they may be: 1,024 points each. A call is refused
    /// as [`Refusal::Room`] only where the face, or an outline on the way, has more.
    ///
    /// ```
    /// use wegrusamt::{Cell, Plane};
    ///
    /// let points = [[0.0, 0.0, 0.0], [2.0, 0.0, 0.0], [2.0, 2.0, 0.0], [0.0, 2.0, 0.0]];
    /// let square = Cell::new(&points, &[0, 1, 2, 3], &[4]);
    /// let west_of_1 = Plane { normal: [1.0, 0.0, 0.0], offset: 1.0 };
    ///
    /// let left = square.clip_face(0, &[west_of_1], 0.0)?.expect("half of it is left");
    /// assert_eq!(left, [[0.0, 0.0, 0.0], [1.0, 0.0, 0.0], [1.0, 2.0, 0.0], [0.0, 2.0, 0.0]]);
    /// # Ok::<(), wegrusamt::Refusal>(())
    /// ```
    pub fn clip_face(
        &self,
        face: usize,
        planes: &[Plane],
        eps: f64,
    ) -> Result<Option<Vec<[f64; 3]>>, Refusal> {
        work::with_lists(|first, second| {
            Ok(self
                .clip_face_in(face, planes, eps, first, second)?
                .map(<[_]>::to_vec))
        })
    }

    /// [`Cell::clip_face`] in two work lists that are lent, for many calls: it makes no list
    /// itself. The outline is shown as the filled stretch of one of the two, and every other number
    /// in both ends as +0. A refusal [`Refusal::Room`] leaves +0 in all of both; any other leaves
    /// both as they were.
    ///
    /// One list cannot be lent twice:
    ///
    /// ```compile_fail,E0499
    /// let cell = wegrusamt::Cell::new(&[[0.0; 3]], &[0], &[1]);
    /// let mut list = [[0.0; 3]; 8];
    /// let left = cell.clip_face_in(0, &[], 0.0, &mut list, &mut list);
    /// ```
    pub fn clip_face_in<'w>(
        &self,
        face: usize,
        planes: &[Plane],
        eps: f64,
        first: &'w mut [[f64; 3]],
        second: &'w mut [[f64; 3]],
    ) -> Result<Option<&'w [[f64; 3]]>, Refusal> {
        let mut shown = [0; 2];
        let number = c::clip_face(
            self.coords(),
            self.corners,
            self.ends,
            face_number(face),
            planes,
            eps,
            first.as_flattened_mut(),
            second.as_flattened_mut(),
            &mut shown,
        );
        work::outline(number, shown, first, second)
    }

    /// The volume that two cells share, and how many faces of each have no area. Both are convex with
    /// faces turned outward; that is not checked ([`CellBuf::into_ccw`](crate::CellBuf::into_ccw)
    /// turns them). Also refused as [`Refusal::EmptyFace`]; this cell's refusals come before the
    /// other's.
    ///
    /// The work lists are made here, as long as they may be: 1,024 points each. A call is refused
    /// as [`Refusal::Room`] only where a face, or an outline on the way, has more.
    ///
    /// ```
    /// use wegrusamt::CellBuf;
    ///
    /// let corner = |reach: f64| {
    ///     CellBuf::from_faces(
    ///         [[0.0; 3], [reach, 0.0, 0.0], [0.0, reach, 0.0], [0.0, 0.0, reach]],
    ///         [[0, 2, 1], [0, 1, 3], [1, 2, 3], [2, 0, 3]],
    ///     )
    /// };
    /// let (small, large) = (corner(1.0), corner(2.0));
    /// let shared = small.as_cell().convex_intersection_volume(&large.as_cell())?;
    /// assert!((shared.volume - 1.0 / 6.0).abs() < 1e-15);
    /// assert_eq!((shared.no_area, shared.no_area_other), (0, 0));
    /// # Ok::<(), wegrusamt::Refusal>(())
    /// ```
    pub fn convex_intersection_volume(&self, other: &Cell<'_>) -> Result<Overlap, Refusal> {
        work::with_lists(|first, second| self.convex_intersection_volume_in(other, first, second))
    }

    /// [`Cell::convex_intersection_volume`] in two work lists that are lent, for many calls. Every
    /// number in both ends as +0, on a refusal [`Refusal::Room`] too; any other leaves both as they
    /// were.
    pub fn convex_intersection_volume_in(
        &self,
        other: &Cell<'_>,
        first: &mut [[f64; 3]],
        second: &mut [[f64; 3]],
    ) -> Result<Overlap, Refusal> {
        let mut out = [0.0];
        let mut counts = [0; 2];
        let number = c::convex_intersection_volume(
            self.coords(),
            self.corners,
            self.ends,
            other.coords(),
            other.corners,
            other.ends,
            first.as_flattened_mut(),
            second.as_flattened_mut(),
            &mut out,
            &mut counts,
        );
        let [no_area, no_area_other] = counts;
        let overlap = Overlap {
            volume: out[0],
            no_area,
            no_area_other,
        };
        Refusal::answer(number, overlap)
    }

    /// The corners of each face, as stretches of the corner list, one for each end. Where an end
    /// falls or is past the corner list, so that all else is refused, its stretch is empty.
    ///
    /// ```
    /// let cell = wegrusamt::Cell::new(&[], &[0, 1, 2, 2, 1, 0, 3], &[3, 7]);
    /// let faces: Vec<&[u32]> = cell.faces().collect();
    /// assert_eq!(faces, [&[0, 1, 2][..], &[2, 1, 0, 3][..]]);
    /// ```
    pub fn faces(&self) -> impl ExactSizeIterator<Item = &'a [u32]> + 'a {
        let Cell { corners, ends, .. } = *self;
        (0..ends.len()).map(move |k| {
            let start = if k == 0 { 0 } else { ends[k - 1] };
            corners
                .get(start as usize..ends[k] as usize)
                .unwrap_or_default()
        })
    }

    /// The points as the C names take them: one list of numbers.
    fn coords(&self) -> &'a [f64] {
        self.points.as_flattened()
    }
}

/// An entry that cuts a face: the lists of the cell, the face, then the triangles, and both counts.
type Cut = fn(&[f64], &[u32], &[u32], u32, &mut [[u32; 3]], &mut [usize]) -> u8;

/// A face's number as the C names take it. One that does not fit becomes the largest, which is
/// above every face count and so is refused as [`Refusal::Index`], in its turn.
fn face_number(face: usize) -> u32 {
    u32::try_from(face).unwrap_or(u32::MAX)
}

/// Ends a face in the corner list of [`point_in_phed`].
pub const FACE_END: u32 = u32::MAX;

/// Whether the cell contains the point, as [`Cell::contains`] says it, over one corner list of at
/// most 2,304 entries in which [`FACE_END`] ends a face. Faces under 3 corners are skipped. Refused
/// as [`Refusal::Size`], [`Refusal::Number`] or [`Refusal::Index`].
///
/// ```
/// use wegrusamt::{FACE_END, point_in_phed};
///
/// let points = [[0.0; 3], [1.0, 0.0, 0.0], [0.0, 1.0, 0.0], [0.0, 0.0, 1.0]];
/// let corners = [0, 2, 1, FACE_END, 0, 1, 3, FACE_END, 1, 2, 3, FACE_END, 2, 0, 3];
/// assert!(point_in_phed(&points, &corners, [0.25, 0.25, 0.25])?);
/// assert!(!point_in_phed(&points, &corners, [0.5, 0.5, 0.5])?);
/// # Ok::<(), wegrusamt::Refusal>(())
/// ```
pub fn point_in_phed(
    points: &[[f64; 3]],
    corners: &[u32],
    [x, y, z]: [f64; 3],
) -> Result<bool, Refusal> {
    let mut out = [0];
    let number = c::point_in_phed(points.as_flattened(), corners, x, y, z, &mut out);
    Refusal::answer(number, out[0] != 0)
}

/// Turns the backward faces in the corner list, so that the cell becomes closed, and answers how
/// many it reversed. A reversed face keeps its stretch of the list: a, b, c, d becomes d, c, b, a.
/// Of each group of faces joined by sides the lowest-numbered keeps its direction, so the whole
/// group may run inward as it did: [`into_ccw()`] asks where the points lie, this does not.
///
/// Refused as [`Refusal::Size`] to [`Refusal::Index`], then as [`Refusal::Sides`], then as
/// [`Refusal::Unclosable`]; the corners are then as they were. A face of no corners passes.
///
/// ```
/// use wegrusamt::{Cell, turn_faces};
///
/// let points = [
///     [0.0, 0.0, 0.0], [1.0, 0.0, 0.0], [1.0, 1.0, 0.0], [0.0, 1.0, 0.0],
///     [0.0, 0.0, 1.0], [1.0, 0.0, 1.0], [1.0, 1.0, 1.0], [0.0, 1.0, 1.0],
/// ];
/// // The unit cube, its third face traced backward.
/// let mut corners = [
///     0, 3, 2, 1,  4, 5, 6, 7,  4, 5, 1, 0,
///     2, 3, 7, 6,  1, 2, 6, 5,  3, 0, 4, 7,
/// ];
/// let ends = [4, 8, 12, 16, 20, 24];
/// assert!(!Cell::new(&points, &corners, &ends).closed()?);
///
/// assert_eq!(turn_faces(&points, &mut corners, &ends)?, 1);
/// assert_eq!(corners[8..12], [0, 1, 5, 4]);
/// assert!(Cell::new(&points, &corners, &ends).closed()?);
/// # Ok::<(), wegrusamt::Refusal>(())
/// ```
pub fn turn_faces(
    points: &[[f64; 3]],
    corners: &mut [u32],
    ends: &[u32],
) -> Result<usize, Refusal> {
    let mut out = [0];
    let number = c::turn_faces(points.as_flattened(), corners, ends, &mut out);
    Refusal::answer(number, out[0])
}

/// Turns every face outward in the corner list: reverses a face whose normal points to the mean of
/// the points, which is right for a convex cell. Refused as [`Refusal::Size`] to
/// [`Refusal::EmptyFace`]; the corners are then as they were.
pub fn into_ccw(points: &[[f64; 3]], corners: &mut [u32], ends: &[u32]) -> Result<(), Refusal> {
    let number = c::into_ccw(points.as_flattened(), corners, ends);
    Refusal::answer(number, ())
}
