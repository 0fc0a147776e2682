//! The rows of SCOPE 16, the turning of backward faces (SCOPE 14), the move to a local origin
//! (SCOPE 19), the tests of a cut, cuts by place and the check of cuts, faces that have no area, and
//! every refusal, asked through the crate.

use wegrusamt::{Cell, CellBuf, FACE_END, FaceCut, Overlap, Plane, Refusal, Shape, WORK_NUMBERS};
use wegrusamt::{check_cut, into_ccw, point_in_phed, turn_faces};
use wegrusamt::{floats, leaves, planar, shapes, space};

const CUBE: [[f64; 3]; 8] = [
    [0.0, 0.0, 0.0],
    [1.0, 0.0, 0.0],
    [1.0, 1.0, 0.0],
    [0.0, 1.0, 0.0],
    [0.0, 0.0, 1.0],
    [1.0, 0.0, 1.0],
    [1.0, 1.0, 1.0],
    [0.0, 1.0, 1.0],
];
const FACES: [[u32; 4]; 6] = [
    [0, 3, 2, 1],
    [4, 5, 6, 7],
    [0, 1, 5, 4],
    [2, 3, 7, 6],
    [1, 2, 6, 5],
    [3, 0, 4, 7],
];
const SQUARE: [[f64; 2]; 4] = [[0.0, 0.0], [2.0, 0.0], [2.0, 2.0], [0.0, 2.0]];
const WEST_OF_HALF: Plane = Plane {
    normal: [1.0, 0.0, 0.0],
    offset: 0.5,
};

/// The unit cube, moved along x.
fn cube_at(x: f64) -> CellBuf {
    CellBuf::from_faces(CUBE.map(|[a, b, c]| [a + x, b, c]), FACES)
}

/// What a cut answers: these triangles, after so many tests.
fn cut_in(tests: usize, triangles: &[[u32; 3]]) -> Result<FaceCut, Refusal> {
    let triangles = triangles.to_vec();
    Ok(FaceCut { triangles, tests })
}

/// What each question to a cell answers, where it is refused.
fn refusals(cell: &Cell<'_>) -> Vec<Option<Refusal>> {
    let other = cube_at(0.0);
    let mut corners = cell.corners.to_vec();
    vec![
        cell.volume().err(),
        cell.centroid().err(),
        cell.geometric_centroid().err(),
        cell.bounds().err(),
        cell.scale().err(),
        cell.closed().err(),
        cell.contains([0.0; 3]).err(),
        cell.is_convex(Shape::Unknown).err(),
        cell.triangles(0).err(),
        cell.triangle_places(0).err(),
        cell.survey(&[]).err(),
        cell.plane_of_face(0).err(),
        cell.no_area_faces().err(),
        cell.clip_face(0, &[], 0.0).err(),
        cell.convex_intersection_volume(&other.as_cell()).err(),
        other.as_cell().convex_intersection_volume(cell).err(),
        into_ccw(cell.points, &mut corners, cell.ends).err(),
        turn_faces(cell.points, &mut corners, cell.ends).err(),
    ]
}

fn all_refuse(cell: &Cell<'_>, refusal: Refusal) {
    for (question, answer) in refusals(cell).into_iter().enumerate() {
        assert_eq!(answer, Some(refusal), "question {question}");
    }
}

#[test]
fn the_cube_is_measured() {
    let buf = cube_at(0.0);
    let cube = buf.as_cell();
    assert_eq!(refusals(&cube), [None; 18]);
    assert_eq!(cube.volume(), Ok(1.0));
    assert_eq!(cube.centroid(), Ok([0.5; 3]));
    assert_eq!(cube.geometric_centroid(), Ok([0.5; 3]));
    assert_eq!(cube.bounds(), Ok([[0.0; 3], [1.0; 3]]));
    assert_eq!(cube.scale(), Ok(1.0));
    assert_eq!(cube.closed(), Ok(true));
    assert_eq!(cube.triangles(0), cut_in(1, &[[1, 0, 3], [3, 2, 1]]));
    assert_eq!(cube.triangle_places(0), cut_in(1, &[[3, 0, 1], [1, 2, 3]]));
    assert_eq!(cube.contains([0.0, 0.5, 0.5]), Ok(true));
    assert_eq!(cube.contains([1.0, 0.5, 0.5]), Ok(false));
    assert_eq!(cube.contains([0.5, 1.0, 0.5]), Ok(false));
}

#[test]
fn the_survey_says_what_the_report_says() {
    let mut buf = cube_at(0.0);
    let survey = buf.as_cell().survey(&[[0.5; 3], [2.0; 3]]).unwrap();
    assert_eq!(
        (survey.triangles, survey.closed, survey.short),
        (12, true, 0)
    );
    assert_eq!((survey.contained, survey.volume), (1, 1.0));
    buf.corners[..4].copy_from_slice(&[1, 2, 3, 0]);
    let survey = buf.as_cell().survey(&[]).unwrap();
    assert!(!survey.closed);
    assert_eq!(survey.volume.to_bits(), 0x3FE5_5555_5555_5555);
}

#[test]
fn a_cut_that_stops_short_has_fewer_triangles() {
    let outline = [[0, 0], [10, 0], [0, 10], [0, 0], [0, -1], [-1, -1], [-1, 0]];
    let points = outline.map(|[x, y]| [f64::from(x), f64::from(y), 0.0]);
    let cell = CellBuf::from_faces(points, [[0, 1, 2, 3, 4, 5, 6]]);
    let triangles = [[6, 0, 1], [6, 1, 2], [2, 3, 4]];
    // Of the tests eight are made at the ring of four that is left, in two passes.
    assert_eq!(cell.as_cell().triangles(0), cut_in(12, &triangles));
    assert_eq!(cell.as_cell().triangle_places(0), cut_in(12, &triangles));
    assert_eq!(cell.as_cell().survey(&[]).unwrap().short, 1);
    // A cut that stops short is not a whole one.
    assert_eq!(check_cut(7, &triangles), Ok(false));
}

#[test]
fn no_test_is_made_of_up_to_three_corners() {
    let faces: [&[u32]; 5] = [&[], &[5], &[1, 0], &[4, 6, 1], &[2, 2, 2]];
    let buf = CellBuf::from_faces(CUBE, faces);
    let cell = buf.as_cell();
    for face in 0..3 {
        assert_eq!(cell.triangles(face), cut_in(0, &[]));
        assert_eq!(cell.triangle_places(face), cut_in(0, &[]));
    }
    assert_eq!(cell.triangles(3), cut_in(0, &[[4, 6, 1]]));
    assert_eq!(cell.triangles(4), cut_in(0, &[[2, 2, 2]]));
    for face in 3..5 {
        assert_eq!(cell.triangle_places(face), cut_in(0, &[[0, 1, 2]]));
    }
}

/// The face of a thin box far from the origin gives no triangle: no corner stands its test, in either
/// pass.
#[test]
fn a_face_can_take_as_many_tests_as_there_may_be() {
    let foot = [[0.0, 0.0], [0.05, 0.0], [0.05, 0.25], [0.0, 0.25]];
    let points = foot.map(|[x, y]| [8588590.0 + x, 8529546.0 + y, 2969498.0]);
    let cell = Cell::new(&points, &[0, 3, 2, 1], &[4]);
    assert_eq!(cell.triangles(0), cut_in(4 * 4 + 4 - 12, &[]));
    assert_eq!(cell.triangle_places(0), cut_in(4 * 4 + 4 - 12, &[]));
}

/// The corners of a convex face are taken one after the other, each at its ring's first test.
#[test]
fn a_convex_face_takes_one_test_a_ring() {
    for corners in [4, 5, 16, 17, 64, 256] {
        let angle = |k: usize| std::f64::consts::TAU * k as f64 / corners as f64;
        let points: Vec<[f64; 3]> = (0..corners)
            .map(|k| [angle(k).cos(), angle(k).sin(), 0.0])
            .collect();
        let places: Vec<u32> = (0..corners as u32).collect();
        let ends = [corners as u32];
        let cell = Cell::new(&points, &places, &ends);
        let cut = cell.triangles(0).unwrap();
        assert_eq!(cut.triangles.len(), corners - 2);
        assert_eq!(cut.tests, corners - 3);
        assert_eq!(cell.triangle_places(0), Ok(cut));
    }
}

/// The triangles by place, looked up in the face.
fn looked_up(face: &[u32], places: &[[u32; 3]]) -> Vec<[u32; 3]> {
    let vertex = |place: u32| face[place as usize];
    places.iter().map(|places| places.map(vertex)).collect()
}

#[test]
fn a_cut_is_told_by_place() {
    let buf = cube_at(0.0);
    let cube = buf.as_cell();
    for (number, face) in cube.faces().enumerate() {
        let by_place = cube.triangle_places(number).unwrap();
        let by_vertex = cube.triangles(number).unwrap();
        assert_eq!(looked_up(face, &by_place.triangles), by_vertex.triangles);
        assert_eq!((by_place.tests, by_vertex.tests), (1, 1));
        assert_eq!(check_cut(face.len(), &by_place.triangles), Ok(true));
    }
    // Two corners of a face share a vertex, and each has its own place.
    let face = [0, 1, 2, 0, 3];
    let buf = CellBuf::from_faces(CUBE, [face]);
    let by_place = buf.as_cell().triangle_places(0).unwrap();
    let by_vertex = buf.as_cell().triangles(0).unwrap();
    assert_eq!(looked_up(&face, &by_place.triangles), by_vertex.triangles);
    assert_eq!(by_place.tests, by_vertex.tests);
    assert_eq!(check_cut(5, &by_place.triangles), Ok(true));
    assert_eq!(check_cut(5, &by_vertex.triangles), Ok(false));
}

/// A face of so many corners, cut from its corner 0 to all others.
fn fan(corners: u32) -> Vec<[u32; 3]> {
    (2..corners).map(|place| [0, place - 1, place]).collect()
}

#[test]
fn cuts_are_checked() {
    for corners in [3, 4, 5, 64, 256] {
        let cut = fan(corners);
        let corners = corners as usize;
        assert_eq!(check_cut(corners, &cut), Ok(true), "{corners}");
        // In any order, and from any place on.
        let rotated = cut.iter().rev().map(|&[a, b, c]| [b, c, a]);
        let rotated: Vec<[u32; 3]> = rotated.collect();
        assert_eq!(check_cut(corners, &rotated), Ok(true), "{corners}");
        // A triangle turned round, missing, doubled.
        let mut wrong = cut.clone();
        wrong[0].reverse();
        assert_eq!(check_cut(corners, &wrong), Ok(false), "{corners}");
        assert_eq!(check_cut(corners, &cut[1..]), Ok(false), "{corners}");
        if corners > 3 {
            wrong[0] = cut[1];
            assert_eq!(check_cut(corners, &wrong), Ok(false), "{corners}");
        }
        if corners < 256 {
            wrong.push(cut[0]);
            assert_eq!(check_cut(corners, &wrong), Ok(false), "{corners}");
            // A face of a corner more has these places too, and needs a triangle more.
            assert_eq!(check_cut(corners + 1, &cut), Ok(false), "{corners}");
        }
    }
    assert_eq!(check_cut(3, &[]), Ok(false));
    assert_eq!(check_cut(3, &[[0, 0, 0]]), Ok(false));
    assert_eq!(check_cut(3, &[[0, 2, 1]]), Ok(false));
    // Every side is right, and there are two triangles too many.
    let beside = [&fan(6)[..], &[[1, 3, 5], [5, 3, 1]]].concat();
    assert_eq!(check_cut(6, &beside), Ok(false));
}

#[test]
fn cuts_that_cannot_be_checked_are_refused() {
    for corners in [0, 1, 2, 257, 258, u32::MAX as usize, usize::MAX] {
        assert_eq!(check_cut(corners, &[]), Err(Refusal::Size), "{corners}");
        assert_eq!(
            check_cut(corners, &[[9, 9, u32::MAX]]),
            Err(Refusal::Size),
            "{corners}"
        );
    }
    // A wrapped number would be a face of three corners.
    assert_eq!(check_cut((1 << 32) + 3, &fan(3)), Err(Refusal::Size));
    let many = [[0, 1, 2]; 255];
    assert_eq!(check_cut(256, &many), Err(Refusal::Size));
    assert_eq!(check_cut(256, &many[1..]), Ok(false));
    let mut stray = many;
    stray[254][2] = 3;
    assert_eq!(check_cut(3, &stray), Err(Refusal::Size));
    assert_eq!(check_cut(3, &stray[1..]), Err(Refusal::Index));
    for place in [3, 4, 256, u32::MAX] {
        assert_eq!(check_cut(3, &[[0, 1, place]]), Err(Refusal::Index));
    }
}

#[test]
fn what_is_known_of_the_shape_is_answered() {
    let buf = cube_at(0.0);
    assert_eq!(buf.as_cell().is_convex(Shape::Unknown), Ok(true));
    assert_eq!(buf.as_cell().is_convex(Shape::Concave), Ok(false));
    let mut dented = buf.clone();
    dented.points.push([0.5, 0.5, 2.0]);
    assert_eq!(dented.as_cell().is_convex(Shape::Unknown), Ok(false));
    assert_eq!(dented.as_cell().is_convex(Shape::Convex), Ok(true));
}

#[test]
fn faces_are_turned_outward() {
    let outward = cube_at(0.0);
    let mut turned = outward.clone();
    turned.corners[..4].reverse();
    turned.corners[20..].reverse();
    turned.into_ccw().unwrap();
    assert_eq!(turned, outward);
}

#[test]
fn a_backward_face_is_turned() {
    let whole = cube_at(0.0);
    for face in 0..6 {
        let mut cell = whole.clone();
        cell.corners[4 * face..][..4].reverse();
        assert_eq!(cell.as_cell().closed(), Ok(false));
        let lowest = cell.corners[..4].to_vec();
        let apart = cell.as_cell().turn_faces();
        // The first face keeps its direction, so that where it is the backward one all others turn.
        assert_eq!(cell.turn_faces(), Ok(if face == 0 { 5 } else { 1 }));
        assert_eq!(
            apart,
            Ok((cell.corners.clone(), if face == 0 { 5 } else { 1 }))
        );
        assert_eq!(cell.corners[..4], lowest);
        assert_eq!(cell.as_cell().closed(), Ok(true));
        if face == 0 {
            let inward = FACES.map(|[a, b, c, d]| [d, c, b, a]);
            assert_eq!(cell.corners, inward.as_flattened());
        } else {
            assert_eq!(cell, whole);
        }
        let turned = cell.clone();
        assert_eq!(cell.turn_faces(), Ok(0));
        assert_eq!(cell, turned);
    }
}

#[test]
fn each_group_of_faces_is_turned_by_its_lowest() {
    // Two cubes whose faces are listed in turn; of the second all but the lowest face run outward.
    let there = FACES.map(|face| face.map(|corner| corner + 8));
    let mut cell = CellBuf::new();
    cell.points = [CUBE, CUBE].concat();
    for (here, there) in FACES.iter().zip(&there) {
        cell.push_face(here);
        cell.push_face(there);
    }
    assert_eq!(cell.turn_faces(), Ok(0));
    cell.corners[8..12].reverse();
    cell.corners[4..8].reverse();
    assert_eq!(cell.turn_faces(), Ok(1 + 5));
    assert_eq!(cell.as_cell().closed(), Ok(true));
    assert_eq!(cell.corners[..8], [0, 3, 2, 1, 9, 10, 11, 8]);
    assert_eq!(cell.corners[8..16], [4, 5, 6, 7, 15, 14, 13, 12]);
}

/// The cell is refused as backward faces are turned, and its corners are as they were.
fn is_not_turned(faces: &[&[u32]], refusal: Refusal) {
    let mut cell = CellBuf::from_faces(CUBE, faces);
    let before = cell.clone();
    assert_eq!(cell.turn_faces(), Err(refusal), "{faces:?}");
    assert_eq!(cell, before);
}

#[test]
fn faces_that_cannot_be_turned_are_refused() {
    // Sides that occur once, three times, four times.
    is_not_turned(&[&[0, 1, 2]], Refusal::Sides);
    is_not_turned(&[&[0, 1, 2], &[2, 1, 0], &[0, 1, 2]], Refusal::Sides);
    is_not_turned(&[&[0, 1], &[0, 1]], Refusal::Sides);
    // Every side twice, and a vertex twice in a face: beside itself, and not.
    is_not_turned(&[&[0, 0]], Refusal::Sides);
    is_not_turned(&[&[0, 1, 0, 2]], Refusal::Sides);
    // A cube's three faces about a corner, opposite corners taken for one.
    let hemicube: [&[u32]; 3] = [&[0, 1, 2, 3], &[0, 1, 3, 2], &[0, 2, 1, 3]];
    is_not_turned(&hemicube, Refusal::Unclosable);
    // The others come before.
    is_not_turned(&[&[0, 1, 8]], Refusal::Index);
    let wild = [[0.0, f64::NAN, 0.0]; 4];
    let mut corners = hemicube.concat();
    let answer = turn_faces(&wild, &mut corners, &[4, 8, 12]);
    assert_eq!(answer, Err(Refusal::Number));
    let answer = turn_faces(&CUBE, &mut corners, &[4, 8, 11]);
    assert_eq!(answer, Err(Refusal::Ends));
    let answer = turn_faces(&[], &mut corners, &[4, 8, 12]);
    assert_eq!(answer, Err(Refusal::Size));
    assert_eq!(corners, hemicube.concat());
}

#[test]
fn thin_faces_keep_their_direction() {
    let thin: [&[u32]; 4] = [&[], &[5], &[1, 0], &[5]];
    let mut cell = CellBuf::from_faces(CUBE, thin);
    assert_eq!(cell.turn_faces(), Ok(0));
    assert_eq!(cell.corners, thin.concat());
    let mut pillow = CellBuf::from_faces(CUBE, [[0, 1, 2], [0, 1, 2]]);
    assert_eq!(pillow.turn_faces(), Ok(1));
    assert_eq!(pillow.corners, [0, 1, 2, 2, 1, 0]);
}

#[test]
fn a_face_has_a_plane() {
    let plane = cube_at(0.0).as_cell().plane_of_face(4).unwrap().unwrap();
    assert_eq!((plane.normal, plane.offset), ([1.0, 0.0, 0.0], 1.0));
}

/// Each face of the cell has no area or has some, as it is said, by its plane and by the flags.
fn have_no_area(cell: &CellBuf, said: &[bool]) {
    assert_eq!(cell.as_cell().no_area_faces().as_deref(), Ok(said));
    for (face, &none) in said.iter().enumerate() {
        let plane = cell.as_cell().plane_of_face(face).unwrap();
        assert_eq!(plane.is_none(), none, "face {face}");
    }
}

#[test]
fn faces_have_no_area() {
    have_no_area(&cube_at(0.0), &[false; 6]);
    let mut points = CUBE.to_vec();
    points.extend([[0.5, 0.0, 0.0], [0.0; 3], [0.0, 0.75, 0.0]]);
    // One corner, two, all in one point twice, on a line, a bow-tie, a doubled corner, there and back.
    let none: [&[u32]; 8] = [
        &[5],
        &[5, 6],
        &[0, 9, 0, 9],
        &[2, 2, 2],
        &[0, 8, 1],
        &[0, 2, 1, 3],
        &[4, 6, 6],
        &[0, 1, 2, 0, 2, 1],
    ];
    have_no_area(&CellBuf::from_faces(points.clone(), none), &[true; 8]);
    // A doubled corner beside three others, a line that bends, a bow-tie whose halves differ.
    let some: [&[u32]; 3] = [&[0, 3, 3, 2, 1], &[0, 8, 1, 4], &[0, 2, 1, 10]];
    have_no_area(&CellBuf::from_faces(points, some), &[false; 3]);
    have_no_area(&CellBuf::from_faces(CUBE, [[0; 0]; 0]), &[]);
}

/// A triangle so small that nothing of its normal is finite has a plane, and one whose sums vanish
/// has none.
#[test]
fn a_length_that_underflows_leaves_a_plane() {
    let corner = |reach: f64| {
        let points = [[0.0; 3], [reach, 0.0, 0.0], [0.0, reach, 0.0]];
        CellBuf::from_faces(points, [[0, 1, 2]])
    };
    for power in [-270, -511, -512, -537] {
        have_no_area(&corner(2.0_f64.powi(power)), &[false]);
    }
    have_no_area(&corner(2.0_f64.powi(-538)), &[true]);
    let plane = corner(2.0_f64.powi(-512)).as_cell().plane_of_face(0);
    let plane = plane.unwrap().unwrap();
    assert_eq!(plane.normal[2], f64::INFINITY);
    assert!(plane.normal[0].is_nan() && plane.offset.is_nan());
    let plane = corner(2.0_f64.powi(-511)).as_cell().plane_of_face(0);
    assert_eq!(plane.unwrap().unwrap().normal, [0.0, 0.0, 1.0]);
}

#[test]
fn a_face_is_clipped() {
    let buf = cube_at(0.0);
    let cube = buf.as_cell();
    let half = [
        [0.5, 1.0, 0.0],
        [0.5, 0.0, 0.0],
        [0.0, 0.0, 0.0],
        [0.0, 1.0, 0.0],
    ];
    let mut left = cube.clip_face(0, &[WEST_OF_HALF], 0.0).unwrap().unwrap();
    assert_eq!(left.len(), 4);
    left.sort_by(|a, b| a.partial_cmp(b).unwrap());
    let mut wanted = half;
    wanted.sort_by(|a, b| a.partial_cmp(b).unwrap());
    assert_eq!(left, wanted);
    let nowhere = Plane {
        normal: [1.0, 0.0, 0.0],
        offset: -1.0,
    };
    assert_eq!(cube.clip_face(0, &[WEST_OF_HALF, nowhere], 0.0), Ok(None));
    let whole = cube.clip_face(0, &[], 0.0).unwrap().unwrap();
    assert_eq!(whole, [CUBE[0], CUBE[3], CUBE[2], CUBE[1]]);
}

#[test]
fn lent_lists_show_the_outline_and_end_as_zeros() {
    let buf = cube_at(0.0);
    let cube = buf.as_cell();
    let mut first = [[7.0; 3]; 6];
    let mut second = [[7.0; 3]; 5];
    let left = cube
        .clip_face_in(0, &[WEST_OF_HALF], 0.0, &mut first, &mut second)
        .unwrap()
        .unwrap();
    assert_eq!(left.len(), 4);
    // One cut was made, so the second list shows the outline.
    assert_eq!(first, [[0.0; 3]; 6]);
    assert_eq!(second[4], [0.0; 3]);

    let mut few = [[7.0; 3]; 3];
    let answer = cube.clip_face_in(0, &[WEST_OF_HALF], 0.0, &mut few, &mut second);
    assert_eq!(answer, Err(Refusal::Room));
    assert_eq!((few, second), ([[0.0; 3]; 3], [[0.0; 3]; 5]));

    let long = WORK_NUMBERS / 3 + 1;
    let mut first = vec![[7.0; 3]; long];
    let answer = cube.clip_face_in(0, &[], 0.0, &mut first, &mut second);
    assert_eq!(answer, Err(Refusal::Size));
    assert_eq!(first, vec![[7.0; 3]; long]);
}

/// What an overlap answers.
fn shares(volume: f64, no_area: usize, no_area_other: usize) -> Result<Overlap, Refusal> {
    Ok(Overlap {
        volume,
        no_area,
        no_area_other,
    })
}

#[test]
fn cells_overlap() {
    let (here, there) = (cube_at(0.0), cube_at(0.5));
    let shared = here.as_cell().convex_intersection_volume(&there.as_cell());
    assert_eq!(shared, shares(0.5, 0, 0));
    let beside = cube_at(1.0);
    let shared = here.as_cell().convex_intersection_volume(&beside.as_cell());
    assert_eq!(shared, shares(0.0, 0, 0));
    let mut lists = ([[7.0; 3]; 2], [[7.0; 3]; 9]);
    let shared =
        here.as_cell()
            .convex_intersection_volume_in(&there.as_cell(), &mut lists.0, &mut lists.1);
    assert_eq!(shared, Err(Refusal::Room));
    assert_eq!(lists, ([[0.0; 3]; 2], [[0.0; 3]; 9]));
}

/// Faces of few corners or of one point cost the volume nothing, and are counted wherever the cells
/// lie.
#[test]
fn faces_of_no_area_are_counted() {
    let mut here = cube_at(0.0);
    here.push_face(&[3]);
    here.push_face(&[5, 5, 5, 5]);
    for (x, volume) in [(0.5, 0.5), (7.0, 0.0)] {
        let mut there = cube_at(x);
        there.push_face(&[7, 2]);
        let [one, two] = [here.as_cell(), there.as_cell()];
        assert_eq!(one.convex_intersection_volume(&two), shares(volume, 2, 1));
        assert_eq!(two.convex_intersection_volume(&one), shares(volume, 1, 2));
    }
    let flat = CellBuf::from_faces(CUBE, [[0, 2, 1, 3], [4, 6, 5, 7]]);
    let apart = cube_at(7.0);
    let shared = flat.as_cell().convex_intersection_volume(&apart.as_cell());
    assert_eq!(shared, shares(0.0, 2, 0));
}

/// The halves of a bow-tie cancel until one of them is cut: the volume is then wrong, and the count is
/// what tells of it.
#[test]
fn a_bow_tie_that_is_cut_is_told_by_the_count() {
    let mut here = cube_at(0.0);
    here.push_face(&[0, 2, 1, 3]);
    let there = cube_at(0.5);
    let shared = here.as_cell().convex_intersection_volume(&there.as_cell());
    let shared = shared.unwrap();
    assert_eq!((shared.no_area, shared.no_area_other), (1, 0));
    assert!((shared.volume - 0.5 - 1.0 / 24.0).abs() < 1e-12);
}

#[test]
fn sizes_are_refused() {
    all_refuse(&Cell::new(&[], &[], &[]), Refusal::Size);
    let many = [[0.0; 3]; 257];
    all_refuse(&Cell::new(&many, &[], &[0]), Refusal::Size);
    assert_eq!(Cell::new(&many[1..], &[], &[]).volume(), Ok(0.0));
    all_refuse(&Cell::new(&CUBE, &[0; 2049], &[2049]), Refusal::Size);
    all_refuse(&Cell::new(&CUBE, &[], &[0; 257]), Refusal::Size);
    let buf = cube_at(0.0);
    let cube = buf.as_cell();
    assert_eq!(cube.survey(&[[0.0; 3]; 257]), Err(Refusal::Size));
    let planes = [WEST_OF_HALF; 257];
    assert_eq!(cube.clip_face(0, &planes, 0.0), Err(Refusal::Size));
}

#[test]
fn numbers_are_refused() {
    let limit = 2.0_f64.powi(40);
    for wild in [f64::NAN, f64::INFINITY, -f64::INFINITY, limit.next_up()] {
        let mut buf = cube_at(0.0);
        buf.points[7][2] = wild;
        all_refuse(&buf.as_cell(), Refusal::Number);
        let buf = cube_at(0.0);
        let cube = buf.as_cell();
        assert_eq!(cube.contains([0.0, wild, 0.0]), Err(Refusal::Number));
        assert_eq!(cube.survey(&[[0.0, 0.0, wild]]), Err(Refusal::Number));
    }
    let mut buf = cube_at(0.0);
    buf.points[7][2] = limit;
    assert!(buf.as_cell().volume().is_ok());
}

#[test]
fn ends_are_refused() {
    let corners = [0, 1, 2, 3, 4, 5];
    for ends in [&[6, 3][..], &[3, 7], &[3], &[]] {
        all_refuse(&Cell::new(&CUBE, &corners, ends), Refusal::Ends);
    }
    let faces: Vec<&[u32]> = Cell::new(&CUBE, &corners, &[6, 3, 9]).faces().collect();
    assert_eq!(faces, [&corners[..], &[], &[]]);
}

#[test]
fn numbers_out_of_range_are_refused() {
    all_refuse(&Cell::new(&CUBE, &[0, 1, 8], &[3]), Refusal::Index);
    let buf = cube_at(0.0);
    let cube = buf.as_cell();
    for face in [6, u32::MAX as usize, usize::MAX] {
        assert_eq!(cube.triangles(face), Err(Refusal::Index));
        assert_eq!(cube.triangle_places(face), Err(Refusal::Index));
        assert_eq!(cube.plane_of_face(face), Err(Refusal::Index));
        assert_eq!(cube.clip_face(face, &[], 0.0), Err(Refusal::Index));
    }
    // A wrapped number would name the first face.
    assert_eq!(cube.triangles(1 << 32), Err(Refusal::Index));
    assert_eq!(cube.triangle_places(1 << 32), Err(Refusal::Index));
}

#[test]
fn an_empty_face_is_refused_where_it_matters() {
    let mut buf = cube_at(0.0);
    buf.push_face(&[]);
    let whole = cube_at(0.0);
    assert_eq!(buf.as_cell().volume(), Ok(1.0));
    assert_eq!(buf.as_cell().plane_of_face(0), Err(Refusal::EmptyFace));
    assert_eq!(buf.as_cell().no_area_faces(), Err(Refusal::EmptyFace));
    let shared = whole.as_cell().convex_intersection_volume(&buf.as_cell());
    assert_eq!(shared, Err(Refusal::EmptyFace));
    let before = buf.clone();
    assert_eq!(buf.into_ccw(), Err(Refusal::EmptyFace));
    assert_eq!(buf, before);
    assert_eq!(buf.turn_faces(), Ok(0));
    assert_eq!(buf, before);
}

#[test]
fn refusals_have_the_numbers_of_the_documents() {
    let numbers = Refusal::ALL.map(Refusal::number);
    assert_eq!(numbers, [1, 2, 3, 4, 5, 6, 11, 12, 15]);
    let boxed: Box<dyn std::error::Error> = Box::new(Refusal::EmptyFace);
    assert_eq!(boxed.to_string(), "refusal 5: a face has no corners");
}

#[test]
fn a_list_with_marks_is_asked() {
    let corners = FACES.map(|[a, b, c, d]| [a, b, c, d, FACE_END]);
    let corners = corners.as_flattened();
    assert_eq!(point_in_phed(&CUBE, corners, [0.5; 3]), Ok(true));
    assert_eq!(point_in_phed(&CUBE, corners, [1.5; 3]), Ok(false));
    assert_eq!(point_in_phed(&CUBE, &[8], [0.5; 3]), Err(Refusal::Index));
    let long = [FACE_END; 2305];
    assert_eq!(point_in_phed(&CUBE, &long, [0.5; 3]), Err(Refusal::Size));
    assert_eq!(point_in_phed(&CUBE, &long[1..], [0.5; 3]), Ok(false));
}

#[test]
fn outlines_of_the_plane_are_measured() {
    assert_eq!(planar::signed_area2(&SQUARE), Ok(4.0));
    assert_eq!(planar::vertex_centroid2(&SQUARE), Ok([1.0, 1.0]));
    assert_eq!(planar::bounds2(&SQUARE), Ok([[0.0, 0.0], [2.0, 2.0]]));
    let mut turned = SQUARE;
    turned.reverse();
    planar::into_ccw2(&mut turned).unwrap();
    assert_eq!(turned, SQUARE);

    assert_eq!(planar::signed_area2(&[]), Ok(0.0));
    assert!(planar::vertex_centroid2(&[]).unwrap()[0].is_nan());
    let [least, largest] = planar::bounds2(&[]).unwrap();
    assert_eq!((least, largest), ([f64::INFINITY; 2], [-f64::INFINITY; 2]));

    let mut many = [[0.0; 2]; 513];
    assert_eq!(planar::signed_area2(&many), Err(Refusal::Size));
    assert_eq!(planar::into_ccw2(&mut many), Err(Refusal::Size));
    let wild = [[0.0, f64::NAN]];
    assert_eq!(planar::bounds2(&wild), Err(Refusal::Number));
}

#[test]
fn outlines_of_the_plane_overlap() {
    let there = SQUARE.map(|[x, y]| [x + 1.0, y + 1.0]);
    assert_eq!(planar::convex_intersection_area(&SQUARE, &there), Ok(1.0));
    assert_eq!(planar::convex_intersection_area(&SQUARE, &[]), Ok(4.0));
    let left = planar::clip_convex(&SQUARE, &there).unwrap().unwrap();
    assert_eq!(planar::signed_area2(&left), Ok(1.0));
    let away = SQUARE.map(|[x, y]| [x + 9.0, y]);
    assert_eq!(planar::clip_convex(&SQUARE, &away), Ok(None));
    // With no edge even a subject of two points is left.
    let two = planar::clip_convex(&SQUARE[..2], &[]).unwrap();
    assert_eq!(two.as_deref(), Some(&SQUARE[..2]));

    let mut lists = ([[7.0; 2]; 8], [[7.0; 2]; 3]);
    let answer = planar::clip_convex_in(&SQUARE, &there, &mut lists.0, &mut lists.1);
    assert_eq!(answer, Err(Refusal::Room));
    assert_eq!(lists, ([[0.0; 2]; 8], [[0.0; 2]; 3]));
    let wild = [[0.0, f64::NAN]];
    let mut lists = ([[7.0; 2]; 8], [[7.0; 2]; 8]);
    let area = planar::convex_intersection_area_in(&SQUARE, &wild, &mut lists.0, &mut lists.1);
    assert_eq!(area, Err(Refusal::Number));
    assert_eq!(lists, ([[7.0; 2]; 8], [[7.0; 2]; 8]));
}

#[test]
fn lists_of_space_are_measured() {
    let face = [CUBE[0], CUBE[1], CUBE[2], CUBE[3]];
    assert_eq!(space::newell_normal(&face), Ok([0.0, 0.0, 2.0]));
    assert_eq!(space::vertex_centroid(&CUBE), Ok([0.5; 3]));
    assert_eq!(space::bounds(&CUBE), Ok([[0.0; 3], [1.0; 3]]));
    assert_eq!(space::bounds(&[]), Err(Refusal::Size));
    assert_eq!(space::newell_normal(&[[f64::NAN; 3]]), Err(Refusal::Number));
}

/// The bits of points, which tell zeros and NaN apart.
fn bits(points: &[[f64; 3]]) -> Vec<u64> {
    let numbers = points.as_flattened().iter();
    numbers.map(|number| number.to_bits()).collect()
}

/// Points are moved by a vector, and a second call has nothing to move.
fn is_moved<const N: usize>(mut points: [[f64; 3]; N], vector: [f64; 3], moved: [[f64; 3]; N]) {
    let told = space::to_local(&mut points).unwrap();
    assert_eq!(bits(&[told]), bits(&[vector]), "{vector:?}");
    assert_eq!(bits(&points), bits(&moved), "{vector:?}");
    let told = space::to_local(&mut points).unwrap();
    assert_eq!(bits(&[told]), [0; 3], "{vector:?}");
    assert_eq!(bits(&points), bits(&moved), "{vector:?}");
}

#[test]
fn points_are_moved_to_a_local_origin() {
    // A fraction stays, a number below 0 is brought towards 0, and a vector has no -0.
    is_moved(
        [[7.75, -2.5, -0.25], [8.0, 3.0, 100.5]],
        [7.0, -2.0, 0.0],
        [[0.75, -0.5, -0.25], [1.0, 5.0, 100.5]],
    );
    // Nothing is taken off a number whose axis has 0, be it -0 or the least of all.
    let least = f64::from_bits(1);
    is_moved(
        [[-0.0, 0.0, 0.5], [0.0, -0.0, least]],
        [0.0, 0.0, 0.0],
        [[-0.0, 0.0, 0.5], [0.0, -0.0, least]],
    );
    // A number that is the local origin's becomes +0, and -0 moves as 0 does.
    is_moved(
        [[-3.0, 3.0, 1.0], [-0.0, 3.0, 0.0]],
        [-3.0, 3.0, 1.0],
        [[0.0, 0.0, 0.0], [3.0, 0.0, -1.0]],
    );
    // Just below the limit the last digit is 2^-13.
    let limit = 2.0_f64.powi(40);
    let digit = limit - limit.next_down();
    is_moved(
        [[limit, -limit, limit - digit], [limit - digit, 0.0, 1.0]],
        [limit, -limit, limit - 1.0],
        [[0.0, 0.0, 1.0 - digit], [-digit, limit, 2.0 - limit]],
    );
}

#[test]
fn a_wide_list_may_leave_the_domain() {
    let limit = 2.0_f64.powi(40);
    let mut points = [[-limit, 0.0, 0.0], [limit, 0.0, 0.0]];
    assert_eq!(space::to_local(&mut points), Ok([-limit, 0.0, 0.0]));
    let moved = [[0.0, 0.0, 0.0], [2.0 * limit, 0.0, 0.0]];
    assert_eq!(points, moved);
    assert_eq!(space::to_local(&mut points), Err(Refusal::Number));
    assert_eq!(points, moved);
}

/// Points are refused as they are moved, and are as they were.
fn is_not_moved(points: &[[f64; 3]], refusal: Refusal) {
    let mut lent = points.to_vec();
    assert_eq!(space::to_local(&mut lent), Err(refusal), "{points:?}");
    assert_eq!(bits(&lent), bits(points));
}

#[test]
fn points_that_cannot_be_moved_are_refused() {
    let first = [1.0, 2.0, 3.0];
    // 1 - 2^-53 is an f64, and 1 + 2^-53 is not.
    let half = f64::EPSILON / 2.0;
    is_moved(
        [first, [half, 2.0, 3.0]],
        first,
        [[0.0; 3], [half - 1.0, 0.0, 0.0]],
    );
    is_not_moved(&[first, [-half, 2.0, 3.0]], Refusal::Inexact);
    // The last number of the last point alone.
    let mut many = [first; 256];
    many[255][2] = f64::from_bits(1);
    is_not_moved(&many, Refusal::Inexact);
    // The others come before, wherever they stand.
    many[254][0] = f64::NAN;
    is_not_moved(&many, Refusal::Number);
    for wild in [f64::NAN, -f64::INFINITY, 2.0_f64.powi(40).next_up()] {
        is_not_moved(&[[wild, 2.0, 3.0], [0.0, half, 0.0]], Refusal::Number);
        is_not_moved(&[first, [-half, wild, 0.0]], Refusal::Number);
    }
    let mut too_many = many.to_vec();
    too_many.push(first);
    is_not_moved(&too_many, Refusal::Size);
    is_not_moved(&[], Refusal::Size);
}

#[test]
fn a_far_cell_is_moved_and_measured() {
    let far = [8588590.0, 8529546.0, 2969498.0];
    let size = [0.05, 0.25, 2.0];
    let points = CUBE.map(|point| [0, 1, 2].map(|axis| far[axis] + size[axis] * point[axis]));
    let mut cell = CellBuf::from_faces(points, FACES);
    let before = cell.clone();
    assert_eq!(cell.as_cell().survey(&[]).unwrap().short, 1);
    assert_eq!(cell.to_local(), Ok(far));
    let moved = [0.05000000074505806, 0.25, 2.0];
    let moved = CUBE.map(|point| [0, 1, 2].map(|axis| moved[axis] * point[axis]));
    assert_eq!(cell, CellBuf::from_faces(moved, FACES));
    let survey = cell.as_cell().survey(&[]).unwrap();
    assert_eq!((survey.closed, survey.short), (true, 0));
    assert_eq!(survey.volume.to_bits(), 0x3F99_9999_A000_0000);
    assert_eq!(cell.to_local(), Ok([0.0; 3]));

    let mut refused = before.clone();
    refused.points[7][0] = -0.05;
    let before = refused.clone();
    assert_eq!(refused.to_local(), Err(Refusal::Inexact));
    assert_eq!(refused, before);
}

#[test]
fn fixed_shapes_are_measured() {
    let tet = [CUBE[0], CUBE[1], CUBE[3], CUBE[4]];
    let wedge = [CUBE[0], CUBE[1], CUBE[3], CUBE[4], CUBE[5], CUBE[7]];
    assert_eq!(shapes::tet_volume(&tet), 1.0 / 6.0);
    assert!((shapes::wedge_volume(&wedge) - 0.5).abs() < 1e-15);
    assert!((shapes::hex_volume(&CUBE).abs() - 1.0).abs() < 1e-15);
    assert!(shapes::tet_contains(&tet, [0.25; 3]));
    assert!(shapes::wedge_contains(&wedge, [0.25, 0.25, 0.5]));
    assert!(shapes::hex_contains(&CUBE, [0.5; 3]));
    let outside = [0.9, 0.9, 0.9];
    assert!(!shapes::tet_contains(&tet, outside));
    assert!(!shapes::wedge_contains(&wedge, outside));
    assert!(!shapes::hex_contains(&CUBE, [1.5; 3]));
    // Any bits are taken.
    assert!(shapes::tet_volume(&[[f64::NAN; 3]; 4]).is_nan());
}

#[test]
fn leaves_are_asked() {
    assert_eq!(floats::magnitude(-2.0), 2.0);
    assert_eq!(floats::least(f64::NAN, 1.0), 1.0);
    assert_eq!(floats::largest(2.0, 1.0), 2.0);
    assert_eq!(floats::root(f64::from_bits(1)), 2.0_f64.powi(-537));
    assert_eq!(leaves::cross2([0.0, 0.0], [2.0, 0.0], [0.0, -3.0]), -6.0);
    assert_eq!(leaves::dominant_axis([1.0, -2.0, 2.0]), 1);
    assert_eq!(leaves::project2([1.0, 2.0, 3.0], 0), [2.0, 3.0]);
    assert_eq!(leaves::project2([1.0, 2.0, 3.0], 7), [1.0, 2.0]);
    let [a, b, p, q] = [[0.0, 0.0], [2.0, 0.0], [1.0, -1.0], [1.0, 3.0]];
    assert_eq!(leaves::segment_intersection(a, b, p, q), [1.0, 0.0]);
    assert_eq!(leaves::segment_intersection(a, b, a, b), b);
}

#[test]
fn hypot_is_the_nearest_number() {
    assert_eq!(floats::hypot(3.0, 4.0), 5.0);
    assert_eq!(floats::hypot(-0.0, -0.0).to_bits(), 0.0_f64.to_bits());
    // An infinity comes before a NaN.
    assert_eq!(floats::hypot(f64::NAN, f64::NEG_INFINITY), f64::INFINITY);
    assert!(floats::hypot(f64::NAN, 1.0).is_nan());
    // Squares that underflow or overflow cost nothing.
    let least = f64::from_bits(1);
    assert_eq!(floats::hypot(least, -least), least);
    assert_eq!(floats::hypot(3.0 * least, 4.0 * least), 5.0 * least);
    let large = 2.0_f64.powi(1000);
    assert_eq!(floats::hypot(3.0 * large, 4.0 * large), 5.0 * large);
    assert_eq!(floats::hypot(f64::MAX, f64::MAX), f64::INFINITY);
    // Two lengths in the middle of two numbers: the even one is above the first and below the second.
    for [x, y, length] in [
        [
            0x433F_A26A_FDDB_0384,
            0x4326_C8F2_A305_5062,
            0x4340_CFC8_73E3_E534,
        ],
        [
            0x4342_9899_D5AB_D726,
            0x432A_575D_458A_CB06,
            0x4343_BA49_0718_AC62,
        ],
    ] {
        let [x, y] = [x, y].map(f64::from_bits);
        assert_eq!(floats::hypot(x, y).to_bits(), length);
    }
}

#[test]
fn planes_are_compared() {
    let up = |offset| Plane {
        normal: [0.0, 0.0, 1.0],
        offset,
    };
    let down = Plane {
        normal: [0.0, 0.0, -1.0],
        offset: -1.0,
    };
    assert!(up(1.0).same_side(&up(1.5), 0.5));
    assert!(!up(1.0).same_side(&up(2.0), 0.5));
    assert!(!up(1.0).same_side(&down, 0.5));
    assert!(up(1.0).coplanar_opposite(&down, 0.0));
    assert!(!up(2.0).coplanar_opposite(&down, 0.5));
}

#[test]
fn a_cell_is_described() {
    let cube = cube_at(0.0);
    let described = cube
        .as_cell()
        .describe(Shape::Convex)
        .expect("the cube is sound");
    let counts = [described.points, described.corners, described.faces];
    assert_eq!(counts, [8, 24, 6]);
    assert_eq!(described.shape, Shape::Convex);
    let lost = Cell::new(&CUBE, &[8], &[1]);
    assert_eq!(lost.describe(Shape::Unknown), Err(Refusal::Index));
}
