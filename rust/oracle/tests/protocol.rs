//! The line protocol: values, panics and questions that cannot be read.

use oracle::protocol::answer;

const ONE: &str = "3FF0000000000000";
const ZERO: &str = "0000000000000000";

/// The square (0,0), (1,0), (1,1), (0,1) at z = 0 as a list of points.
fn square() -> String {
    let corner = |x: &str, y: &str| format!("{x} {y} {ZERO}");
    format!(
        "4 {} {} {} {}",
        corner(ZERO, ZERO),
        corner(ONE, ZERO),
        corner(ONE, ONE),
        corner(ZERO, ONE)
    )
}

#[test]
fn lists_are_counted() {
    let question = format!("ear_clip_triangles plain {} 4 0 3 2 1", square());
    assert_eq!(answer(&question), "2 1 0 3 3 2 1");
    let question = format!("ear_clip_triangles {} 2 0 1", square());
    assert_eq!(answer(&question), "0");
}

#[test]
fn tests_are_counted_behind_the_triangles() {
    let question = |face: &str| format!("ear_clip_tests counted {} {face}", square());
    for _ in 0..2 {
        assert_eq!(answer(&question("4 0 3 2 1")), "2 1 0 3 3 2 1 1");
        assert_eq!(answer(&question("3 0 3 2")), "1 0 3 2 0");
        assert_eq!(answer(&question("2 0 1")), "0 0");
        assert_eq!(answer(&question("4 0 1 2 4")), "panic");
    }
    for build in ["", "plain", "ruled"] {
        let question = format!("ear_clip_tests {build} {} 2 0 1", square());
        assert_eq!(
            answer(&question),
            "error `ear_clip_tests` is no function of the oracle"
        );
    }
    let question = format!("ear_clip_triangles counted {} 2 0 1", square());
    assert_eq!(
        answer(&question),
        "error `ear_clip_triangles` is no function of the counted build"
    );
}

#[test]
fn the_build_is_chosen() {
    for build in ["", "plain", "ruled"] {
        let question = format!("plane_of_face {build} {} 4 0 1 2 3", square());
        let normal = format!("{ZERO} {ZERO} {ONE}");
        // The offset is minus nothing.
        assert_eq!(answer(&question), format!("{normal} {ZERO}"));
    }
}

#[test]
fn none_and_some_are_told_apart() {
    let plane = |offset: &str| format!("1 {ONE} {ZERO} {ZERO} {offset}");
    let clip = |offset| {
        answer(&format!(
            "clip_face_by_polyhedron {} {} {ZERO}",
            square(),
            plane(offset)
        ))
    };
    assert_eq!(clip("BFF0000000000000"), "none");
    assert_eq!(clip(ONE), format!("some {}", square()));
}

#[test]
fn a_panic_is_an_answer() {
    let question = format!("ear_clip_triangles {} 3 0 1 4", square());
    assert_eq!(answer(&question), "panic");
    let question = format!("face_plane {} 0", square());
    assert_eq!(answer(&question), "panic");
}

#[test]
fn bad_questions_are_named() {
    let cases = [
        (
            "",
            "error the line ends where the name of a function should stand",
        ),
        ("fold", "error `fold` is no function of the oracle"),
        (
            "dominant_axis 1",
            "error `1` is not a number in 16 hex digits",
        ),
        (
            "dominant_axis +000000000000001",
            "error `+000000000000001` is not a number in 16 hex digits",
        ),
        (
            "signed_area2 1",
            "error the line ends where a number in 16 hex digits should stand",
        ),
        ("signed_area2 x", "error `x` is not a whole number in range"),
        (
            "signed_area2 0 0",
            "error `0` stands after the last argument",
        ),
        (
            "is_convex 0 0 0 flat",
            "error `flat` is not convex, concave or unknown",
        ),
    ];
    for (question, expected) in cases {
        assert_eq!(answer(question), expected);
    }
}

#[test]
fn whole_number_plans_are_judged_exactly() {
    let two_30 = "41D0000000000000";
    let square = format!("4 {ZERO} {ZERO} {two_30} {ZERO} {two_30} {two_30} {ZERO} {two_30}");
    assert_eq!(answer(&format!("polygon2_is_convex {square}")), "true");
    assert_eq!(
        answer(&format!("polygon2_contains {square} {ONE} {ZERO}")),
        "true"
    );
    let half = "3FE0000000000000";
    assert_eq!(
        answer(&format!("polygon2_contains {square} {half} {half}")),
        "panic"
    );
}
