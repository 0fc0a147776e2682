//! The list of docs/DIFFERENCES.md: the smallest input known for each way in which the unmodified
//! Rust differs from the build with SCOPE 1's hypot, and both answers bit for bit. What the
//! unmodified one answers rests on the machine's own hypot; here it is that of glibc on x86-64,
//! which is mostly the nearest f64 and else a neighbour of it.

use std::fmt::Debug;

use oracle::{Cell, plain, ruled};

/// Stands for any NaN.
const NAN: u64 = 0x7FF8_0000_0000_0000;

const INFINITY: u64 = f64::INFINITY.to_bits();
const MINUS_INFINITY: u64 = f64::NEG_INFINITY.to_bits();

/// The faces, outward, of a tetrahedron whose vertices 0, 1, 2 run counterclockwise as seen from
/// vertex 3.
const CORNERS: [u32; 12] = [0, 2, 1, 0, 1, 3, 1, 2, 3, 2, 0, 3];
const ENDS: [u32; 4] = [3, 6, 9, 12];

type Tetrahedron = [[f64; 3]; 4];

fn bits(x: f64) -> u64 {
    if x.is_nan() { NAN } else { x.to_bits() }
}

fn planes(triangle: [[f64; 3]; 3]) -> [[u64; 4]; 2] {
    let face = [0, 1, 2];
    [
        plain::plane_of_face(&triangle, &face),
        ruled::plane_of_face(&triangle, &face),
    ]
    .map(|plane| plane.map(bits))
}

fn overlaps(first: Tetrahedron, second: Tetrahedron) -> [u64; 2] {
    let [first, second] = [&first, &second].map(|points| Cell {
        points,
        corners: &CORNERS,
        ends: &ENDS,
    });
    [
        plain::convex_intersection_volume(first, second),
        ruled::convex_intersection_volume(first, second),
    ]
    .map(bits)
}

fn moved(cell: Tetrahedron, by: f64) -> Tetrahedron {
    cell.map(|point| point.map(|x| x + by))
}

fn scaled(cell: Tetrahedron, by: f64) -> Tetrahedron {
    cell.map(|point| point.map(|x| x * by))
}

/// A power of two.
fn two_to(power: i32) -> f64 {
    2f64.powi(power)
}

/// Holds the unmodified Rust to its answer, where its hypot is that of glibc on x86-64.
fn unmodified_gives<T: PartialEq + Debug>(given: T, listed: T) {
    if cfg!(target_arch = "x86_64") {
        assert_eq!(given, listed);
    }
}

/// The Newell sums are 3, 1 and -2.
#[test]
fn planes_in_the_last_places() {
    let [unmodified, here] = planes([[0.0; 3], [0.0, 2.0, 1.0], [1.0, 1.0, 2.0]]);
    unmodified_gives(
        unmodified,
        [
            0x3FE9_A836_5810_363E,
            0x3FD1_1ACE_E560_2429,
            0xBFE1_1ACE_E560_2429,
            0,
        ],
    );
    assert_eq!(
        here,
        [
            0x3FE9_A836_5810_363F,
            0x3FD1_1ACE_E560_242A,
            0xBFE1_1ACE_E560_242A,
            0
        ]
    );
}

/// The furthest apart that planes are known to be whose length is no subnormal number.
#[test]
fn planes_by_three_units() {
    let [unmodified, here] = planes([[0.0; 3], [0.0, 5.0, 2.0], [1.0, 1.0, 4.0]]);
    unmodified_gives(
        unmodified,
        [
            0x3FEE_A84A_7D3F_7AE7,
            0x3FBB_4042_3671_50CD,
            0xBFD1_0829_6206_D280,
            0,
        ],
    );
    assert_eq!(
        here,
        [
            0x3FEE_A84A_7D3F_7AE4,
            0x3FBB_4042_3671_50CB,
            0xBFD1_0829_6206_D27F,
            0
        ]
    );
}

/// A length below 2^-1022 has fewer digits, and one unit of it is more: glibc seems to round it to 53
/// digits first and then once more.
#[test]
fn shrunk_planes_by_five_units() {
    let e = two_to(-513);
    let triangle = [[0.0; 3], [0.0, 2.0, 1.0], [2.0, 1.0, 2.0]];
    let [unmodified, here] = planes(triangle.map(|point| point.map(|x| x * e)));
    unmodified_gives(
        unmodified,
        [
            0x3FE1_D3A6_0CAF_0CA9,
            0x3FD7_C4DD_663E_BB8C,
            0xBFE7_C4DD_663E_BB8C,
            0,
        ],
    );
    assert_eq!(
        here,
        [
            0x3FE1_D3A6_0CAF_0CA5,
            0x3FD7_C4DD_663E_BB87,
            0xBFE7_C4DD_663E_BB87,
            0
        ]
    );
}

/// Of a length of 2^-1024 the inverse overflows, and of the next f64 it does not.
#[test]
fn shrunk_planes_finite_in_one_only() {
    let e = two_to(-512);
    let aside = (two_to(25) + 1.0) * two_to(-562);
    let [unmodified, here] = planes([[0.0; 3], [e, 0.0, 0.0], [0.0, e, aside]]);
    unmodified_gives(unmodified, [NAN, MINUS_INFINITY, INFINITY, NAN]);
    assert_eq!(here, [0, 0xBE60_0000_07FF_FFFC, 0x3FEF_FFFF_FFFF_FFF8, 0]);

    let e = two_to(-537);
    let second = [0.0, 3.0 * two_to(24) * e, (1.0 - two_to(25)) * e];
    let third = [-e, (two_to(25) + 1.0) * e, 0.0];
    let [unmodified, here] = planes([[0.0; 3], second, third]);
    unmodified_gives(
        unmodified,
        [
            0x3FEF_FFFF_FFFF_FFF0,
            0x3E5F_FFFF_EFFF_FFF8,
            0x3E67_FFFF_FFFF_FFFA,
            0,
        ],
    );
    assert_eq!(here, [INFINITY, INFINITY, INFINITY, NAN]);
}

/// Two forty-fifths.
const IN_THE_LAST_PLACES: [Tetrahedron; 2] = [
    [
        [0.0, 0.0, 0.0],
        [0.0, 1.0, 0.0],
        [0.0, 0.0, 1.0],
        [2.0, 0.0, 0.0],
    ],
    [
        [0.0, 0.0, 0.0],
        [1.0, 0.0, 0.0],
        [0.0, 1.0, 2.0],
        [2.0, 0.0, 1.0],
    ],
];

#[test]
fn overlaps_in_the_last_places() {
    let [first, second] = IN_THE_LAST_PLACES;
    let [unmodified, here] = overlaps(first, second);
    unmodified_gives(unmodified, 0x3FA6_C16C_16C1_6C17);
    assert_eq!(here, 0x3FA6_C16C_16C1_6C16);
}

/// With itself, 1,000 away along each axis: a sixth.
fn differing_by_more() -> Tetrahedron {
    let cell = [
        [0.0, 1.0, 1.0],
        [1.0, 1.0, 1.0],
        [1.0, 2.0, 0.0],
        [2.0, 1.0, 2.0],
    ];
    moved(cell, 1000.0)
}

#[test]
fn overlaps_by_more() {
    let cell = differing_by_more();
    let [unmodified, here] = overlaps(cell, cell);
    unmodified_gives(unmodified, 0x3FC5_5555_5555_3955);
    assert_eq!(here, 0x3FC5_5555_5555_5555);
}

/// They share a side and no volume.
fn of_which_one_is_0() -> [Tetrahedron; 2] {
    let first = [
        [0.0, 0.0, 1.0],
        [0.0, 0.0, 2.0],
        [1.0, 0.0, 1.0],
        [1.0, 1.0, 2.0],
    ];
    let second = [
        [0.0, 0.0, 0.0],
        [0.0, 2.0, 1.0],
        [0.0, 0.0, 1.0],
        [1.0, 1.0, 2.0],
    ];
    [first, second].map(|cell| moved(cell, 100.0))
}

#[test]
fn overlaps_of_which_one_is_0() {
    let [first, second] = of_which_one_is_0();
    let [unmodified, here] = overlaps(first, second);
    unmodified_gives(unmodified, 0x3CC5_5555_5555_5555);
    assert_eq!(here, 0);
}

/// Nothing underflows in these: all answers are those of the cells as they were, times a power of
/// two.
#[test]
fn shrunk_overlaps() {
    let shrunk = |cell| scaled(cell, two_to(-300));
    let cell = differing_by_more();
    for [first, second] in [IN_THE_LAST_PLACES, [cell, cell], of_which_one_is_0()] {
        let as_they_were = overlaps(first, second).map(f64::from_bits);
        let expected = as_they_were.map(|overlap| bits(overlap * two_to(-900)));
        assert_eq!(overlaps(shrunk(first), shrunk(second)), expected);
    }
}

/// By the root of the rounded sum of rounded squares, which stood in for hypot before, the planes and
/// overlaps of this test and the next differed; now they are the unmodified Rust's.
#[test]
fn the_former_list_agrees() {
    let agree = |[unmodified, here]: [[u64; 4]; 2], listed: [u64; 4]| {
        unmodified_gives(unmodified, listed);
        assert_eq!(here, listed);
    };
    let third = 0x3FD5_5555_5555_5555;
    let two_thirds = 0x3FE5_5555_5555_5555;
    let four_thirds = 0x3FF5_5555_5555_5555;
    agree(
        planes([[0.0, 1.0, 2.0], [1.0, 0.0, 2.0], [0.0, 2.0, 0.0]]),
        [two_thirds, two_thirds, third, four_thirds],
    );
    let far = [5455.0, 10434.0, 10137.0];
    agree(
        planes([[0.0; 3], far, [8924.0, 10551.0, 60.0]]),
        [
            0xBFE7_A701_5538_FABA,
            0x3FE4_0CD1_42A2_AAA2,
            0xBFCF_A358_2BBB_E49F,
            0,
        ],
    );

    let agree = |[unmodified, here]: [u64; 2], listed: u64| {
        unmodified_gives(unmodified, listed);
        assert_eq!(here, listed);
    };
    let first = [
        [0.0, 0.0, 0.0],
        [1.0, 0.0, 0.0],
        [0.0, 1.0, 1.0],
        [0.0, 0.0, 1.0],
    ];
    let second = [
        [1.0, 1.0, 1.0],
        [2.0, 0.0, 1.0],
        [0.0, 0.0, 1.0],
        [0.0, 0.0, 0.0],
    ];
    agree(overlaps(first, second), 0x3FAC_71C7_1C71_C71D);
    let cell = [
        [0.0, 1.0, 0.0],
        [0.0, 0.0, 0.0],
        [1.0, 0.0, 0.0],
        [0.0, 0.0, 2.0],
    ];
    let cell = moved(cell, 100_000.0);
    agree(overlaps(cell, cell), 0x3FD5_5555_5555_5555);
    let first = [
        [1.0, 0.0, 0.0],
        [0.0, 0.0, 2.0],
        [1.0, 1.0, 2.0],
        [2.0, 2.0, 1.0],
    ];
    let second = [
        [1.0, 2.0, 1.0],
        [0.0, 1.0, 0.0],
        [1.0, 0.0, 0.0],
        [0.0, 0.0, 2.0],
    ];
    agree(overlaps(moved(first, 100.0), moved(second, 100.0)), 0);
}

#[test]
fn squares_that_vanish_make_no_difference() {
    let one = 1f64.to_bits();
    for power in [-269, -270, -511] {
        let e = two_to(power);
        for wide in [e, 3.0 * e] {
            let both = planes([[0.0; 3], [wide, 0.0, 0.0], [0.0, e, 0.0]]);
            assert_eq!(both, [[0, 0, one, 0]; 2]);
        }
    }
    let unit = [
        [0.0, 0.0, 0.0],
        [1.0, 0.0, 0.0],
        [0.0, 1.0, 0.0],
        [0.0, 0.0, 1.0],
    ];
    let cell = scaled(unit, two_to(-269));
    assert_eq!(overlaps(cell, cell), [0x0D55_5555_5555_5555; 2]);
    assert_eq!(overlaps(cell, moved(cell, two_to(-270))), [0; 2]);
}
