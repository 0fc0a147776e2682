//! Cells with flat faces, measured by functions that are proved: volume, centroids, closedness,
//! containment, convexity, cuts of faces and the check of cuts, turning of faces, planes, faces of no
//! area, clipping, overlap and the move to a local origin. Each answers what docs/SCOPE.md of
//! Wegrusamt says, bit for bit, or refuses with a [`Refusal`]; each ends on every input and keeps
//! nothing.
//!
//! ```
//! use wegrusamt::CellBuf;
//!
//! let cell = CellBuf::from_faces(
//!     [[0.0; 3], [6.0, 0.0, 0.0], [0.0, 1.0, 0.0], [0.0, 0.0, 1.0]],
//!     [[0, 2, 1], [0, 1, 3], [1, 2, 3], [2, 0, 3]],
//! );
//! assert_eq!(cell.as_cell().volume()?, 1.0);
//! # Ok::<(), wegrusamt::Refusal>(())
//! ```
//!
//! The functions come from the archive that `rust/archive` proves and builds; `WEGRUSAMT_LIB`
//! names its folder where it is not `target/staticlib` of the repository. This crate adds types and
//! borrows: what the C header asks of a caller, that pointers are good and lists do not overlap,
//! holds for every safe call. Points are arrays, so that no list can end in the middle of one.
//! Lists that hold answers are made here with the room that they need, so [`Refusal::Room`] is left
//! to work lists alone. The functions hold no state, so any number of threads may call them.

#![deny(missing_docs, unsafe_code)]

#[allow(unsafe_code)]
mod c;
mod cell;
mod cell_buf;
mod cut;
pub mod floats;
pub mod leaves;
pub mod planar;
mod refusal;
pub mod shapes;
pub mod space;
mod work;

pub use cell::{Cell, Description, FACE_END, FaceCut, Overlap, Plane, Shape, Survey};
pub use cell::{into_ccw, point_in_phed, turn_faces};
pub use cell_buf::CellBuf;
pub use cut::check_cut;
pub use refusal::Refusal;
pub use work::WORK_NUMBERS;
