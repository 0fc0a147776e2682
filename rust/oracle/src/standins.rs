//! Stand-ins for the outside crates that `polygon.rs` names, each only as large as it uses them.

pub(crate) mod itertools;
pub(crate) mod nalgebra;
pub(crate) mod robust;
pub(crate) mod smallvec;
