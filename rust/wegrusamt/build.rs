//! Links the port's static library.

include!("../link.rs");
