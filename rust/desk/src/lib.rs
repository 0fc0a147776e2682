//! The surveyor's desk: real files in, faults shown, faces turned. `docs/DESK.md` says what each
//! command does.
//!
//! All judging is the proved library's, the crate `wegrusamt`. What is here reads, writes, draws
//! and puts into words.

#![deny(missing_docs, unsafe_code)]

pub mod commands;
pub mod files;
pub mod findings;
pub mod formats;
pub mod json;
pub mod model;
pub mod picture;
pub mod turning;
pub mod words;
