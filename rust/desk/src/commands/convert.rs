//! `convert`: the same cells in another format.

use super::{ConvertWish, Status, about, complain, loaded};
use crate::files::{format_of, write_whole};

pub(super) fn run(wish: &ConvertWish) -> Result<Status, String> {
    let format = format_of(&wish.out).map_err(|bad| about(&wish.out, bad))?;
    let loaded = loaded(&wish.file)?;
    let pieces = &loaded.drawing.pieces;
    let written = format.write(pieces, wish.encoding).map_err(|bad| about(&wish.out, bad))?;
    write_whole(&wish.out, &written.bytes, wish.force).map_err(|bad| about(&wish.out, bad))?;

    let passed_over: Vec<&str> = loaded.drawing.passed_over.iter().map(String::as_str).collect();
    if !passed_over.is_empty() {
        complain(about(&wish.file, format!("not carried over: {}", passed_over.join(", "))));
    }
    written.told.iter().for_each(|told| complain(about(&wish.out, told)));
    Ok(Status::Well)
}
