//! `turn`: the same file with its backward faces turned.

use std::io::{self, Write};

use super::{Status, TurnWish, about, loaded, shown};
use crate::files::{Loaded, format_of, write_whole};
use crate::findings::surfaces;
use crate::model::Piece;
use crate::turning::{Turning, turned_file, turning};
use crate::words::{about_groups, counted, face_words, title};

pub(super) fn run(wish: &TurnWish) -> Result<Status, String> {
    let Loaded { format, bytes, drawing } = loaded(&wish.file)?;
    if format_of(&wish.out).map_err(|bad| about(&wish.out, bad))? != format {
        return Err(about(&wish.out, format!("the name must end in .{}, as that of the file does", format.ending())));
    }
    let turnings: Vec<Turning> = drawing.pieces.iter().map(|piece| turning(piece.cell.as_cell())).collect();
    let faces: Vec<Vec<usize>> = turnings.iter().map(Turning::faces).collect();
    let turned = turned_file(&bytes, format, &drawing, &faces);
    let kept = turnings.iter().any(|turning| matches!(turning, Turning::Kept(_)));
    confirm(&drawing.pieces, &turnings, &format.read(&turned).map_err(|bad| about(&wish.out, bad))?.pieces)
        .map_err(|bad| about(&wish.file, bad))?;
    write_whole(&wish.out, &turned, wish.force).map_err(|bad| about(&wish.out, bad))?;

    let name = shown(&wish.file);
    let told: String =
        drawing.pieces.iter().zip(&turnings).map(|(piece, turning)| told(&name, piece, turning)).collect();
    let count: usize = faces.iter().map(Vec::len).sum();
    let turned = counted(count, "face", "faces");
    let all = format!("{told}{turned} turned: {} is written\n", shown(&wish.out));
    io::stdout().write_all(all.as_bytes()).map_err(|error| format!("standard output: {error}"))?;
    Ok(if kept { Status::LookAt } else { Status::Well })
}

/// Makes sure that the file that is to be written reads back as the same cells with those faces
/// turned, and that the library finds each turned cell closed.
fn confirm(before: &[Piece], turnings: &[Turning], after: &[Piece]) -> Result<(), String> {
    let agree = before.len() == after.len()
        && before.iter().zip(after).zip(turnings).all(|((before, after), turning)| agrees(before, turning, after));
    if agree { Ok(()) } else { Err("the turned file does not read back as it should, and is not written".to_string()) }
}

/// Corners are compared by their points: an STL file has no vertex numbers, and counts its points in the order in
/// which facets mention them.
fn agrees(before: &Piece, turning: &Turning, after: &Piece) -> bool {
    let mut corners = before.cell.corners.clone();
    for face in turning.faces() {
        corners[before.corners_of(face)].reverse();
    }
    let same = before.cell.points.len() == after.cell.points.len()
        && before.cell.ends == after.cell.ends
        && corners.len() == after.cell.corners.len()
        && corners.iter().zip(&after.cell.corners).all(|(&a, &b)| same_point(point(before, a), point(after, b)));
    same && (matches!(turning, Turning::Kept(_)) || after.cell.as_cell().closed() == Ok(true))
}

/// The point of a corner, where it names one.
fn point(piece: &Piece, corner: u32) -> Option<&[f64; 3]> {
    piece.cell.points.get(corner as usize)
}

fn same_point(a: Option<&[f64; 3]>, b: Option<&[f64; 3]>) -> bool {
    a == b || a.map(|point| point.map(f64::to_bits)) == b.map(|point| point.map(f64::to_bits))
}

/// What is told of a cell: which faces were turned, or why it is kept as it was.
fn told(file: &str, piece: &Piece, turning: &Turning) -> String {
    let title = title(file, piece);
    match turning {
        Turning::Closed => String::new(),
        Turning::Turned(faces) => {
            let turned = faces.iter().map(|&face| format!("face {} turned", face_words(&piece.faces[face])));
            // Each group is turned by itself, so that one may run against another.
            let groups = about_groups(surfaces(piece.cell.as_cell()));
            turned.chain(groups).map(|what| format!("{title}: {what}\n")).collect()
        }
        Turning::Kept(refusal) => format!("{title}: kept as it was, {refusal}\n"),
    }
}
