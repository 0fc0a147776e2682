//! `picture`: drawings of the cells, and the page with the survey's table.

use std::path::Path;

use super::{PictureWish, Status, about, loaded};
use crate::files::write_whole;
use crate::findings::{Findings, examine};
use crate::model::Piece;
use crate::picture::{Table, TableRow, page, svg};
use crate::words::{Report, Wish, headings};

/// The most cells that one picture holds.
const MOST_CELLS: usize = 16;
const MANY: usize = MOST_CELLS + 1;

pub(super) fn run(wish: &PictureWish) -> Result<Status, String> {
    let kind = wish.out.extension().and_then(|ending| ending.to_str()).map(str::to_ascii_lowercase);
    let as_page = match kind.as_deref() {
        Some("svg") => false,
        Some("html") => true,
        _ => return Err(about(&wish.out, "the name does not end in .svg or .html")),
    };
    let drawing = loaded(&wish.file)?.drawing;
    let pieces = chosen(&drawing.pieces, wish).map_err(|bad| about(&wish.file, bad))?;
    let findings: Vec<Findings> = pieces.iter().map(|piece| examine(&piece.cell)).collect();
    let name = file_name(&wish.file);
    let reports = pieces.iter().zip(&findings).map(|(&piece, findings)| Report { file: &name, piece, findings });
    let reports: Vec<Report<'_>> = reports.collect();
    let text = if as_page { page(&name, &reports, &table(&reports)) } else { svg(&reports) };
    write_whole(&wish.out, text.as_bytes(), wish.force).map_err(|bad| about(&wish.out, bad))?;
    Ok(Status::Well)
}

/// The file's name without its folders: a picture is passed on without them.
fn file_name(path: &Path) -> String {
    path.file_name().unwrap_or_default().to_string_lossy().into_owned()
}

/// The cells that are drawn: the one that is named, or all.
fn chosen<'a>(pieces: &'a [Piece], wish: &PictureWish) -> Result<Vec<&'a Piece>, String> {
    let named = pieces.iter().filter(|piece| wish.cell.is_none() || piece.name == wish.cell);
    let named: Vec<&Piece> = named.collect();
    match (&wish.cell, named.len()) {
        (Some(name), 0) => Err(format!("no cell has the name '{name}'")),
        (Some(name), MANY..) => {
            Err(format!("{} cells have the name '{name}', and a picture holds {MOST_CELLS}", named.len()))
        }
        (None, MANY..) => {
            Err(format!("the file has {} cells, and a picture holds {MOST_CELLS}: name one with --cell", named.len()))
        }
        _ => Ok(named),
    }
}

/// The survey's table for the page.
fn table(reports: &[Report<'_>]) -> Table {
    let wish = Wish { bits: true, all: true };
    let rows = reports.iter().map(|report| TableRow { columns: report.columns(wish), faults: report.faults(wish) });
    Table { heading: headings(wish), rows: rows.collect() }
}
