//! What was found about a cell, as JSON: docs/DESK.md has the fields.

use serde::Serialize;
use wegrusamt::Refusal;

use crate::findings::{Local, Measured, ShortFace, Side};
use crate::model::FacePlace;
use crate::words::{Report, Wish, bits};

/// The object of a cell.
#[derive(Serialize)]
struct CellObject<'a> {
    file: &'a str,
    cell: Option<&'a str>,
    vertices: usize,
    faces: usize,
    #[serde(flatten)]
    measured: Option<MeasuredObject<'a>>,
    refused: Option<u8>,
    why: Option<String>,
}

#[derive(Serialize)]
struct MeasuredObject<'a> {
    volume: f64,
    #[serde(skip_serializing_if = "Option::is_none")]
    bits: Option<String>,
    closed: bool,
    short: usize,
    against: Vec<FaceObject>,
    torn: Vec<SideObject<'a>>,
    unturnable: Option<u8>,
    cut_short: Vec<ShortObject>,
    groups: usize,
    local: Option<LocalObject>,
}

#[derive(Serialize)]
struct FaceObject {
    face: u32,
    line: Option<u32>,
}

#[derive(Serialize)]
struct SideObject<'a> {
    from: u32,
    to: u32,
    there: usize,
    back: usize,
    from_at: &'a [f64; 3],
    to_at: &'a [f64; 3],
}

#[derive(Serialize)]
struct ShortObject {
    #[serde(flatten)]
    face: FaceObject,
    corners: usize,
    triangles: usize,
    left: Vec<u32>,
}

#[derive(Serialize)]
#[serde(untagged)]
enum LocalObject {
    Measured { vector: [f64; 3], exact: [bool; 3], short: usize, volume: f64 },
    Refused { refused: u8 },
}

/// The cell as a JSON object on one line.
pub fn line(report: &Report<'_>, wish: Wish) -> String {
    let cell = &report.piece.cell;
    let refusal = report.findings.as_ref().err();
    let object = CellObject {
        file: report.file,
        cell: report.piece.name.as_deref(),
        vertices: cell.points.len(),
        faces: cell.ends.len(),
        measured: report.findings.as_ref().ok().map(|found| measured(report, found, wish)),
        refused: refusal.map(|refusal| refusal.number()),
        why: refusal.map(|&refusal| report.why(refusal)),
    };
    serde_json::to_string(&object).expect("an object of plain fields is JSON")
}

fn measured<'a>(report: &Report<'a>, found: &Measured, wish: Wish) -> MeasuredObject<'a> {
    let places = &report.piece.faces;
    MeasuredObject {
        volume: found.volume,
        bits: wish.bits.then(|| bits(found.volume)),
        closed: found.closed,
        short: found.short.len(),
        against: found.against.iter().map(|&face| face_object(places[face])).collect(),
        torn: found.torn.iter().map(|side| side_object(report, side)).collect(),
        unturnable: found.unturnable.map(Refusal::number),
        cut_short: found.short.iter().map(|short| short_object(report, short)).collect(),
        groups: found.groups,
        local: found.local.as_ref().map(local_object),
    }
}

fn face_object(place: FacePlace) -> FaceObject {
    FaceObject { face: place.number, line: place.line }
}

fn side_object<'a>(report: &Report<'a>, side: &Side) -> SideObject<'a> {
    let [from, to] = [side.from, side.to].map(|vertex| vertex as usize);
    let (numbers, points) = (&report.piece.vertex_numbers, &report.piece.cell.points);
    SideObject {
        from: numbers[from],
        to: numbers[to],
        there: side.there,
        back: side.back,
        from_at: &points[from],
        to_at: &points[to],
    }
}

fn short_object(report: &Report<'_>, short: &ShortFace) -> ShortObject {
    let numbers = &report.piece.vertex_numbers;
    ShortObject {
        face: face_object(report.piece.faces[short.face]),
        corners: report.piece.corners_of(short.face).len(),
        triangles: short.triangles,
        left: short.left.iter().map(|&vertex| numbers[vertex as usize]).collect(),
    }
}

fn local_object(local: &Result<Local, Refusal>) -> LocalObject {
    match *local {
        Ok(Local { vector, exact, short, volume }) => LocalObject::Measured { vector, exact, short, volume },
        Err(refusal) => LocalObject::Refused { refused: refusal.number() },
    }
}
