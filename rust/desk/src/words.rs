//! What was found about a cell, in words.

use wegrusamt::Refusal;

use crate::findings::{Findings, Local, Measured, Side};
use crate::formats::text::{decimals, point_text};
use crate::model::{FacePlace, Piece};

/// A cell and what was found about it.
#[derive(Clone, Copy)]
pub struct Report<'a> {
    /// The file, as it was named.
    pub file: &'a str,
    /// The cell.
    pub piece: &'a Piece,
    /// What was found.
    pub findings: &'a Findings,
}

/// How much is told.
#[derive(Clone, Copy, Debug, Default)]
pub struct Wish {
    /// The volume's bits, too.
    pub bits: bool,
    /// Every torn side and every face that is wrong, not only the first ten of a kind.
    pub all: bool,
}

/// The most sides and faces that one cell lists where not all are wished for.
const MOST_LISTED: usize = 10;

/// The headings of a line of `--csv`.
pub const CSV_HEADINGS: [&str; 16] = [
    "file",
    "cell",
    "vertices",
    "faces",
    "volume",
    "bits",
    "closed",
    "short",
    "against",
    "torn",
    "unturnable",
    "cut_short",
    "groups",
    "local",
    "refused",
    "why",
];

/// The headings of a row.
pub fn headings(wish: Wish) -> Vec<String> {
    let headings = ["cell", "vertices", "faces", "volume", "closed", "short", "bits"];
    let shown = if wish.bits { 7 } else { 6 };
    headings[..shown].iter().map(|heading| heading.to_string()).collect()
}

/// Columns as a line of text. The first is as wide as it is told and stands left, the others right.
pub fn line(columns: &[String], first: usize) -> String {
    let widths = [first, 8, 6, 22, 6, 5, 16];
    let mut text = String::new();
    for (place, (column, width)) in columns.iter().zip(widths).enumerate() {
        text += &if place == 0 { format!("{column:<width$}") } else { format!("  {column:>width$}") };
    }
    text
}

/// The name of a cell with that of its file.
pub fn title(file: &str, piece: &Piece) -> String {
    match &piece.name {
        Some(name) => format!("{file}: {name}"),
        None => file.to_string(),
    }
}

impl Report<'_> {
    /// The name of the cell with that of its file.
    pub fn title(&self) -> String {
        title(self.file, self.piece)
    }

    /// The columns of the cell's row.
    pub fn columns(&self, wish: Wish) -> Vec<String> {
        let cell = &self.piece.cell;
        let mut columns = vec![self.title(), cell.points.len().to_string(), cell.ends.len().to_string()];
        match self.findings {
            Err(refusal) => columns.push(format!("refused {}", refusal.number())),
            Ok(found) => {
                columns.push(decimals(found.volume));
                columns.push(if found.closed { "yes" } else { "no" }.to_string());
                columns.push(found.short.len().to_string());
                if wish.bits {
                    columns.push(bits(found.volume));
                }
            }
        }
        columns
    }

    /// What is wrong with the cell, a sentence each.
    pub fn faults(&self, wish: Wish) -> Vec<String> {
        match self.findings {
            Err(refusal) => vec![self.refused(*refusal)],
            Ok(found) => {
                let mut faults = Vec::from_iter(self.against(found, wish));
                faults.extend(self.torn(found, wish));
                faults.extend(found.unturnable.map(unturnable));
                faults.extend(self.short(found, wish));
                faults.extend(found.local.as_ref().map(|local| about_local(local, found)));
                faults.extend(about_groups(found.groups));
                faults
            }
        }
    }

    /// The faces that lie against the others.
    fn against(&self, found: &Measured, wish: Wish) -> Option<String> {
        let faces = found.against.iter().map(|&face| face_words(&self.piece.faces[face]));
        let lie = if found.against.len() == 1 { "lies" } else { "lie" };
        let list = listed(faces.collect(), wish);
        (!found.against.is_empty())
            .then(|| format!("{} {lie} against the others: `turn` turns {}", plural("face", &list), them(found)))
    }

    /// The torn sides.
    fn torn(&self, found: &Measured, wish: Wish) -> Vec<String> {
        let shown = if wish.all { found.torn.len() } else { MOST_LISTED };
        let mut sides: Vec<String> = found.torn.iter().take(shown).map(|side| self.side(side)).collect();
        if found.torn.len() > shown {
            sides.push(format!("and {} sides more: --all lists them", found.torn.len() - shown));
        }
        sides
    }

    /// A torn side, with its vertices as in the file and where they lie.
    fn side(&self, side: &Side) -> String {
        let [from, to] = [side.from, side.to].map(|vertex| {
            let number = self.piece.vertex_numbers[vertex as usize];
            format!("vertex {number} ({})", point_text(self.piece.cell.points[vertex as usize]))
        });
        let back = if side.back == 0 { "never back".to_string() } else { format!("{} back", times(side.back)) };
        format!("the side from {from} to {to} runs {} and {back}", times(side.there))
    }

    /// The faces that are cut short.
    fn short(&self, found: &Measured, wish: Wish) -> Option<String> {
        let faces = found.short.iter().map(|short| {
            let wanted = self.piece.corners_of(short.face).len() - 2;
            let gave = format!("{} of {wanted} triangles", short.triangles);
            let place = &self.piece.faces[short.face];
            place
                .line
                .map_or(format!("{} ({gave})", place.number), |line| format!("{} (line {line}; {gave})", place.number))
        });
        let list = listed(faces.collect(), wish);
        let is = if found.short.len() == 1 { "is" } else { "are" };
        (!found.short.is_empty())
            .then(|| format!("{} {is} cut short, and the rest is missing in the volume", plural("face", &list)))
    }

    /// That the cell is refused, and why.
    pub fn refused(&self, refusal: Refusal) -> String {
        format!("refused {}: {}", refusal.number(), self.why(refusal))
    }

    /// Why the cell is refused, in words of its own where the library's number has several reasons.
    pub fn why(&self, refusal: Refusal) -> String {
        let cell = &self.piece.cell;
        let size = |what: &str, count: usize, most: usize| {
            (count > most).then(|| format!("it has {count} {what}, and {most} are the most"))
        };
        let reason = match refusal {
            Refusal::Size if cell.points.is_empty() => Some("it has no vertex".to_string()),
            Refusal::Size => size("vertices", cell.points.len(), 256)
                .or_else(|| size("faces", cell.ends.len(), 256))
                .or_else(|| size("corners", cell.corners.len(), 2048)),
            Refusal::Number => self.bad_number(),
            _ => None,
        };
        // The library's own words begin with the number, which is told already.
        let words = refusal.to_string();
        reason.unwrap_or_else(|| words.split_once(": ").map_or(words.clone(), |(_, why)| why.to_string()))
    }

    /// The first vertex with a number that is beyond the limits.
    fn bad_number(&self) -> Option<String> {
        let most = 2f64.powi(40);
        let bad = |point: &[f64; 3]| point.iter().any(|x| x.is_nan() || x.abs() > most);
        let vertex = self.piece.cell.points.iter().position(bad)?;
        let (number, at) = (self.piece.vertex_numbers[vertex], point_text(self.piece.cell.points[vertex]));
        Some(format!("vertex {number} ({at}) has a coordinate that is NaN, infinite or above 2^40 in magnitude"))
    }

    /// The cell as a line of `--csv`, in the order of [`CSV_HEADINGS`].
    pub fn csv(&self, wish: Wish) -> Vec<String> {
        let cell = &self.piece.cell;
        let name = self.piece.name.clone().unwrap_or_default();
        let mut columns = vec![self.file.to_string(), name, cell.points.len().to_string(), cell.ends.len().to_string()];
        match self.findings {
            Err(refusal) => {
                columns.resize(CSV_HEADINGS.len() - 2, String::new());
                columns.extend([refusal.number().to_string(), self.why(*refusal)]);
            }
            Ok(found) => {
                columns.extend(self.csv_measures(found, wish));
                columns.resize(CSV_HEADINGS.len(), String::new());
            }
        }
        columns
    }

    fn csv_measures(&self, found: &Measured, wish: Wish) -> [String; 10] {
        let number = |face: usize| self.piece.faces[face].number.to_string();
        let faces = |faces: Vec<usize>| faces.into_iter().map(number).collect::<Vec<_>>().join(" ");
        [
            decimals(found.volume),
            if wish.bits { bits(found.volume) } else { String::new() },
            found.closed.to_string(),
            found.short.len().to_string(),
            faces(found.against.clone()),
            found.torn.iter().map(|side| self.side(side)).collect::<Vec<_>>().join("; "),
            found.unturnable.map_or(String::new(), |refusal| refusal.number().to_string()),
            faces(found.short.iter().map(|short| short.face).collect()),
            found.groups.to_string(),
            found.local.as_ref().map_or(String::new(), |local| about_local(local, found)),
        ]
    }
}

/// The bits of a number: sixteen hexadecimal digits.
pub fn bits(number: f64) -> String {
    format!("{:016X}", number.to_bits())
}

/// A face by its number, and its line where it has one.
pub fn face_words(face: &FacePlace) -> String {
    match face.line {
        Some(line) => format!("{} (line {line})", face.number),
        None => face.number.to_string(),
    }
}

/// Why no turning closes the cell.
fn unturnable(refusal: Refusal) -> String {
    let why = match refusal {
        Refusal::Sides => "a side does not occur exactly twice, or a face holds a vertex twice",
        _ => "whichever faces are turned, some side runs too often one way",
    };
    format!("turning faces cannot close it: {why} ({})", refusal.number())
}

/// What the cell measures about a local origin, and why that is another number.
fn about_local(local: &Result<Local, Refusal>, found: &Measured) -> String {
    let local = match local {
        Ok(local) => local,
        Err(refusal) => return format!("moved to a local origin the cell is beyond the limits: {refusal}"),
    };
    let axes = ["x", "y", "z"].into_iter().zip(local.exact);
    let left: Vec<&str> = axes.filter(|(_, exact)| !exact).map(|(axis, _)| axis).collect();
    let exactly = match &left[..] {
        [_, _, _] => {
            return "it was not moved to a local origin, since along no axis the move is exact (15)".to_string();
        }
        [] if local.vector == [0.0; 3] => {
            return "it was not moved: its first vertex lies within 1 of the origin".to_string();
        }
        [] => "exactly".to_string(),
        axes => format!("but not along {}, where the move is not exact (15)", axes.join(" and ")),
    };
    let cut = match local.short {
        0 => "every face is fully cut".to_string(),
        short => format!("{} still cut short", counted(short, "face is", "faces are")),
    };
    let why = if local.short < found.short.len() { ", since less is rounded there" } else { "" };
    let (vector, volume) = (point_text(local.vector), decimals(local.volume));
    format!("about a local origin, with {vector} taken off every vertex, {exactly}, {cut}: volume {volume}{why}")
}

/// What is to be known of a cell with no surface, or with several.
pub fn about_groups(groups: usize) -> Option<String> {
    match groups {
        0 => Some("it has no face of three corners or more, so it has no surface".to_string()),
        1 => None,
        _ => Some(format!(
            "its faces form {groups} groups that no side joins: one that runs inward is taken off the others' volume"
        )),
    }
}

/// A list in words; where not all are wished for, its first ten.
fn listed(mut all: Vec<String>, wish: Wish) -> Vec<String> {
    let more = all.len().saturating_sub(MOST_LISTED);
    if more > 0 && !wish.all {
        all.truncate(MOST_LISTED);
        all.push(format!("{more} more (--all lists them)"));
    }
    all
}

/// A word with what it is said of: `face 1`, `faces 1, 2 and 3`.
fn plural(word: &str, list: &[String]) -> String {
    match list {
        [only] => format!("{word} {only}"),
        [first @ .., last] => format!("{word}s {} and {last}", first.join(", ")),
        [] => format!("no {word}"),
    }
}

/// How many there are of something: `1 face`, `2 faces`.
pub fn counted(count: usize, one: &str, more: &str) -> String {
    format!("{count} {}", if count == 1 { one } else { more })
}

fn them(found: &Measured) -> &'static str {
    if found.against.len() == 1 { "it" } else { "them" }
}

fn times(count: usize) -> String {
    match count {
        1 => "once".to_string(),
        2 => "twice".to_string(),
        _ => format!("{count} times"),
    }
}
