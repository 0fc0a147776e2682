//! One view of one cell, as SVG.

use super::labels::{self, Group, Sheet};
use super::order::{Seen, back_to_front};
use super::scene::Scene;
use super::text::{px, px_list};
use super::views::{Flat, Rect, View, level_middles, middle_of};
use crate::words::counted;

/// The colour of plain sides and of words.
pub const DARK: &str = "#222";
/// The colour of words on what is wrong, and of vertex numbers.
pub const DARK_RED: &str = "#9c0014";
/// The colour of torn sides.
pub const TORN: &str = "#d0021b";
/// The colour of the hatch on faces that lie against the others.
pub const AGAINST: &str = "#1d4fa3";
/// The colour of the dots on faces that are cut short, and of the ring that the cut left.
pub const SHORT: &str = "#0b6b3a";
/// How the ring that a cut left is drawn.
pub const RING: &str = "fill=\"none\" stroke=\"#0b6b3a\" stroke-width=\"2.2\" stroke-dasharray=\"7 4\"";

/// How many faces may bear the word before their number; where more are marked it takes too much room.
const MOST_WORDS: usize = 8;

/// How far inside its face the ring that a cut left is drawn, so that both can be seen.
const RING_INSET: f64 = 5.0;

/// A cell and one of its views.
pub struct Plan<'a> {
    /// The cell.
    pub scene: &'a Scene<'a>,
    /// From where it is looked at.
    pub view: &'a View,
    /// Where the view stands in the picture.
    pub frame: Rect,
    /// How many pixels the longest side of the cell's box has.
    pub scale: f64,
    /// What the ids of this view begin with.
    pub id: String,
    /// What the ids of the picture's patterns begin with.
    pub patterns: &'a str,
}

/// A view whose places are known.
struct Drawing<'a> {
    plan: &'a Plan<'a>,
    scene: &'a Scene<'a>,
    /// Where each vertex is drawn.
    spots: Vec<Flat>,
    /// Each face as it is drawn.
    faces: Vec<Seen>,
}

impl Plan<'_> {
    /// The view as SVG.
    pub fn svg(&self) -> String {
        let places = self.places();
        let face = |corners: &&[u32]| {
            let corners: Vec<[f64; 3]> = corners.iter().map(|&corner| places[corner as usize]).collect();
            Seen::new(&corners)
        };
        let faces = self.scene.faces.iter().map(face).collect();
        let spots = places.iter().map(|&[x, y, _]| [x, y]).collect();
        Drawing { plan: self, scene: self.scene, spots, faces }.svg()
    }

    /// Where each vertex is drawn, and how near it is, in pixels.
    fn places(&self) -> Vec<[f64; 3]> {
        let points = self.scene.points.iter();
        let middle = Rect::of(points.clone().map(|&point| self.view.flat(point))).middle();
        let [x, y] = self.frame.middle();
        let place = |&point| {
            let [right, up] = self.view.flat(point);
            let near = self.view.nearness(point) * self.scale;
            [x + (right - middle[0]) * self.scale, y - (up - middle[1]) * self.scale, near]
        };
        points.map(place).collect()
    }
}

impl Drawing<'_> {
    /// The view: the further away a thing is, the earlier it is drawn, and marks come above all.
    fn svg(&self) -> String {
        let parts = [
            self.title(),
            self.faces(),
            self.lone(),
            self.marks(),
            self.rings(),
            self.torn(),
            self.axes(),
            self.labels(),
        ];
        format!("<g class=\"view\" id=\"{}\">\n{}</g>\n", self.plan.id, parts.concat())
    }

    /// The frame and the view's name.
    fn title(&self) -> String {
        let ([x, y], [width, height]) = (self.plan.frame.low, self.plan.frame.size());
        format!(
            "<rect x=\"{}\" y=\"{}\" width=\"{}\" height=\"{}\" fill=\"#fff\" stroke=\"#bbb\"/>\n\
             <text x=\"{}\" y=\"{}\" font-size=\"13\" fill=\"#444\">{}</text>\n",
            px(x),
            px(y),
            px(width),
            px(height),
            px(x + 8.0),
            px(y + 18.0),
            self.plan.view.name
        )
    }

    /// All faces from back to front. Each is half transparent, so that what lies behind is paler.
    fn faces(&self) -> String {
        let mut out = format!(
            "<g class=\"faces\" fill=\"#fff\" fill-opacity=\"0.6\" fill-rule=\"evenodd\" stroke=\"{DARK}\" \
             stroke-width=\"1.1\" stroke-linejoin=\"round\" stroke-linecap=\"round\">\n"
        );
        for face in back_to_front(&self.faces) {
            let outline = &self.faces[face].outline;
            if !outline.is_empty() {
                out += &format!("<polygon points=\"{}\"/>\n", px_list(outline));
            }
        }
        out + "</g>\n"
    }

    /// The vertices that no face names, which no side would show.
    fn lone(&self) -> String {
        let lone = self.scene.lone.iter().map(|&vertex| self.spots[vertex].map(px));
        let dot =
            |[x, y]: [String; 2]| format!("<circle class=\"lone\" cx=\"{x}\" cy=\"{y}\" r=\"2.5\" fill=\"{DARK}\"/>\n");
        lone.map(dot).collect()
    }

    /// The hatch and the dots of marked faces. They are drawn above all faces, so that none is lost
    /// behind many others, and paler where a nearer face covers them.
    fn marks(&self) -> String {
        let against = self.scene.against.iter().map(|&face| (face, "against", "hatch"));
        let short = self.scene.short.iter().map(|short| (short.face, "short", "dots"));
        let mark = |(face, class, pattern): (usize, &str, &str)| {
            let seen = &self.faces[face];
            let opacity = if seen.is_covered(&self.faces) { "0.45" } else { "1" };
            format!(
                "<polygon class=\"{class}\" points=\"{}\" fill=\"url(#{}-{pattern})\" fill-rule=\"evenodd\" \
                 opacity=\"{opacity}\"/>\n",
                px_list(&seen.outline),
                self.plan.patterns
            )
        };
        against.chain(short).map(mark).collect()
    }

    /// The rings that cuts left.
    fn rings(&self) -> String {
        let rings = self.scene.short.iter().filter(|short| !short.left.is_empty());
        let ring = |left: &[u32]| {
            let corners: Vec<Flat> = left.iter().map(|&vertex| self.spots[vertex as usize]).collect();
            format!("<polygon class=\"ring\" points=\"{}\" {RING}/>\n", px_list(&inset(&corners)))
        };
        rings.map(|short| ring(&short.left)).collect()
    }

    /// The torn sides, with an arrow for the way in which each runs too often.
    fn torn(&self) -> String {
        let lines = self.torn_lines();
        let line = |(k, &[from, to]): (usize, &[Flat; 2])| torn_line(&format!("{}-torn-{k}", self.plan.id), from, to);
        let sides: String = lines.iter().enumerate().map(line).collect();
        let heads: String = lines.iter().filter_map(|&line| arrowhead(line)).collect();
        sides + &heads
    }

    /// The axes, in the lower left corner.
    fn axes(&self) -> String {
        let origin = [self.plan.frame.low[0] + 14.0, self.plan.frame.high[1] - 20.0];
        let mut out = "<g class=\"axes\" stroke=\"#555\" fill=\"#555\" font-size=\"11\">\n".to_string();
        let directions = [[1.0, 0.0, 0.0], [0.0, 1.0, 0.0], [0.0, 0.0, 1.0]];
        for (letter, direction) in ["x", "y", "z"].into_iter().zip(directions) {
            let [right, up] = self.plan.view.flat(direction);
            // An axis that runs to the eye has no length.
            if right.abs() + up.abs() > 1e-9 {
                out += &axis(letter, origin, [right, -up]);
            }
        }
        out + "</g>\n"
    }

    /// The numbers of marked faces and of the ends of torn sides, and how many found no room.
    fn labels(&self) -> String {
        let mut sheet = self.sheet();
        let (faces, faces_left) = self.face_labels(&mut sheet);
        let (ends, ends_left) = self.vertex_labels(&mut sheet);
        let [x, y] = [self.plan.frame.high[0] - 8.0, self.plan.frame.high[1] - 8.0].map(px);
        let note = match faces_left + ends_left {
            0 => String::new(),
            left => format!(
                "<text class=\"left-out\" x=\"{x}\" y=\"{y}\" font-size=\"12\" text-anchor=\"end\" \
                 fill=\"{DARK}\">no room for {}</text>\n",
                counted(left, "number", "numbers")
            ),
        };
        faces + &ends + &note
    }

    /// The numbers of marked faces, and how many found no room.
    fn face_labels(&self, sheet: &mut Sheet) -> (String, usize) {
        let marked = self.scene.marked_faces();
        let hearts = marked.iter().map(|&face| (self.faces[face].heart, self.scene.face_number(face)));
        let (mut out, mut left) = (String::new(), 0);
        for group in labels::gathered(hearts) {
            let text = face_text(&group, marked.len() <= MOST_WORDS);
            // Another place in the face is better than one beside it.
            let own = marked.iter().find(|&&face| self.faces[face].heart == group.spot);
            let mut spots = vec![group.spot];
            spots.extend(own.map(|&face| level_middles(&self.faces[face].outline)).unwrap_or_default());
            match sheet.upon(&spots, labels::room(&text)) {
                Some((rect, leads)) => out += &label("face-label", &text, rect, leads.then_some(group.spot)),
                None => left += group.numbers.len(),
            }
        }
        (out, left)
    }

    /// The numbers of the ends of torn sides, and how many found no room.
    fn vertex_labels(&self, sheet: &mut Sheet) -> (String, usize) {
        let ends = self.scene.torn_vertices().into_iter();
        let ends = ends.map(|end| (self.spots[end as usize], self.scene.vertex_number(end)));
        let (mut out, mut left) = (String::new(), 0);
        for group in labels::gathered(ends) {
            let text = group.text();
            match sheet.beside(group.spot, labels::room(&text)) {
                Some((rect, leads)) => out += &label("vertex-label", &text, rect, leads.then_some(group.spot)),
                None => left += group.numbers.len(),
            }
        }
        (out, left)
    }

    /// What labels must not cover: the view's name, its axes, the note at its foot, and lines.
    fn sheet(&self) -> Sheet {
        let Rect { low, high } = self.plan.frame;
        let name = Rect { low, high: [low[0] + 150.0, low[1] + 22.0] };
        let axes = Rect { low: [low[0], high[1] - 46.0], high: [low[0] + 46.0, high[1]] };
        let note = Rect { low: [high[0] - 160.0, high[1] - 22.0], high };
        let middle = Rect::of(self.spots.iter().copied()).middle();
        let lines = [self.torn_lines(), self.marked_lines()].concat();
        Sheet { frame: self.plan.frame, middle, taken: vec![name, axes, note], lines }
    }

    /// The sides of marked faces.
    fn marked_lines(&self) -> Vec<[Flat; 2]> {
        let mut lines = Vec::new();
        for face in self.scene.marked_faces() {
            let outline = &self.faces[face].outline;
            let next = outline.iter().cycle().skip(1);
            lines.extend(outline.iter().zip(next).map(|(&a, &b)| [a, b]));
        }
        lines
    }

    /// The torn sides from where they run too often to where they run.
    fn torn_lines(&self) -> Vec<[Flat; 2]> {
        let sides = self.scene.torn.iter();
        sides.map(|side| [side.from, side.to].map(|vertex| self.spots[vertex as usize])).collect()
    }
}

/// The word and the numbers of marked faces.
fn face_text(group: &Group, with_word: bool) -> String {
    let word = match (with_word, group.numbers.len()) {
        (false, _) => "",
        (true, 1) => "face ",
        (true, _) => "faces ",
    };
    format!("{word}{}", group.text())
}

/// An outline a little within itself.
fn inset(outline: &[Flat]) -> Vec<Flat> {
    let middle = middle_of(outline);
    let within = |spot: &Flat| {
        let [x, y] = [middle[0] - spot[0], middle[1] - spot[1]];
        let length = (x * x + y * y).sqrt();
        let part = if length > 0.0 { (RING_INSET / length).min(0.3) } else { 0.0 };
        [spot[0] + x * part, spot[1] + y * part]
    };
    outline.iter().map(within).collect()
}

/// A torn side. Its ends are round, so that one that runs to the eye is still seen, as a dot.
pub fn torn_line(id: &str, from: Flat, to: Flat) -> String {
    format!(
        "<line class=\"torn\" id=\"{id}\" x1=\"{}\" y1=\"{}\" x2=\"{}\" y2=\"{}\" stroke=\"{TORN}\" \
         stroke-width=\"3.6\" stroke-linecap=\"round\"/>\n",
        px(from[0]),
        px(from[1]),
        px(to[0]),
        px(to[1])
    )
}

/// An arrowhead that starts a little beyond the middle. Two sides that run against each other at one
/// place then show both heads, back to back. A short side has a small head, the shortest none.
pub fn arrowhead([from, to]: [Flat; 2]) -> Option<String> {
    let [x, y] = [to[0] - from[0], to[1] - from[1]];
    let length = (x * x + y * y).sqrt();
    if length < 14.0 {
        return None;
    }
    let size = (length / 40.0).clamp(0.6, 1.0);
    let [dx, dy] = [x / length * size, y / length * size];
    let base = [(from[0] + to[0]) / 2.0 + 3.0 * dx, (from[1] + to[1]) / 2.0 + 3.0 * dy];
    let head = [
        [base[0] + 12.0 * dx, base[1] + 12.0 * dy],
        [base[0] - 6.5 * dy, base[1] + 6.5 * dx],
        [base[0] + 6.5 * dy, base[1] - 6.5 * dx],
    ];
    Some(format!("<polygon class=\"arrow\" points=\"{}\" fill=\"{TORN}\"/>\n", px_list(&head)))
}

/// An axis from the origin, in the picture's directions, with its letter.
fn axis(letter: &str, [x, y]: Flat, [dx, dy]: Flat) -> String {
    let length = (dx * dx + dy * dy).sqrt();
    let [ux, uy] = [dx / length, dy / length];
    let tip = [x + 22.0 * dx, y + 22.0 * dy];
    let back = [tip[0] - 6.0 * ux, tip[1] - 6.0 * uy];
    let head = [tip, [back[0] - 2.5 * uy, back[1] + 2.5 * ux], [back[0] + 2.5 * uy, back[1] - 2.5 * ux]];
    format!(
        "<path d=\"M{} {}L{} {}\"/><polygon points=\"{}\" stroke=\"none\"/>\
         <text x=\"{}\" y=\"{}\" text-anchor=\"middle\" stroke=\"none\">{letter}</text>\n",
        px(x),
        px(y),
        px(tip[0]),
        px(tip[1]),
        px_list(&head),
        px(tip[0] + 7.0 * ux),
        px(tip[1] + 7.0 * uy + 3.5)
    )
}

/// A line from a spot to its label.
fn leader(spot: Flat, goal: Flat) -> String {
    let ([a, b], [c, d]) = (spot.map(px), goal.map(px));
    format!("<path class=\"leader\" d=\"M{a} {b}L{c} {d}\" stroke=\"#666\" stroke-width=\"0.8\"/>")
}

/// A label on white, and a line to its spot where it stands further off. Numbers of faces are
/// framed, so that they are not taken for those of vertices.
fn label(class: &str, text: &str, rect: Rect, spot: Option<Flat>) -> String {
    let ([x, y], [left, top], [width, height]) = (rect.middle(), rect.low.map(px), rect.size().map(px));
    let (frame, colour) = match class {
        "face-label" => ("fill-opacity=\"0.9\" stroke=\"#222\" stroke-width=\"0.8\"", DARK),
        _ => ("fill-opacity=\"0.75\"", DARK_RED),
    };
    let lead = spot.map(|spot| leader(spot, [x, y])).unwrap_or_default();
    let (size, x, y) = (px(labels::SIZE), px(x), px(y + 0.36 * labels::SIZE));
    format!(
        "{lead}<rect x=\"{left}\" y=\"{top}\" width=\"{width}\" height=\"{height}\" rx=\"3\" fill=\"#fff\" {frame}/>\
         <text class=\"{class}\" x=\"{x}\" y=\"{y}\" font-size=\"{size}\" font-weight=\"bold\" \
         text-anchor=\"middle\" fill=\"{colour}\">{text}</text>\n"
    )
}
