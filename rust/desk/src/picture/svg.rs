//! A picture of cells: for each a title and a row of four views, and a legend below all.

use super::drawing::{AGAINST, DARK, DARK_RED, Plan, SHORT};
use super::legend::legend;
use super::scene::{Scene, faults, measures};
use super::text::{cut, escaped, measure, px};
use super::views::{Flat, Rect, VIEWS};
use crate::words::Report;

/// The width of a picture.
const WIDTH: f64 = 1200.0;
/// What is left free at its sides.
const MARGIN: f64 = 12.0;
/// What is left free between two views.
const GAP: f64 = 8.0;
/// The widths of the four views; the last is seen at a slant and so needs more.
const WIDTHS: [f64; 4] = [268.0, 268.0, 268.0, 348.0];
/// What is left free for labels inside a view, at its sides and above and below.
const PADS: Flat = [42.0, 46.0];
/// How high a cell may be drawn, and how high the views are at least.
const HEIGHTS: [f64; 2] = [330.0, 60.0];
/// How much room the title of a cell takes.
const TITLE: f64 = 52.0;
/// How much room the scale bar takes, and what is left free below it.
const FOOT: f64 = 44.0;
/// How long the scale bar may be.
const BAR: f64 = 150.0;

/// All cells as one picture. Its ids begin with the prefix, so that several pictures can stand on
/// one page.
pub fn picture(cells: &[Report<'_>], prefix: &str) -> String {
    let scenes: Vec<Option<Scene<'_>>> = cells.iter().map(Scene::of).collect();
    let (mut body, mut top) = (String::new(), MARGIN);
    for (k, (cell, scene)) in cells.iter().zip(&scenes).enumerate() {
        let row = Row { cell, top, id: format!("{prefix}-{k}"), prefix };
        let (drawn, bottom) = row.svg(scene.as_ref());
        body += &drawn;
        top = bottom;
    }
    let shown: Vec<&Scene<'_>> = scenes.iter().flatten().collect();
    let (signs, bottom) = legend(&shown, prefix, top, (MARGIN, WIDTH - MARGIN));
    let height = px((bottom + MARGIN).ceil());
    format!(
        "<svg xmlns=\"http://www.w3.org/2000/svg\" viewBox=\"0 0 {WIDTH} {height}\" width=\"{WIDTH}\" \
         height=\"{height}\" role=\"img\" aria-labelledby=\"{prefix}-title {prefix}-desc\" \
         font-family=\"sans-serif\">\n{}{}<rect width=\"{WIDTH}\" height=\"{height}\" fill=\"#fff\"/>\n\
         {body}{signs}</svg>\n",
        words(cells, prefix),
        patterns(&shown, prefix)
    )
}

/// What the picture shows, for readers who do not see it.
fn words(cells: &[Report<'_>], prefix: &str) -> String {
    let names: Vec<String> = cells.iter().map(|cell| cut(&cell.title(), 1.0, 60.0)).collect();
    let told: Vec<String> = cells.iter().map(told).collect();
    format!(
        "<title id=\"{prefix}-title\">{}</title>\n<desc id=\"{prefix}-desc\">Four views of each cell. {}</desc>\n",
        escaped(&cut(&names.join(", "), 1.0, 600.0)),
        escaped(&told.join(" "))
    )
}

/// A cell in a sentence or two.
fn told(cell: &Report<'_>) -> String {
    let faults = faults(cell);
    let faults = if faults.is_empty() { "nothing is wrong".to_string() } else { faults };
    let marks = Scene::of(cell).map(|scene| numbers(&scene)).unwrap_or_default();
    format!("{}: {}; {faults}.{marks}", cut(&cell.title(), 1.0, 60.0), measures(cell))
}

/// The numbers of what is marked.
fn numbers(scene: &Scene<'_>) -> String {
    let number = |vertex| scene.vertex_number(vertex);
    let sides = scene.torn.iter().map(|side| format!("{} to {}", number(side.from), number(side.to)));
    let against = scene.against.iter().map(|&face| scene.face_number(face));
    let short = scene.short.iter().map(|short| scene.face_number(short.face));
    [
        listed("Torn sides", sides.collect()),
        listed("Faces against the others", against.collect()),
        listed("Faces cut short", short.collect()),
    ]
    .concat()
}

/// Numbers as a sentence, as many as are well listened to.
fn listed(what: &str, numbers: Vec<String>) -> String {
    match numbers.len() {
        0 => String::new(),
        1..=10 => format!(" {what}: {}.", numbers.join(", ")),
        more => format!(" {what}: {} and {} more.", numbers[..10].join(", "), more - 10),
    }
}

/// The patterns that occur. Hatch and dots differ without colour too.
fn patterns(scenes: &[&Scene<'_>], prefix: &str) -> String {
    let mut out = "<defs>\n".to_string();
    if scenes.iter().any(|scene| !scene.against.is_empty()) {
        out += &format!(
            "<pattern id=\"{prefix}-hatch\" width=\"7\" height=\"7\" patternUnits=\"userSpaceOnUse\" \
             patternTransform=\"rotate(45)\"><path d=\"M3.5 0V7\" stroke=\"{AGAINST}\" stroke-width=\"2\"/></pattern>\n"
        );
    }
    if scenes.iter().any(|scene| !scene.short.is_empty()) {
        out += &format!(
            "<pattern id=\"{prefix}-dots\" width=\"8\" height=\"8\" patternUnits=\"userSpaceOnUse\">\
             <circle cx=\"2\" cy=\"2\" r=\"1.4\" fill=\"{SHORT}\"/><circle cx=\"6\" cy=\"6\" r=\"1.4\" fill=\"{SHORT}\"/>\
             </pattern>\n"
        );
    }
    out + "</defs>\n"
}

/// A cell's part of the picture.
struct Row<'a> {
    cell: &'a Report<'a>,
    top: f64,
    id: String,
    prefix: &'a str,
}

impl Row<'_> {
    /// The row, and the height at which it ends.
    fn svg(&self, scene: Option<&Scene<'_>>) -> (String, f64) {
        let (views, bottom) = match scene {
            Some(scene) => self.views(scene),
            None => self.refused(),
        };
        (format!("<g class=\"cell\" id=\"{}\">\n{}{views}</g>\n", self.id, self.title()), bottom)
    }

    /// The name of the cell, its measures, and what is wrong with it.
    fn title(&self) -> String {
        let name = cut(&self.cell.title(), 17.0, WIDTH - 2.0 * MARGIN);
        let faults = faults(self.cell);
        let faults = if faults.is_empty() { faults } else { format!(" \u{2013} {faults}") };
        format!(
            "<text x=\"{MARGIN}\" y=\"{}\" font-size=\"17\" font-weight=\"bold\" fill=\"{DARK}\">{}</text>\n\
             <text x=\"{MARGIN}\" y=\"{}\" font-size=\"14\" fill=\"{DARK}\">{}<tspan font-weight=\"bold\" \
             fill=\"{DARK_RED}\">{}</tspan></text>\n",
            px(self.top + 18.0),
            escaped(&name),
            px(self.top + 40.0),
            escaped(&measures(self.cell)),
            escaped(&faults)
        )
    }

    /// The four views and the bar for their common scale.
    fn views(&self, scene: &Scene<'_>) -> (String, f64) {
        let (scale, height) = fit(scene);
        let (top, bottom) = (self.top + TITLE, self.top + TITLE + height);
        let (mut out, mut left) = (String::new(), MARGIN);
        for (view, width) in VIEWS.iter().zip(WIDTHS) {
            let frame = Rect { low: [left, top], high: [left + width, bottom] };
            let id = format!("{}-{}", self.id, view.key);
            out += &Plan { scene, view, frame, scale, id, patterns: self.prefix }.svg();
            left += width + GAP;
        }
        (out + &scale_bar(scene, scale, bottom + 8.0), bottom + FOOT)
    }

    /// A box with the words of the refusal, where nothing can be drawn.
    fn refused(&self) -> (String, f64) {
        let (top, height) = (self.top + TITLE, 60.0);
        let words = match self.cell.findings {
            Err(refusal) => format!("not drawn: {}", self.cell.refused(*refusal)),
            Ok(_) => "not drawn: its lists do not hold together".to_string(),
        };
        let drawn = format!(
            "<rect class=\"refused\" x=\"{MARGIN}\" y=\"{}\" width=\"{}\" height=\"{}\" fill=\"#f4f4f4\" \
             stroke=\"#777\" stroke-dasharray=\"3 3\"/>\n<text x=\"{}\" y=\"{}\" font-size=\"15\" fill=\"{DARK}\">{}</text>\n",
            px(top),
            px(WIDTH - 2.0 * MARGIN),
            px(height),
            px(MARGIN + 16.0),
            px(top + 35.0),
            escaped(&words)
        );
        (drawn, top + height + 24.0)
    }
}

/// The scale at which a cell fits into all of its views, and the height of these.
fn fit(scene: &Scene<'_>) -> (f64, f64) {
    let size = |k: usize| Rect::of(scene.points.iter().map(|&point| VIEWS[k].flat(point))).size();
    let sizes: [Flat; 4] = std::array::from_fn(size);
    let mut scale = f64::INFINITY;
    for (width, [w, h]) in WIDTHS.iter().zip(sizes) {
        // A cell without extent in a direction fits at any scale, also as the quotient says.
        scale = scale.min((width - 2.0 * PADS[0]) / w).min(HEIGHTS[0] / h);
    }
    if !scale.is_finite() {
        scale = 1.0;
    }
    let highest = sizes.iter().fold(HEIGHTS[1], |most, size| most.max(size[1] * scale));
    (scale, highest + 2.0 * PADS[1])
}

/// A bar with a round length in the file's unit. Where no f64 says the length there is none.
fn scale_bar(scene: &Scene<'_>, scale: f64, top: f64) -> String {
    let Some(length) = round_length(BAR / scale * scene.unit) else {
        return String::new();
    };
    let long = length / scene.unit * scale;
    format!(
        "<g class=\"scale\"><path d=\"M{x} {a}V{b}M{x} {c}H{y}M{y} {a}V{b}\" stroke=\"{DARK}\" stroke-width=\"1.5\" fill=\"none\"/>\
         <text x=\"{}\" y=\"{}\" font-size=\"13\" fill=\"{DARK}\">{} in the file&#39;s unit, in all four views</text></g>\n",
        px(MARGIN + long + 9.0),
        px(top + 10.0),
        measure(length),
        x = px(MARGIN + 1.0),
        y = px(MARGIN + 1.0 + long),
        a = px(top + 1.0),
        b = px(top + 11.0),
        c = px(top + 6.0),
    )
}

/// The largest of 1, 2 and 5 times a power of ten that is not above this length.
fn round_length(most: f64) -> Option<f64> {
    if !most.is_finite() || most <= 0.0 {
        return None;
    }
    // The decimal digits say the power exactly, where a logarithm might be off by its last bit.
    let text = format!("{most:e}");
    let (digits, power) = text.split_once('e')?;
    let first = match digits.as_bytes().first()? {
        b'5'..=b'9' => 5,
        b'2'..=b'4' => 2,
        _ => 1,
    };
    format!("{first}e{power}").parse().ok()
}

#[cfg(test)]
mod tests {
    use super::*;

    #[test]
    fn the_bar_has_a_round_length() {
        let cases = [(1000.0, 1000.0), (999.9, 500.0), (5.5, 5.0), (0.3, 0.2), (7e-12, 5e-12), (1.9e300, 1e300)];
        for (most, length) in cases {
            assert_eq!(round_length(most), Some(length));
        }
        for most in [0.0, -1.0, f64::NAN, f64::INFINITY] {
            assert_eq!(round_length(most), None);
        }
    }
}
