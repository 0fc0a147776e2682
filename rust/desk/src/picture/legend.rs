//! What each mark of a picture means.

use super::drawing::{DARK, RING, arrowhead, torn_line};
use super::scene::Scene;
use super::text::{px, width};

/// The height of a line of the legend.
const LINE: f64 = 24.0;

/// The size of its letters.
const SIZE: f64 = 13.0;

/// A mark of a picture.
#[derive(Clone, Copy)]
enum Mark {
    Side,
    Torn,
    Against,
    Short,
    Ring,
    Lone,
}

impl Mark {
    const ALL: [Mark; 6] = [Mark::Side, Mark::Torn, Mark::Against, Mark::Short, Mark::Ring, Mark::Lone];

    /// Whether it occurs in a cell.
    fn occurs(self, scene: &Scene<'_>) -> bool {
        match self {
            Mark::Side => true,
            Mark::Torn => !scene.torn.is_empty(),
            Mark::Against => !scene.against.is_empty(),
            Mark::Short => !scene.short.is_empty(),
            Mark::Ring => scene.short.iter().any(|short| !short.left.is_empty()),
            Mark::Lone => !scene.lone.is_empty(),
        }
    }

    /// What it means.
    fn words(self) -> &'static str {
        match self {
            Mark::Side => "side; what lies behind is paler",
            Mark::Torn => "torn side with its vertex numbers: runs once, or too often the way of the arrow",
            Mark::Against => "face against the others, with its number",
            Mark::Short => "face cut short, with its number",
            Mark::Ring => "ring that the cut left",
            Mark::Lone => "vertex that no face names",
        }
    }

    /// How it looks, in a box of 36 by 16 pixels.
    fn sample(self, prefix: &str) -> String {
        let (from, to) = ([2.0, 8.0], [36.0, 8.0]);
        match self {
            Mark::Side => format!("<path d=\"M0 8H36\" stroke=\"{DARK}\" stroke-width=\"1.1\"/>"),
            Mark::Torn => {
                let line = torn_line(&format!("{prefix}-legend-torn"), from, to);
                line + &arrowhead([from, to]).unwrap_or_default()
            }
            Mark::Against => filled(&format!("{prefix}-hatch")),
            Mark::Short => filled(&format!("{prefix}-dots")),
            Mark::Ring => format!("<rect x=\"1\" y=\"1\" width=\"34\" height=\"14\" {RING}/>"),
            Mark::Lone => format!("<circle cx=\"18\" cy=\"8\" r=\"2.5\" fill=\"{DARK}\"/>"),
        }
    }
}

/// A face with a pattern.
fn filled(pattern: &str) -> String {
    format!("<rect width=\"36\" height=\"16\" fill=\"url(#{pattern})\" stroke=\"{DARK}\" stroke-width=\"1.1\"/>")
}

/// The legend of these cells from a height on, and the height at which it ends.
pub fn legend(scenes: &[&Scene<'_>], prefix: &str, top: f64, room: (f64, f64)) -> (String, f64) {
    let (left, right) = room;
    let (mut x, mut y) = (left, top);
    let mut out = "<g class=\"legend\">\n".to_string();
    // The plain side is explained even where nothing could be drawn.
    let occurs = |mark: &Mark| matches!(mark, Mark::Side) || scenes.iter().any(|scene| mark.occurs(scene));
    for mark in Mark::ALL.into_iter().filter(occurs) {
        let wide = 44.0 + width(mark.words(), SIZE) * 0.9 + 24.0;
        if x > left && x + wide > right {
            (x, y) = (left, y + LINE);
        }
        out += &format!(
            "<g transform=\"translate({} {})\">{}<text x=\"44\" y=\"12.5\" font-size=\"{SIZE}\" fill=\"{DARK}\">{}</text></g>\n",
            px(x),
            px(y),
            mark.sample(prefix),
            mark.words()
        );
        x += wide;
    }
    (out + "</g>\n", y + LINE)
}
