//! Text and numbers as they stand in a picture.

use crate::formats::text::decimals;

/// Text that comes from a file, fit for XML and HTML, in an element or in an attribute.
pub fn escaped(text: &str) -> String {
    let mut out = String::with_capacity(text.len());
    for c in text.chars() {
        match c {
            '&' => out.push_str("&amp;"),
            '<' => out.push_str("&lt;"),
            '>' => out.push_str("&gt;"),
            '"' => out.push_str("&quot;"),
            '\'' => out.push_str("&#39;"),
            c if disturbs(c) => out.push('\u{FFFD}'),
            c => out.push(c),
        }
    }
    out
}

/// Whether a character is forbidden in XML, or changes how the text around it runs.
fn disturbs(c: char) -> bool {
    let turns_text = matches!(c, '\u{2028}'..='\u{202E}' | '\u{2066}'..='\u{2069}');
    c.is_control() || turns_text || matches!(c, '\u{FFFE}' | '\u{FFFF}')
}

/// A length or a place in the picture. Two decimals are finer than any screen, and coarse enough to
/// be the same on every machine.
pub fn px(length: f64) -> String {
    if !length.is_finite() {
        return "0".to_string();
    }
    let text = format!("{length:.2}");
    match text.trim_end_matches('0').trim_end_matches('.') {
        "-0" => "0".to_string(),
        short => short.to_string(),
    }
}

/// Points of the picture, as `polygon` takes them.
pub fn px_list(points: &[[f64; 2]]) -> String {
    let pairs: Vec<String> = points.iter().map(|&[x, y]| format!("{},{}", px(x), px(y))).collect();
    pairs.join(" ")
}

/// A measure in the shortest decimals.
pub fn measure(number: f64) -> String {
    if number.is_finite() { decimals(number) } else { "no finite number".to_string() }
}

/// About how wide a text is drawn. Only a guess, since the font is the reader's: rather too wide.
pub fn width(text: &str, size: f64) -> f64 {
    let letters = text.chars().map(|c| if c.is_ascii() { 0.6 } else { 1.0 });
    letters.sum::<f64>() * size
}

/// As much of a text as is drawn in so many pixels, with dots where it is cut.
pub fn cut(text: &str, size: f64, room: f64) -> String {
    if width(text, size) <= room {
        return text.to_string();
    }
    let mut left = room - width("..", size);
    let fits = |c: &char| {
        left -= width(c.encode_utf8(&mut [0; 4]), size);
        left >= 0.0
    };
    let mut short: String = text.chars().take_while(fits).collect();
    short.push_str("..");
    short
}

#[cfg(test)]
mod tests {
    use super::*;

    #[test]
    fn marks_of_xml_are_escaped() {
        assert_eq!(escaped("<a b=\"c\" d='e'>&"), "&lt;a b=&quot;c&quot; d=&#39;e&#39;&gt;&amp;");
    }

    #[test]
    fn what_disturbs_is_replaced() {
        assert_eq!(escaped("a\0b\u{1b}c\u{85}d\u{202e}e\u{ffff}f\ng"), "a�b�c�d�e�f�g");
        assert_eq!(escaped("Haus Nüß 家"), "Haus Nüß 家");
    }

    #[test]
    fn lengths_are_rounded_and_short() {
        let cases = [(100.0, "100"), (0.125, "0.12"), (-0.001, "0"), (12.5, "12.5"), (-3.0, "-3")];
        for (length, text) in cases {
            assert_eq!(px(length), text);
        }
        for awful in [f64::NAN, f64::INFINITY, f64::NEG_INFINITY] {
            assert_eq!(px(awful), "0");
        }
    }

    #[test]
    fn a_long_text_is_cut() {
        assert_eq!(cut("abc", 10.0, 18.0), "abc");
        assert_eq!(cut("abcdef", 10.0, 30.5), "abc..");
        assert_eq!(cut("家家家", 10.0, 25.0), "家..");
    }
}
