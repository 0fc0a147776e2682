//! The page: one HTML file that asks nothing of the network.

use serde_json::{Value, json};

use super::scene::Scene;
use super::svg::picture;
use super::text::{cut, escaped};
use super::views::Point;
use super::{Table, TableRow};
use crate::words::Report;

const STYLE: &str = include_str!("page.css");
const SCRIPT: &str = include_str!("page.js");

/// The page: the survey's table, the pictures, and sliders that turn each cell.
pub fn page(title: &str, cells: &[Report<'_>], table: &Table) -> String {
    // A row leads to its cell's picture where the two lists are of the same cells.
    let linked = table.rows.len() == cells.len();
    let parts: String = cells.iter().enumerate().map(|(k, cell)| part(k, cell)).collect();
    let scenes: Vec<Value> = cells.iter().map(|cell| Scene::of(cell).map_or(Value::Null, |s| data(&s))).collect();
    format!(
        "<!DOCTYPE html>\n<html lang=\"en\">\n<head>\n<meta charset=\"utf-8\">\n\
         <meta name=\"viewport\" content=\"width=device-width, initial-scale=1\">\n\
         <title>{title}</title>\n<style>\n{STYLE}</style>\n</head>\n<body>\n<h1>{title}</h1>\n\
         {}{parts}<script type=\"application/json\" id=\"cells\">{}</script>\n\
         <script>\n{SCRIPT}</script>\n</body>\n</html>\n",
        survey(table, linked),
        in_script(&Value::Array(scenes)),
        title = escaped(title)
    )
}

/// The survey's table. It scrolls by itself where the window is narrow.
fn survey(table: &Table, linked: bool) -> String {
    let heading: String = table.heading.iter().map(|h| format!("<th scope=\"col\">{}</th>", escaped(h))).collect();
    let columns = table.heading.len().max(1);
    let rows = table.rows.iter().enumerate();
    let rows: String = rows.map(|(k, row)| survey_row(row, columns, linked.then_some(k))).collect();
    format!(
        "<div class=\"scroll\" role=\"region\" aria-label=\"Survey\" tabindex=\"0\">\n<table>\n\
         <thead><tr>{heading}</tr></thead>\n<tbody>\n{rows}</tbody>\n</table>\n</div>\n"
    )
}

/// A row of the table and the lines of faults below it. The number is that of the cell to which its
/// first column leads.
fn survey_row(row: &TableRow, columns: usize, cell: Option<usize>) -> String {
    let mut texts: Vec<String> = row.columns.iter().map(|column| escaped(column)).collect();
    if let (Some(k), Some(name)) = (cell, texts.first_mut()) {
        *name = format!("<a href=\"#cell-{k}\">{name}</a>");
    }
    let texts: String = texts.iter().map(|text| format!("<td>{text}</td>")).collect();
    let faults: String = row.faults.iter().map(|fault| format!("<li>{}</li>", escaped(fault))).collect();
    let below = if faults.is_empty() {
        String::new()
    } else {
        format!("<tr class=\"faults\"><td colspan=\"{columns}\"><ul>{faults}</ul></td></tr>\n")
    };
    format!("<tr>{texts}</tr>\n{below}")
}

/// A cell's picture, and the place where the script draws the turned cell. That stays hidden where
/// no script runs.
fn part(k: usize, cell: &Report<'_>) -> String {
    let name = escaped(&cut(&cell.title(), 1.0, 60.0));
    let drawing = picture(std::slice::from_ref(cell), &format!("c{k}"));
    format!(
        "<section id=\"cell-{k}\" aria-label=\"{name}\">\n<h2>{name}</h2>\n\
         <div class=\"scroll\" role=\"region\" aria-label=\"Four views of {name}\" tabindex=\"0\">\n{drawing}</div>\n\
         <div class=\"turned\" data-cell=\"{k}\" hidden>\n\
         <svg viewBox=\"0 0 640 460\" role=\"img\" aria-label=\"{name}, turned\"></svg>\n<div class=\"sliders\">\n\
         {}{}</div>\n</div>\n</section>\n",
        slider(k, "turn", (0, 360, 37)),
        slider(k, "tilt", (-90, 90, 28))
    )
}

/// A slider with its label, and what it says now.
fn slider(k: usize, name: &str, (least, most, now): (i32, i32, i32)) -> String {
    format!(
        "<label for=\"c{k}-{name}\">{name}</label><input type=\"range\" id=\"c{k}-{name}\" name=\"{name}\" \
         min=\"{least}\" max=\"{most}\" value=\"{now}\"><output for=\"c{k}-{name}\">{now}°</output>\n"
    )
}

/// What the script needs to draw a cell.
fn data(scene: &Scene<'_>) -> Value {
    let torn = scene.torn.iter().map(|side| json!([side.from, side.to]));
    let ends = scene.torn_vertices().into_iter();
    let ends = ends.map(|end| json!([end, scene.vertex_number(end)]));
    let marked = scene.marked_faces().into_iter();
    let marked = marked.map(|face| json!([face, scene.face_number(face)]));
    let short = scene.short.iter().map(|short| json!([short.face, short.left]));
    json!({
        "points": scene.points.iter().map(|&point| rounded(point)).collect::<Vec<_>>(),
        "faces": scene.faces,
        "lone": scene.lone,
        "torn": torn.collect::<Vec<_>>(),
        "ends": ends.collect::<Vec<_>>(),
        "marked": marked.collect::<Vec<_>>(),
        "against": scene.against,
        "short": short.collect::<Vec<_>>(),
    })
}

/// A point as fine as a screen shows it. The longest side of the cell's box has length 1.
fn rounded(point: Point) -> Point {
    point.map(|x| (x * 1e5).round() / 1e5)
}

/// A value as it may stand in a script element, which `</` would end.
fn in_script(value: &Value) -> String {
    value.to_string().replace("</", "<\\/").replace("<!", "\\u003c!")
}

#[cfg(test)]
mod tests {
    use super::*;

    #[test]
    fn no_text_ends_the_script() {
        let text = in_script(&json!(["</script>", "<!--"]));
        assert_eq!(text, r#"["<\/script>","\u003c!--"]"#);
        assert_eq!(serde_json::from_str::<Value>(&text).unwrap(), json!(["</script>", "<!--"]));
    }

    #[test]
    fn a_row_has_its_faults_below_it() {
        let row = TableRow { columns: vec!["a<b".into(), "8".into()], faults: vec!["face 3".into()] };
        let html = survey_row(&row, 2, Some(4));
        assert!(html.starts_with("<tr><td><a href=\"#cell-4\">a&lt;b</a></td><td>8</td></tr>"));
        assert!(html.contains("<td colspan=\"2\"><ul><li>face 3</li></ul></td>"));
        let sound = TableRow { faults: Vec::new(), ..row };
        assert!(!survey_row(&sound, 2, None).contains("faults"));
    }
}
