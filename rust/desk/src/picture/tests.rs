//! Whole pictures and pages.

use proptest::collection::vec;
use proptest::prelude::*;
use wegrusamt::{CellBuf, Refusal};

use super::examples::{self, Example};
use super::{Table, TableRow, page, svg};
use crate::findings::{Findings, Measured, ShortFace, Side};
use crate::model::Piece;
use crate::words::Report;

fn all_examples() -> Vec<Example> {
    use examples::*;
    vec![cube(), backward(), open(), far(), infinite(), too_large()]
}

fn table_of(cells: &[Report<'_>]) -> Table {
    let row = |cell: &Report<'_>| TableRow {
        columns: vec![cell.title(), "8".to_string()],
        faults: vec![format!("{} has <faults>", cell.title())],
    };
    let heading = vec!["cell".to_string(), "vertices".to_string()];
    Table { heading, rows: cells.iter().map(row).collect() }
}

fn page_of(cells: &[Report<'_>]) -> String {
    page("plan", cells, &table_of(cells))
}

/// Makes sure that every tag is closed in its turn and that attributes hold no bare mark.
fn assert_well_formed(xml: &str) {
    let mut open: Vec<&str> = Vec::new();
    let mut rest = xml;
    while let Some(start) = rest.find('<') {
        let (text, tag) = rest.split_at(start);
        assert_entities(text);
        let end = tag.find('>').expect("a tag ends");
        let inner = &tag[1..end];
        assert!(!inner.contains('<'), "a tag in a tag: {inner}");
        assert_eq!(inner.matches('"').count() % 2, 0, "{inner}");
        assert_entities(inner);
        let name = inner.trim_matches('/').split_whitespace().next().expect("a tag has a name");
        if inner.starts_with('/') {
            assert_eq!(open.pop(), Some(name));
        } else if !inner.ends_with('/') {
            open.push(name);
        }
        rest = &tag[end + 1..];
    }
    assert_eq!(open, Vec::<&str>::new());
    assert!(rest.trim().is_empty());
}

/// Makes sure that every `&` begins an entity.
fn assert_entities(text: &str) {
    for part in text.split('&').skip(1) {
        let name = part.split(';').next().unwrap_or_default();
        assert!(["amp", "lt", "gt", "quot", "#39"].contains(&name), "&{part}");
    }
}

fn ids(xml: &str) -> Vec<&str> {
    let parts = xml.split(" id=\"").skip(1);
    parts.filter_map(|part| part.split('"').next()).collect()
}

/// The part of a picture that holds one view.
fn view<'a>(xml: &'a str, id: &str) -> &'a str {
    let start = xml.find(&format!("<g class=\"view\" id=\"{id}\"")).expect("the view is there");
    let rest = &xml[start..];
    let next = rest[1..].find("<g class=\"view\"").or_else(|| rest[1..].find("<g class=\"legend\""));
    &rest[..next.map_or(rest.len(), |at| at + 1)]
}

/// The texts of the labels of one class.
fn labels(xml: &str, class: &str) -> Vec<String> {
    let start = format!("<text class=\"{class}\"");
    let parts = xml.split(&start).skip(1);
    let text = |part: &str| part.split(['>', '<']).nth(1).unwrap_or_default().to_string();
    parts.map(text).collect()
}

#[test]
fn torn_sides_are_in_every_view_with_their_numbers() {
    let open = examples::open();
    let xml = svg(&[open.drawn()]);
    for key in ["above", "south", "east", "aside"] {
        let part = view(&xml, &format!("cells-0-{key}"));
        assert_eq!(part.matches("class=\"torn\"").count(), 4, "{key}");
        for k in 0..4 {
            assert!(part.contains(&format!("id=\"cells-0-{key}-torn-{k}\"")));
        }
        let text = labels(part, "vertex-label").join(", ");
        let mut numbers: Vec<&str> = text.split(", ").collect();
        numbers.sort_unstable();
        assert_eq!(numbers, ["5", "6", "7", "8"], "{key}");
    }
    // Seen from the south the eastern and western sides run to the eye: two labels for four vertices.
    assert_eq!(labels(view(&xml, "cells-0-south"), "vertex-label"), ["5, 8", "6, 7"]);
    assert_eq!(labels(view(&xml, "cells-0-aside"), "vertex-label"), ["5", "6", "7", "8"]);
}

/// A number of the element with this id.
fn attribute(xml: &str, id: &str, name: &str) -> f64 {
    let line = xml.lines().find(|line| line.contains(&format!(" id=\"{id}\""))).expect("it is there");
    let value = line.split(&format!(" {name}=\"")).nth(1).expect("it has the attribute");
    value.split('"').next().unwrap_or_default().parse().expect("it is a number")
}

#[test]
fn a_known_side_is_drawn_where_it_lies() {
    let xml = svg(&[examples::open().drawn()]);
    let end = |side: usize, name: &str| attribute(&xml, &format!("cells-0-above-torn-{side}"), name);
    // The first torn side runs from vertex 8 at (0, 1) to vertex 7 at (1, 1): level, to the right,
    // in the upper half. The view's middle is 12 + 268 / 2, and 1 is 184 pixels, as wide as fits.
    assert_eq!((end(0, "x1"), end(0, "x2")), (54.0, 238.0));
    assert_eq!(end(0, "y1"), end(0, "y2"));
    // The third runs back along the lower side.
    assert_eq!((end(2, "x1"), end(2, "x2")), (238.0, 54.0));
    assert!((end(2, "y1") - end(0, "y1") - 184.0).abs() < 0.02);
    // All four views have one scale: the side is as long from the south.
    let south = |name: &str| attribute(&xml, "cells-0-south-torn-0", name);
    assert!((south("x2") - south("x1") - 184.0).abs() < 0.02);
}

#[test]
fn marks_and_their_legend_occur_only_where_needed() {
    let marks = |example: Example| {
        let xml = svg(&[example.drawn()]);
        let legend = xml.split("<g class=\"legend\">").nth(1).unwrap().to_string();
        let has = |mark: &str, words: &str| {
            assert_eq!(xml.contains(mark), legend.contains(words), "{mark}");
            xml.contains(mark)
        };
        assert!(legend.contains("what lies behind is paler"));
        [
            has("class=\"torn\"", "torn side"),
            has("cells-hatch", "against the others"),
            has("cells-dots", "cut short"),
            has("class=\"ring\"", "ring that the cut left"),
            has("class=\"lone\"", "no face names"),
        ]
    };
    assert_eq!(marks(examples::cube()), [false; 5]);
    assert_eq!(marks(examples::backward()), [true, true, false, false, false]);
    assert_eq!(marks(examples::open()), [true, false, false, false, false]);
    assert_eq!(marks(examples::far()), [false, false, true, true, false]);
    let mut lone = examples::cube();
    lone.piece.cell.points.push([0.5, 0.5, 3.0]);
    assert_eq!(marks(lone), [false, false, false, false, true]);
}

#[test]
fn marked_faces_bear_their_numbers_of_the_file() {
    let mut example = examples::backward();
    example.piece.faces[2].number = 4711;
    let xml = svg(&[example.drawn()]);
    for key in ["above", "south", "east", "aside"] {
        assert_eq!(labels(view(&xml, &format!("cells-0-{key}")), "face-label"), ["face 4711"]);
    }
    assert_eq!(xml.matches("class=\"against\"").count(), 4);
}

#[test]
fn a_face_behind_is_marked_paler() {
    // The backward face is the southern wall, which is in front from the south.
    let xml = svg(&[examples::backward().drawn()]);
    let mark = |key: &str| {
        let part = view(&xml, &format!("cells-0-{key}")).to_string();
        part.lines().find(|line| line.contains("class=\"against\"")).unwrap().to_string()
    };
    assert!(mark("south").contains("opacity=\"1\""));
    let mut north = examples::backward();
    let Ok(found) = &mut north.findings else { panic!("it is measured") };
    found.against = vec![3];
    let xml = svg(&[north.drawn()]);
    let part = view(&xml, "cells-0-south");
    let line = part.lines().find(|line| line.contains("class=\"against\"")).unwrap();
    assert!(line.contains("opacity=\"0.45\""));
}

#[test]
fn the_title_says_what_was_measured() {
    let xml = svg(&[examples::open().drawn()]);
    assert!(xml.contains(">8 vertices, 5 faces, volume 0.8333333333333334, closed no, short 0<"));
    assert!(xml.contains("4 torn sides, turning cannot close it"));
    assert!(xml.contains("Torn sides: 8 to 7, 7 to 6, 6 to 5, 5 to 8."));
    assert!(xml.contains(">0.5 in the file&#39;s unit"));
}

#[test]
fn a_refused_cell_is_drawn_or_told() {
    let xml = svg(&[examples::infinite().drawn()]);
    assert!(!xml.contains("class=\"view\""));
    let why = "has a coordinate that is NaN, infinite or above 2^40 in magnitude";
    assert!(xml.contains(&format!("not drawn: refused 2: vertex 4 (0 inf 0) {why}")), "{xml}");
    let xml = svg(&[examples::too_large().drawn()]);
    assert_eq!(xml.matches("class=\"view\"").count(), 4);
    let why = format!("refused 1: it has {} vertices, and 256 are the most", 80 * 8);
    assert!(xml.contains(&why), "{xml}");
    let mut huge = examples::too_large();
    for _ in 0..2_000 {
        huge.piece.cell.push_face(&[0, 1, 2]);
    }
    assert!(!svg(&[huge.drawn()]).contains("class=\"view\""));
}

#[test]
fn a_cell_whose_ends_fall_is_not_drawn() {
    let mut example = examples::cube();
    example.piece.cell.ends[1] = 20;
    assert!(!svg(&[example.drawn()]).contains("class=\"view\""));
}

#[test]
fn a_volume_that_is_no_number_is_put_into_words() {
    for volume in [f64::NAN, f64::INFINITY, f64::NEG_INFINITY] {
        let example = Example { findings: Ok(examples::sound(volume)), ..examples::cube() };
        assert!(svg(&[example.drawn()]).contains("volume no finite number, closed yes"));
    }
}

#[test]
fn a_single_point_stands_in_the_middle_of_each_view() {
    let mut cell = CellBuf::new();
    cell.points.push([3.0, 4.0, 5.0]);
    let (piece, findings) = (examples::piece(cell), Ok(examples::sound(0.0)));
    let cell = Report { file: "point", piece: &piece, findings: &findings };
    let xml = svg(&[cell]);
    let places: Vec<&str> = xml.split("class=\"lone\" cx=\"").skip(1).collect();
    let places: Vec<&str> = places.iter().filter_map(|place| place.split('"').next()).collect();
    assert_eq!(places, ["146", "422", "698", "1014"]);
    // No length is known, so there is no bar.
    assert!(!xml.contains("class=\"scale\""));
}

#[test]
fn the_pictures_are_well_formed_and_their_ids_differ() {
    let examples = all_examples();
    let cells: Vec<Report<'_>> = examples.iter().map(Example::drawn).collect();
    assert_well_formed(&svg(&cells));
    assert_well_formed(&svg(&[]));
    for text in [svg(&cells), page_of(&cells)] {
        let mut found = ids(&text);
        let count = found.len();
        found.sort_unstable();
        found.dedup();
        assert_eq!(found.len(), count);
        assert!(count > 50);
    }
}

#[test]
fn names_are_escaped() {
    let cube = examples::cube();
    let name = "</title><script>\"a\" & 'b'\u{7}";
    let cell = || Report { file: name, piece: &cube.piece, findings: &cube.findings };
    let shown = "&lt;/title&gt;&lt;script&gt;&quot;a&quot; &amp; &#39;b&#39;\u{FFFD}";
    let xml = svg(&[cell()]);
    assert_well_formed(&xml);
    assert!(xml.contains(shown) && !xml.contains("<script>"));
    let html = page(name, &[cell()], &table_of(&[cell()]));
    assert!(html.contains(&format!("<title>{shown}</title>")));
    assert!(html.contains(&format!("<li>{shown} has &lt;faults&gt;</li>")));
    // The page's own two scripts are all that it has.
    assert_eq!(html.matches("<script").count(), 2);
    assert_eq!(html.matches("</script").count(), 2);
    assert!(!html.contains('\u{7}'));
}

#[test]
fn a_long_name_is_cut() {
    let cube = examples::cube();
    let title = "w".repeat(100_000);
    let cell = Report { file: &title, piece: &cube.piece, findings: &cube.findings };
    assert!(svg(std::slice::from_ref(&cell)).len() < 20_000);
    let table = Table { heading: Vec::new(), rows: Vec::new() };
    assert!(page("plan", &[cell], &table).len() < 40_000);
}

#[test]
fn the_page_asks_nothing_of_the_network() {
    let examples = all_examples();
    let cells: Vec<Report<'_>> = examples.iter().map(Example::drawn).collect();
    let html = page_of(&cells);
    let own = html.replace("xmlns=\"http://www.w3.org/2000/svg\"", "");
    for asking in ["http:", "https:", "//", "@import", "<link", "src=", "url(\"", "fetch("] {
        // The one `//` that may stay begins a comment of the script.
        let found = own.lines().any(|line| line.contains(asking) && !line.trim_start().starts_with("// "));
        assert!(!found, "{asking}");
    }
    assert!(html.contains("lang=\"en\"") && html.contains("charset=\"utf-8\""));
}

#[test]
fn the_page_has_a_labelled_slider_for_each_cell() {
    let examples = all_examples();
    let cells: Vec<Report<'_>> = examples.iter().map(Example::drawn).collect();
    let html = page_of(&cells);
    for k in 0..cells.len() {
        for name in ["turn", "tilt"] {
            assert!(html.contains(&format!("<label for=\"c{k}-{name}\">{name}</label>")));
            assert!(html.contains(&format!("<input type=\"range\" id=\"c{k}-{name}\"")));
        }
        assert!(html.contains(&format!("<section id=\"cell-{k}\"")) && html.contains(&format!("href=\"#cell-{k}\"")));
    }
}

#[test]
fn the_page_hands_the_script_what_it_draws() {
    let example = examples::backward();
    let html = page_of(&[example.drawn()]);
    let data = html.split("id=\"cells\">").nth(1).unwrap().split("</script>").next().unwrap();
    let data: serde_json::Value = serde_json::from_str(data).unwrap();
    let cell = &data[0];
    assert_eq!(cell["points"][6], serde_json::json!([0.5, 0.5, 0.5]));
    assert_eq!(cell["faces"][2], serde_json::json!([4, 5, 1, 0]));
    assert_eq!(cell["torn"][0], serde_json::json!([4, 5]));
    assert_eq!(cell["ends"], serde_json::json!([[0, "1"], [1, "2"], [4, "5"], [5, "6"]]));
    assert_eq!(cell["marked"], serde_json::json!([[2, "3"]]));
    assert_eq!(cell["against"], serde_json::json!([2]));
}

/// Any bits, and often small whole numbers, which coincide.
fn coordinate() -> impl Strategy<Value = f64> {
    prop_oneof![any::<u64>().prop_map(f64::from_bits), (-2i8..3).prop_map(f64::from)]
}

/// A number of a vertex: mostly one that there may be.
fn index() -> impl Strategy<Value = u32> {
    prop_oneof![8 => 0u32..9, 1 => any::<u32>()]
}

/// Cells as no reader makes them: any coordinates, any corners, sometimes any ends.
fn awful_piece() -> impl Strategy<Value = Piece> {
    let finite = || coordinate().prop_map(|x| if x.is_finite() { x } else { 0.5 });
    let points =
        prop_oneof![vec([coordinate(), coordinate(), coordinate()], 0..9), vec([finite(), finite(), finite()], 0..9),];
    let ends = prop::option::weighted(0.2, vec(any::<u32>(), 0..4));
    (points, vec(vec(index(), 0..6), 0..6), ends).prop_map(|(points, faces, ends)| {
        let mut cell = CellBuf::from_faces(points, faces);
        cell.ends = ends.unwrap_or(cell.ends);
        let mut piece = examples::piece(cell);
        // Lists that are too short must not matter either.
        piece.vertex_numbers.truncate(7);
        piece.faces.truncate(4);
        piece
    })
}

/// Findings that do not fit the cell.
fn awful_findings() -> impl Strategy<Value = Findings> {
    let side = |(from, to)| Side { from, to, there: 1, back: 0 };
    let cut = |(face, left)| ShortFace { face, triangles: 0, left };
    let torn = vec((index(), index()).prop_map(side), 0..6);
    let short = vec((0usize..8, vec(index(), 0..5)).prop_map(cut), 0..3);
    let marks = (torn, vec(0usize..9, 0..4), short, any::<u64>(), any::<bool>());
    marks.prop_map(|(torn, against, short, volume, refused)| {
        let sound = examples::sound(f64::from_bits(volume));
        let found = Measured { torn, against, short, closed: false, ..sound };
        if refused { Err(Refusal::Index) } else { Ok(found) }
    })
}

proptest! {
    #[test]
    fn awful_cells_are_drawn_or_told(piece in awful_piece(), findings in awful_findings()) {
        let cell = || Report { file: "cell", piece: &piece, findings: &findings };
        let xml = svg(&[cell()]);
        assert_well_formed(&xml);
        let html = page_of(&[cell()]);
        // The words of a refusal and the script's own text may have these letters.
        let words = Refusal::ALL.map(|refusal| refusal.to_string());
        for text in [xml, html] {
            let text = words.iter().fold(text, |text, words| text.replace(words.as_str(), ""));
            let text = text.split("<script>\n").next().unwrap_or_default();
            prop_assert!(!text.contains("NaN"));
            prop_assert!(!text.contains("inf"));
            prop_assert!(!text.contains("null,null"));
        }
    }
}
