//! Brings the Rust of mefikit into this crate.
//!
//! The files are read from the folder that `MEFIKIT_SRC` names and written, with a few lines added
//! after their last one, to cargo's output folder. The added lines only open a way in: a child
//! module sees the private items of its parent, so `reach` can offer them to the outside.
//!
//! Three builds are written. `plain` is the text as it is. `ruled` has its calls of `hypot` replaced
//! by the rule of SCOPE 1, which is `src/ruled_hypot.rs`. `counted` is the plain text in which each
//! test of turn × direction, as a face is cut, passes through a counter.

use std::path::{Path, PathBuf};
use std::{env, fs};

/// The environment variable that names the folder with the Rust.
const SOURCE_VARIABLE: &str = "MEFIKIT_SRC";

/// Where the Rust is looked for when the variable is not set, seen from this folder.
const DEFAULT_SOURCE: &str = "../../../shared/docs/src";

const CONVEXITY: &str = "crates/mefikit/src/geometry/convexity.rs";
const POLYGON: &str = "crates/mefikit/src/geometry/polygon.rs";
const POLYHEDRON: &str = "crates/mefikit/src/geometry/polyhedron.rs";
const CONSERVATIVE: &str = "crates/mefikit/src/tools/transfer/conservative_p0.rs";

/// The functions cut out of `conservative_p0.rs`; the rest of that file leans on the whole mesh.
const CONSERVATIVE_FUNCTIONS: [&str; 3] = [
    "convex_intersection_area",
    "clip_convex",
    "segment_intersection",
];

/// What those functions use of the rest.
const CONSERVATIVE_USES: &str = "use super::geometry::polygon::{cross2, signed_area2};\n";

/// The stand-ins, under the names by which `polygon.rs` calls the outside crates.
const POLYGON_USES: &str = "use crate::standins::{itertools, nalgebra, robust, smallvec};\n";

/// The rule that stands in for `hypot`, under a name that no method of `f64` has.
const RULE_USES: &str = "use crate::ruled_hypot::RuledHypot as _;\n";

const HYPOT_CALL: &str = ".hypot(";
const RULED_CALL: &str = ".ruled_hypot(";

/// How many calls of `hypot` SCOPE 1 speaks of.
const HYPOT_CALLS: usize = 2;

/// The function that cuts a face, in which the tests are counted.
const CUTTING: &str = "ear_clip_ring";

/// What is tested at a corner, the turn there times the direction of the face.
const TESTED: &str = "cross2(a, b, c) * orient";

/// What stands behind it in the first pass over a ring and in the second, and the function of the
/// counter through which it passes there.
const TESTS: [(&str, &str); 2] = [(" < 0.0", "in_first_pass"), (" >= 0.0", "in_second_pass")];

/// The counter.
const TESTS_USES: &str = "use crate::turn_tests;\n";

/// The files with what the line protocol offers of a build.
const ENTRIES: &str = "src/entries.rs";
const COUNTED_ENTRIES: &str = "src/counted_entries.rs";

/// The text of every file of one build.
struct Texts {
    convexity: String,
    polygon: String,
    polyhedron: String,
    conservative: String,
}

fn main() {
    if let Err(reason) = bring_in() {
        println!("cargo::error={reason}");
    }
}

fn bring_in() -> Result<(), String> {
    let own = PathBuf::from(variable("CARGO_MANIFEST_DIR")?);
    let out = PathBuf::from(variable("OUT_DIR")?);
    let source = source_folder(&own);

    let plain = read_texts(&source)?;
    let ruled = ruled(&plain)?;
    let counted = counted(&plain)?;
    write_build("plain", &plain, ENTRIES, &own, &out)?;
    write_build("ruled", &ruled, ENTRIES, &own, &out)?;
    write_build("counted", &counted, COUNTED_ENTRIES, &own, &out)
}

fn variable(name: &str) -> Result<String, String> {
    env::var(name).map_err(|_| format!("cargo did not set {name}"))
}

/// The folder with the Rust. A relative path is taken from the oracle's own folder.
fn source_folder(own_folder: &Path) -> PathBuf {
    println!("cargo::rerun-if-env-changed={SOURCE_VARIABLE}");
    let given = env::var(SOURCE_VARIABLE).unwrap_or_else(|_| DEFAULT_SOURCE.to_string());
    own_folder.join(given)
}

fn read_texts(source: &Path) -> Result<Texts, String> {
    let conservative = read_text(source, CONSERVATIVE)?;
    Ok(Texts {
        convexity: read_text(source, CONVEXITY)?,
        polygon: read_text(source, POLYGON)?,
        polyhedron: read_text(source, POLYHEDRON)?,
        conservative: cut_out_all(&conservative)?,
    })
}

fn read_text(source: &Path, file: &str) -> Result<String, String> {
    let path = source.join(file);
    println!("cargo::rerun-if-changed={}", path.display());
    fs::read_to_string(&path).map_err(|why| {
        format!(
            "{} cannot be read ({why}): set {SOURCE_VARIABLE} to the folder that holds {file}",
            path.display()
        )
    })
}

/// Cuts the needed functions out of `conservative_p0.rs`.
fn cut_out_all(text: &str) -> Result<String, String> {
    let mut pieces = String::new();
    for name in CONSERVATIVE_FUNCTIONS {
        pieces.push_str(cut_out(CONSERVATIVE, text, name)?);
        pieces.push('\n');
    }
    Ok(pieces)
}

/// The text of the function `name`: from its line at the margin to the next brace at the margin.
fn cut_out<'a>(file: &str, text: &'a str, name: &str) -> Result<&'a str, String> {
    let start_mark = format!("\nfn {name}(");
    let end_mark = "\n}\n";
    let missing = || format!("{file} has no function `{name}` at the margin");

    let start = text.find(&start_mark).ok_or_else(missing)? + 1;
    let length = text[start..].find(end_mark).ok_or_else(missing)? + end_mark.len();
    Ok(&text[start..start + length])
}

/// The same texts with the calls of `hypot` replaced by the rule.
fn ruled(plain: &Texts) -> Result<Texts, String> {
    let calls = plain.polyhedron.matches(HYPOT_CALL).count();
    let mentions = [
        &plain.convexity,
        &plain.polygon,
        &plain.polyhedron,
        &plain.conservative,
    ]
    .map(|text| text.matches("hypot").count())
    .iter()
    .sum::<usize>();
    if calls != HYPOT_CALLS || mentions != HYPOT_CALLS {
        return Err(format!(
            "the rule for hypot replaces exactly {HYPOT_CALLS} calls in {POLYHEDRON}; \
             found {calls} there and {mentions} mentions in all"
        ));
    }
    Ok(Texts {
        convexity: plain.convexity.clone(),
        polygon: plain.polygon.clone(),
        polyhedron: plain.polyhedron.replace(HYPOT_CALL, RULED_CALL) + RULE_USES,
        conservative: plain.conservative.clone(),
    })
}

/// The same texts with both tests of the cutting counted.
fn counted(plain: &Texts) -> Result<Texts, String> {
    let cutting = cut_out(POLYHEDRON, &plain.polyhedron, CUTTING)?;
    let mentions = plain.polyhedron.matches(TESTED).count();
    let mut polyhedron = plain.polyhedron.clone();
    for (behind, pass) in TESTS {
        let test = format!("if {TESTED}{behind} {{");
        let found = cutting.matches(&test).count();
        if found != 1 || mentions != TESTS.len() {
            return Err(format!(
                "the counter takes `{test}` once in `{CUTTING}`, and `{TESTED}` exactly {} times \
                 in {POLYHEDRON}; found {found} there and {mentions} in all",
                TESTS.len()
            ));
        }
        let through = format!("if turn_tests::{pass}({TESTED}){behind} {{");
        polyhedron = polyhedron.replace(&test, &through);
    }
    Ok(Texts {
        convexity: plain.convexity.clone(),
        polygon: plain.polygon.clone(),
        polyhedron: polyhedron + TESTS_USES,
        conservative: plain.conservative.clone(),
    })
}

/// Writes the files of one build, and the list of modules that `lib.rs` includes.
fn write_build(
    name: &str,
    texts: &Texts,
    entries: &str,
    own: &Path,
    out: &Path,
) -> Result<(), String> {
    let folder = out.join(name);
    fs::create_dir_all(&folder).map_err(|why| format!("{}: {why}", folder.display()))?;

    let reach = |file: &str| module_at(&own.join("src/reach").join(file), "pub mod reach");
    let polygon = format!("{}\n{POLYGON_USES}{}", texts.polygon, reach("polygon.rs"));
    let polyhedron = format!("{}\n{}", texts.polyhedron, reach("polyhedron.rs"));
    let conservative = format!(
        "{CONSERVATIVE_USES}{}\n{}",
        texts.conservative,
        reach("conservative.rs")
    );

    write(&folder.join("convexity.rs"), &texts.convexity)?;
    write(&folder.join("polygon.rs"), &polygon)?;
    write(&folder.join("polyhedron.rs"), &polyhedron)?;
    write(&folder.join("conservative.rs"), &conservative)?;
    let list = module_list(&folder, &own.join(entries));
    write(&out.join(format!("{name}.rs")), &list)
}

/// The modules of one build, laid out as in mefikit where the Rust's own paths ask for it.
fn module_list(folder: &Path, entries: &Path) -> String {
    let file = |name: &str, head: &str| module_at(&folder.join(name), head);
    let entries = module_at(entries, "pub(crate) mod entries");
    [
        "#[allow(dead_code, unused_imports, clippy::all)]\nmod geometry {\n",
        &file("convexity.rs", "pub mod convexity"),
        &file("polygon.rs", "pub mod polygon"),
        &file("polyhedron.rs", "pub mod polyhedron"),
        "pub(crate) use polygon::{bounds_iter, vertex_centroid};\n}\n",
        "#[allow(clippy::all)]\n",
        &file("conservative.rs", "mod conservative"),
        &entries,
        "pub use conservative::reach::*;\n",
        "pub use geometry::polygon::reach::*;\n",
        "pub use geometry::polyhedron::reach::*;\n",
    ]
    .concat()
}

fn module_at(path: &Path, head: &str) -> String {
    format!("#[path = {:?}]\n{head};\n", path.display().to_string())
}

fn write(path: &Path, text: &str) -> Result<(), String> {
    fs::write(path, text).map_err(|why| format!("{}: {why}", path.display()))
}
