//! The command as a surveyor calls it: what it prints, how it ends, and what it leaves on disk.

use std::fs;
use std::path::{Path, PathBuf};
use std::process::Output;

use assert_cmd::Command;
use tempfile::TempDir;

/// A tetrahedron whose second face is traced backward, with what an editor leaves in such files.
const BACKWARD: &str = "# traced by hand\r\nmtllib plan.mtl\r\nv 0 0 0 # the foot\nv 1 0 0\nv 0 1 0\nv 0 0 1\nvn 0 0 1\n\
    f 1//1  3//1\t2//1\nf 4/4/1 2/2/1 \\\n  1/1/1 # backward\nf 2 3 4\nusemtl rock\nf 3 1 4\n";

/// The same with that face turned.
const TURNED: &str = "# traced by hand\r\nmtllib plan.mtl\r\nv 0 0 0 # the foot\nv 1 0 0\nv 0 1 0\nv 0 0 1\nvn 0 0 1\n\
    f 1//1  3//1\t2//1\nf 1/1/1 2/2/1 \\\n  4/4/1 # backward\nf 2 3 4\nusemtl rock\nf 3 1 4\n";

/// A folder that is gone when the test ends.
struct Desk(TempDir);

impl Desk {
    fn new() -> Desk {
        Desk(tempfile::tempdir().unwrap())
    }

    fn path(&self, name: &str) -> PathBuf {
        self.0.path().join(name)
    }

    fn put(&self, name: &str, bytes: impl AsRef<[u8]>) {
        fs::write(self.path(name), bytes).unwrap();
    }

    fn text(&self, name: &str) -> String {
        fs::read_to_string(self.path(name)).unwrap()
    }

    /// Calls the command in the folder, and answers its status, its output and its complaints.
    fn call(&self, words: &str) -> (i32, String, String) {
        let mut command = Command::cargo_bin("wegrusamt").unwrap();
        let Output { status, stdout, stderr } =
            command.current_dir(self.0.path()).args(words.split(' ')).output().unwrap();
        let text = |bytes| String::from_utf8(bytes).unwrap();
        (status.code().unwrap(), text(stdout), text(stderr))
    }

    /// The command in the folder, its output not yet taken: assert_cmd would take it itself.
    fn plain(&self, words: &str) -> std::process::Command {
        let mut command = std::process::Command::new(assert_cmd::cargo::cargo_bin("wegrusamt"));
        command.current_dir(self.0.path()).args(words.split(' '));
        command
    }

    /// Calls the command, which must end so and complain so, and answers its output.
    fn said(&self, words: &str, status: i32, complaints: &str) -> String {
        let (ended, out, err) = self.call(words);
        assert_eq!((ended, &err[..]), (status, complaints), "{out}");
        out
    }
}

fn example(name: &str) -> Vec<u8> {
    fs::read(Path::new(env!("CARGO_MANIFEST_DIR")).join("../../examples").join(name)).unwrap()
}

#[test]
fn a_sound_cell_has_a_row_and_status_0() {
    let desk = Desk::new();
    desk.put("cube.cell", example("cube.cell"));
    let heading = "cell       vertices   faces                  volume  closed  short              bits\n";
    let row = "cube.cell         8       6                       1     yes      0  3FF0000000000000\n";
    assert_eq!(desk.said("survey --bits cube.cell", 0, ""), [heading, row].concat());
}

#[test]
fn a_backward_face_is_named_with_its_line_and_its_sides() {
    let desk = Desk::new();
    desk.put("a.obj", BACKWARD);
    let out = desk.said("survey --no-heading a.obj", 1, "");
    let lines: Vec<&str> = out.lines().collect();
    assert_eq!(lines[1], "    face 2 (line 9) lies against the others: `turn` turns it");
    assert_eq!(lines[2], "    the side from vertex 2 (1 0 0) to vertex 1 (0 0 0) runs twice and never back");
    assert_eq!(lines.len(), 5, "{out}");
}

#[test]
fn turning_changes_the_corners_of_that_face_and_nothing_else() {
    let desk = Desk::new();
    desk.put("a.obj", BACKWARD);
    let out = desk.said("turn a.obj -o b.obj", 0, "");
    assert_eq!(out, "a.obj: face 2 (line 9) turned\n1 face turned: b.obj is written\n");
    assert_eq!(desk.text("b.obj"), TURNED);
    assert_eq!(desk.text("a.obj"), BACKWARD);
    desk.said("survey b.obj", 0, "");
    assert_eq!(desk.said("turn b.obj -o c.obj", 0, ""), "0 faces turned: c.obj is written\n");
    assert_eq!(desk.text("c.obj"), TURNED);
}

#[test]
fn a_file_that_is_there_is_kept_without_force() {
    let desk = Desk::new();
    desk.put("a.obj", BACKWARD);
    desk.put("b.obj", "mine");
    let there = "wegrusamt: b.obj: the file is there already; --force replaces it\n";
    for words in ["turn a.obj -o b.obj", "convert a.obj b.obj"] {
        desk.said(words, 2, there);
        assert_eq!(desk.text("b.obj"), "mine");
    }
    desk.said("turn a.obj -o b.obj --force", 0, "");
    assert_eq!(desk.text("b.obj"), TURNED);
    desk.said("turn a.obj -o a.obj --force", 0, "");
    assert_eq!(desk.text("a.obj"), TURNED);
    assert_eq!(fs::read_dir(desk.0.path()).unwrap().count(), 2, "no part of a file is left");
}

#[test]
fn a_cell_that_cannot_be_turned_is_kept_and_told() {
    let desk = Desk::new();
    let torn = BACKWARD.replace("f 3 1 4\n", "");
    desk.put("a.obj", &torn);
    let out = desk.said("turn a.obj -o b.obj", 1, "");
    let why = "refusal 11: a side does not occur exactly twice, or a face holds a vertex twice";
    assert_eq!(out, format!("a.obj: kept as it was, {why}\n0 faces turned: b.obj is written\n"));
    assert_eq!(desk.text("b.obj"), torn);
    // A closed surface of ten triangles with only one side, the projective plane: no choice of faces closes it.
    let plane = ["1 2 3", "1 3 4", "1 4 5", "1 5 6", "1 6 2", "2 3 5", "3 4 6", "4 5 2", "5 6 3", "6 2 4"];
    let points: String = (0..6).map(|i| format!("v {i} {} {}\n", i * i, i * i * i)).collect();
    desk.put("plane.obj", points + &plane.map(|face| format!("f {face}\n")).concat());
    let out = desk.said("turn plane.obj -o c.obj", 1, "");
    assert!(out.starts_with("plane.obj: kept as it was, refusal 12: "), "{out}");
    assert_eq!(desk.text("c.obj"), desk.text("plane.obj"));
}

#[test]
fn the_larger_part_is_kept_where_the_lowest_face_is_the_odd_one() {
    let desk = Desk::new();
    desk.put("a.cell", example("cube-face-backward.cell"));
    let out = desk.said("turn a.cell -o b.cell", 0, "");
    assert_eq!(out, "a.cell: face 0 turned\n1 face turned: b.cell is written\n");
    let (before, after) = (fs::read(desk.path("a.cell")).unwrap(), fs::read(desk.path("b.cell")).unwrap());
    let changed: Vec<usize> = (0..before.len()).filter(|&at| before[at] != after[at]).collect();
    // The corners 1, 2, 3, 0 are the records 8 to 11, and a corner's number is at byte 8 of its record.
    assert_eq!(changed, [8, 9, 10, 11].map(|record| 32 * record + 8));
    assert_eq!(changed.iter().map(|&at| after[at]).collect::<Vec<u8>>(), [0, 3, 2, 1]);
}

#[test]
fn a_far_cell_with_a_short_face_has_both_volumes() {
    let desk = Desk::new();
    desk.put("far.cell", example("thin-and-far.cell"));
    let out = desk.said("survey --no-heading far.cell", 1, "");
    let lines: Vec<&str> = out.lines().collect();
    assert!(lines[0].ends_with("0.020833333643774193     yes      1"), "{out}");
    assert_eq!(lines[1], "    face 0 (0 of 2 triangles) is cut short, and the rest is missing in the volume");
    let moved = "    about a local origin, with 8588590 8529546 2969498 taken off every vertex, exactly, every face is fully cut: \
        volume 0.02500000037252903, since less is rounded there";
    assert_eq!(lines[2], moved);
    assert_eq!(lines[4], "2 cells, 1 to look at");
}

#[test]
fn where_the_move_is_not_exact_it_is_said_along_which_axis() {
    let desk = Desk::new();
    // A thin box far off in y and z, whose x has bits that no difference from a whole number holds.
    let mut text = String::new();
    for z in [2969498.0, 2969500.0] {
        for [x, y] in [[1.5, 0.0], [1e-9, 0.0], [1e-9, 0.001], [1.5, 0.001]] {
            text += &format!("v {x} {} {z}\n", 8529546.0 + y);
        }
    }
    text += "f 1 4 3 2\nf 5 6 7 8\nf 1 2 6 5\nf 3 4 8 7\nf 2 3 7 6\nf 4 1 5 8\n";
    desk.put("near-x.obj", text);
    let (status, out, _) = desk.call("survey --json near-x.obj");
    assert_eq!(status, 1);
    let object: serde_json::Value = serde_json::from_str(&out).unwrap();
    assert_eq!(object["local"]["exact"], serde_json::json!([false, true, true]), "{out}");
    let (_, out, _) = desk.call("survey near-x.obj");
    assert!(out.contains("but not along x, where the move is not exact (15)"), "{out}");
}

#[test]
fn cells_beyond_the_limits_are_told_in_words_and_the_rest_goes_on() {
    let desk = Desk::new();
    let many: String = (0..257).map(|i| format!("v {i} 0 0\n")).collect();
    desk.put("a.obj", format!("o many\n{many}o far\nv 0 0 1e13\no nan\nv nan 0 0\no one\nf 260 261 262\nv 0 0 0\nv 1 0 0\nv 0 1 0\nf 262 261 260\n"));
    let out = desk.said("survey --no-heading a.obj", 1, "");
    let lines: Vec<&str> = out.lines().collect();
    assert_eq!(lines[1], "    refused 1: it has 257 vertices, and 256 are the most");
    let beyond = "has a coordinate that is NaN, infinite or above 2^40 in magnitude";
    assert_eq!(lines[3], format!("    refused 2: vertex 258 (0 0 10000000000000) {beyond}"));
    assert_eq!(lines[5], format!("    refused 2: vertex 259 (NaN 0 0) {beyond}"));
    assert!(lines[6].starts_with("a.obj: one"), "{out}");
    assert_eq!(lines[7], "4 cells, 3 to look at");
}

#[test]
fn a_file_that_cannot_be_read_is_told_and_the_others_are_surveyed() {
    let desk = Desk::new();
    desk.put("bad.obj", "v 0 0 0\nf 1 2 3\n");
    desk.put("cube.cell", example("cube.cell"));
    let bad = "wegrusamt: bad.obj: line 2: the face names vertex 2, and the file has 1\n";
    let missing = "wegrusamt: none.obj: No such file or directory (os error 2)\n";
    let kind = "wegrusamt: a.txt: the name does not end in .obj, .off, .ply, .stl or .cell\n";
    desk.put("a.txt", "");
    let out = desk.said("survey --no-heading bad.obj cube.cell none.obj a.txt", 2, &[bad, missing, kind].concat());
    assert!(out.starts_with("cube.cell "), "{out}");
    assert!(out.ends_with("\n1 cell, 0 to look at, 3 files not read\n"), "{out}");
    desk.put("empty.obj", "# nothing\n");
    desk.said("survey empty.obj", 2, "wegrusamt: empty.obj: the file holds no cell\n");
    desk.put("empty.off", "OFF\n0 0 0\n");
    assert!(desk.said("survey empty.off", 1, "").contains("\n    refused 1: it has no vertex\n"));
}

#[test]
fn a_folder_is_surveyed_in_the_order_of_names() {
    let desk = Desk::new();
    fs::create_dir_all(desk.path("plans/deep")).unwrap();
    for (name, example_name) in [("b.cell", "torn.cell"), ("deep/a.cell", "cube.cell"), ("a.cell", "cube.cell")] {
        desk.put(&format!("plans/{name}"), example(example_name));
    }
    let out = desk.said("survey --csv plans", 1, "");
    let names: Vec<&str> = out.lines().map(|line| line.split(',').next().unwrap()).collect();
    assert_eq!(names, ["file", "plans/a.cell", "plans/b.cell", "plans/deep/a.cell"]);
}

#[test]
fn ten_sides_are_listed_and_all_where_wished() {
    let desk = Desk::new();
    let points: String = (0..24).map(|i| format!("v {} {} 0\n", (i * i) % 25, i)).collect();
    let corners: String = (1..=24).map(|i| format!(" {i}")).collect();
    desk.put("a.obj", format!("{points}f{corners}\n"));
    let (_, out, _) = desk.call("survey a.obj");
    assert_eq!(out.matches("the side from").count(), 10);
    assert!(out.contains("and 14 sides more: --all lists them"), "{out}");
    assert_eq!(desk.call("survey --all a.obj").1.matches("the side from").count(), 24);
    assert_eq!(desk.call("survey --json a.obj").1.matches("from_at").count(), 24);
    assert_eq!(desk.call("survey --csv a.obj").1.matches("the side from").count(), 24);
}

#[test]
fn every_format_keeps_every_bit() {
    let desk = Desk::new();
    let bits = [0.1f64, -0.0, 1.0 / 3.0, 5e-324, -123456789.12345679, 2f64.powi(40), 1e-7, 0.30000000000000004];
    let points: String = bits.iter().map(|x| format!("v {x:?} {:?} 7.25\n", -x)).collect();
    desk.put("a.obj", format!("{points}f 1 2 3\nf 4 5 6\nf 7 8 1\n"));
    desk.said("convert a.obj a.cell", 0, "");
    let first = fs::read(desk.path("a.cell")).unwrap();
    let ways = ["b.off", "b.ply", "c.ply --encoding little", "d.ply --encoding big", "b.stl", "e.obj"];
    for way in ways {
        let name = way.split(' ').next().unwrap();
        desk.said(&format!("convert a.cell {way}"), 0, "");
        desk.said(
            &format!("convert {name} {name}.cell"),
            0,
            if name == "b.stl" { "wegrusamt: b.stl: not carried over: normals\n" } else { "" },
        );
        assert_eq!(fs::read(desk.path(&format!("{name}.cell"))).unwrap(), first, "{way}");
    }
}

#[test]
fn what_a_format_cannot_hold_is_told_or_nothing_is_written() {
    let desk = Desk::new();
    desk.put("cube.cell", example("cube.cell"));
    desk.put("two.cell", example("thin-and-far.cell"));
    desk.put("a.obj", BACKWARD);
    desk.said("convert cube.cell a.off", 0, "wegrusamt: a.off: query points are not carried over: 1\n");
    desk.said("convert two.cell b.off", 2, "wegrusamt: b.off: a .off file holds one cell, and these are 2\n");
    assert!(!desk.path("b.off").exists());
    let over = "wegrusamt: a.obj: not carried over: comments, mtllib, usemtl, vn\n";
    desk.said("convert a.obj b.obj", 0, over);
    desk.put("nan.obj", "v nan 0 0\n");
    let nan = "vertex 1 has a coordinate that is no number, and decimals cannot keep its bits";
    desk.said("convert nan.obj nan.off", 2, &format!("wegrusamt: nan.off: {nan}\n"));
    desk.said("convert nan.obj nan.ply --encoding big", 0, "");
    desk.put("tenth.obj", "v 0.1 0 0\nv 1 0 0\nv 0 1 0\nf 1 2 3\n");
    assert_eq!(desk.call("convert tenth.obj tenth.stl --encoding little").0, 2);
    assert!(!desk.path("tenth.stl").exists());
    let own = "wegrusamt: c.obj: .obj files have no other encoding than their own\n";
    desk.said("convert a.obj c.obj --encoding big", 2, own);
}

#[test]
fn a_keyword_that_is_not_read_is_told() {
    let desk = Desk::new();
    desk.put("a.obj", "v 0 0 0\ncurv 0 1 1 2\n");
    desk.said("survey a.obj", 1, "wegrusamt: a.obj: line 2: 'curv' is not read\n");
    desk.put("capital.obj", "V 0 0 0\n");
    desk.said("survey capital.obj", 2, "wegrusamt: capital.obj: the file holds no cell; line 1: 'V' is not read\n");
}

#[test]
fn a_picture_is_drawn_of_the_cells_that_are_asked_for() {
    let desk = Desk::new();
    desk.put("two.cell", example("thin-and-far.cell"));
    desk.said("picture two.cell -o all.svg", 0, "");
    desk.said("picture two.cell -o one.svg --cell cell_2", 2, "wegrusamt: two.cell: no cell has the name 'cell_2'\n");
    desk.said("picture two.cell -o page.html", 0, "");
    assert!(desk.text("all.svg").starts_with("<svg") && desk.text("page.html").starts_with("<!DOCTYPE html>"));
    desk.said("picture two.cell -o a.png", 2, "wegrusamt: a.png: the name does not end in .svg or .html\n");
    let many: String = (0..17).map(|i| format!("o a{i}\nv {i} 0 0\n")).collect();
    desk.put("many.obj", many);
    let full = "wegrusamt: many.obj: the file has 17 cells, and a picture holds 16: name one with --cell\n";
    desk.said("picture many.obj -o many.svg", 2, full);
    desk.said("picture many.obj -o many.svg --cell a3", 0, "");
}

#[test]
fn a_cell_without_a_surface_is_to_be_looked_at() {
    let desk = Desk::new();
    desk.put("points.obj", "v 0 0 0\nv 1 0 0\nl 1 2\nf 1 2\n");
    let out = desk.said("survey --no-heading points.obj", 1, "");
    assert_eq!(out.lines().nth(1), Some("    it has no face of three corners or more, so it has no surface"));
}

#[test]
fn several_groups_are_told_by_survey_and_turn() {
    let desk = Desk::new();
    // Two tetrahedra; of the second three faces are backward, so the fourth is turned, and it runs inward.
    let far = "v 5 0 0\nv 6 0 0\nv 5 1 0\nv 5 0 1\nf 5 7 6\nf 8 6 5\nf 8 7 6\nf 8 5 7\n";
    desk.put("a.obj", format!("{TURNED}{far}"));
    let out = desk.said("turn a.obj -o b.obj", 0, "");
    let groups = "its faces form 2 groups that no side joins: one that runs inward is taken off the others' volume";
    assert_eq!(out, format!("a.obj: face 5 (line 18) turned\na.obj: {groups}\n1 face turned: b.obj is written\n"));
    let out = desk.said("survey --no-heading b.obj", 0, "");
    assert!(out.contains(" 0     yes      0\n") && out.ends_with(&format!("    {groups}\n")), "{out}");
    assert!(desk.call("survey --json b.obj").1.contains("\"groups\":2"));
}

#[test]
fn what_is_said_of_the_move_is_what_was_moved() {
    let desk = Desk::new();
    // A face that goes round twice is short wherever it lies.
    let faces = "f 1 3 2 4 5 6 1 3 5\n";
    desk.put("twice.obj", format!("v 5 5 5\nv 7 5 5\nv 6 7 5\nv 5 6 5\nv 7 6 5\nv 6 4 5\n{faces}"));
    let out = desk.said("survey twice.obj", 1, "");
    let moved =
        "    about a local origin, with 5 5 5 taken off every vertex, exactly, 1 face is still cut short: volume ";
    assert!(out.contains(moved) && !out.contains("since less is rounded"), "{out}");
    desk.put("near.obj", format!("v 0 0 0.5\nv 2 0 0\nv 1 2 0\nv 0 1 0\nv 2 1 0\nv 1 -1 0\n{faces}"));
    let out = desk.said("survey near.obj", 1, "");
    assert!(out.contains("\n    it was not moved: its first vertex lies within 1 of the origin\n"), "{out}");
    // The box of docs/LIMITS.md, with a vertex so near to 0 that no difference from a whole number holds it.
    let foot =
        [["8588590", "8529546"], ["8588590.05", "8529546"], ["8588590.05", "8529546.25"], ["8588590", "8529546.25"]];
    let at = |z: &str| foot.map(|[x, y]| format!("v {x} {y} {z}\n")).concat();
    let sides = "f 1 4 3 2\nf 5 6 7 8\nf 1 2 6 5\nf 3 4 8 7\nf 2 3 7 6\nf 4 1 5 8\n";
    let thin = at("2969498") + &at("2969500");
    desk.put("z.obj", format!("{thin}v 1e-12 1e-12 2969498.5\n{sides}"));
    let out = desk.said("survey z.obj", 1, "");
    assert!(
        out.contains(" taken off every vertex, but not along x and y, where the move is not exact (15), "),
        "{out}"
    );
    desk.put("none.obj", format!("{thin}v 1e-12 1e-12 1e-12\n{sides}"));
    let out = desk.said("survey none.obj", 1, "");
    assert!(
        out.contains("\n    it was not moved to a local origin, since along no axis the move is exact (15)\n"),
        "{out}"
    );
}

#[test]
fn carriage_returns_end_lines() {
    let desk = Desk::new();
    desk.put("a.obj", TURNED.replace("\r\n", "\n").replace('\n', "\r"));
    desk.said("survey a.obj", 0, "");
}

#[test]
fn a_name_steers_no_terminal() {
    let desk = Desk::new();
    desk.put("a\u{1b}[2J.obj", "v 0 0\n");
    let (status, out, err) = desk.call("survey --no-heading .");
    assert_eq!((status, &out[..]), (2, "0 cells, 0 to look at, 1 file not read\n"));
    assert_eq!(err, "wegrusamt: ./a\u{fffd}[2J.obj: line 1: a point needs three numbers\n");
}

#[test]
fn a_picture_holds_no_more_cells_of_one_name() {
    let desk = Desk::new();
    desk.put("many.stl", "solid a\nendsolid\n".repeat(17) + "solid\nendsolid\n");
    let full = "wegrusamt: many.stl: 17 cells have the name 'a', and a picture holds 16\n";
    desk.said("picture many.stl -o a.svg --cell a", 2, full);
    let (status, out, _) = desk.call("survey --csv --no-heading many.stl");
    assert_eq!((status, out.lines().last().unwrap()), (1, "many.stl,solid 18,0,0,,,,,,,,,,,1,it has no vertex"));
}

/// A file that takes no byte.
fn full() -> fs::File {
    fs::OpenOptions::new().write(true).open("/dev/full").unwrap()
}

#[test]
fn a_standard_error_that_cannot_be_written_changes_no_status() {
    let done = Desk::new().plain("survey none.obj").stderr(full()).output().unwrap();
    assert_eq!(done.status.code(), Some(2));
}

#[test]
fn a_full_disk_is_told() {
    let desk = Desk::new();
    desk.put("cube.cell", example("cube.cell"));
    let done = desk.plain("survey cube.cell").stdout(full()).output().unwrap();
    assert_eq!(done.status.code(), Some(2));
    let told = String::from_utf8(done.stderr).unwrap();
    assert_eq!(told, "wegrusamt: standard output: No space left on device (os error 28)\n");
}
