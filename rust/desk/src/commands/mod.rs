//! The four commands, and what they answer.

mod convert;
mod picture;
mod survey;
mod turn;

use std::fmt;
use std::io::{self, Write};
use std::path::{Path, PathBuf};
use std::process::ExitCode;

use clap::{Args, Parser, Subcommand};

use crate::files::{Loaded, load};
use crate::formats::{Encoding, text};

/// The command line.
#[derive(Debug, Parser)]
#[command(name = "wegrusamt", version, about, long_about = None, after_help = AFTER_HELP)]
pub struct Arguments {
    #[command(subcommand)]
    command: Command,
}

const AFTER_HELP: &str = "Files end in .obj, .off, .ply, .stl or .cell. docs/DESK.md says how they are read.
Status 2: a file could not be read or written. 1, of survey and turn: something is to be looked at. Else 0.";

#[derive(Debug, Subcommand)]
enum Command {
    /// Tell of each cell its volume and what is wrong with it
    Survey(SurveyWish),
    /// Write the file again with its backward faces turned
    Turn(TurnWish),
    /// Write the same cells in another format
    Convert(ConvertWish),
    /// Draw the cells and what is wrong with them
    Picture(PictureWish),
}

/// What `survey` is asked.
#[derive(Debug, Args)]
struct SurveyWish {
    /// Files, or folders of them
    #[arg(required = true, value_name = "FILE")]
    files: Vec<PathBuf>,
    /// A line for each cell, its columns parted by commas
    #[arg(long, conflicts_with = "json")]
    csv: bool,
    /// A JSON object on a line for each cell
    #[arg(long)]
    json: bool,
    /// The bits of each volume, too
    #[arg(long)]
    bits: bool,
    /// Every side and face that is wrong, not only the first ten
    #[arg(long)]
    all: bool,
    /// No line of headings
    #[arg(long)]
    no_heading: bool,
}

/// What `turn` is asked.
#[derive(Debug, Args)]
struct TurnWish {
    /// The file
    #[arg(value_name = "FILE")]
    file: PathBuf,
    /// The file that is written
    #[arg(short, long, value_name = "OUT")]
    out: PathBuf,
    /// Replace OUT where it is there already
    #[arg(long)]
    force: bool,
}

/// What `convert` is asked.
#[derive(Debug, Args)]
struct ConvertWish {
    /// The file that is read
    #[arg(value_name = "IN")]
    file: PathBuf,
    /// The file that is written; its ending says in which format
    #[arg(value_name = "OUT")]
    out: PathBuf,
    /// How numbers are written in a PLY file, or in an STL file, which is text or little
    #[arg(long, value_enum, default_value_t)]
    encoding: Encoding,
    /// Replace OUT where it is there already
    #[arg(long)]
    force: bool,
}

/// What `picture` is asked.
#[derive(Debug, Args)]
struct PictureWish {
    /// The file
    #[arg(value_name = "FILE")]
    file: PathBuf,
    /// The picture that is written: OUT.svg, or OUT.html for a page
    #[arg(short, long, value_name = "OUT")]
    out: PathBuf,
    /// The cell that is drawn, by its name in the file
    #[arg(long, value_name = "NAME")]
    cell: Option<String>,
    /// Replace OUT where it is there already
    #[arg(long)]
    force: bool,
}

/// How a command ends.
#[derive(Clone, Copy, Debug, PartialEq, Eq, PartialOrd, Ord)]
pub enum Status {
    /// There is nothing to look at.
    Well,
    /// There is something to look at.
    LookAt,
    /// A file could not be read or written.
    Failed,
}

impl From<Status> for ExitCode {
    fn from(status: Status) -> ExitCode {
        ExitCode::from(status as u8)
    }
}

/// Does what is asked.
pub fn run(arguments: &Arguments) -> Status {
    let done = match &arguments.command {
        Command::Survey(wish) => survey::run(wish),
        Command::Turn(wish) => turn::run(wish),
        Command::Convert(wish) => convert::run(wish),
        Command::Picture(wish) => picture::run(wish),
    };
    done.unwrap_or_else(|failure| {
        complain(failure);
        Status::Failed
    })
}

/// Says on standard error what went wrong, or what is lost.
fn complain(what: impl fmt::Display) {
    // Where nothing can be said on standard error, there is no other place to say so; the status stays.
    let _ = writeln!(io::stderr(), "wegrusamt: {what}");
}

/// A file's name as it is shown: it steers no terminal, and breaks no row.
fn shown(path: &Path) -> String {
    text::name(path.as_os_str().as_encoded_bytes())
}

/// What went wrong with a file.
fn about(path: &Path, what: impl fmt::Display) -> String {
    format!("{}: {what}", shown(path))
}

/// Reads a file, and tells of what it holds that is not read.
fn loaded(path: &Path) -> Result<Loaded, String> {
    let loaded = load(path).map_err(|bad| about(path, bad))?;
    loaded.drawing.notes.iter().for_each(|note| complain(about(path, note)));
    Ok(loaded)
}
