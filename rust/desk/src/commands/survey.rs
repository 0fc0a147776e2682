//! `survey`: a row for each cell.

use std::io::{self, BufWriter, Write};

use indicatif::{ProgressBar, ProgressDrawTarget, ProgressStyle};
use rayon::prelude::*;

use super::{Status, SurveyWish, about, complain, shown};
use crate::files::{Found, found, load, size};
use crate::findings::examine;
use crate::json;
use crate::model::Piece;
use crate::words::{self, CSV_HEADINGS, Report, Wish};

/// The most files and bytes that are read at once: so that memory does not go by their number.
const AT_ONCE_FILES: usize = 1024;
const AT_ONCE_BYTES: u64 = 64 << 20;

/// How wide the column of names is at most.
const WIDEST_NAME: usize = 60;

/// A cell as it is told.
enum Row {
    /// A line that is ready.
    Line(String),
    /// The columns of a row, which are as wide as the widest, and the lines below it.
    Columns(Vec<String>, Vec<String>),
}

/// What there is to tell of a file: a row for each cell and whether the cell is sound, or why the file could not be
/// read.
struct Told {
    rows: Vec<(Row, bool)>,
    complaints: Vec<String>,
    unread: bool,
}

/// What is written, and what it comes to.
struct Output<'a, W: Write> {
    wish: &'a SurveyWish,
    out: W,
    name_width: Option<usize>,
    cells: usize,
    to_look_at: usize,
    unread: usize,
}

pub(super) fn run(wish: &SurveyWish) -> Result<Status, String> {
    let files = found(&wish.files);
    let out = BufWriter::new(io::stdout().lock());
    let mut output = Output { wish, out, name_width: None, cells: 0, to_look_at: 0, unread: 0 };
    let bar = progress(files.len());
    let outcome = survey_all(&files, &bar, &mut output);
    bar.finish_and_clear();
    outcome.and_then(|()| output.finish()).map_err(|error| format!("standard output: {error}"))
}

/// A bar on standard error. It hides itself where that is no terminal.
fn progress(files: usize) -> ProgressBar {
    let bar = ProgressBar::with_draw_target(Some(files as u64), ProgressDrawTarget::stderr());
    let style = ProgressStyle::with_template("{wide_bar} {pos} of {len} files, {eta} left");
    bar.with_style(style.unwrap_or_else(|_| ProgressStyle::default_bar()))
}

/// Reads and measures the files on all cores, some at once, and tells of them in their order.
fn survey_all(files: &[Found], bar: &ProgressBar, output: &mut Output<'_, impl Write>) -> io::Result<()> {
    let mut rest = files;
    while !rest.is_empty() {
        let (now, later) = rest.split_at(at_once(rest));
        let (wish, count) = (output.wish, |_: &Told| bar.inc(1));
        let told: Vec<Told> = now.par_iter().map(|file| tell(wish, file)).inspect(count).collect();
        // The bar steps aside while rows are written, since both may go to one terminal.
        bar.suspend(|| output.take(told))?;
        rest = later;
    }
    Ok(())
}

/// How many of the files are read at once, at least one.
fn at_once(files: &[Found]) -> usize {
    let mut bytes = 0u64;
    let sizes = files.iter().take(AT_ONCE_FILES).map(|file| file.as_ref().map_or(0, |path| size(path)));
    let fit = sizes.take_while(|size| {
        bytes = bytes.saturating_add(*size);
        bytes <= AT_ONCE_BYTES
    });
    fit.count().max(1)
}

impl<W: Write> Output<'_, W> {
    /// Writes what there is to tell of some files, and adds it up.
    fn take(&mut self, told: Vec<Told>) -> io::Result<()> {
        if self.name_width.is_none() {
            self.name_width = Some(name_width(&told));
            self.write_heading()?;
        }
        for file in told {
            self.unread += usize::from(file.unread);
            for (row, sound) in file.rows {
                self.cells += 1;
                self.to_look_at += usize::from(!sound);
                self.write_row(&row)?;
            }
            if !file.complaints.is_empty() {
                // Rows before it come first, where both go to one terminal.
                self.out.flush()?;
                file.complaints.iter().for_each(complain);
            }
        }
        self.out.flush()
    }

    fn write_heading(&mut self) -> io::Result<()> {
        if self.wish.no_heading || self.wish.json {
            return Ok(());
        }
        if self.wish.csv {
            return self.out.write_all(csv_line(&CSV_HEADINGS.map(str::to_string)).as_bytes());
        }
        self.write_row(&Row::Columns(words::headings(self.wish.of_words()), Vec::new()))
    }

    fn write_row(&mut self, row: &Row) -> io::Result<()> {
        match row {
            Row::Line(line) => self.out.write_all(line.as_bytes()),
            Row::Columns(columns, faults) => {
                writeln!(self.out, "{}", words::line(columns, self.name_width.unwrap_or_default()))?;
                faults.iter().try_for_each(|fault| writeln!(self.out, "    {fault}"))
            }
        }
    }

    /// The last line, and the status.
    fn finish(mut self) -> io::Result<Status> {
        if !self.wish.csv && !self.wish.json && (self.cells > 1 || self.unread > 0) {
            let unread = match self.unread {
                0 => String::new(),
                count => format!(", {} not read", words::counted(count, "file", "files")),
            };
            let cells = words::counted(self.cells, "cell", "cells");
            writeln!(self.out, "{cells}, {} to look at{unread}", self.to_look_at)?;
        }
        self.out.flush()?;
        Ok(match self {
            Output { unread: 1.., .. } => Status::Failed,
            Output { to_look_at: 0, .. } => Status::Well,
            _ => Status::LookAt,
        })
    }
}

/// How wide the column of names is: as the widest of the first files, within bounds.
fn name_width(told: &[Told]) -> usize {
    let names = told.iter().flat_map(|file| &file.rows).map(|(row, _)| match row {
        Row::Line(_) => 0,
        Row::Columns(columns, _) => columns[0].chars().count(),
    });
    names.max().unwrap_or(0).clamp(4, WIDEST_NAME)
}

impl SurveyWish {
    fn of_words(&self) -> Wish {
        Wish { bits: self.bits, all: self.all }
    }
}

/// What there is to tell of a file.
fn tell(wish: &SurveyWish, file: &Found) -> Told {
    let loaded = match file {
        Ok(path) => load(path).map_err(|bad| about(path, bad)).map(|loaded| (path, loaded.drawing)),
        Err((folder, why)) => Err(about(folder, why)),
    };
    match loaded {
        Err(why) => Told { rows: Vec::new(), complaints: vec![why], unread: true },
        Ok((path, drawing)) => {
            // Programs get the name as it is; what people read steers no terminal.
            let name = if wish.json || wish.csv { path.display().to_string() } else { shown(path) };
            let rows = drawing.pieces.par_iter().map(|piece| row(wish, &name, piece)).collect();
            let complaints = drawing.notes.iter().map(|note| about(path, note)).collect();
            Told { rows, complaints, unread: false }
        }
    }
}

/// What there is to tell of a cell, and whether it is closed and fully cut.
fn row(wish: &SurveyWish, file: &str, piece: &Piece) -> (Row, bool) {
    let findings = examine(&piece.cell);
    let sound = findings.as_ref().is_ok_and(|found| found.is_sound());
    let report = Report { file, piece, findings: &findings };
    let words = wish.of_words();
    let row = if wish.json {
        Row::Line(json::line(&report, words) + "\n")
    } else if wish.csv {
        Row::Line(csv_line(&report.csv(words)))
    } else {
        Row::Columns(report.columns(words), report.faults(words))
    };
    (row, sound)
}

/// Columns as a line of comma-separated values.
fn csv_line(columns: &[String]) -> String {
    let mut writer = csv::Writer::from_writer(Vec::new());
    let written = writer.write_record(columns).ok().and_then(|()| writer.into_inner().ok());
    written.and_then(|bytes| String::from_utf8(bytes).ok()).expect("a list in memory takes every line")
}
