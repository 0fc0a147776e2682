//! Drawings of cells: four views of each as one SVG picture, and a page that also turns them.
//!
//! Nothing is judged here. What is wrong with a cell is handed in, and it is shown where that is.

mod drawing;
mod labels;
mod legend;
mod order;
mod page;
mod scene;
mod svg;
mod text;
mod views;

#[cfg(test)]
mod examples;
#[cfg(test)]
mod tests;

use crate::words::Report;

/// The survey's table.
pub struct Table {
    /// What each column holds.
    pub heading: Vec<String>,
    /// A row for each cell.
    pub rows: Vec<TableRow>,
}

/// What the survey says of a cell.
pub struct TableRow {
    /// The columns, as many as the heading has.
    pub columns: Vec<String>,
    /// What is wrong with the cell, each as a line.
    pub faults: Vec<String>,
}

/// All cells as one SVG picture.
pub fn svg(cells: &[Report<'_>]) -> String {
    svg::picture(cells, "cells")
}

/// The page: the survey's table, the pictures, and sliders that turn each cell.
pub fn page(title: &str, cells: &[Report<'_>], table: &Table) -> String {
    page::page(title, cells, table)
}
