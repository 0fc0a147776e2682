//! Prints the volume of every cell in a file of records, as the cell report reads them (SCOPE 15):
//!
//!     cargo run --example cell_volume -- ../../examples/cube.cell
//!
//! Ends with 0 where every cell has a volume, 1 where one is refused, 2 where the file cannot be
//! read.

use std::env;
use std::fs;
use std::process::ExitCode;

use wegrusamt::CellBuf;

fn main() -> ExitCode {
    let Some(file) = env::args_os().nth(1) else {
        eprintln!("cell_volume: name a file of cells, such as ../../examples/cube.cell");
        return ExitCode::from(2);
    };
    let name = file.to_string_lossy();
    let cells = fs::read(&file)
        .map_err(|error| error.to_string())
        .and_then(|bytes| read_cells(&bytes));
    let cells = match cells {
        Ok(cells) => cells,
        Err(why) => {
            eprintln!("cell_volume: {name}: {why}");
            return ExitCode::from(2);
        }
    };

    let mut code = ExitCode::SUCCESS;
    for (number, cell) in (1..).zip(&cells) {
        match cell.as_cell().volume() {
            Ok(volume) => println!("cell {number} volume {volume}"),
            Err(refusal) => {
                println!("cell {number} {refusal}");
                code = ExitCode::FAILURE;
            }
        }
    }
    code
}

/// The cells of a file: records of 32 bytes, each a kind, seven zeros and three fields of 8 bytes.
fn read_cells(bytes: &[u8]) -> Result<Vec<CellBuf>, String> {
    if bytes.len() % 32 != 0 {
        return Err(format!("{} bytes are not whole records of 32", bytes.len()));
    }
    let mut cells = Vec::new();
    let mut cell = CellBuf::new();
    let mut open = false;
    for (number, record) in (1..).zip(bytes.chunks_exact(32)) {
        let ended =
            take_record(&mut cell, record).map_err(|why| format!("record {number}: {why}"))?;
        open = !ended;
        if ended {
            cells.push(std::mem::take(&mut cell));
        }
    }
    if open {
        return Err("the last cell has no end".to_string());
    }
    Ok(cells)
}

/// Adds a record to the cell, and says whether it ends the cell.
fn take_record(cell: &mut CellBuf, record: &[u8]) -> Result<bool, String> {
    let [a, b, c] = [8, 16, 24].map(|at| {
        let field = record[at..at + 8].try_into().expect("eight bytes");
        u64::from_le_bytes(field)
    });
    let kind = record[0];
    let zeros = match kind {
        1 | 5 => true,
        2 => b == 0 && c == 0,
        _ => a == 0 && b == 0 && c == 0,
    };
    if !(1..=5).contains(&kind) {
        return Err(format!(
            "{kind} is no kind of record: is this a file of cells?"
        ));
    }
    if !zeros || record[1..8].iter().any(|&spare| spare != 0) {
        return Err("a spare byte or field is not 0".to_string());
    }
    match kind {
        1 => cell.points.push([a, b, c].map(f64::from_bits)),
        2 => cell
            .corners
            .push(u32::try_from(a).map_err(|_| format!("the corner {a} is over 32 bits"))?),
        3 => cell.end_face(),
        4 if cell.ends.last().map_or(0, |&end| end as usize) != cell.corners.len() => {
            return Err("the cell ends in an open face".to_string());
        }
        4 => return Ok(true),
        _ => {} // a query point, which no volume needs
    }
    Ok(false)
}
