//! What the line protocol offers of the counted build.

use super::ear_clip_tests;
use crate::protocol::{Show, Words};

pub(crate) fn answer(entry: &str, mut words: Words) -> Result<String, String> {
    if entry != "ear_clip_tests" {
        return Err(format!("`{entry}` is no function of the counted build"));
    }
    let points: Vec<[f64; 3]> = words.read()?;
    let face: Vec<usize> = words.read()?;
    words.end()?;
    let (triangles, tests) = ear_clip_tests(&points, &face);
    Ok((triangles, tests.all()).show())
}
