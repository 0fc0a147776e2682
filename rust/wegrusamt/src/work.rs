//! Work lists, and the outline that clipping shows in one of them.

use crate::Refusal;

/// The most numbers that a work list may have: a longer one is refused as [`Refusal::Size`].
pub const WORK_NUMBERS: usize = 3072;

/// Two work lists of the greatest length, and what is asked with them.
pub(crate) fn with_lists<const D: usize, T>(
    ask: impl FnOnce(&mut [[f64; D]], &mut [[f64; D]]) -> T,
) -> T {
    let mut first = vec![[0.0; D]; WORK_NUMBERS / D];
    let mut second = first.clone();
    ask(&mut first, &mut second)
}

/// The outline where one is left: the filled stretch of the list that shows it.
/// `shown` is how many points it has, and 0 or 1 for the list.
pub(crate) fn outline<'w, const D: usize>(
    number: u8,
    shown: [usize; 2],
    first: &'w [[f64; D]],
    second: &'w [[f64; D]],
) -> Result<Option<&'w [[f64; D]]>, Refusal> {
    let [count, list] = Refusal::answer(number, shown)?;
    let list = if list == 0 { first } else { second };
    Ok((count > 0).then(|| &list[..count]))
}
