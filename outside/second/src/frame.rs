//! "Each file is an optional preface of any bytes (ignored), a body, and a
//! trailer at the end." What both files share: frame, runs, label sets.

use std::ops::{Range, RangeInclusive};

/// "A refusal writes code, place, 0, 0."
#[derive(Clone, Copy, Debug, PartialEq, Eq)]
pub struct Refusal {
    pub code: u32,
    pub place: u32,
}

/// Refuses with this code and place unless the condition holds.
pub fn demand(condition: bool, code: u32, place: usize) -> Result<(), Refusal> {
    if condition {
        Ok(())
    } else {
        let place = place as u32;
        Err(Refusal { code, place })
    }
}

/// What is fixed about one of the two file forms.
pub struct Form {
    pub lengths: RangeInclusive<usize>,
    pub trailer: usize,
    pub mark: [u8; 4],
    /// The form's code for a wrong length; those for mark, counts and back follow.
    pub first_code: u32,
}

/// The bytes before the trailer, and the trailer: codes 2 and 3, or 9 and 10.
pub fn split<'a>(file: &'a [u8], form: &Form) -> Result<(&'a [u8], &'a [u8]), Refusal> {
    demand(form.lengths.contains(&file.len()), form.first_code, 0)?;
    demand(file.ends_with(&form.mark), form.first_code + 1, 0)?;
    Ok(file.split_at(file.len() - form.trailer))
}

/// "a trailer count above its ceiling": code 4 or 11; pairs of count and ceiling.
pub fn counts(pairs: &[(u64, u64)], form: &Form) -> Result<(), Refusal> {
    let below = pairs.iter().all(|(count, ceiling)| count <= ceiling);
    demand(below, form.first_code + 2, 0)
}

/// The body: code 5 or 12 if "back differs from the body size that the counts
/// give, or is more than the bytes before the trailer".
pub fn body<'a>(before: &'a [u8], back: u64, size: u64, form: &Form) -> Result<&'a [u8], Refusal> {
    let right = back == size && back <= before.len() as u64;
    demand(right, form.first_code + 3, 0)?;
    Ok(&before[before.len() - back as usize..])
}

/// "An object's property rows are a run. The first run of all starts at 0, each
/// next run starts where the one before ended."
pub struct Runs {
    /// Where the next run has to start.
    pub next: u64,
    /// The number of property rows in the file.
    pub rows: u64,
}

impl Runs {
    /// The run a row names, or nothing if its start is wrong or it is past the
    /// rows. "A run of count 0 still gives the current start."
    pub fn take(&mut self, first: u64, count: u64) -> Option<Range<usize>> {
        let end = first + count;
        if first != self.next || end > self.rows {
            return None;
        }
        self.next = end;
        Some(first as usize..end as usize)
    }
}

/// No "label bit at or above the label count".
pub fn labels_below(labels: u64, label_count: u64) -> bool {
    (0..64).all(|k| (labels >> k) & 1 == 0 || k < label_count)
}
