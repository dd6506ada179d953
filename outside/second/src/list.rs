//! Ask 6: "a second entry that fills a list of violation records that the caller
//! lends, each with code, place, schema place, count and property name."

use crate::every::all_violations;
use crate::frame::Refusal;
use crate::rules::Answer;
use crate::{graph, schema};

/// Every violation of two accepted files, or the refusal: "Refusals: the old
/// entry's without 1, in the same order".
pub type Violations = Result<Vec<Answer>, Refusal>;

/// What two files have.
pub fn violations(graph: &[u8], schema: &[u8]) -> Violations {
    let graph = graph::decode(graph)?;
    let schema = schema::decode(schema)?;
    Ok(all_violations(&graph, &schema))
}

/// "Code and place of a refusal, else 0 and 0, are returned with the total
/// number, and records beyond those written keep their values."
pub fn fill(list: &mut [Answer], found: &Violations) -> [u32; 3] {
    match found {
        // "with total 0 and no record touched"
        Err(refusal) => [refusal.code, refusal.place, 0],
        // "If there are more than fit, the first ones are written."
        Ok(all) => {
            for (record, violation) in list.iter_mut().zip(all) {
                *record = *violation;
            }
            [0, 0, all.len() as u32]
        }
    }
}

/// Code, place and total; the list has what fits of the violations.
pub fn check_all(graph: &[u8], schema: &[u8], list: &mut [Answer]) -> [u32; 3] {
    fill(list, &violations(graph, schema))
}
