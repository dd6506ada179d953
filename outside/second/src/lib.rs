//! A second checker of property graphs against schemas: each file is decoded
//! into plain values or refused, then the four rules run over the values, up to
//! the first violation or through all of them. And a writer of graph files, with
//! the places of an accepted file's tables, a reader of angle sheets that writes
//! a sheet's graph, and a joiner of two graph files.
#![forbid(unsafe_code)]

pub mod bytes;
pub mod every;
pub mod fits;
pub mod frame;
pub mod graph;
pub mod join;
pub mod list;
pub mod places;
pub mod rules;
pub mod schema;
pub mod sheet;
pub mod tables;
pub mod values;
pub mod write;

pub use join::join_graphs;
pub use list::{check_all, fill, violations, Violations};
pub use places::find_tables;
pub use sheet::read_sheet;
pub use write::{write_graph, Outcome};

use frame::Refusal;

/// Code, place, schema place, count and property for a graph file and a schema
/// file. Ask 2: the property is "0 for all other codes" than 22 and 24.
pub fn answer(graph: &[u8], schema: &[u8]) -> [u32; 5] {
    match judge(graph, schema) {
        // "A refusal writes code, place, 0, 0."
        Err(refusal) => [refusal.code, refusal.place, 0, 0, 0],
        Ok(Some(violation)) => violation,
        // "conforms: 0, 0, 0"
        Ok(None) => [0, 0, 0, 0, 0],
    }
}

/// The graph's refusals, 2 to 8, come before the schema's, 9 to 15.
fn judge(graph: &[u8], schema: &[u8]) -> Result<Option<rules::Answer>, Refusal> {
    let graph = graph::decode(graph)?;
    let schema = schema::decode(schema)?;
    Ok(rules::first_violation(&graph, &schema))
}

/// "The code is returned and also written." Ask 2: "The answer block is 20 bytes
/// from now on", so its first 20 bytes "become" five "unsigned 32-bit numbers,
/// low byte first", and bytes from 20 on "keep their values". "Refusals: 1 below
/// 20 bytes": "code 1 is returned and nothing is written."
pub fn check(graph: &[u8], schema: &[u8], block: &mut [u8]) -> u32 {
    if block.len() < 20 {
        return 1;
    }
    let answer = answer(graph, schema);
    bytes::put_answer(block, answer);
    answer[0]
}
