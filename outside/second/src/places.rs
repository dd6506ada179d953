//! Where the tables of an accepted graph file lie.

use crate::frame::Refusal;
use crate::graph;
use crate::tables::{Body, FORM};

/// "twelve 32-bit numbers, in this order: code, place, nodes_at, nodes,
/// edges_at, edges, rows_at, rows, text_at, text, labels, names". "A refused
/// file: code and place as in the refusals 2 to 8, the other ten numbers 0."
pub fn find_tables(graph: &[u8]) -> [u32; 12] {
    match places(graph) {
        Ok(numbers) => numbers.map(|number| number as u32),
        Err(Refusal { code, place }) => [code, place, 0, 0, 0, 0, 0, 0, 0, 0, 0, 0],
    }
}

/// The twelve numbers of an accepted file: "each `.._at` is the offset of that
/// table's first byte from the file's first byte (preface included)". "An empty
/// table has the offset where it would start."
fn places(file: &[u8]) -> Result<[u64; 12], Refusal> {
    let (counts, blocks) = graph::open(file)?;
    graph::judge(&counts, &Body::read(&blocks))?;

    // The trailer is at the end; the text bytes end where it begins, and each
    // table ends where the next one begins.
    let trailer_at = file.len() - FORM.trailer;
    let text_at = trailer_at - blocks.text.len();
    let rows_at = text_at - blocks.rows.len();
    let edges_at = rows_at - blocks.edges.len();
    let nodes_at = edges_at - blocks.nodes.len();
    Ok([
        0,
        0,
        nodes_at as u64,
        counts.nodes,
        edges_at as u64,
        counts.edges,
        rows_at as u64,
        counts.properties,
        text_at as u64,
        counts.text,
        counts.labels,
        counts.names,
    ])
}
