//! "Give them a writer: lent tables of all row fields, text, label count and
//! name count in, a graph file without preface out."

use crate::bytes::{put_u16, put_u32, put_u64, put_u8};
use crate::graph;
use crate::tables::{Blocks, Body, Counts, EdgeRow, ObjectRow, PropertyRow, Trailer, FORM};

/// "41 when a table isn't whole rows or the reader would refuse the values".
const NOT_A_GRAPH: u32 = 41;
/// "42 when the output is shorter than the file".
const OUTPUT_SHORT: u32 = 42;

/// "a tool with an output returns code and number: 0 and the length written, or
/// a refusal and 0 unless its ask says more."
pub type Outcome = (u32, u32);

/// "Output after the file keeps its values; a refusal writes nothing." 41 is
/// "tried first".
pub fn write_graph(
    nodes: &[u8],
    edges: &[u8],
    rows: &[u8],
    text: &[u8],
    labels: u32,
    names: u32,
    out: &mut [u8],
) -> Outcome {
    let blocks = Blocks {
        nodes,
        edges,
        rows,
        text,
    };
    let file = match file_of(&blocks, labels, names) {
        Some(file) => file,
        None => return (NOT_A_GRAPH, 0),
    };
    put_file(&file, out)
}

/// The last of a tool's steps: the file at the start of the output, or 42.
pub fn put_file(file: &[u8], out: &mut [u8]) -> Outcome {
    match out.get_mut(..file.len()) {
        Some(written) => {
            written.copy_from_slice(file);
            (0, file.len() as u32)
        }
        None => (OUTPUT_SHORT, 0),
    }
}

/// The file of these tables, or nothing "when a table isn't whole rows or the
/// reader would refuse the values". Codes 4 and 6 to 8 are about values; 2, 3
/// and 5 cannot come, since the ceilings let a file have 639,004 bytes at most,
/// and its mark and back are put right below.
fn file_of(blocks: &Blocks, labels: u32, names: u32) -> Option<Vec<u8>> {
    if !blocks.whole_rows() {
        return None;
    }
    // Still 32 bits wide when they are judged: 65,536 is no label count of 0.
    let counts = blocks.counts(u64::from(labels), u64::from(names));
    counts.within_ceilings().ok()?;
    let body = Body::read(blocks);
    graph::judge(&counts, &body).ok()?;
    Some(encode(counts, &body))
}

/// "a body, and a trailer at the end", the body "in this order".
pub fn encode(counts: Counts, body: &Body) -> Vec<u8> {
    let mut file = Vec::new();
    for node in &body.nodes {
        put_node(&mut file, node);
    }
    for edge in &body.edges {
        put_edge(&mut file, edge);
    }
    for row in &body.rows {
        put_property(&mut file, row);
    }
    file.extend_from_slice(body.text);
    // "back" is "the distance from its first byte to the body's first byte".
    let back = file.len() as u64;
    put_trailer(&mut file, &Trailer { counts, back });
    file
}

/// "label set (64 bits, bit k is label k), first property row (32), property
/// count (32)"
pub fn put_node(file: &mut Vec<u8>, node: &ObjectRow) {
    put_u64(file, node.labels);
    put_u32(file, node.first);
    put_u32(file, node.count);
}

/// "label set (64), source node (32), target node (32), first property row
/// (32), property count (32)"
pub fn put_edge(file: &mut Vec<u8>, edge: &EdgeRow) {
    put_u64(file, edge.object.labels);
    put_u32(file, edge.source);
    put_u32(file, edge.target);
    put_u32(file, edge.object.first);
    put_u32(file, edge.object.count);
}

/// "name (16), kind (8), zero (8), length (32), value (64)"
pub fn put_property(file: &mut Vec<u8>, row: &PropertyRow) {
    put_u16(file, row.name);
    put_u8(file, row.kind);
    put_u8(file, row.zero);
    put_u32(file, row.length);
    put_u64(file, row.value);
}

/// "nodes N (32), edges E (32), property rows P (32), text bytes T (32), label
/// count (16), name count (16), back (32), the bytes 47 50 48 31"
fn put_trailer(file: &mut Vec<u8>, trailer: &Trailer) {
    put_u32(file, trailer.counts.nodes);
    put_u32(file, trailer.counts.edges);
    put_u32(file, trailer.counts.properties);
    put_u32(file, trailer.counts.text);
    put_u16(file, trailer.counts.labels);
    put_u16(file, trailer.counts.names);
    put_u32(file, trailer.back);
    file.extend_from_slice(&FORM.mark);
}
