//! Ask 7: "a joiner that writes one file without preface from two graph files".
//! Both files are read to values, the values are put together, and the file of
//! the joined graph is laid out anew.

use crate::frame::Refusal;
use crate::graph::{self, Edge, Graph, Object};
use crate::tables::{Body, Counts, EdgeRow, ObjectRow, PropertyRow};
use crate::values::Value;
use crate::write::{encode, put_file, Outcome};

/// "44 if a joined count is above its ceiling".
const COUNT_ABOVE: u32 = 44;

/// "Refusals: 2 to 8 for the first graph, then for the second, returned with 0
/// or 1 for which; 44 if a joined count is above its ceiling; 42." The outcome is
/// as `write_graph`'s: 0 and the length written, or a refusal.
pub fn join_graphs(first: &[u8], second: &[u8], out: &mut [u8]) -> Outcome {
    match joined_file(first, second) {
        Ok(file) => put_file(&file, out),
        Err(refusal) => refusal,
    }
}

/// The file of the joined graph, or the refusal: all but 42.
fn joined_file(first: &[u8], second: &[u8]) -> Result<Vec<u8>, Outcome> {
    let first = Side::read(first).map_err(|refusal| (refusal.code, 0))?;
    let second = Side::read(second).map_err(|refusal| (refusal.code, 1))?;
    let mut joined = Layout::default();
    joined.put(&first, &second);
    let text = [first.text, second.text].concat();
    let counts = Counts {
        nodes: joined.nodes.len() as u64,
        edges: joined.edges.len() as u64,
        properties: joined.rows.len() as u64,
        text: text.len() as u64,
        // "the greater of the label counts and of the name counts"
        labels: first.counts.labels.max(second.counts.labels),
        names: first.counts.names.max(second.counts.names),
    };
    counts.within_ceilings().map_err(|_| (COUNT_ABOVE, 0))?;
    let Layout { nodes, edges, rows } = joined;
    let text = &text[..];
    let body = Body {
        nodes,
        edges,
        rows,
        text,
    };
    Ok(encode(counts, &body))
}

/// One of the two graphs: its values, and the text bytes that its texts are
/// parts of.
struct Side<'a> {
    counts: Counts,
    graph: Graph<'a>,
    text: &'a [u8],
}

impl<'a> Side<'a> {
    fn read(file: &'a [u8]) -> Result<Side<'a>, Refusal> {
        let (counts, blocks) = graph::open(file)?;
        let graph = graph::judge(&counts, &Body::read(&blocks))?;
        let text = blocks.text;
        Ok(Side {
            counts,
            graph,
            text,
        })
    }
}

/// What a graph of the two becomes part of: which number its node 0 has there,
/// and where its text begins.
struct Moved<'a> {
    node: usize,
    text_at: usize,
    text: &'a [u8],
}

/// The rows of the joined file, as far as they are put.
#[derive(Default)]
struct Layout {
    nodes: Vec<ObjectRow>,
    edges: Vec<EdgeRow>,
    rows: Vec<PropertyRow>,
}

impl Layout {
    /// "the second's nodes after the first's, its edges likewise, ends
    /// renumbered, property runs in the order of the new rows, text appended".
    fn put(&mut self, first: &Side, second: &Side) {
        let sides = [
            (first, Moved::new(first, 0, 0)),
            (
                second,
                Moved::new(second, first.graph.nodes.len(), first.text.len()),
            ),
        ];
        for (side, moved) in &sides {
            for node in &side.graph.nodes {
                let row = self.object(node, moved);
                self.nodes.push(row);
            }
        }
        for (side, moved) in &sides {
            for edge in &side.graph.edges {
                let row = self.edge(edge, moved);
                self.edges.push(row);
            }
        }
    }

    /// The object's row; its property rows are put. "each next run starts where
    /// the one before ended", so where the rows that are there end.
    fn object(&mut self, object: &Object, moved: &Moved) -> ObjectRow {
        let first = self.rows.len() as u64;
        for (name, value) in &object.properties {
            let row = moved.property(*name, value);
            self.rows.push(row);
        }
        ObjectRow {
            labels: object.labels,
            first,
            count: self.rows.len() as u64 - first,
        }
    }

    fn edge(&mut self, edge: &Edge, moved: &Moved) -> EdgeRow {
        EdgeRow {
            object: self.object(&edge.object, moved),
            source: (moved.node + edge.source) as u64,
            target: (moved.node + edge.target) as u64,
        }
    }
}

impl<'a> Moved<'a> {
    fn new(side: &Side<'a>, node: usize, text_at: usize) -> Moved<'a> {
        let text = side.text;
        Moved {
            node,
            text_at,
            text,
        }
    }

    /// The property's row. Of the five kinds only a Text has an offset to move:
    /// where its part lies in its own text bytes, behind where these begin now.
    fn property(&self, name: u64, value: &Value) -> PropertyRow {
        let (kind, length, value) = match *value {
            Value::Boolean(boolean) => (1, 0, u64::from(boolean)),
            Value::Integer(integer) => (2, 0, integer as u64),
            Value::Real(float) => (3, 0, float.to_bits()),
            Value::Date(date) => (4, 0, u64::from(date)),
            Value::Text(part) => {
                let offset = self.text_at + offset_in(self.text, part);
                (5, part.len() as u64, offset as u64)
            }
        };
        PropertyRow {
            name,
            kind,
            zero: 0,
            length,
            value,
        }
    }
}

/// How far behind the first text byte a part begins. A value does not keep its
/// offset, but it is borrowed from the text; equal bytes elsewhere, and parts
/// without a byte, are told apart by where they lie alone.
fn offset_in(text: &[u8], part: &[u8]) -> usize {
    part.as_ptr() as usize - text.as_ptr() as usize
}
