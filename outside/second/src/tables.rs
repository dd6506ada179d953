//! The tables of a graph file: as blocks of bytes, and row by row as fields.
//! Only counts and ceilings are looked at here; the rows are judged in `graph`.

use crate::bytes::{u16_at, u32_at, u64_at, u8_at};
use crate::frame::{self, Form, Refusal};

pub const FORM: Form = Form {
    lengths: 28..=1_048_576,
    trailer: 28,
    mark: [0x47, 0x50, 0x48, 0x31],
    first_code: 2,
};

const NODE_ROW: usize = 16;
const EDGE_ROW: usize = 24;
const PROPERTY_ROW: usize = 16;

/// What the trailer counts.
#[derive(Clone, Copy, Debug, PartialEq, Eq)]
pub struct Counts {
    pub nodes: u64,
    pub edges: u64,
    pub properties: u64,
    pub text: u64,
    pub labels: u64,
    pub names: u64,
}

impl Counts {
    /// "N up to 1,024, E up to 4,096, P up to 16,384, T up to 262,144, labels up
    /// to 64, names up to 256": code 4.
    pub fn within_ceilings(&self) -> Result<(), Refusal> {
        let pairs = [
            (self.nodes, 1_024),
            (self.edges, 4_096),
            (self.properties, 16_384),
            (self.text, 262_144),
            (self.labels, 64),
            (self.names, 256),
        ];
        frame::counts(&pairs, &FORM)
    }

    /// "the body size that the counts give"
    pub fn body_size(&self) -> u64 {
        self.nodes * NODE_ROW as u64
            + self.edges * EDGE_ROW as u64
            + self.properties * PROPERTY_ROW as u64
            + self.text
    }
}

/// "Graph trailer, 28 bytes", all but its mark.
pub struct Trailer {
    pub counts: Counts,
    pub back: u64,
}

impl Trailer {
    pub fn read(trailer: &[u8]) -> Trailer {
        Trailer {
            counts: Counts {
                nodes: u32_at(trailer, 0),
                edges: u32_at(trailer, 4),
                properties: u32_at(trailer, 8),
                text: u32_at(trailer, 12),
                labels: u16_at(trailer, 16),
                names: u16_at(trailer, 18),
            },
            back: u32_at(trailer, 20),
        }
    }
}

/// The four parts of a graph body, each a block of bytes.
#[derive(Clone, Copy)]
pub struct Blocks<'a> {
    pub nodes: &'a [u8],
    pub edges: &'a [u8],
    pub rows: &'a [u8],
    pub text: &'a [u8],
}

impl<'a> Blocks<'a> {
    /// The parts of a body that has the size these counts give.
    pub fn of_body(body: &'a [u8], counts: &Counts) -> Blocks<'a> {
        let (nodes, body) = body.split_at(counts.nodes as usize * NODE_ROW);
        let (edges, body) = body.split_at(counts.edges as usize * EDGE_ROW);
        let (rows, text) = body.split_at(counts.properties as usize * PROPERTY_ROW);
        Blocks {
            nodes,
            edges,
            rows,
            text,
        }
    }

    /// Whether every table is whole rows; text bytes are no rows.
    pub fn whole_rows(&self) -> bool {
        self.nodes.len() % NODE_ROW == 0
            && self.edges.len() % EDGE_ROW == 0
            && self.rows.len() % PROPERTY_ROW == 0
    }

    /// What a trailer would count for these blocks of whole rows.
    pub fn counts(&self, labels: u64, names: u64) -> Counts {
        Counts {
            nodes: (self.nodes.len() / NODE_ROW) as u64,
            edges: (self.edges.len() / EDGE_ROW) as u64,
            properties: (self.rows.len() / PROPERTY_ROW) as u64,
            text: self.text.len() as u64,
            labels,
            names,
        }
    }
}

/// "Node row, 16 bytes", or what an edge row has besides its ends.
#[derive(Clone, Copy, Debug, PartialEq, Eq)]
pub struct ObjectRow {
    pub labels: u64,
    pub first: u64,
    pub count: u64,
}

/// "Edge row, 24 bytes".
#[derive(Clone, Copy, Debug, PartialEq, Eq)]
pub struct EdgeRow {
    pub object: ObjectRow,
    pub source: u64,
    pub target: u64,
}

/// "Property row, 16 bytes".
#[derive(Clone, Copy, Debug, PartialEq, Eq)]
pub struct PropertyRow {
    pub name: u64,
    pub kind: u64,
    pub zero: u64,
    pub length: u64,
    pub value: u64,
}

impl ObjectRow {
    /// "label set (64 bits, bit k is label k), first property row (32), property
    /// count (32)"; the last two begin at this offset.
    fn read(row: &[u8], run_at: usize) -> ObjectRow {
        ObjectRow {
            labels: u64_at(row, 0),
            first: u32_at(row, run_at),
            count: u32_at(row, run_at + 4),
        }
    }
}

impl EdgeRow {
    /// "label set (64), source node (32), target node (32), first property row
    /// (32), property count (32)"
    fn read(row: &[u8]) -> EdgeRow {
        EdgeRow {
            object: ObjectRow::read(row, 16),
            source: u32_at(row, 8),
            target: u32_at(row, 12),
        }
    }
}

impl PropertyRow {
    /// "name (16), kind (8), zero (8), length (32), value (64)"
    fn read(row: &[u8]) -> PropertyRow {
        PropertyRow {
            name: u16_at(row, 0),
            kind: u8_at(row, 2),
            zero: u8_at(row, 3),
            length: u32_at(row, 4),
            value: u64_at(row, 8),
        }
    }
}

/// The four parts of a graph body, each row as its fields.
pub struct Body<'a> {
    pub nodes: Vec<ObjectRow>,
    pub edges: Vec<EdgeRow>,
    pub rows: Vec<PropertyRow>,
    pub text: &'a [u8],
}

impl<'a> Body<'a> {
    /// The fields of these blocks of whole rows.
    pub fn read(blocks: &Blocks<'a>) -> Body<'a> {
        let nodes = blocks.nodes.chunks_exact(NODE_ROW);
        let edges = blocks.edges.chunks_exact(EDGE_ROW);
        let rows = blocks.rows.chunks_exact(PROPERTY_ROW);
        Body {
            nodes: nodes.map(|row| ObjectRow::read(row, 8)).collect(),
            edges: edges.map(EdgeRow::read).collect(),
            rows: rows.map(PropertyRow::read).collect(),
            text: blocks.text,
        }
    }
}
