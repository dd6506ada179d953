//! A schema file, decoded into plain values or refused with codes 9 to 15.

use crate::bytes::{u16_at, u32_at, u64_at, u8_at};
use crate::frame::{self, demand, labels_below, Form, Refusal, Runs};
use crate::values::Kind;
use std::ops::Range;

/// A listed property: its name, its type, and whether it may be absent.
#[derive(Clone, Copy, Debug, PartialEq, Eq)]
pub struct Listed {
    pub name: u64,
    pub kind: Kind,
    pub optional: bool,
}

/// A schema node, or what a schema edge has besides its ends and intervals.
#[derive(Clone, Debug, PartialEq, Eq)]
pub struct ObjectType {
    pub labels: u64,
    pub listed: Vec<Listed>,
    pub open: bool,
}

/// An interval of numbers; a maximum of `None` is "any".
#[derive(Clone, Copy, Debug, PartialEq, Eq)]
pub struct Interval {
    pub minimum: u64,
    pub maximum: Option<u64>,
}

#[derive(Clone, Debug, PartialEq, Eq)]
pub struct SchemaEdge {
    pub object: ObjectType,
    pub source: usize,
    pub target: usize,
    pub source_interval: Interval,
    pub target_interval: Interval,
}

#[derive(Clone, Debug, PartialEq, Eq)]
pub struct Schema {
    pub nodes: Vec<ObjectType>,
    pub edges: Vec<SchemaEdge>,
}

const FORM: Form = Form {
    lengths: 20..=16_384,
    trailer: 20,
    mark: [0x53, 0x43, 0x48, 0x31],
    first_code: 9,
};

const NODE_ROW: usize = 16;
const EDGE_ROW: usize = 40;
const PROPERTY_ROW: usize = 4;

struct Trailer {
    nodes: u64,
    edges: u64,
    properties: u64,
    labels: u64,
    names: u64,
    back: u64,
}

impl Trailer {
    fn read(trailer: &[u8]) -> Trailer {
        Trailer {
            nodes: u16_at(trailer, 0),
            edges: u16_at(trailer, 2),
            properties: u32_at(trailer, 4),
            labels: u16_at(trailer, 8),
            names: u16_at(trailer, 10),
            back: u32_at(trailer, 12),
        }
    }

    fn within_ceilings(&self) -> Result<(), Refusal> {
        let pairs = [
            (self.nodes, 32),
            (self.edges, 64),
            (self.properties, 1_024),
            (self.labels, 64),
            (self.names, 256),
        ];
        frame::counts(&pairs, &FORM)
    }

    fn body_size(&self) -> u64 {
        self.nodes * NODE_ROW as u64
            + self.edges * EDGE_ROW as u64
            + self.properties * PROPERTY_ROW as u64
    }
}

/// What schema node rows and schema edge rows share: label set, run and open.
struct Row {
    labels: u64,
    run: Range<usize>,
    open: bool,
}

/// What a schema edge row has besides: ends, source and target interval.
struct EdgeRow {
    row: Row,
    source: usize,
    target: usize,
    source_interval: Interval,
    target_interval: Interval,
}

/// The schema, or the first refusal: "Codes are tried in rising order, all of
/// one code before the next."
pub fn decode(file: &[u8]) -> Result<Schema, Refusal> {
    let (before, trailer) = frame::split(file, &FORM)?;
    let trailer = Trailer::read(trailer);
    trailer.within_ceilings()?;
    let body = frame::body(before, trailer.back, trailer.body_size(), &FORM)?;

    let (node_rows, body) = body.split_at(trailer.nodes as usize * NODE_ROW);
    let (edge_rows, rows) = body.split_at(trailer.edges as usize * EDGE_ROW);

    let mut runs = Runs {
        next: 0,
        rows: trailer.properties,
    };
    let nodes = read_nodes(node_rows, &trailer, &mut runs)?;
    let edges = read_edges(edge_rows, &trailer, &mut runs)?;
    let names = trailer.names;
    let nodes = nodes.into_iter().map(|row| object_type(row, rows, names));
    let nodes = nodes.collect::<Result<_, _>>()?;
    let edges = edges.into_iter().map(|row| schema_edge(row, rows, names));
    let edges = edges.collect::<Result<_, _>>()?;
    // Code 15, "in no run": the rows from the last run's end on.
    demand(runs.next == runs.rows, 15, runs.next as usize)?;
    Ok(Schema { nodes, edges })
}

/// The shared part of a row whose run fields begin at this offset, if it has no
/// "label bit at or above the label count, run start wrong or run past the
/// rows; schema also: open not 0 or 1".
fn read_row(row: &[u8], run_at: usize, trailer: &Trailer, runs: &mut Runs) -> Option<Row> {
    let labels = u64_at(row, 0);
    let run = runs.take(u32_at(row, run_at), u16_at(row, run_at + 4))?;
    let open = u16_at(row, run_at + 6);
    if !labels_below(labels, trailer.labels) || open > 1 {
        return None;
    }
    let open = open == 1;
    Some(Row { labels, run, open })
}

/// Code 13.
fn read_nodes(rows: &[u8], trailer: &Trailer, runs: &mut Runs) -> Result<Vec<Row>, Refusal> {
    let mut nodes = Vec::new();
    for (place, row) in rows.chunks_exact(NODE_ROW).enumerate() {
        let node = read_row(row, 8, trailer, runs);
        demand(node.is_some(), 13, place)?;
        nodes.extend(node);
    }
    Ok(nodes)
}

/// Code 14.
fn read_edges(rows: &[u8], trailer: &Trailer, runs: &mut Runs) -> Result<Vec<EdgeRow>, Refusal> {
    let mut edges = Vec::new();
    for (place, row) in rows.chunks_exact(EDGE_ROW).enumerate() {
        let edge = read_edge(row, trailer, runs);
        demand(edge.is_some(), 14, place)?;
        edges.extend(edge);
    }
    Ok(edges)
}

/// "the same; or an end not below the node count; schema also: minimum or
/// maximum not allowed, or minimum above maximum".
fn read_edge(row: &[u8], trailer: &Trailer, runs: &mut Runs) -> Option<EdgeRow> {
    let (source, target) = (u32_at(row, 8), u32_at(row, 12));
    if source >= trailer.nodes || target >= trailer.nodes {
        return None;
    }
    Some(EdgeRow {
        row: read_row(row, 16, trailer, runs)?,
        source: source as usize,
        target: target as usize,
        source_interval: interval(u32_at(row, 24), u32_at(row, 28))?,
        target_interval: interval(u32_at(row, 32), u32_at(row, 36))?,
    })
}

/// "A minimum is at most 65,535; a maximum is at most 65,535, or 4,294,967,295
/// for "any"."
fn interval(minimum: u64, maximum: u64) -> Option<Interval> {
    let any = maximum == 4_294_967_295;
    if minimum > 65_535 || (maximum > 65_535 && !any) || minimum > maximum {
        return None;
    }
    let maximum = if any { None } else { Some(maximum) };
    Some(Interval { minimum, maximum })
}

fn schema_edge(edge: EdgeRow, rows: &[u8], names: u64) -> Result<SchemaEdge, Refusal> {
    Ok(SchemaEdge {
        object: object_type(edge.row, rows, names)?,
        source: edge.source,
        target: edge.target,
        source_interval: edge.source_interval,
        target_interval: edge.target_interval,
    })
}

/// The type of this row with the properties of its run. Runs follow one
/// another, so the first bad row met is the lowest one.
fn object_type(row: Row, rows: &[u8], names: u64) -> Result<ObjectType, Refusal> {
    let mut listed: Vec<Listed> = Vec::new();
    for place in row.run {
        let before = listed.last().map(|property| property.name);
        let property = &rows[place * PROPERTY_ROW..][..PROPERTY_ROW];
        let property = read_listed(property, before, names);
        demand(property.is_some(), 15, place)?;
        listed.extend(property);
    }
    Ok(ObjectType {
        labels: row.labels,
        listed,
        open: row.open,
    })
}

/// Code 15 unless the name is below the name count and above the name before it
/// in its run, and type and flag are known: "0 mandatory, 1 optional".
fn read_listed(row: &[u8], before: Option<u64>, names: u64) -> Option<Listed> {
    let name = u16_at(row, 0);
    let flag = u8_at(row, 3);
    let rises = before.map_or(true, |before| before < name);
    if name >= names || !rises || flag > 1 {
        return None;
    }
    Some(Listed {
        name,
        kind: Kind::numbered(u8_at(row, 2))?,
        optional: flag == 1,
    })
}
