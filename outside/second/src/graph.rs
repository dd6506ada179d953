//! A graph file, decoded into plain values or refused with codes 2 to 8.

use crate::frame::{self, demand, labels_below, Refusal, Runs};
use crate::tables::{Blocks, Body, Counts, EdgeRow, ObjectRow, Trailer, FORM};
use crate::values::{Kind, Value};
use std::ops::Range;

/// A node, or what an edge has besides its ends; the properties' names rise.
#[derive(Clone, Debug, PartialEq)]
pub struct Object<'a> {
    pub labels: u64,
    pub properties: Vec<(u64, Value<'a>)>,
}

#[derive(Clone, Debug, PartialEq)]
pub struct Edge<'a> {
    pub object: Object<'a>,
    pub source: usize,
    pub target: usize,
}

#[derive(Clone, Debug, PartialEq)]
pub struct Graph<'a> {
    pub nodes: Vec<Object<'a>>,
    pub edges: Vec<Edge<'a>>,
}

/// The graph, or the first refusal: "Codes are tried in rising order, all of
/// one code before the next."
pub fn decode(file: &[u8]) -> Result<Graph<'_>, Refusal> {
    let (counts, blocks) = open(file)?;
    judge(&counts, &Body::read(&blocks))
}

/// The counts and the blocks of a file: codes 2 to 5.
pub fn open(file: &[u8]) -> Result<(Counts, Blocks<'_>), Refusal> {
    let (before, trailer) = frame::split(file, &FORM)?;
    let Trailer { counts, back } = Trailer::read(trailer);
    counts.within_ceilings()?;
    let body = frame::body(before, back, counts.body_size(), &FORM)?;
    Ok((counts, Blocks::of_body(body, &counts)))
}

/// The graph that a body of these counts tells: codes 6 to 8.
pub fn judge<'a>(counts: &Counts, body: &Body<'a>) -> Result<Graph<'a>, Refusal> {
    let mut runs = Runs {
        next: 0,
        rows: counts.properties,
    };
    let node_runs = node_runs(&body.nodes, counts, &mut runs)?;
    let edge_runs = edge_runs(&body.edges, counts, &mut runs)?;

    let names = counts.names;
    let records = Records { body, names };
    let nodes = body.nodes.iter().zip(node_runs);
    let nodes = nodes.map(|(row, run)| records.object(row, run));
    let nodes = nodes.collect::<Result<_, _>>()?;
    let edges = body.edges.iter().zip(edge_runs);
    let edges = edges.map(|(row, run)| records.edge(row, run));
    let edges = edges.collect::<Result<_, _>>()?;
    // Code 8, "in no run": the rows from the last run's end on.
    demand(runs.next == runs.rows, 8, runs.next as usize)?;
    Ok(Graph { nodes, edges })
}

/// The run of a row, if it has no "label bit at or above the label count, run
/// start wrong or run past the rows".
fn object_run(row: &ObjectRow, counts: &Counts, runs: &mut Runs) -> Option<Range<usize>> {
    let run = runs.take(row.first, row.count)?;
    if !labels_below(row.labels, counts.labels) {
        return None;
    }
    Some(run)
}

/// Code 6.
fn node_runs(
    rows: &[ObjectRow],
    counts: &Counts,
    runs: &mut Runs,
) -> Result<Vec<Range<usize>>, Refusal> {
    let mut taken = Vec::new();
    for (place, row) in rows.iter().enumerate() {
        let run = object_run(row, counts, runs);
        demand(run.is_some(), 6, place)?;
        taken.extend(run);
    }
    Ok(taken)
}

/// Code 7.
fn edge_runs(
    rows: &[EdgeRow],
    counts: &Counts,
    runs: &mut Runs,
) -> Result<Vec<Range<usize>>, Refusal> {
    let mut taken = Vec::new();
    for (place, row) in rows.iter().enumerate() {
        let run = edge_run(row, counts, runs);
        demand(run.is_some(), 7, place)?;
        taken.extend(run);
    }
    Ok(taken)
}

/// "the same; or an end not below the node count".
fn edge_run(row: &EdgeRow, counts: &Counts, runs: &mut Runs) -> Option<Range<usize>> {
    if row.source >= counts.nodes || row.target >= counts.nodes {
        return None;
    }
    object_run(&row.object, counts, runs)
}

/// The body's property rows and text bytes, with the count that names stay below.
struct Records<'a, 'b> {
    body: &'b Body<'a>,
    names: u64,
}

impl<'a> Records<'a, '_> {
    /// The object of this row with the properties of its run. Runs follow one
    /// another, so the first bad row met is the lowest one.
    fn object(&self, row: &ObjectRow, run: Range<usize>) -> Result<Object<'a>, Refusal> {
        let mut properties: Vec<(u64, Value)> = Vec::new();
        for place in run {
            let before = properties.last().map(|(name, _)| *name);
            let property = self.property(place, before);
            demand(property.is_some(), 8, place)?;
            properties.extend(property);
        }
        let labels = row.labels;
        Ok(Object { labels, properties })
    }

    fn edge(&self, row: &EdgeRow, run: Range<usize>) -> Result<Edge<'a>, Refusal> {
        Ok(Edge {
            object: self.object(&row.object, run)?,
            source: row.source as usize,
            target: row.target as usize,
        })
    }

    /// The property row at this place, if it is right after the name before it
    /// in its run: "Within a run the names rise strictly."
    fn property(&self, place: usize, before: Option<u64>) -> Option<(u64, Value<'a>)> {
        let row = &self.body.rows[place];
        let rises = before.map_or(true, |before| before < row.name);
        if row.name >= self.names || !rises || row.zero != 0 {
            return None;
        }
        let kind = Kind::numbered(row.kind)?;
        let value = Value::read(kind, row.length, row.value, self.body.text)?;
        Some((row.name, value))
    }
}
