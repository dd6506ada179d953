//! Random pairs that conform: a schema, nodes and edges made to fit it, and intervals laid around the numbers counted.

use crate::account::*;
use crate::model::*;
use crate::random::Random;

pub struct Size {
    pub nodes: usize,
    pub edges: usize,
    pub schema_nodes: usize,
    pub schema_edges: usize,
}

pub const SMALL: Size = Size { nodes: 7, edges: 10, schema_nodes: 4, schema_edges: 4 };

#[derive(Clone)]
pub struct Sound {
    pub graph: Graph,
    pub schema: Schema,
}

fn label_pool(r: &mut Random, labels: u16) -> Vec<u64> {
    let mask = if labels == 64 { u64::MAX } else { (1 << labels) - 1 };
    let first = r.next() & mask;
    // sets that contain each other are likely, and so is the empty set
    let mut pool = vec![first, first & r.next(), (first | r.next()) & mask, 1 << r.below(labels as usize)];
    if r.chance(30) {
        pool.push(0);
    }
    pool
}

fn listed(r: &mut Random, names: &[u16]) -> Vec<Listed> {
    let keep = r.within(0, 70);
    let mut all = vec![];
    for &name in names {
        if r.chance(keep) {
            all.push(Listed { name, kind: r.within(1, 5) as u8, optional: r.chance(40) });
        }
    }
    all
}

/// A shape that what fits `of` is likely to fit, too.
fn loosened(r: &mut Random, of: &Shape) -> Shape {
    let mut shape = of.clone();
    for row in &mut shape.listed {
        row.optional |= r.chance(50);
    }
    if r.chance(50) {
        shape.open = true;
        shape.listed.retain(|_| r.chance(70));
    }
    shape
}

fn shapes(r: &mut Random, count: usize, pool: &[u64], names: &[u16]) -> Vec<Shape> {
    let mut all: Vec<Shape> = vec![];
    for _ in 0..count {
        let next = if !all.is_empty() && r.chance(40) {
            let of = r.below(all.len());
            loosened(r, &all[of].clone())
        } else {
            Shape { labels: r.pick(pool), open: r.chance(25), listed: listed(r, names) }
        };
        all.push(next);
    }
    // the looser shape may come first or last
    if all.len() > 1 && r.chance(50) {
        all.reverse();
    }
    all
}

pub fn month_length(leap: bool, month: usize) -> usize {
    match month {
        2 => 28 + leap as usize,
        4 | 6 | 9 | 11 => 30,
        _ => 31,
    }
}

/// By the calendar of ISO 8601.
pub fn is_leap(year: usize) -> bool {
    year % 4 == 0 && (year % 100 != 0 || year % 400 == 0)
}

/// A value of a kind, with its length.
pub fn value(r: &mut Random, kind: u8, text: usize) -> (u32, u64) {
    match kind {
        1 => (0, r.below(2) as u64),
        2 => (0, r.next() >> r.below(64)),
        3 => {
            let bits = r.next();
            (0, if f64::from_bits(bits).is_finite() { bits } else { 1.05f64.to_bits() })
        }
        4 => {
            let (year, month) = (r.within(1, 9999), r.within(1, 12));
            let day = r.within(1, month_length(is_leap(year), month));
            (0, (year * 10_000 + month * 100 + day) as u64)
        }
        _ => {
            let start = r.within(0, text);
            (r.within(0, text - start) as u32, start as u64)
        }
    }
}

pub fn property(r: &mut Random, name: u16, kind: u8, text: usize) -> Property {
    let (length, value) = value(r, kind, text);
    Property { name, kind, length, value }
}

/// A record that fits the shape.
fn record(r: &mut Random, shape: &Shape, names: &[u16], text: usize) -> Vec<Property> {
    let mut all = vec![];
    for &name in names {
        match shape.listed.iter().find(|l| l.name == name) {
            Some(l) if !l.optional || r.chance(50) => all.push(property(r, name, l.kind, text)),
            None if shape.open && r.chance(30) => {
                let kind = r.within(1, 5) as u8;
                all.push(property(r, name, kind, text));
            }
            _ => {}
        }
    }
    all
}

fn nodes(r: &mut Random, s: &Schema, count: usize, names: &[u16], text: usize) -> Vec<Node> {
    (0..count)
        .map(|_| {
            let shape = &s.nodes[r.below(s.nodes.len())];
            Node { labels: shape.labels, properties: record(r, shape, names, text) }
        })
        .collect()
}

fn schema_edges(r: &mut Random, count: usize, pool: &[u64], names: &[u16], schema_nodes: usize) -> Vec<SchemaEdge> {
    let free = Interval { low: 0, high: ANY };
    let mut all: Vec<SchemaEdge> = vec![];
    for shape in shapes(r, count, pool, names) {
        let mut ends = [r.below(schema_nodes) as u32, r.below(schema_nodes) as u32];
        // overlapping schema edges: the same ends, or one of them
        if !all.is_empty() && r.chance(40) {
            ends[0] = all[r.below(all.len())].ends[0];
            ends[1] = all[r.below(all.len())].ends[1];
        }
        all.push(SchemaEdge { shape, ends, source: free, target: free });
    }
    all
}

fn edge(r: &mut Random, g: &Graph, s: &Schema, names: &[u16]) -> Option<Edge> {
    if !g.edges.is_empty() && r.chance(15) {
        // a parallel edge
        return Some(g.edges[r.below(g.edges.len())].clone());
    }
    let schema_edge = &s.edges[r.below(s.edges.len())];
    let fit = |end: usize| move |n: usize| node_fits(&g.nodes[n], &s.nodes[schema_edge.ends[end] as usize]);
    let source = r.index_where(g.nodes.len(), fit(0))? as u32;
    let mut target = r.index_where(g.nodes.len(), fit(1))? as u32;
    if r.chance(30) && fit(1)(source as usize) {
        target = source; // a loop
    }
    let properties = record(r, &schema_edge.shape, names, g.text.len());
    Some(Edge { labels: schema_edge.shape.labels, ends: [source, target], properties })
}

/// Intervals that hold every number counted, often with nothing to spare.
pub fn lay_intervals(r: &mut Random, g: &Graph, s: &mut Schema) {
    lay_around(r, &[g], s);
}

/// The same around the numbers of several graphs.
fn lay_around(r: &mut Random, graphs: &[&Graph], s: &mut Schema) {
    for j in 0..s.edges.len() {
        for way in 0..2 {
            let owed: Vec<(u32, u32)> = graphs.iter().flat_map(|g| numbers(g, s, &s.edges[j], way)).collect();
            let low = owed.iter().map(|o| o.1).min().unwrap_or(9);
            let high = owed.iter().map(|o| o.1).max().unwrap_or(low);
            let low = if r.chance(60) { low } else { r.within(0, low as usize) as u32 };
            let high = match r.below(10) {
                0..=4 => high,
                5 | 6 => high + r.below(4) as u32,
                7 => 65_535,
                _ => ANY,
            };
            *interval(&mut s.edges[j], way) = Interval { low, high };
        }
    }
}

fn preface(r: &mut Random) -> Vec<u8> {
    let bytes = if r.chance(20) { r.within(1, 60) } else { 0 };
    r.bytes(bytes)
}

pub fn sound(r: &mut Random, size: &Size) -> Sound {
    let labels = r.pick(&[1, 2, 3, 5, 5, 8, 63, 64]);
    let names: u16 = r.pick(&[1, 3, 5, 5, 6, 8, 255, 256]);
    let pool = label_pool(r, labels);
    let mut chosen: Vec<u16> = (0..r.within(0, 6)).map(|_| r.below(names as usize) as u16).collect();
    chosen.sort_unstable();
    chosen.dedup();

    let fewest = if r.chance(5) { 0 } else { 1 };
    let schema_nodes = r.within(fewest, size.schema_nodes);
    let mut schema = Schema { nodes: shapes(r, schema_nodes, &pool, &chosen), labels, names, preface: preface(r), ..Schema::default() };
    let text = r.below(24);
    let mut graph = Graph { text: r.bytes(text), labels, names, preface: preface(r), ..Graph::default() };
    // label and name counts of the two files need not agree
    if r.chance(20) && labels < 64 {
        graph.labels = 64;
    }
    if schema_nodes > 0 {
        let (count, schema_edge_count) = (r.within(0, size.nodes), r.within(0, size.schema_edges));
        graph.nodes = nodes(r, &schema, count, &chosen, text);
        schema.edges = schema_edges(r, schema_edge_count, &pool, &chosen, schema_nodes);
        if schema_edge_count > 0 {
            for _ in 0..r.within(0, size.edges) {
                if let Some(edge) = edge(r, &graph, &schema, &chosen) {
                    graph.edges.push(edge);
                }
            }
        }
        lay_intervals(r, &graph, &mut schema);
    }
    Sound { graph, schema }
}

/// Two graphs that conform to one schema. Label and name counts need not agree.
pub struct Two {
    pub first: Graph,
    pub second: Graph,
    pub schema: Schema,
}

/// The names that a schema and a graph have.
fn names_of(g: &Graph, s: &Schema) -> Vec<u16> {
    let listed = s.nodes.iter().chain(s.edges.iter().map(|e| &e.shape)).flat_map(|shape| &shape.listed).map(|l| l.name);
    let present = g.nodes.iter().map(|n| &n.properties).chain(g.edges.iter().map(|e| &e.properties)).flatten().map(|p| p.name);
    let mut all: Vec<u16> = listed.chain(present).collect();
    all.sort_unstable();
    all.dedup();
    all
}

pub fn sound_two(r: &mut Random, size: &Size) -> Two {
    let Sound { graph: first, mut schema } = sound(r, size);
    let (names, text) = (names_of(&first, &schema), r.below(24));
    let mut second = Graph { text: r.bytes(text), labels: schema.labels, names: schema.names, preface: preface(r), ..Graph::default() };
    if r.chance(40) {
        second.labels = r.within(schema.labels as usize, 64) as u16;
        second.names = r.within(schema.names as usize, 256) as u16;
    }
    if !schema.nodes.is_empty() {
        let count = r.within(0, size.nodes);
        second.nodes = nodes(r, &schema, count, &names, text);
        let edges = if schema.edges.is_empty() { 0 } else { r.within(0, size.edges) };
        for _ in 0..edges {
            second.edges.extend(edge(r, &second, &schema, &names));
        }
        lay_around(r, &[&first, &second], &mut schema);
    }
    Two { first, second, schema }
}
