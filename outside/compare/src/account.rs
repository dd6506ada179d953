//! A small account of fits and counts, with which the pairs are made. It says what a made pair is owed, so that the two
//! programs are held to a third opinion.

use crate::model::*;

/// The names at fault by a letter: 1 (b) mandatory and missing, 2 (c) present and not listed, 3 (d) present and listed with
/// another type.
pub fn at_fault(properties: &[Property], shape: &Shape, letter: u32) -> Vec<u16> {
    let listed = |name: u16| shape.listed.iter().find(|l| l.name == name);
    let present = |name: u16| properties.iter().any(|p| p.name == name);
    let those = |wrong: &dyn Fn(&Property) -> bool| properties.iter().filter(|p| wrong(p)).map(|p| p.name).collect();
    match letter {
        1 => shape.listed.iter().filter(|l| !l.optional && !present(l.name)).map(|l| l.name).collect(),
        2 => those(&|p| !shape.open && listed(p.name).is_none()),
        _ => those(&|p| listed(p.name).map_or(false, |l| l.kind != p.kind)),
    }
}

/// What the record breaks: the first letter that has names at fault, and the lowest of them. None if it fits.
pub fn broken(properties: &[Property], shape: &Shape) -> Option<(u32, u16)> {
    (1..=3).find_map(|letter| {
        let lowest = at_fault(properties, shape, letter).into_iter().min()?;
        Some((letter, lowest))
    })
}

pub fn fits(labels: u64, properties: &[Property], shape: &Shape) -> bool {
    labels == shape.labels && broken(properties, shape).is_none()
}

pub fn node_fits(node: &Node, shape: &Shape) -> bool {
    fits(node.labels, &node.properties, shape)
}

pub fn edge_fits(edge: &Edge, schema_edge: &SchemaEdge) -> bool {
    fits(edge.labels, &edge.properties, &schema_edge.shape)
}

/// Whether the node at an edge's end (0 source, 1 target) fits the schema edge's schema node there.
pub fn end_fits(g: &Graph, s: &Schema, edge: &Edge, schema_edge: &SchemaEdge, end: usize) -> bool {
    node_fits(&g.nodes[edge.ends[end] as usize], &s.nodes[schema_edge.ends[end] as usize])
}

pub fn counts(g: &Graph, s: &Schema, edge: &Edge, schema_edge: &SchemaEdge) -> bool {
    edge_fits(edge, schema_edge) && end_fits(g, s, edge, schema_edge, 0) && end_fits(g, s, edge, schema_edge, 1)
}

/// For a schema edge and a way (0 out: rule 3, 1 into: rule 4): each node that owes, with its number.
pub fn numbers(g: &Graph, s: &Schema, schema_edge: &SchemaEdge, way: usize) -> Vec<(u32, u32)> {
    let near = &s.nodes[schema_edge.ends[way] as usize];
    let mut count = vec![0; g.nodes.len()];
    for edge in g.edges.iter().filter(|e| counts(g, s, e, schema_edge)) {
        count[edge.ends[way] as usize] += 1;
    }
    (0..g.nodes.len()).filter(|&n| node_fits(&g.nodes[n], near)).map(|n| (n as u32, count[n])).collect()
}

/// The interval that a way looks at: the target interval bounds what leaves the source.
pub fn interval(schema_edge: &mut SchemaEdge, way: usize) -> &mut Interval {
    if way == 0 {
        &mut schema_edge.target
    } else {
        &mut schema_edge.source
    }
}
