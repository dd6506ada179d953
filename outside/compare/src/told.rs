//! Every violation of a graph and a schema as values, by the account: a third opinion on a list.

use crate::account::*;
use crate::model::*;
use crate::recipes::{alone, without_property, Numbers};

/// What is told of an object that fits no shape: `code`, or the next one where a shape has its label set.
fn unfit(code: u32, place: u32, labels: u64, record: &[Property], shapes: &[&Shape]) -> Option<Numbers> {
    if shapes.iter().any(|shape| fits(labels, record, shape)) {
        return None;
    }
    let lowest = shapes.iter().position(|shape| shape.labels == labels);
    let told = |at: usize| {
        let (letter, name) = broken(record, shapes[at]).expect("the record misfits");
        [code + 1, place, at as u32, letter, name as u32]
    };
    Some(lowest.map_or(alone(code, place), told))
}

fn edge(g: &Graph, s: &Schema, place: u32, edge: &Edge) -> Option<Numbers> {
    let shapes: Vec<&Shape> = s.edges.iter().map(|of| &of.shape).collect();
    let fit = |at: &usize| edge_fits(edge, &s.edges[*at]);
    match (0..s.edges.len()).find(fit) {
        None => unfit(23, place, edge.labels, &edge.properties, &shapes),
        Some(_) if s.edges.iter().any(|of| counts(g, s, edge, of)) => None,
        Some(at) => Some(without_property(25, place, at as u32, if end_fits(g, s, edge, &s.edges[at], 0) { 2 } else { 1 })),
    }
}

fn wrong_numbers(g: &Graph, s: &Schema, at: usize, way: usize) -> Vec<Numbers> {
    let mut schema_edge = s.edges[at].clone();
    let Interval { low, high } = *interval(&mut schema_edge, way);
    let told = |(node, number): (u32, u32)| {
        let code = 31 + 2 * way as u32 + (number > high) as u32;
        (number < low || number > high).then(|| without_property(code, node, at as u32, number))
    };
    numbers(g, s, &schema_edge, way).into_iter().filter_map(told).collect()
}

/// In 01's order.
pub fn violations(g: &Graph, s: &Schema) -> Vec<Numbers> {
    let shapes: Vec<&Shape> = s.nodes.iter().collect();
    let nodes = (0..).zip(&g.nodes).filter_map(|(place, n)| unfit(21, place, n.labels, &n.properties, &shapes));
    let edges = (0..).zip(&g.edges).filter_map(|(place, e)| edge(g, s, place, e));
    let steps = (0..2).flat_map(|way| (0..s.edges.len()).map(move |at| (at, way)));
    nodes.chain(edges).chain(steps.flat_map(|(at, way)| wrong_numbers(g, s, at, way))).collect()
}
