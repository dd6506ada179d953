//! Graphs joined as values: the third opinion on what is written.

use crate::model::*;
use crate::recipes::Numbers;

/// The ceilings of nodes, edges, property rows and text bytes.
pub const CEILINGS: [usize; 4] = [1_024, 4_096, 16_384, 262_144];

/// The four counts that a joined file has to keep below its ceilings.
pub fn counts(g: &Graph) -> [usize; 4] {
    let rows = g.nodes.iter().map(|n| n.properties.len()).chain(g.edges.iter().map(|e| e.properties.len())).sum();
    [g.nodes.len(), g.edges.len(), rows, g.text.len()]
}

/// Texts begin that much later; the other kinds have no offset.
fn moved(properties: &[Property], by: usize) -> Vec<Property> {
    let value = |p: &Property| if p.kind == 5 { p.value + by as u64 } else { p.value };
    properties.iter().map(|p| Property { value: value(p), ..p.clone() }).collect()
}

/// The first's rows and text, then the second's, without a preface.
pub fn joined(first: &Graph, second: &Graph) -> Graph {
    let (nodes, text) = (first.nodes.len() as u32, first.text.len());
    let mut g = Graph { preface: vec![], ..first.clone() };
    g.nodes.extend(second.nodes.iter().map(|n| Node { labels: n.labels, properties: moved(&n.properties, text) }));
    let edge = |e: &Edge| Edge { labels: e.labels, ends: e.ends.map(|end| end + nodes), properties: moved(&e.properties, text) };
    g.edges.extend(second.edges.iter().map(edge));
    g.text.extend(&second.text);
    g.labels = first.labels.max(second.labels);
    g.names = first.names.max(second.names);
    g
}

/// Where a violation stands in 01's order: rules 1 and 2 by place, rules 3 and 4 by schema edge, then by place.
fn order(told: &Numbers) -> (u32, u32, u32) {
    let [code, place, schema_place, ..] = *told;
    match code {
        21 | 22 => (1, 0, place),
        23..=25 => (2, 0, place),
        31 | 32 => (3, schema_place, place),
        _ => (4, schema_place, place),
    }
}

/// The violations that a joined graph has: both lists, in 01's order, the second's with its places behind the first's nodes or edges.
pub fn put_together(first: &[Numbers], second: &[Numbers], [nodes, edges]: [u32; 2]) -> Vec<Numbers> {
    let mut all = first.to_vec();
    for &[code, place, schema_place, count, property] in second {
        let by = if (23..=25).contains(&code) { edges } else { nodes };
        all.push([code, place + by, schema_place, count, property]);
    }
    all.sort_by_key(order);
    all
}
