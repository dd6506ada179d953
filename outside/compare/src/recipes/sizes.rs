//! Sizes at each ceiling, which are taken, and one past it, which are refused: with all the rows there.

use super::writing::{again, find, lend_laid, refused, written, NOT_A_GRAPH, SHORT_OUTPUT};
use super::*;
use crate::account::{interval, numbers};
use crate::sound::{lay_intervals, property};

#[derive(Clone, Copy)]
struct Sizes {
    nodes: usize,
    edges: usize,
    properties: usize,
    text: usize,
    schema_nodes: usize,
    schema_edges: usize,
    schema_properties: usize,
}

const LOW: Sizes = Sizes { nodes: 70, edges: 8, properties: 40, text: 4, schema_nodes: 4, schema_edges: 2, schema_properties: 9 };

const TOP: Sizes =
    Sizes { nodes: 1_024, edges: 4_096, properties: 16_384, text: 262_144, schema_nodes: 32, schema_edges: 64, schema_properties: 1_024 };

/// How many of `rows` rows object `i` of `objects` has: the rows are dealt out evenly.
pub fn share(rows: usize, objects: usize, i: usize) -> usize {
    rows / objects + (i < rows % objects) as usize
}

fn shape(r: &mut Random, labels: usize, listed: usize) -> Shape {
    // optional Integers in an open type: the records below fit
    let rows = (0..listed).map(|name| Listed { name: name as u16, kind: 2, optional: true }).collect();
    Shape { labels: labels as u64 ^ (r.below(2) as u64) << 63, open: true, listed: rows }
}

fn record(r: &mut Random, count: usize, text: usize) -> Vec<Property> {
    (0..count).map(|name| property(r, name as u16, 2, text)).collect()
}

/// A pair of these sizes that conforms.
fn big(r: &mut Random, z: Sizes) -> Sound {
    let shapes = z.schema_nodes + z.schema_edges;
    let mut schema = Schema { labels: 64, names: 256, ..Schema::default() };
    for i in 0..z.schema_nodes {
        let shape = shape(r, i, share(z.schema_properties, shapes, i));
        schema.nodes.push(shape);
    }
    for j in 0..z.schema_edges {
        let shape = shape(r, j, share(z.schema_properties, shapes, z.schema_nodes + j));
        let ends = [r.below(z.schema_nodes) as u32, r.below(z.schema_nodes) as u32];
        let free = Interval { low: 0, high: ANY };
        schema.edges.push(SchemaEdge { shape, ends, source: free, target: free });
    }
    let mut graph = Graph { text: vec![b'x'; z.text], labels: 64, names: 256, ..Graph::default() };
    let objects = z.nodes + z.edges;
    for i in 0..z.nodes {
        let labels = schema.nodes[i % z.schema_nodes].labels;
        let properties = record(r, share(z.properties, objects, i), z.text);
        graph.nodes.push(Node { labels, properties });
    }
    for e in 0..z.edges {
        let schema_edge = &schema.edges[e % z.schema_edges];
        let end = |r: &mut Random, of: u32| {
            let per = (z.nodes - of as usize - 1) / z.schema_nodes;
            of + (z.schema_nodes * r.within(0, per)) as u32
        };
        let ends = [end(r, schema_edge.ends[0]), end(r, schema_edge.ends[1])];
        let properties = record(r, share(z.properties, objects, z.nodes + e), z.text);
        graph.edges.push(Edge { labels: schema_edge.shape.labels, ends, properties });
    }
    lay_intervals(r, &graph, &mut schema);
    Sound { graph, schema }
}

/// At the ceiling and one past it, for one number.
fn add_size(recipes: &mut Recipes, name: &str, code: u32, set: fn(usize) -> Sizes, ceiling: usize) {
    recipes.add_rare(format!("0 {name} at the ceiling"), move |r| Some(Made::of(&big(r, set(ceiling)), Owed::Exactly(CONFORMS))));
    recipes.add_rare(format!("{code} {name} one past the ceiling, with the rows"), move |r| {
        Some(Made::of(&big(r, set(ceiling + 1)), Owed::Exactly(alone(code, 0))))
    });
    if code == 4 {
        recipes.push(Function::Write, format!("0 {name} at the ceiling"), true, move |r| {
            let graph = lay_graph(&big(r, set(ceiling)).graph);
            Some(lend_laid(&graph, graph.bytes.len() + r.below(2), written(&graph)))
        });
        recipes.push(Function::Write, format!("41 {name} one past the ceiling"), true, move |r| {
            let graph = lay_graph(&big(r, set(ceiling + 1)).graph);
            Some(lend_laid(&graph, graph.bytes.len(), refused(NOT_A_GRAPH)))
        });
    }
}

/// A file brought to a length by its preface.
pub fn stretched(r: &mut Random, bytes: &[u8], length: usize) -> Vec<u8> {
    let mut all = r.bytes(64);
    all.resize(length - bytes.len(), b'p');
    all.extend(bytes);
    all
}

fn lengths(recipes: &mut Recipes) {
    for (past, code) in [(0, 0), (1, 2)] {
        recipes.add_rare(format!("{code} graph file of 1,048,576 bytes and {past}"), move |r| {
            let mut made = Made::of(&sound(r, &SMALL), Owed::Exactly(alone(code, 0)));
            made.lent[0] = stretched(r, &made.lent[0], 1_048_576 + past);
            Some(made)
        });
        recipes.push(Function::Find, format!("{code} graph file of 1,048,576 bytes and {past}"), true, move |r| {
            let mut graph = lay_graph(&sound(r, &SMALL).graph);
            let more = 1_048_576 + past - graph.bytes.len();
            graph.bytes = stretched(r, &graph.bytes, 1_048_576 + past);
            graph.starts.iter_mut().chain([&mut graph.trailer]).for_each(|at| *at += more);
            let owed = if code == 0 { graph.places().to_vec() } else { vec![code] };
            Some(find(graph.bytes, Owed::Returned(owed, vec![])))
        });
    }
    for (past, code) in [(0, 0), (1, 9)] {
        recipes.add_rare(format!("{code} schema file of 16,384 bytes and {past}"), move |r| {
            let mut made = Made::of(&sound(r, &SMALL), Owed::Exactly(alone(code, 0)));
            made.lent[1] = stretched(r, &made.lent[1], 16_384 + past);
            Some(made)
        });
    }
}

/// All ceilings at once, and the last schema edge at fault there.
fn at_once(recipes: &mut Recipes) {
    recipes.add_rare("0 all ceilings at once", |r| Some(Made::of(&big(r, TOP), Owed::Exactly(CONFORMS))));
    for (how, fewer, code) in [("as long as the file", 0, 0), ("one byte short", 1, SHORT_OUTPUT)] {
        recipes.push(Function::Write, format!("{code} all ceilings at once, output {how}"), true, move |r| {
            let graph = lay_graph(&big(r, TOP).graph);
            let owed = if code == 0 { written(&graph) } else { refused(code) };
            Some(lend_laid(&graph, graph.bytes.len() - fewer, owed))
        });
    }
    recipes.push(Function::Again, "all ceilings at once".to_string(), true, |r| {
        let graph = lay_graph(&big(r, TOP).graph);
        // a schema of nothing, which is soon answered
        Some(again(&graph, lay_schema(&Schema::default()).bytes, graph.bytes.len(), alone(21, 0)))
    });
    recipes.add_rare("33 the last schema edge at the ceilings", |r| {
        let mut pair = big(r, TOP);
        let last = pair.schema.edges.len() - 1;
        let owed = numbers(&pair.graph, &pair.schema, &pair.schema.edges[last], 1);
        let low = owed.iter().map(|o| o.1).min()?;
        *interval(&mut pair.schema.edges[last], 1) = Interval { low: low + 1, high: ANY };
        let &(node, number) = owed.iter().find(|o| o.1 == low)?;
        Some(Made::of(&pair, Owed::Exactly(without_property(33, node, last as u32, number))))
    });
}

pub fn add(recipes: &mut Recipes) {
    add_size(recipes, "nodes", 4, |n| Sizes { nodes: n, ..LOW }, 1_024);
    add_size(recipes, "edges", 4, |n| Sizes { edges: n, ..LOW }, 4_096);
    add_size(recipes, "property rows", 4, |n| Sizes { properties: n, ..LOW }, 16_384);
    add_size(recipes, "text bytes", 4, |n| Sizes { text: n, ..LOW }, 262_144);
    add_size(recipes, "schema nodes", 11, |n| Sizes { schema_nodes: n, ..LOW }, 32);
    add_size(recipes, "schema edges", 11, |n| Sizes { schema_edges: n, ..LOW }, 64);
    add_size(recipes, "schema properties", 11, |n| Sizes { schema_properties: n, ..LOW }, 1_024);
    lengths(recipes);
    at_once(recipes);
}
