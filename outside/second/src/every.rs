//! Ask 6, "All the faults at once": every violation, rule by rule.

use crate::graph::Graph;
use crate::rules::{misfit, outside, Answer, Pair};
use crate::schema::{ObjectType, Schema};

/// "The list holds every violation exactly once, in 01's order": "rule 1 by
/// node; rule 2 by edge; rule 3 by schema edge, then node; rule 4 likewise."
pub fn all_violations(graph: &Graph, schema: &Schema) -> Vec<Answer> {
    let pair = Pair::new(graph, schema);
    let rules = [rule_1(&pair), rule_2(&pair), rule_3(&pair), rule_4(&pair)];
    rules.concat()
}

/// "one node against rule 1": it fits no schema node.
fn rule_1(pair: &Pair) -> Vec<Answer> {
    let types: Vec<&ObjectType> = pair.schema.nodes.iter().collect();
    let nodes = 0..pair.graph.nodes.len();
    let against = nodes.filter(|n| pair.fits.node[*n].iter().all(|fits| !fits));
    let told = against.map(|n| misfit(21, n, &pair.graph.nodes[n], &types));
    told.collect()
}

/// "one edge against rule 2": of the schema edges that it fits, none has ends
/// that its own ends fit.
fn rule_2(pair: &Pair) -> Vec<Answer> {
    let edges = 0..pair.graph.edges.len();
    let against = edges.filter(|e| {
        let schema_edges = 0..pair.schema.edges.len();
        let mut fitting = schema_edges.filter(|s| pair.fits.edge[*e][*s]);
        fitting.all(|s| !pair.source_fits(*e, s) || !pair.target_fits(*e, s))
    });
    against.map(|e| pair.against_rule_2(e)).collect()
}

/// "one schema edge with one node against rule 3".
fn rule_3(pair: &Pair) -> Vec<Answer> {
    let mut told = Vec::new();
    for (s, schema_edge) in pair.schema.edges.iter().enumerate() {
        // "counting edges that fit the schema edge and end in a node that fits
        // its target"
        let mut counters = vec![0; pair.graph.nodes.len()];
        for (e, edge) in pair.graph.edges.iter().enumerate() {
            if pair.fits.edge[e][s] && pair.target_fits(e, s) {
                counters[edge.source] += 1;
            }
        }
        for (n, number) in counters.into_iter().enumerate() {
            let code = outside(number, &schema_edge.target_interval, 31);
            if let (true, Some(code)) = (pair.fits.node[n][schema_edge.source], code) {
                told.push([code, n as u32, s as u32, number as u32, 0]);
            }
        }
    }
    told
}

/// "one schema edge with one node against .. rule 4".
fn rule_4(pair: &Pair) -> Vec<Answer> {
    let mut told = Vec::new();
    for (s, schema_edge) in pair.schema.edges.iter().enumerate() {
        // "counting edges that fit it and start in a node that fits its source"
        let mut counters = vec![0; pair.graph.nodes.len()];
        for (e, edge) in pair.graph.edges.iter().enumerate() {
            if pair.fits.edge[e][s] && pair.source_fits(e, s) {
                counters[edge.target] += 1;
            }
        }
        for (n, number) in counters.into_iter().enumerate() {
            let code = outside(number, &schema_edge.source_interval, 33);
            if let (true, Some(code)) = (pair.fits.node[n][schema_edge.target], code) {
                told.push([code, n as u32, s as u32, number as u32, 0]);
            }
        }
    }
    told
}
