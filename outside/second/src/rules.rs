//! The four rules as plain loops, and the first violation.

use crate::fits::{first_broken, Tables};
use crate::graph::{Graph, Object};
use crate::schema::{Interval, ObjectType, Schema};

/// Code, place, schema place, count and, Ask 2: "the answer's fifth number for
/// 22 and 24, 0 for all other codes", the property.
pub type Answer = [u32; 5];

/// A graph and a schema, with what fits what.
pub(crate) struct Pair<'a> {
    pub graph: &'a Graph<'a>,
    pub schema: &'a Schema,
    pub fits: Tables,
}

/// "First violation: rule 1 by node; rule 2 by edge; rule 3 by schema edge, then
/// node; rule 4 likewise." Nothing if the graph conforms.
pub fn first_violation(graph: &Graph, schema: &Schema) -> Option<Answer> {
    let pair = Pair::new(graph, schema);
    pair.rule_1()
        .or_else(|| pair.rule_2())
        .or_else(|| pair.rule_3())
        .or_else(|| pair.rule_4())
}

impl<'a> Pair<'a> {
    pub fn new(graph: &'a Graph<'a>, schema: &'a Schema) -> Pair<'a> {
        Pair {
            graph,
            schema,
            fits: Tables::new(graph, schema),
        }
    }

    /// "Every node fits some schema node."
    fn rule_1(&self) -> Option<Answer> {
        for (n, node) in self.graph.nodes.iter().enumerate() {
            if !self.fits.node[n].contains(&true) {
                let types: Vec<&ObjectType> = self.schema.nodes.iter().collect();
                return Some(misfit(21, n, node, &types));
            }
        }
        None
    }

    /// "Every edge fits some schema edge whose source and target schema nodes
    /// its own source and target nodes fit."
    fn rule_2(&self) -> Option<Answer> {
        let edges = 0..self.graph.edges.len();
        for e in edges {
            let mut schema_edges = 0..self.schema.edges.len();
            let met = schema_edges
                .any(|s| self.fits.edge[e][s] && self.source_fits(e, s) && self.target_fits(e, s));
            if !met {
                return Some(self.against_rule_2(e));
            }
        }
        None
    }

    /// Codes 23 to 25 for an edge against rule 2.
    pub fn against_rule_2(&self, e: usize) -> Answer {
        match self.fits.edge[e].iter().position(|fits| *fits) {
            None => {
                let types = self.schema.edges.iter().map(|edge| &edge.object);
                let types: Vec<&ObjectType> = types.collect();
                misfit(23, e, &self.graph.edges[e].object, &types)
            }
            // "lowest schema edge it fits, 1 if its source misfits there, else 2"
            Some(s) => {
                let end = if !self.source_fits(e, s) { 1 } else { 2 };
                [25, e as u32, s as u32, end, 0]
            }
        }
    }

    /// "For each schema edge, each node that fits its source has a number of
    /// outgoing edges within the target interval".
    fn rule_3(&self) -> Option<Answer> {
        for (s, schema_edge) in self.schema.edges.iter().enumerate() {
            for n in 0..self.graph.nodes.len() {
                if self.fits.node[n][schema_edge.source] {
                    let number = self.outgoing(n, s);
                    if let Some(code) = outside(number, &schema_edge.target_interval, 31) {
                        return Some([code, n as u32, s as u32, number as u32, 0]);
                    }
                }
            }
        }
        None
    }

    /// "For each schema edge, each node that fits its target has a number of
    /// incoming edges within the source interval".
    fn rule_4(&self) -> Option<Answer> {
        for (s, schema_edge) in self.schema.edges.iter().enumerate() {
            for n in 0..self.graph.nodes.len() {
                if self.fits.node[n][schema_edge.target] {
                    let number = self.incoming(n, s);
                    if let Some(code) = outside(number, &schema_edge.source_interval, 33) {
                        return Some([code, n as u32, s as u32, number as u32, 0]);
                    }
                }
            }
        }
        None
    }

    /// Node n's outgoing edges, "counting edges that fit the schema edge and end
    /// in a node that fits its target".
    fn outgoing(&self, n: usize, s: usize) -> u64 {
        let edges = self.graph.edges.iter().enumerate();
        let counted = edges.filter(|(e, edge)| {
            edge.source == n && self.fits.edge[*e][s] && self.target_fits(*e, s)
        });
        counted.count() as u64
    }

    /// Node n's incoming edges, "counting edges that fit it and start in a node
    /// that fits its source".
    fn incoming(&self, n: usize, s: usize) -> u64 {
        let edges = self.graph.edges.iter().enumerate();
        let counted = edges.filter(|(e, edge)| {
            edge.target == n && self.fits.edge[*e][s] && self.source_fits(*e, s)
        });
        counted.count() as u64
    }

    /// Edge e's source node fits schema edge s's source schema node.
    pub fn source_fits(&self, e: usize, s: usize) -> bool {
        self.fits.node[self.graph.edges[e].source][self.schema.edges[s].source]
    }

    /// Edge e's target node fits schema edge s's target schema node.
    pub fn target_fits(&self, e: usize, s: usize) -> bool {
        self.fits.node[self.graph.edges[e].target][self.schema.edges[s].target]
    }
}

/// The answer for an object that fits no schema object. The code is 21 or 23 for
/// "a label set no schema node has"; else the next one, with the "lowest schema
/// node of equal labels", what is broken there, and the property at fault.
pub(crate) fn misfit(code: u32, place: usize, object: &Object, types: &[&ObjectType]) -> Answer {
    let place = place as u32;
    match types.iter().position(|ty| ty.labels == object.labels) {
        None => [code, place, 0, 0, 0],
        Some(s) => {
            let broken = first_broken(object, types[s]);
            let (letter, property) = broken.expect("labels are equal, so the record misfits");
            [code + 1, place, s as u32, letter, property]
        }
    }
}

/// The code if the number lies outside the interval: this one for too few, the
/// next one for too many.
pub(crate) fn outside(number: u64, interval: &Interval, too_few: u32) -> Option<u32> {
    if number < interval.minimum {
        return Some(too_few);
    }
    let too_many = interval.maximum.map_or(false, |maximum| number > maximum);
    if too_many {
        Some(too_few + 1)
    } else {
        None
    }
}
