//! Plans of pairs: which node fits which schema node, and which edge's record which schema edge's. So it is known which schema edges
//! place an edge, and what the pair is owed, before it has a label or a property.

use crate::model::*;
use crate::recipes::{alone, without_property, Numbers, CONFORMS};

/// The most schema edges.
pub const TYPES: usize = 64;
pub const FREE: Interval = Interval { low: 0, high: ANY };

/// A schema edge of a plan.
#[derive(Clone)]
pub struct PlanType {
    /// which label set it has
    pub labels: usize,
    /// its schema nodes: source, target
    pub ends: [usize; 2],
    /// by way (0 out: rule 3, 1 into: rule 4) what bounds a node's number: out the target interval, into the source interval
    pub bounds: [Interval; 2],
}

#[derive(Clone)]
pub struct PlanEdge {
    pub labels: usize,
    pub ends: [usize; 2],
    /// bit s: its record fits that of schema edge s
    pub record: u64,
}

#[derive(Clone)]
pub struct Plan {
    pub schema_nodes: usize,
    /// of each node, bit k: it fits schema node k; 0 is against rule 1
    pub nodes: Vec<u32>,
    /// those that have a label set of their own
    pub strange: Vec<usize>,
    pub types: Vec<PlanType>,
    pub edges: Vec<PlanEdge>,
}

impl Plan {
    pub fn node_fits(&self, node: usize, schema_node: usize) -> bool {
        self.nodes[node] >> schema_node & 1 == 1
    }

    /// Whether the edge fits the schema edge: labels and record.
    pub fn fits(&self, edge: &PlanEdge, s: usize) -> bool {
        edge.labels == self.types[s].labels && edge.record >> s & 1 == 1
    }

    /// Whether the node at an edge's end (0 source, 1 target) fits the schema edge's schema node there.
    pub fn end_fits(&self, edge: &PlanEdge, s: usize, end: usize) -> bool {
        self.node_fits(edge.ends[end], self.types[s].ends[end])
    }

    /// Whether the schema edge is a place of the edge: one that rule 2 asks for.
    pub fn placed(&self, edge: &PlanEdge, s: usize) -> bool {
        self.fits(edge, s) && self.end_fits(edge, s, 0) && self.end_fits(edge, s, 1)
    }

    pub fn places(&self, edge: &PlanEdge) -> Vec<usize> {
        (0..self.types.len()).filter(|&s| self.placed(edge, s)).collect()
    }

    /// Whether a node owes the schema edge a number: it fits the near end.
    pub fn owes(&self, node: usize, s: usize, way: usize) -> bool {
        self.node_fits(node, self.types[s].ends[way])
    }

    /// Each node that owes the schema edge a number, with it: of its edges that fit the schema edge and whose far end fits.
    pub fn numbers(&self, s: usize, way: usize) -> Vec<(usize, u32)> {
        let mut numbers = vec![0; self.nodes.len()];
        for edge in self.edges.iter().filter(|edge| self.fits(edge, s) && self.end_fits(edge, s, 1 - way)) {
            numbers[edge.ends[way]] += 1;
        }
        (0..self.nodes.len()).filter(|&v| self.owes(v, s, way)).map(|v| (v, numbers[v])).collect()
    }

    /// What is told of a node that fits nothing. Without strange labels it has those of all schema nodes.
    fn told_node(&self, v: usize, spelling: &Spelling) -> Option<Numbers> {
        let (place, lowest) = (v as u32, &spelling.nodes[0]);
        match self.nodes[v] {
            0 if self.strange.contains(&v) => Some(alone(21, place)),
            0 => Some([22, place, 0, lowest.letter, lowest.name as u32]),
            _ => None,
        }
    }

    /// What is told of an edge that has no place.
    fn told_edge(&self, e: usize, spelling: &Spelling) -> Option<Numbers> {
        let (edge, all) = (&self.edges[e], 0..self.types.len());
        if all.clone().any(|s| self.placed(edge, s)) {
            return None;
        }
        let place = e as u32;
        if let Some(s) = all.clone().find(|&s| self.fits(edge, s)) {
            return Some(without_property(25, place, s as u32, if self.end_fits(edge, s, 0) { 2 } else { 1 }));
        }
        let lowest = all.clone().find(|&s| self.types[s].labels == edge.labels);
        Some(lowest.map_or(alone(23, place), |s| [24, place, s as u32, spelling.types[s].letter, spelling.types[s].name as u32]))
    }

    /// What is told of a node's number.
    pub fn told_number(&self, way: usize, s: usize, (node, number): (usize, u32)) -> Option<Numbers> {
        let Interval { low, high } = self.types[s].bounds[way];
        let (few, code) = (number < low, 31 + 2 * way as u32);
        let many = high != ANY && number > high;
        let code = if few { code } else { code + 1 };
        (few || many).then(|| without_property(code, node as u32, s as u32, number))
    }

    /// The violations of rules 3 and 4, in 01's order.
    fn each_number(&self) -> impl Iterator<Item = Numbers> + '_ {
        let steps = (0..2).flat_map(|way| (0..self.types.len()).map(move |s| (way, s)));
        let told = move |(way, s)| self.numbers(s, way).into_iter().filter_map(move |owed| self.told_number(way, s, owed));
        steps.flat_map(told)
    }

    /// The violations, in 01's order.
    fn each<'a>(&'a self, spelling: &'a Spelling) -> impl Iterator<Item = Numbers> + 'a {
        let nodes = (0..self.nodes.len()).filter_map(move |v| self.told_node(v, spelling));
        let edges = (0..self.edges.len()).filter_map(move |e| self.told_edge(e, spelling));
        nodes.chain(edges).chain(self.each_number())
    }

    /// The first violation of rules 3 and 4.
    pub fn told_numbers(&self) -> Option<Numbers> {
        self.each_number().next()
    }

    /// The third opinion: the first violation.
    pub fn told(&self, spelling: &Spelling) -> Numbers {
        self.each(spelling).next().unwrap_or(CONFORMS)
    }

    /// The third opinion on the list: every violation.
    pub fn all(&self, spelling: &Spelling) -> Vec<Numbers> {
        self.each(spelling).collect()
    }
}

/// How the records of a schema object are told apart: by one name. Those that fit have it, where the letter is 1 (b); else they
/// do not have it. With letter 0 all fit.
#[derive(Clone, Copy)]
pub struct Test {
    pub letter: u32,
    /// a closed shape lists all other names, too; one of letter 2 (c) is closed
    pub closed: bool,
    pub name: u16,
    /// the type with which objects have the name
    pub kind: u8,
}

/// What a plan leaves open.
pub struct Spelling {
    pub node_labels: u64,
    pub edge_labels: Vec<u64>,
    /// by schema node and by schema edge; two with equal names have to be equal
    pub nodes: Vec<Test>,
    pub types: Vec<Test>,
    pub labels: u16,
    pub names: u16,
}

fn shape(tests: &[Test], at: usize, labels: u64) -> Shape {
    let Test { letter, closed, name, kind } = tests[at];
    let other = 1 + kind % 5;
    let mut listed: Vec<Listed> = match letter {
        1 => vec![Listed { name, kind, optional: false }],
        3 => vec![Listed { name, kind: other, optional: true }],
        _ => vec![],
    };
    if closed {
        let others = tests.iter().filter(|test| test.name != name);
        listed.extend(others.map(|test| Listed { name: test.name, kind: test.kind, optional: true }));
    }
    listed.sort_by_key(|row| row.name);
    listed.dedup_by_key(|row| row.name);
    Shape { labels, open: !closed, listed }
}

fn record(tests: &[Test], fits: u64, property: &mut dyn FnMut(u16, u8) -> Property) -> Vec<Property> {
    let present = |at: usize| match tests[at].letter {
        0 => false,
        1 => fits >> at & 1 == 1,
        _ => fits >> at & 1 == 0,
    };
    let mut names: Vec<(u16, u8)> = (0..tests.len()).filter(|&at| present(at)).map(|at| (tests[at].name, tests[at].kind)).collect();
    names.sort_unstable();
    names.dedup();
    names.into_iter().map(|(name, kind)| property(name, kind)).collect()
}

impl Spelling {
    /// The pair of a plan. `property` makes a value of a name and a kind.
    pub fn pair(&self, plan: &Plan, mut property: impl FnMut(u16, u8) -> Property) -> (Graph, Schema) {
        let (labels, names) = (self.labels, self.names);
        let mut graph = Graph { labels, names, ..Graph::default() };
        let mut schema = Schema { labels, names, ..Schema::default() };
        for (v, &fits) in plan.nodes.iter().enumerate() {
            let properties = record(&self.nodes, fits as u64, &mut property);
            // no schema node has label 0 otherwise
            let strange = plan.strange.contains(&v) as u64;
            graph.nodes.push(Node { labels: self.node_labels ^ strange, properties });
        }
        for edge in &plan.edges {
            let properties = record(&self.types, edge.record, &mut property);
            graph.edges.push(Edge { labels: self.edge_labels[edge.labels], ends: edge.ends.map(|end| end as u32), properties });
        }
        schema.nodes = (0..plan.schema_nodes).map(|at| shape(&self.nodes, at, self.node_labels)).collect();
        for (at, of) in plan.types.iter().enumerate() {
            let shape = shape(&self.types, at, self.edge_labels[of.labels]);
            let [target, source] = of.bounds;
            schema.edges.push(SchemaEdge { shape, ends: of.ends.map(|end| end as u32), source, target });
        }
        (graph, schema)
    }
}
