//! Random plans in which several schema edges place the same edges, and the pairs that are made of plans.

use super::*;
use crate::account;
use crate::plan::*;
use crate::sound::property;

/// The rows of closed shapes are many, so only some shapes of a schema are closed.
const LISTED: usize = 600;
/// The label set that the edges of several places have, and one that no schema edge has at first.
pub const LABELS: usize = 0;
pub const NO_LABELS: usize = 3;

/// Which of several.
#[derive(Clone, Copy, PartialEq)]
pub enum Which {
    Any,
    First,
    Middle,
    Last,
}

pub use Which::*;

impl Which {
    pub fn of(self, r: &mut Random, count: usize) -> Option<usize> {
        match self {
            Any => r.index_where(count, |_| true),
            First => r.index_where(count, |i| i == 0),
            Middle => r.index_where(count, |i| i > 0 && i + 1 < count),
            Last => r.index_where(count, |i| i + 1 == count),
        }
    }

    pub fn word(self) -> &'static str {
        match self {
            Any => "some",
            First => "first",
            Middle => "middle",
            Last => "last",
        }
    }
}

/// How many schema edges there are, and which of them place the same edges.
pub type Among = fn(&mut Random) -> (usize, Vec<usize>);

/// In what the schema edges differ that place the same edges.
#[derive(Clone, Copy)]
pub struct Differ {
    pub ends: [bool; 2],
    pub records: bool,
    pub bounds: bool,
}

pub const ALL: Differ = Differ { ends: [true, true], records: true, bounds: true };
pub const NOTHING: Differ = Differ { ends: [false, false], records: false, bounds: false };

/// What a plan has to have.
#[derive(Clone, Copy)]
pub struct Wish {
    pub among: Among,
    pub differ: Differ,
    /// where among the edges the only one stands that has several places
    pub only: Option<Which>,
    /// a schema edge that is the one place of some edges
    pub lone: Option<usize>,
}

pub struct Planned {
    pub plan: Plan,
    /// the schema edges that place the same edges
    pub over: Vec<usize>,
}

fn shuffled<T>(r: &mut Random, mut all: Vec<T>) -> Vec<T> {
    for i in (1..all.len()).rev() {
        all.swap(i, r.below(i + 1));
    }
    all
}

fn bits(of: &[usize]) -> u64 {
    of.iter().fold(0, |bits, &at| bits | 1 << at)
}

/// The nodes and schema nodes of a plan.
struct Ground {
    schema_nodes: usize,
    /// the schema nodes at which the schema edges start, and end, that place the same edges
    ends: [Vec<usize>; 2],
    /// one that the nodes at those edges do not fit
    apart: usize,
    nodes: Vec<u32>,
}

impl Ground {
    fn new(r: &mut Random, differ: &Differ) -> Ground {
        let [sources, targets] = differ.ends.map(|differ| if differ { r.within(2, 3) } else { 1 });
        let schema_nodes = sources + targets + r.within(1, 3);
        let order = shuffled(r, (0..schema_nodes).collect());
        let source = order[..sources].to_vec();
        // loops need a schema node at both ends, or nodes that fit both
        let target = if r.chance(20) { order[..targets].to_vec() } else { order[sources..sources + targets].to_vec() };
        let (apart, ends) = (order[sources + targets], [source, target]);
        let roles = [vec![0, 1, 2], (0..r.within(0, 4)).map(|_| r.below(4)).collect()].concat();
        let mut nodes = vec![];
        for role in shuffled(r, roles) {
            let own = match role {
                0 => bits(&ends[0]),
                1 => bits(&ends[1]),
                2 => 1 << apart,
                _ => bits(&ends.concat()),
            };
            let others = (0..schema_nodes).filter(|&at| at != apart && r.chance(25)).fold(0, |bits, at| bits | 1 << at);
            nodes.push((own | others) as u32);
        }
        Ground { schema_nodes, ends, apart, nodes }
    }

    /// A node that an edge with all the places can have at an end.
    fn node(&self, r: &mut Random, end: usize) -> Option<usize> {
        let all = bits(&self.ends[end]) as u32;
        r.index_where(self.nodes.len(), |v| self.nodes[v] & all == all && self.nodes[v] >> self.apart & 1 == 0)
    }
}

/// A plan without bounds, with edges that all schema edges of `over` place, and others.
pub fn planned(r: &mut Random, wish: &Wish) -> Option<Planned> {
    let (types, over) = (wish.among)(r);
    let ground = Ground::new(r, &wish.differ);
    // the record of an edge with all the places: it fits no schema edge of the same labels and ends beside them
    let mut record = u64::MAX;
    let mut type_of = |r: &mut Random, s: usize| {
        let mut ends = [0, 1].map(|end| r.pick(&ground.ends[end]));
        let mut labels = LABELS;
        if !over.contains(&s) {
            match r.below(5) {
                0 => labels = r.within(1, 2),
                1 => record &= !(1 << s),
                2 => ends[0] = ground.apart,
                3 => ends[1] = ground.apart,
                _ => ends = [ground.apart; 2],
            }
        }
        PlanType { labels, ends, bounds: [FREE; 2] }
    };
    let types: Vec<PlanType> = (0..types).map(|s| type_of(r, s)).collect();
    let mut plan = Plan { schema_nodes: ground.schema_nodes, nodes: ground.nodes.clone(), strange: vec![], types, edges: vec![] };

    let several = if wish.only.is_some() { 1 } else { r.within(1, 4) };
    for _ in 0..several {
        plan.edges.push(PlanEdge { labels: LABELS, ends: [ground.node(r, 0)?, ground.node(r, 1)?], record });
    }
    for _ in 0..r.within(1, 5) {
        let s = wish.lone.filter(|_| r.chance(70)).unwrap_or_else(|| r.below(plan.types.len()));
        let part = wish.differ.records && wish.only.is_none() && r.chance(30);
        let record = if part { r.next() & record | 1 << s } else { 1 << s };
        let end = |r: &mut Random, end: usize| r.index_where(plan.nodes.len(), |v| plan.node_fits(v, plan.types[s].ends[end]));
        if let (Some(source), Some(target)) = (end(r, 0), end(r, 1)) {
            plan.edges.push(PlanEdge { labels: plan.types[s].labels, ends: [source, target], record });
        }
    }
    // where the records do not differ, an edge fits all of them or none
    if !wish.differ.records {
        let all = bits(&over);
        plan.edges.retain(|edge| edge.labels != LABELS || edge.record & all == 0 || edge.record & all == all);
    }
    let placed = |edge: &PlanEdge| plan.places(edge).len();
    if plan.edges.iter().any(|edge| placed(edge) == 0) || wish.only.is_some() && plan.edges[1..].iter().any(|edge| placed(edge) > 1) {
        return None;
    }
    let edges = std::mem::take(&mut plan.edges);
    plan.edges = match wish.only {
        None => shuffled(r, edges),
        Some(which) => {
            let mut others = shuffled(r, edges[1..].to_vec());
            others.insert(which.of(r, edges.len())?, edges[0].clone());
            others
        }
    };
    Some(Planned { plan, over })
}

/// Intervals that hold every number, often with nothing to spare.
pub fn lay_bounds(r: &mut Random, Planned { plan, over }: &mut Planned, differ: bool) {
    let types = plan.types.len();
    let mut lay = |r: &mut Random, those: &[usize], way: usize| {
        let numbers: Vec<u32> = those.iter().flat_map(|&s| plan.numbers(s, way)).map(|(_, number)| number).collect();
        let (low, high) = (numbers.iter().min().map_or(0, |&n| n), numbers.iter().max().map_or(0, |&n| n));
        let low = if r.chance(70) { low } else { r.within(0, low as usize) as u32 };
        let high = if r.chance(70) { high } else { r.pick(&[high + 1, 65_535, ANY]) };
        those.iter().for_each(|&s| plan.types[s].bounds[way] = Interval { low, high });
    };
    for s in 0..types {
        (0..2).for_each(|way| lay(r, &[s], way));
    }
    if !differ {
        (0..2).for_each(|way| lay(r, over, way));
    }
}

/// An interval that a node's number breaks, and no lower node's, if there is one.
pub fn broken(r: &mut Random, numbers: &[(usize, u32)], node: usize, many: bool) -> Option<Interval> {
    let at = numbers.iter().position(|&(v, _)| v == node)?;
    let (number, lower) = (numbers[at].1, numbers[..at].iter().map(|&(_, number)| number));
    let (from, to) = if many { (lower.max().unwrap_or(0), number.checked_sub(1)?) } else { (number + 1, lower.min().unwrap_or(number + 3)) };
    if from > to {
        return None;
    }
    let bound = r.within(from as usize, to as usize) as u32;
    Some(if many { Interval { low: 0, high: bound } } else { Interval { low: bound, high: r.pick(&[ANY, bound, 65_535]) } })
}

/// Names by which the records of schema objects are told apart. `all` says of each whether every object fits it.
fn tests(r: &mut Random, all: &[bool]) -> Vec<Test> {
    let names = shuffled(r, (0..256).collect());
    let mut listed = 0;
    let mut test = |at: usize| {
        let may_close = listed + all.len() < LISTED;
        let letter = match r.below(6) {
            0..=2 if all[at] => 0,
            2 | 3 if may_close => 2,
            n => 1 + n as u32 % 2 * 2,
        };
        let closed = letter == 2 || may_close && r.chance(20);
        listed += if closed { all.len() } else { 1 };
        Test { letter, closed, name: names[at], kind: r.within(1, 5) as u8 }
    };
    (0..all.len()).map(|at| test(at)).collect()
}

/// How a plan is spelled. The schema edges of `equal` have equal shapes.
pub fn spelled(r: &mut Random, plan: &Plan, equal: &[usize]) -> Spelling {
    let all: Vec<bool> = (0..plan.schema_nodes).map(|k| plan.nodes.iter().all(|fits| fits >> k & 1 == 1)).collect();
    let nodes = tests(r, &all);
    let fits = |s: usize| plan.edges.iter().all(|edge| edge.labels != plan.types[s].labels || edge.record >> s & 1 == 1);
    let all: Vec<bool> = (0..plan.types.len()).map(fits).collect();
    let mut types = tests(r, &all);
    equal.iter().for_each(|&s| types[s] = types[equal[0]]);
    let labels = r.pick(&[2, 3, 5, 63, 64]);
    let mask = if labels == 64 { u64::MAX } else { (1 << labels) - 1 };
    let mut edge_labels = vec![];
    while edge_labels.len() <= NO_LABELS {
        let set = r.next() & mask;
        if !edge_labels.contains(&set) {
            edge_labels.push(set);
        }
    }
    let highest = nodes.iter().chain(&types).map(|test| test.name).max().unwrap_or(0) as usize;
    let names = r.within(highest + 1, 256) as u16;
    Spelling { node_labels: r.next() & mask, edge_labels, nodes, types, labels, names }
}

/// The pair of a plan. Its numbers are known in two ways, at the schema edge that is told or at any other.
pub fn made(r: &mut Random, plan: &Plan, spelling: &Spelling) -> Made {
    let told = plan.told(spelling);
    let (graph, schema) = spelling.pair(plan, |name, kind| property(r, name, kind, 0));
    let s = if told[0] < 31 { r.below(plan.types.len()) } else { told[2] as usize };
    for way in 0..2 {
        let numbers: Vec<(usize, u32)> =
            account::numbers(&graph, &schema, &schema.edges[s], way).into_iter().map(|(v, number)| (v as usize, number)).collect();
        assert_eq!(numbers, plan.numbers(s, way), "the account differs from what the pair was made of");
    }
    Made::of(&Sound { graph, schema }, Owed::Exactly(told))
}
