//! The longest lists: every node and every edge at the ceilings is at fault, and each list has every room.

use crate::model::*;
use crate::options::Options;
use crate::recipes::{alone, without_property, Numbers};
use crate::{compare, report, Ready};

const NODES: u32 = 1_024;
const EDGES: u32 = 4_096;
const TYPES: u32 = 64;
/// The most that there could be: nodes, edges, and each schema edge with each node both ways. No graph has so many: a node against
/// rule 1 fits no end, so none is told by rules 3 and 4, too. The longest list of all has a record less for each node.
const MOST: usize = (NODES + EDGES + 2 * TYPES * NODES) as usize;

/// What is at fault at the ceilings.
#[derive(Clone, Copy)]
enum Fault {
    /// each edge has other labels, and each node too few edges of each schema edge
    TooFew,
    /// each edge counts at each schema edge, and each node has too many
    TooMany,
    /// each edge ends where no node fits, and each node has too few that leave it
    Ends,
    /// each node and each edge has a record that misfits
    Records,
    /// each node has other labels, so that each edge's ends misfit
    Nodes,
}

use Fault::*;

const FAULTS: [(&str, Fault); 5] = [
    ("too few everywhere", TooFew),
    ("too many everywhere", TooMany),
    ("ends misfit everywhere", Ends),
    ("records misfit everywhere", Records),
    ("no node fits", Nodes),
];

fn pair(fault: Fault) -> (Graph, Schema) {
    let own = |differs: bool| if differs { 4 } else { 1 };
    let bounds = match fault {
        TooMany => Interval { low: 0, high: 3 },
        _ => Interval { low: 1, high: ANY },
    };
    // a name that is not listed
    let record = |misfits: bool| if misfits { vec![Property { name: 7, kind: 1, length: 0, value: 0 }] } else { vec![] };
    let shape = |labels: u64| Shape { labels, open: false, listed: vec![] };
    let (records, nodes) = (matches!(fault, Records), matches!(fault, Nodes));
    let node = Node { labels: own(nodes), properties: record(records) };
    // four edges leave each node, and four reach it
    let edge = |e: u32| Edge { labels: own(matches!(fault, TooFew)), ends: [e % NODES, e / 4], properties: record(records) };
    let ends = [0, matches!(fault, Ends) as u32];
    let schema_edge = SchemaEdge { shape: shape(1), ends, source: bounds, target: bounds };
    let graph = Graph { nodes: vec![node; NODES as usize], edges: (0..EDGES).map(edge).collect(), labels: 3, names: 8, ..Graph::default() };
    // no node fits the second
    let schema = Schema { nodes: vec![shape(1), shape(2)], edges: vec![schema_edge; TYPES as usize], labels: 3, names: 8, ..Schema::default() };
    (graph, schema)
}

/// What is told, which is the same of each node, of each edge, and of each schema edge with each node.
fn told(fault: Fault) -> Vec<Numbers> {
    let nodes = |of: fn(u32) -> Numbers| (0..NODES).map(of).collect();
    let edges = |of: fn(u32) -> Numbers| (0..EDGES).map(of).collect();
    let numbers = |code: u32, number: u32| (0..TYPES).flat_map(|s| (0..NODES).map(move |v| without_property(code, v, s, number))).collect();
    let all: [Vec<Numbers>; 3] = match fault {
        TooFew => [edges(|e| alone(23, e)), numbers(31, 0), numbers(33, 0)],
        TooMany => [vec![], numbers(32, 4), numbers(34, 4)],
        Ends => [edges(|e| without_property(25, e, 0, 2)), numbers(31, 0), vec![]],
        Records => [nodes(|v| [22, v, 0, 2, 7]), edges(|e| [24, e, 0, 2, 7]), vec![]],
        Nodes => [nodes(|v| alone(21, v)), edges(|e| without_property(25, e, 0, 1)), vec![]],
    };
    all.concat()
}

fn call(fault: Fault) -> Ready {
    let ((graph, schema), all) = (pair(fault), told(fault));
    let total = all.len();
    let rooms = [0, 1, total - 1, total, total + 1, MOST];
    Ready::check_all(lay_graph(&graph).bytes, lay_schema(&schema).bytes, all, &rooms)
}

/// True if both programs list all of them. `one` is the number of the only one to try.
pub fn compare_longest(options: &Options, one: Option<u64>) -> bool {
    let count = FAULTS.len() as u64;
    if one.map_or(false, |number| number >= count) {
        println!("compare: longest: there are {count}, counted from 0");
        return false;
    }
    let numbers = one.map_or(0..count, |number| number..number + 1);
    match compare(options, numbers, 0, &|number| call(FAULTS[number as usize].1)) {
        Ok(tally) => {
            println!("compare: longest: {} lists; violations by code {}", tally.lists.lists, tally.lists.by_code());
            true
        }
        Err(difference) => {
            let number = difference.index;
            let what = format!("longest: list {number} ({})", FAULTS[number as usize].0);
            report::difference(options, &what, &format!("--longest {number}"), *difference)
        }
    }
}
