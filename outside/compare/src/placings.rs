//! Every small way in which schema edges place edges, with every small bound; and places far apart, up to the last of 64 schema
//! edges and of 4,096 edges. Both programs are held to what the pair was made of.

use crate::border::Function;
use crate::model::*;
use crate::options::Options;
use crate::plan::*;
use crate::{compare, report, Ready};

/// Two nodes and three schema nodes: one that node 0 alone fits, one that node 1 alone fits, one that both fit.
pub const NODES: [u32; 2] = [0b101, 0b110];
const SCHEMA_NODES: usize = 3;
/// How many ends a schema edge can have: each of the three at each end.
const ENDS: usize = SCHEMA_NODES * SCHEMA_NODES;

/// What is tried together: so many edges and schema edges, and the ends that the edges can have, see `ends`. With three schema edges
/// two edges are tried side by side alone, both from node 0 to node 1; else there would be very many.
pub struct Group {
    pub edges: usize,
    pub types: usize,
    pub ends: &'static [usize],
}

pub const GROUPS: [Group; 6] = [
    Group { edges: 1, types: 1, ends: &[0, 1, 2, 3] },
    Group { edges: 1, types: 2, ends: &[0, 1, 2, 3] },
    Group { edges: 1, types: 3, ends: &[0, 1, 2, 3] },
    Group { edges: 2, types: 1, ends: &[0, 1, 2, 3, 4, 5, 6, 7, 8, 9, 10, 11, 12, 13, 14, 15] },
    Group { edges: 2, types: 2, ends: &[0, 1, 2, 3, 4, 5, 6, 7, 8, 9, 10, 11, 12, 13, 14, 15] },
    Group { edges: 2, types: 3, ends: &[0b1010] },
];

/// What the schema edges are to an edge that do not place it.
const MISFITS: [&str; 4] = ["other labels", "other record", "source misfits", "target misfits"];
/// How many edges there are where one of them has two places. Up to 24 each in turn has them, of more the first, a middle one, the last.
const LENGTHS: [usize; 15] = [31, 32, 33, 63, 64, 65, 127, 128, 129, 255, 256, 257, 1_024, 4_095, 4_096];

/// What bounds the numbers at a schema edge, out (0) or into (1).
#[derive(Clone, Copy)]
struct Bound {
    s: usize,
    way: usize,
    interval: Interval,
}

#[derive(Clone, Copy)]
enum Placing {
    /// which of `GROUPS`, the edges' ends, the schema edges' states, and which bound, 0 for none
    Small { group: u8, ends: u8, bound: u8, states: u32 },
    /// one edge, placed by p and by q of 64 schema edges; all others misfit in one way, each way in turn. One of the two is bounded,
    /// or the last; if p is q, any.
    Apart { p: u8, q: u8, bounded: u8, which: u8 },
    /// one edge, placed by all schema edges. One is bounded.
    All { types: u8, bounded: u8, which: u8 },
    /// many edges, placed by schema edge 0, one of them by schema edge 1, too. One is bounded.
    Among { edges: u16, several: u16, bounded: u8, which: u8 },
}

use Placing::*;

/// Ends of so many edges, by their number: two bits for each edge, its source and its target.
pub fn ends(edges: usize, number: usize) -> Vec<[usize; 2]> {
    (0..edges).map(|e| [number >> (2 * e) & 1, number >> (2 * e + 1) & 1]).collect()
}

impl Group {
    /// How many states a schema edge has: its ends, and either those edges whose records fit, or other labels than the edges have.
    pub fn states(&self) -> usize {
        ENDS * ((1 << self.edges) + 1)
    }

    /// The bounds by their numbers, without 0, which is none: for each schema edge and way every minimum and maximum that so many
    /// edges can keep or break.
    fn bounds(&self) -> Vec<Bound> {
        let intervals: Vec<Interval> = (1..=self.edges).map(least).chain((0..self.edges).map(most)).collect();
        let each = (0..self.types).flat_map(|s| (0..2).map(move |way| (s, way)));
        each.flat_map(|(s, way)| intervals.iter().map(move |&interval| Bound { s, way, interval })).collect()
    }

    pub fn plan(&self, number: u8, states: u32) -> Plan {
        let state = |s: usize| states as usize / self.states().pow(s as u32) % self.states();
        let other = |s: usize| state(s) / ENDS >> self.edges == 1;
        let types: Vec<PlanType> = (0..self.types)
            .map(|s| {
                let ends = [state(s) % SCHEMA_NODES, state(s) / SCHEMA_NODES % SCHEMA_NODES];
                PlanType { labels: other(s) as usize, ends, bounds: [FREE; 2] }
            })
            .collect();
        // the records fit where the labels are other ones
        let fits = |s: usize, e: usize| other(s) || state(s) / ENDS >> e & 1 == 1;
        let record = |e: usize| (0..self.types).filter(|&s| fits(s, e)).fold(0, |bits, s| bits | 1 << s);
        let ends = ends(self.edges, number as usize);
        let edges = (0..self.edges).map(|e| PlanEdge { labels: 0, ends: ends[e], record: record(e) }).collect();
        Plan { schema_nodes: SCHEMA_NODES, nodes: NODES.to_vec(), strange: vec![], types, edges }
    }
}

fn most(high: usize) -> Interval {
    Interval { low: 0, high: high as u32 }
}

fn least(low: usize) -> Interval {
    Interval { low: low as u32, high: ANY }
}

fn misfit(p: u8, q: u8, bounded: u8) -> usize {
    (p + q + bounded) as usize % MISFITS.len()
}

/// One of four bounds of a schema edge, by the number of edges that it places: a minimum that they keep, or a maximum that they break,
/// out or into.
fn bound(s: usize, which: u8, number: usize) -> Bound {
    let interval = if which / 2 == 0 { least(number) } else { most(number - 1) };
    Bound { s, way: which as usize % 2, interval }
}

/// Edges from node 0 to node 1, and schema edges that place them all. No other node owes these a number.
fn plain(types: usize, edges: usize) -> Plan {
    let types = vec![PlanType { labels: 0, ends: [0, 1], bounds: [FREE; 2] }; types];
    let edges = vec![PlanEdge { labels: 0, ends: [0, 1], record: u64::MAX }; edges];
    Plan { schema_nodes: SCHEMA_NODES, nodes: NODES.to_vec(), strange: vec![], types, edges }
}

/// The schema objects' records differ by (b), (c) and (d) in turn, in kinds for which 0 is a good value; of many by (b) and (d).
pub fn spelled(plan: &Plan) -> Spelling {
    let test = |at: usize, few: bool| {
        let letter = if few { 1 + at as u32 % 3 } else { 1 + at as u32 % 2 * 2 };
        Test { letter, closed: letter == 2, name: at as u16, kind: 1 + at as u8 % 3 }
    };
    let few = plan.types.len() <= SCHEMA_NODES;
    let types: Vec<Test> = (0..plan.types.len()).map(|at| test(at, few)).collect();
    let nodes = (0..SCHEMA_NODES).map(|at| test(at, true)).collect();
    let names = types.len().max(SCHEMA_NODES) as u16;
    Spelling { node_labels: 1, edge_labels: vec![1, 2], nodes, types, labels: 2, names }
}

/// The two files of a plan.
pub fn files(plan: &Plan, spelling: &Spelling) -> [Vec<u8>; 2] {
    let (graph, schema) = spelling.pair(plan, |name, kind| Property { name, kind, length: 0, value: 0 });
    [lay_graph(&graph).bytes, lay_schema(&schema).bytes]
}

impl Placing {
    fn plan(self) -> Plan {
        let bounded = |mut plan: Plan, bound: Bound| {
            plan.types[bound.s].bounds[bound.way] = bound.interval;
            plan
        };
        match self {
            Small { group, ends, bound, states } => {
                let group = &GROUPS[group as usize];
                let plan = group.plan(ends, states);
                match bound {
                    0 => plan,
                    _ => bounded(plan, group.bounds()[bound as usize - 1]),
                }
            }
            Apart { p, q, bounded: s, which } => {
                let mut plan = plain(TYPES, 1);
                for other in (0..TYPES).filter(|&s| s != p as usize && s != q as usize) {
                    match misfit(p, q, s) {
                        0 => plan.types[other].labels = 1,
                        1 => plan.edges[0].record &= !(1 << other),
                        2 => plan.types[other].ends[0] = 1,
                        _ => plan.types[other].ends[1] = 0,
                    }
                }
                bounded(plan, bound(s as usize, which, 1))
            }
            All { types, bounded: s, which } => bounded(plain(types as usize, 1), bound(s as usize, which, 1)),
            Among { edges, several, bounded: s, which } => {
                let mut plan = plain(2, edges as usize);
                let others = plan.edges.iter_mut().enumerate().filter(|(e, _)| *e != several as usize);
                others.for_each(|(_, edge)| edge.record = 1);
                bounded(plan, bound(s as usize, which, if s == 0 { edges as usize } else { 1 }))
            }
        }
    }

    /// The call that tries it.
    fn call(self) -> Ready {
        let plan = self.plan();
        let spelling = spelled(&plan);
        let [graph, schema] = files(&plan, &spelling);
        Ready::check(graph, schema, plan.told(&spelling))
    }

    /// What it is made of, for a difference.
    fn words(self) -> String {
        let plan = self.plan();
        let several = |count: usize, what: &str| format!("{count} {what}{}", if count == 1 { "" } else { "s" });
        let made = match self {
            Small { .. } => {
                let edges: Vec<String> =
                    plan.edges.iter().map(|edge| format!("{} to {} at {:?}", edge.ends[0], edge.ends[1], plan.places(edge))).collect();
                format!("{}: {}", several(plan.types.len(), "schema edge"), edges.join(", "))
            }
            Apart { p, q, bounded, .. } => format!("places {p} and {q} of {TYPES}, all others: {}", MISFITS[misfit(p, q, bounded)]),
            All { types, .. } => format!("all of {} are places", several(types as usize, "schema edge")),
            Among { edges, several: one, .. } => format!("edge {one} of {} has two places", several(edges as usize, "edge")),
        };
        let bounds = plan.types.iter().enumerate().flat_map(|(s, of)| (0..2).map(move |way| (s, way, of.bounds[way])));
        let bounds = bounds.filter(|(_, _, interval)| *interval != FREE);
        let told = |interval: Interval| match interval {
            Interval { low, high: ANY } => format!("at least {low}"),
            Interval { high, .. } => format!("at most {high}"),
        };
        let bounds = bounds.map(|(s, way, interval)| format!("; rule {} at {s}: {}", 3 + way, told(interval)));
        format!("{made}{}", bounds.collect::<String>())
    }
}

/// All of them, the smallest first. Where an edge has no place, no bound comes into it, and none is tried.
fn all() -> Vec<Placing> {
    let mut all = vec![];
    for (group, of) in (0..).zip(&GROUPS) {
        let (bounds, states) = (of.bounds().len() as u8, of.states().pow(of.types as u32) as u32);
        for (ends, states) in of.ends.iter().flat_map(|&ends| (0..states).map(move |states| (ends as u8, states))) {
            let plan = of.plan(ends, states);
            let placed = plan.edges.iter().all(|edge| (0..of.types).any(|s| plan.placed(edge, s)));
            all.extend((0..=if placed { bounds } else { 0 }).map(|bound| Small { group, ends, bound, states }));
        }
    }
    let types = TYPES as u8;
    for (p, q) in (0..types).flat_map(|p| (p..types).map(move |q| (p, q))) {
        let bounded = match q + 1 == types {
            _ if p == q => (0..types).collect(),
            true => vec![p, q],
            false => vec![p, q, types - 1],
        };
        let each = bounded.into_iter().flat_map(|bounded| (0..4).map(move |which| (bounded, which)));
        all.extend(each.map(|(bounded, which)| Apart { p, q, bounded, which }));
    }
    for (types, bounded) in (1..=types).flat_map(|types| (0..types).map(move |s| (types, s))) {
        all.extend((0..4).map(|which| All { types, bounded, which }));
    }
    let short = (1..=24).flat_map(|edges| (0..edges).map(move |one| (edges, one)));
    let long = LENGTHS.into_iter().flat_map(|edges| [0, edges / 2, edges - 1].map(move |one| (edges, one)));
    for (edges, several) in short.chain(long) {
        let (edges, several) = (edges as u16, several as u16);
        all.extend((0..8).map(|n| Among { edges, several, bounded: n / 4, which: n % 4 }));
    }
    all
}

/// The codes that come of them, and how many have to come of each.
const CODES: [u32; 8] = [0, 23, 24, 25, 31, 32, 33, 34];

/// Of one edge. Of a schema edge's 27 states 9 have other labels, 9 more another record, and of the 9 others 4 have ends that the
/// edge's ends fit: these place it, 23 do not. A maximum of 0 is broken where the schema edge places the edge. A minimum of 1 is
/// kept where it does, and the node without the edge owes nothing: in 2 of the 4.
fn of_one(types: u32) -> [u64; 8] {
    let (each, rest) = (types as u64, 27u64.pow(types - 1));
    let placed = 27u64.pow(types) - 23u64.pow(types);
    let (few, many) = (each * (placed - 2 * rest), each * 4 * rest);
    let conform = placed + 4 * each * placed - 2 * (few + many);
    [conform, 9u64.pow(types), 18u64.pow(types) - 9u64.pow(types), 23u64.pow(types) - 18u64.pow(types), few, many, few, many]
}

/// Of two edges, which have the same source or target or not. Of a schema edge's 45 states 9 have other labels, 9 fit neither record,
/// and 9 each fit the first alone, the second alone, and both. A schema node that both edges' ends fit is one of two where the ends are
/// the same node, else it is one. So `both` states place both edges, 8 - `both` each one of them alone, and 29 + `both` neither.
///
/// Edge 0 has no place in 37 states, of which 27 do not fit its record, and 9 of these have other labels. If it has a place and edge 1
/// has none, the record of edge 1 misfits everywhere in 27 states each, of which 23 do not place edge 0.
///
/// A maximum of 0 is broken where the schema edge places an edge; one of 1, where it places both, and they leave (or reach) the same
/// node. A minimum of 2 is kept in half of these: where the other node owes nothing. If the edges are at the same node, a minimum of
/// 1 is kept in half of the states in which the schema edge places one or both. If not, it is kept where it places both, and in 4
/// each where it places one alone, and the other edge's node owes nothing.
fn of_two(types: u32, same: [bool; 2]) -> [u64; 8] {
    let both: u64 = same.iter().map(|&same| 1 + same as u64).product();
    let neither = 29 + both;
    let all = |of: u64| of.pow(types);
    let placed = all(45) + all(neither) - 2 * all(37);
    // with each state of a schema edge that places both edges the others have any states; if one, they have to place the other
    let rest = |of: u64| of.pow(types - 1);
    let others = rest(45) - rest(37);
    let (two, one) = (both * rest(45), 2 * (8 - both) * others);
    let [few_out, few_in] = same.map(|same| {
        let kept = if same { (two + one) / 2 + two / 2 } else { two + 8 * others };
        types as u64 * (2 * placed - kept)
    });
    let [many_out, many_in] = same.map(|same| types as u64 * (two + one + if same { two } else { 0 }));
    let conform = placed + 8 * types as u64 * placed - (few_out + many_out + few_in + many_in);
    let later = all(27) - all(23);
    let record = all(27) - all(9) + later;
    let ends = all(37) - all(27) + (all(37) - all(neither)) - later;
    [conform, all(9), record, ends, few_out, many_out, few_in, many_in]
}

/// How many have to come of each code.
fn owed() -> [u64; 8] {
    let mut sum = [0; 8];
    let mut add = |times: u64, numbers: [u64; 8]| sum.iter_mut().zip(numbers).for_each(|(sum, n)| *sum += times * n);
    (1..=3).for_each(|types| add(4, of_one(types)));
    for same in [[false, false], [false, true], [true, false], [true, true]] {
        (1..=2).for_each(|types| add(4, of_two(types, same)));
    }
    add(1, of_two(3, [true, true]));
    // apart: 2,016 pairs of places, of which 1,953 do not have the last; and 64 places alone
    let (with, without) = (2 * 2_016 + 64, 1_953 + 64 * 63);
    add(1, [2 * (with + without), 0, 0, 0, without, with, without, with]);
    // all, and among: every minimum is kept, and every maximum broken
    let (all, among) = (64 * 65 / 2, 2 * (24 * 25 / 2 + 3 * LENGTHS.len() as u64));
    add(all + among, [2, 0, 0, 0, 0, 1, 0, 1]);
    sum
}

/// True if both programs count every edge at its places, and nowhere else. `one` is the number of the only one to try.
pub fn compare_placings(options: &Options, one: Option<u64>) -> bool {
    let all = all();
    let count = all.len() as u64;
    if one.map_or(false, |number| number >= count) {
        println!("compare: placings: there are {count}, counted from 0");
        return false;
    }
    let numbers = one.map_or(0..count, |number| number..number + 1);
    let tried = &all[numbers.start as usize..numbers.end as usize];
    let far = tried.iter().filter(|placing| !matches!(placing, Small { .. })).count();
    match compare(options, numbers, 0, &|number| all[number as usize].call()) {
        Ok(tally) => {
            let came = CODES.map(|code| tally.of_code(Function::Check, code));
            let tried = tried.len() as u64;
            assert!(came.iter().sum::<u64>() == tried && (one.is_some() || came == owed()), "a placing was not tried");
            let told: Vec<String> = CODES.iter().zip(came).map(|(code, came)| format!("{code}: {came}")).collect();
            println!("compare: placings: {tried} placings tried, {far} of them far apart; by code {}", told.join(", "));
            true
        }
        Err(difference) => {
            let number = difference.index;
            let what = format!("placings: placing {number} ({})", all[number as usize].words());
            report::difference(options, &what, &format!("--placing {number}"), *difference)
        }
    }
}
