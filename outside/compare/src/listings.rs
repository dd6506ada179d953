//! Every violation of every small placing: all numbers are told, whatever comes before them. Both programs are held to what the
//! pair was made of.

use crate::list_cases::CODES;
use crate::model::*;
use crate::options::Options;
use crate::placings::*;
use crate::{compare, report, Ready};

/// What bounds every number: each is too few; each but 0 is too many; 0 is too few, and 2 too many.
const BOUNDS: [Interval; 3] = [Interval { low: 3, high: ANY }, Interval { low: 0, high: 0 }, Interval { low: 1, high: 1 }];
/// Which schema nodes the two nodes fit: as in the placings; node 0 fits none, by its record; node 1 fits none, by its labels.
const FITS: [[u32; 2]; 3] = [NODES, [0, NODES[1]], [NODES[0], 0]];
const BY_LABELS: usize = 1;
/// Which bounds come with which nodes.
const KINDS: [(usize, usize); 5] = [(0, 0), (0, 1), (0, 2), (1, 0), (2, 0)];

/// Three schema edges come with the first alone.
fn kinds(group: &Group) -> &'static [(usize, usize)] {
    &KINDS[..if group.types < 3 { KINDS.len() } else { 1 }]
}

#[derive(Clone, Copy)]
struct Listing {
    group: u8,
    ends: u8,
    kind: u8,
    states: u32,
}

impl Listing {
    fn call(self) -> Ready {
        let (bounds, fits) = KINDS[self.kind as usize];
        let mut plan = GROUPS[self.group as usize].plan(self.ends, self.states);
        plan.nodes = FITS[fits].to_vec();
        plan.strange = if plan.nodes[BY_LABELS] == 0 { vec![BY_LABELS] } else { vec![] };
        plan.types.iter_mut().for_each(|of| of.bounds = [BOUNDS[bounds]; 2]);
        let spelling = spelled(&plan);
        let ([graph, schema], all) = (files(&plan, &spelling), plan.all(&spelling));
        let room = all.len() + 1;
        Ready::check_all(graph, schema, all, &[room])
    }

    /// What it is made of, for a difference.
    fn words(self) -> String {
        let (group, (bounds, fits)) = (&GROUPS[self.group as usize], KINDS[self.kind as usize]);
        let ends: Vec<String> = ends(group.edges, self.ends as usize).iter().map(|[from, to]| format!("{from} to {to}")).collect();
        let nodes = ["both nodes fit", "node 0 fits nothing", "node 1 fits nothing"][fits];
        let numbers = ["every number is told", "every number but 0 is told", "the numbers 0 and 2 are told"][bounds];
        format!("{} schema edges, edges {}, {nodes}, {numbers}", group.types, ends.join(", "))
    }
}

fn all() -> Vec<Listing> {
    let mut all = vec![];
    for (group, of) in (0..).zip(&GROUPS) {
        let states = of.states().pow(of.types as u32) as u32;
        let kinds = 0..kinds(of).len() as u8;
        for (kind, &ends) in kinds.flat_map(|kind| of.ends.iter().map(move |ends| (kind, ends))) {
            all.extend((0..states).map(|states| Listing { group, ends: ends as u8, kind, states }));
        }
    }
    all
}

/// How many violations have to come of each code, with one choice of the edges' ends. A schema edge has 9 states of its ends, each with
/// other labels than the edges or with a choice of the edges whose records fit: 27 states with one edge, 45 with two.
///
/// A node fits 2 of the 3 schema nodes, or none, and owes a schema edge a number in as many thirds of its states. So an edge's ends fit 4
/// of the 9, or none. With other labels an edge is in 9 states, and its record fits in 9 with one edge, in 18 with two.
fn owed_of(group: &Group, ends: &[[usize; 2]], (bounds, nodes): (usize, usize)) -> [u64; CODES.len()] {
    let (edges, types) = (group.edges as u32, group.types as u32);
    let (states, records) = (group.states() as u64, 2u64.pow(edges) + 1);
    let (with, fits) = (2u64.pow(edges - 1), [0, 1].map(|v| FITS[nodes][v].count_ones() as u64));
    let all = |of: u64| of.pow(types);
    let mut told = [0; CODES.len()];
    for (at, v) in [(1, 0), (0, 1)] {
        told[at] = if fits[v] == 0 { all(states) } else { 0 };
    }
    let placed = ends.iter().map(|&[from, to]| with * fits[from] * fits[to]).collect::<Vec<u64>>();
    for placed in &placed {
        let unfit = states - 9 * with;
        told[2] += all(9);
        told[3] += all(unfit) - all(9);
        told[4] += all(states - placed) - all(unfit);
    }
    // of one schema edge, with any states of the others
    let each = types as u64 * states.pow(types - 1);
    let owing = 3 * records * (fits[0] + fits[1]);
    for way in 0..2 {
        // the states that place both edges, at one node
        let both = match ends {
            [a, b] if a[way] == b[way] => fits[a[way]] * if a[1 - way] == b[1 - way] { fits[a[1 - way]] } else { fits[0].min(fits[1]) / 2 },
            _ => 0,
        };
        let some = placed.iter().sum::<u64>() - both;
        let [few, many] = [[owing, 0], [0, some], [owing - some, both]][bounds];
        told[5 + 2 * way] += each * few;
        told[6 + 2 * way] += each * many;
    }
    told
}

fn owed() -> [u64; CODES.len()] {
    let mut sum = [0; CODES.len()];
    for group in &GROUPS {
        for (&kind, &number) in kinds(group).iter().flat_map(|kind| group.ends.iter().map(move |number| (kind, number))) {
            sum.iter_mut().zip(owed_of(group, &ends(group.edges, number), kind)).for_each(|(sum, n)| *sum += n);
        }
    }
    sum
}

/// True if both programs list every violation of every small placing. `one` is the number of the only one to try.
pub fn compare_listings(options: &Options, one: Option<u64>) -> bool {
    let all = all();
    let count = all.len() as u64;
    if one.map_or(false, |number| number >= count) {
        println!("compare: listings: there are {count}, counted from 0");
        return false;
    }
    let numbers = one.map_or(0..count, |number| number..number + 1);
    let tried = numbers.end - numbers.start;
    match compare(options, numbers, 0, &|number| all[number as usize].call()) {
        Ok(tally) => {
            let came = &tally.lists;
            assert!(came.lists == tried && (one.is_some() || came.violations == owed()), "a list was not tried");
            println!("compare: listings: {tried} lists of small placings; violations by code {}", came.by_code());
            true
        }
        Err(difference) => {
            let number = difference.index;
            let what = format!("listings: list {number} ({})", all[number as usize].words());
            report::difference(options, &what, &format!("--listing {number}"), *difference)
        }
    }
}
