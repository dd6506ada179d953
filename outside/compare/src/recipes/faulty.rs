//! Plans with faults of any rule: nodes that fit nothing, edges without a place, numbers that break their bounds.

use super::planned::*;
use super::*;
use crate::plan::*;
use crate::sound::property;
use crate::told::violations;

/// With so many schema edges a list is not told in a second way.
const MANY: usize = 16;

/// Puts a node in that fits nothing.
fn put_node(r: &mut Random, plan: &mut Plan) {
    let at = r.within(0, plan.nodes.len());
    plan.nodes.insert(at, 0);
    let ends = plan.edges.iter_mut().flat_map(|edge| &mut edge.ends);
    ends.chain(&mut plan.strange).for_each(|v| *v += (*v >= at) as usize);
    if r.chance(50) {
        plan.strange.push(at);
    }
}

/// An edge that is likely to have no place: by its labels, by its record, by its ends.
pub fn stray(r: &mut Random, plan: &Plan) -> PlanEdge {
    let ends = [0; 2].map(|_: usize| r.below(plan.nodes.len()));
    let s = r.below(plan.types.len());
    match r.below(4) {
        0 => PlanEdge { labels: NO_LABELS, ends, record: r.next() },
        1 => PlanEdge { labels: plan.types[s].labels, ends, record: 0 },
        _ => PlanEdge { labels: plan.types[s].labels, ends, record: r.next() | 1 << s },
    }
}

/// An edge that has a place, and is likely to have several.
pub fn placed(r: &mut Random, plan: &Plan) -> Option<PlanEdge> {
    let s = r.below(plan.types.len());
    let mut node = |end: usize| r.index_where(plan.nodes.len(), |v| plan.node_fits(v, plan.types[s].ends[end]));
    let ends = [node(0)?, node(1)?];
    Some(PlanEdge { labels: plan.types[s].labels, ends, record: u64::MAX })
}

/// An interval that some of the numbers break, or all: too few, too many, or both.
fn breaking(r: &mut Random, numbers: &[(usize, u32)]) -> Option<Interval> {
    let (low, high) = (numbers.iter().map(|n| n.1).min()?, numbers.iter().map(|n| n.1).max()?);
    let within = |r: &mut Random, from: u32, to: u32| r.within(from as usize, to as usize) as u32;
    Some(match r.below(5) {
        0 | 4 if high > 0 => Interval { low: 0, high: within(r, low.saturating_sub(1), high - 1) },
        1 if high > low + 1 => {
            let least = within(r, low + 1, high - 1);
            Interval { low: least, high: within(r, least, high - 1) }
        }
        2 => Interval { low: high + 1, high: r.pick(&[high + 1, 65_535, ANY]) },
        _ => Interval { low: within(r, low + 1, high + 1), high: ANY },
    })
}

/// Puts some of the numbers of a way out of their bounds.
pub fn break_numbers(r: &mut Random, plan: &mut Plan, way: usize, percent: usize) {
    for s in 0..plan.types.len() {
        if r.chance(percent) {
            if let Some(interval) = breaking(r, &plan.numbers(s, way)) {
                plan.types[s].bounds[way] = interval;
            }
        }
    }
}

/// A plan in which these rules are broken, and no other.
pub fn faulty(r: &mut Random, among: Among, rules: [bool; 4]) -> Option<Plan> {
    let mut planned = planned(r, &Wish { among, differ: ALL, only: None, lone: None })?;
    let plan = &mut planned.plan;
    if rules[0] {
        (0..r.within(2, 5)).for_each(|_| put_node(r, plan));
    }
    if rules[1] {
        for _ in 0..r.within(2, 7) {
            let edge = stray(r, plan);
            plan.edges.insert(r.within(0, plan.edges.len()), edge);
        }
    }
    lay_bounds(r, &mut planned, true);
    let mut plan = planned.plan;
    for way in 0..2 {
        if rules[2 + way] {
            break_numbers(r, &mut plan, way, 70);
        }
    }
    Some(plan)
}

/// The pair of a plan, with its list, which is known in two ways.
pub fn listed(r: &mut Random, plan: &Plan, spelling: &Spelling) -> Made {
    let all = plan.all(spelling);
    let (graph, schema) = spelling.pair(plan, |name, kind| property(r, name, kind, 0));
    if plan.types.len() < MANY && plan.nodes.len() < MANY {
        assert_eq!(violations(&graph, &schema), all, "the account differs from what the pair was made of");
    }
    of_list(&Sound { graph, schema }, all)
}

/// A pair with its list: the first of it is what `check` is owed.
pub fn of_list(pair: &Sound, all: Vec<Numbers>) -> Made {
    let first = all.first().map_or(CONFORMS, |first| *first);
    Made { all: Some(all), ..Made::of(pair, Owed::Exactly(first)) }
}
