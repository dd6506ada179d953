//! Ways to miscount: what a program would tell that keeps the places of edges and gets something wrong. A pair that is made to show
//! one of them is owed another answer than that.

use super::{Numbers, CONFORMS};
use crate::plan::{Plan, PlanEdge};

#[derive(Clone, Copy, PartialEq)]
pub enum Miscount {
    /// edges of several places are counted at no place, or at some of them alone
    Nowhere,
    FirstPlace,
    LastPlace,
    FirstTwo,
    FirstAndLast,
    /// or twice, or beside their places, too
    Twice,
    ByLabels,
    ByEnds,
    ByFit,
    AtTheLast,
    /// edges of one place are counted elsewhere, or that place alone is missed
    PlaceBefore,
    PlaceBehind,
    FiveBits,
    WithoutPlace(usize),
    /// counters are kept from the schema edge before, or from rule 3, or where nobody owes a number
    KeptCounters,
    KeptFromRule3,
    KeptUnowed,
    /// a row is passed over
    NoFirstEdge,
    NoLastEdge,
    NoFirstNode,
    NoLastNode,
    NoFirstType,
    NoLastType,
}

use Miscount::*;

impl Miscount {
    /// How often an edge is counted at a schema edge.
    fn times(self, plan: &Plan, e: usize, places: &[usize], s: usize, way: usize) -> u32 {
        let edge = &plan.edges[e];
        let (last, types) = (places.len() - 1, plan.types.len());
        let at = places.iter().position(|&place| place == s);
        let of_labels = |edge: &PlanEdge| edge.labels == plan.types[s].labels;
        let ends = |edge: &PlanEdge| plan.end_fits(edge, s, 0) && plan.end_fits(edge, s, 1);
        let counted = match self {
            NoFirstEdge if e == 0 => false,
            NoLastEdge if e + 1 == plan.edges.len() => false,
            Nowhere if last > 0 => false,
            FirstPlace => at == Some(0),
            LastPlace => at == Some(last),
            FirstTwo => at.map_or(false, |at| at < 2),
            FirstAndLast => at.map_or(false, |at| at == 0 || at == last),
            Twice if last > 0 && at.is_some() => return 2,
            ByLabels if last > 0 => of_labels(edge),
            ByEnds if last > 0 => of_labels(edge) && ends(edge),
            ByFit if last > 0 => plan.fits(edge, s),
            AtTheLast if last > 0 => at.is_some() || s + 1 == types,
            PlaceBefore if last == 0 => places[0] == s + 1,
            PlaceBehind if last == 0 => places[0] + 1 == s,
            FiveBits if last == 0 => places[0] % 32 == s,
            WithoutPlace(place) if last == 0 => at.is_some() && s != place,
            // what is tested is the edge and its far end
            KeptUnowed if last > 0 => plan.fits(edge, s) && plan.end_fits(edge, s, 1 - way),
            _ => at.is_some(),
        };
        counted as u32
    }

    /// Whether a node is asked for its number at a schema edge.
    fn asks(self, plan: &Plan, node: usize, s: usize) -> bool {
        match self {
            NoFirstNode => node > 0,
            NoLastNode => node + 1 < plan.nodes.len(),
            NoFirstType => s > 0,
            NoLastType => s + 1 < plan.types.len(),
            _ => true,
        }
    }

    /// What is told of a plan in which every edge has a place.
    pub fn told(self, plan: &Plan) -> Numbers {
        let places: Vec<Vec<usize>> = plan.edges.iter().map(|edge| plan.places(edge)).collect();
        let mut counters = vec![0; plan.nodes.len()];
        for way in 0..2 {
            for s in 0..plan.types.len() {
                for e in 0..plan.edges.len() {
                    counters[plan.edges[e].ends[way]] += self.times(plan, e, &places[e], s, way);
                }
                for v in 0..plan.nodes.len() {
                    if plan.owes(v, s, way) && self.asks(plan, v, s) {
                        if let Some(told) = plan.told_number(way, s, (v, counters[v])) {
                            return told;
                        }
                    }
                }
                let last = s + 1 == plan.types.len();
                for v in 0..plan.nodes.len() {
                    match self {
                        KeptCounters if !last => {}
                        KeptFromRule3 if last => {}
                        KeptUnowed if !plan.owes(v, s, way) => {}
                        _ => counters[v] = 0,
                    }
                }
            }
        }
        CONFORMS
    }
}
