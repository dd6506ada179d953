//! Mistakes of a list: what a program would tell that goes on behind a violation and gets something wrong. A pair that is made to
//! show one of them is owed another list than that.

use super::Numbers;
use crate::plan::{Plan, Spelling};

#[derive(Clone, Copy, PartialEq)]
pub enum Mistake {
    /// an edge without a place is counted where it fits, or where the edge before it is
    StrayCounted,
    StrayAsBefore,
    /// edges behind one without a place are counted nowhere, or those of several places nowhere or at the first alone
    NowhereBehind,
    SeveralBehind,
    FirstPlaceBehind,
    /// a node that fits nothing has the fits of the node before it
    FitsOfBefore,
    /// behind a told number the same schema edge is counted again, or its counters are zero
    CountedAgain,
    LostBehind,
    /// behind a told number the next schema edge starts with these counters, or at that node
    KeptBehind,
    FromBehind,
    /// behind a told number the next node is passed over, the rest of the schema edge's nodes, the next schema edge, or the rest
    NodeBehind,
    NodesBehind,
    TypeBehind,
    RuleBehind,
    /// what rule 3 told of the last schema edge is the end of rule 4, too
    NoRule4Behind,
    /// a node that rule 3 told is not told by rule 4
    NodeOnce,
}

use Mistake::*;

impl Mistake {
    /// The places at which each edge is counted.
    fn places(self, plan: &Plan) -> Vec<Vec<usize>> {
        let fits = |e: usize| (0..plan.types.len()).filter(|&s| plan.fits(&plan.edges[e], s)).collect();
        let mut all: Vec<Vec<usize>> = vec![];
        let mut strayed = false;
        for (e, edge) in plan.edges.iter().enumerate() {
            let places = plan.places(edge);
            let (stray, several) = (places.is_empty(), places.len() > 1);
            all.push(match self {
                StrayCounted if stray => fits(e),
                StrayAsBefore if stray => all.last().map_or(vec![], |before| before.clone()),
                NowhereBehind if strayed => vec![],
                SeveralBehind if strayed && several => vec![],
                FirstPlaceBehind if strayed && several => vec![places[0]],
                _ => places,
            });
            strayed |= stray;
        }
        all
    }

    /// Which schema nodes each node fits.
    fn fits(self, plan: &Plan) -> Vec<u32> {
        let mut fits = plan.nodes.clone();
        for v in 1..fits.len() {
            if self == FitsOfBefore && fits[v] == 0 {
                fits[v] = fits[v - 1];
            }
        }
        fits
    }

    /// The violations of rules 3 and 4.
    fn numbers(self, plan: &Plan) -> Vec<Numbers> {
        let (places, fits, last) = (self.places(plan), self.fits(plan), plan.types.len() - 1);
        let mut told: Vec<Numbers> = vec![];
        let mut counters = vec![0; plan.nodes.len()];
        let count = |counters: &mut Vec<u32>, s: usize, way: usize| {
            let counted = plan.edges.iter().zip(&places).filter(|(_, places)| places.contains(&s));
            counted.for_each(|(edge, _)| counters[edge.ends[way]] += 1);
        };
        for way in 0..2 {
            let (mut from, mut pass) = (0, false);
            for s in 0..=last {
                if std::mem::take(&mut pass) {
                    continue;
                }
                count(&mut counters, s, way);
                let before = told.len();
                let mut v = std::mem::take(&mut from);
                while v < fits.len() {
                    let owes = fits[v] >> plan.types[s].ends[way] & 1 == 1;
                    let wrong = plan.told_number(way, s, (v, counters[v])).filter(|_| owes);
                    v += 1;
                    match wrong {
                        Some(wrong) if !(self == NodeOnce && way == 1 && told.iter().any(|of| of[0] < 33 && of[1] == wrong[1])) => told.push(wrong),
                        _ => continue,
                    }
                    match self {
                        CountedAgain => count(&mut counters, s, way),
                        LostBehind => counters.fill(0),
                        NodeBehind => v += 1,
                        NodesBehind => break,
                        _ => {}
                    }
                }
                let some = told.len() > before;
                if !(some && self == KeptBehind) {
                    counters.fill(0);
                }
                match self {
                    FromBehind if some => from = told[told.len() - 1][1] as usize,
                    TypeBehind => pass = some,
                    RuleBehind if some => break,
                    NoRule4Behind if some && way == 0 && s == last => return told,
                    _ => {}
                }
            }
            counters.fill(0);
        }
        told
    }

    /// What would be told.
    pub fn told(self, plan: &Plan, spelling: &Spelling) -> Vec<Numbers> {
        let objects = plan.all(spelling).into_iter().filter(|told| told[0] < 31);
        objects.chain(self.numbers(plan)).collect()
    }
}
