//! Demand 3 from outside: the steps of loosening keep what conforms, and keep a violation that no interval excuses. And the
//! two traps: making a property optional and opening a type are no loosening.

use super::*;
use crate::account::*;

/// One of the four steps: a minimum lowered, a maximum raised, a schema node added at the end, a schema edge added at the end
/// with both intervals 0 to any. Intervals of the schema edge `kept` stay.
fn step(r: &mut Random, s: &mut Schema, kept: usize) {
    let free = Interval { low: 0, high: ANY };
    let shape = |r: &mut Random, s: &Schema| {
        let shapes: Vec<&Shape> = s.nodes.iter().chain(s.edges.iter().map(|e| &e.shape)).collect();
        let mut shape = shapes[r.below(shapes.len())].clone();
        shape.open |= r.chance(50);
        shape
    };
    match r.below(4) {
        0 | 1 if !s.edges.is_empty() => {
            let at = r.below(s.edges.len());
            let way = r.below(2);
            if at != kept {
                let interval = interval(&mut s.edges[at], way);
                interval.low = r.within(0, interval.low as usize) as u32;
                if interval.high != ANY {
                    interval.high = if r.chance(30) { ANY } else { r.within(interval.high as usize, 65_535) as u32 };
                }
            }
        }
        2 if s.nodes.len() < 32 && !s.nodes.is_empty() => {
            let added = shape(r, s);
            s.nodes.push(added);
        }
        _ if s.edges.len() < 64 && !s.nodes.is_empty() => {
            let ends = [r.below(s.nodes.len()) as u32, r.below(s.nodes.len()) as u32];
            let added = shape(r, s);
            s.edges.push(SchemaEdge { shape: added, ends, source: free, target: free });
        }
        _ => {}
    }
}

pub fn add(recipes: &mut Recipes) {
    recipes.add("0 loosened, demand 3", |r| {
        let mut pair = sound(r, &SMALL);
        for _ in 0..r.within(1, 6) {
            step(r, &mut pair.schema, usize::MAX);
        }
        Some(Made::of(&pair, Owed::Exactly(CONFORMS)))
    });
    for (code, way, many) in [(31, 0, false), (32, 0, true), (33, 1, false), (34, 1, true)] {
        recipes.add(format!("{code} loosened, and not excused"), move |r| {
            let mut pair = sound(r, &SMALL);
            let at = r.index_where(pair.schema.edges.len(), |_| true)?;
            let owed = numbers(&pair.graph, &pair.schema, &pair.schema.edges[at], way);
            let (low, high) = (owed.iter().map(|o| o.1).min()?, owed.iter().map(|o| o.1).max()?);
            let laid = if many { Interval { low: 0, high: high.checked_sub(1)? } } else { Interval { low: low + 1, high: ANY } };
            *interval(&mut pair.schema.edges[at], way) = laid;
            let &(node, number) = owed.iter().find(|o| o.1 < laid.low || o.1 > laid.high)?;
            for _ in 0..r.within(1, 6) {
                step(r, &mut pair.schema, at);
            }
            Some(Made::of(&pair, Owed::Exactly(without_property(code, node, at as u32, number))))
        });
    }
    for (name, open) in [("made optional", false), ("opened", true)] {
        recipes.add(format!("31 to 34 a type {name}, no loosening"), move |r| {
            let mut pair = sound(r, &SMALL);
            let at = r.index_where(pair.schema.nodes.len(), |_| true)?;
            let owes = |pair: &Sound| {
                (0..pair.schema.edges.len()).any(|j| {
                    (0..2).any(|way| {
                        let mut schema_edge = pair.schema.edges[j].clone();
                        let low = interval(&mut schema_edge, way).low;
                        numbers(&pair.graph, &pair.schema, &schema_edge, way).iter().any(|o| o.1 < low)
                    })
                })
            };
            if open {
                pair.schema.nodes[at].open = true;
            } else {
                pair.schema.nodes[at].listed.iter_mut().for_each(|l| l.optional = true);
            }
            // more nodes fit, and one of them now has too few edges
            if !owes(&pair) {
                return None;
            }
            Some(Made::of(&pair, Owed::Code(31, 34)))
        });
    }
}
