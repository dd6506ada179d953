//! Codes 21 to 25 and 31 to 34: one node, one edge or one interval of a pair that conforms is changed.

use super::*;
use crate::account::*;
use crate::sound::property;

/// A label set that none of the shapes has, made from one that is there.
fn other_labels(r: &mut Random, how: &str, labels: u64, count: u16, shapes: &[&Shape]) -> Option<u64> {
    let bit = 1u64 << r.below(count as usize);
    let other = match how {
        "one label more" => labels | bit,
        "one label less" => labels & !bit,
        "one label for another" => (labels & labels.wrapping_sub(1)) | bit,
        _ => 0,
    };
    if other == labels || shapes.iter().any(|s| s.labels == other) {
        None
    } else {
        Some(other)
    }
}

const OTHER: [&str; 4] = ["one label more", "one label less", "one label for another", "no label"];

/// A record changed in one to three places: a property taken out, put in, or of another kind.
pub fn other_record(r: &mut Random, properties: &mut Vec<Property>, names: u16, text: usize) {
    for _ in 0..r.within(1, 3) {
        match r.below(3) {
            0 if !properties.is_empty() => {
                let at = r.below(properties.len());
                properties.remove(at);
            }
            1 if !properties.is_empty() => {
                let at = r.below(properties.len());
                let kind = r.within(1, 5) as u8;
                properties[at] = property(r, properties[at].name, kind, text);
            }
            _ => {
                let name = r.below(names as usize) as u16;
                if properties.iter().all(|p| p.name != name) {
                    let kind = r.within(1, 5) as u8;
                    properties.push(property(r, name, kind, text));
                    properties.sort_by_key(|p| p.name);
                }
            }
        }
    }
}

/// What rule 1 says of a node, or the first part of rule 2 of an edge, that fits no shape: the lowest shape of equal
/// labels, the letter broken there, and the lowest name at fault by it.
pub fn unfit(labels: u64, properties: &[Property], shapes: &[&Shape]) -> Option<(u32, u32, u32)> {
    if shapes.iter().any(|s| fits(labels, properties, s)) {
        return None;
    }
    let lowest = shapes.iter().position(|s| s.labels == labels)?;
    let (letter, name) = broken(properties, shapes[lowest])?;
    Some((lowest as u32, letter, name as u32))
}

/// Nodes or edges of a pair, with what they are compared with.
#[derive(Clone, Copy, PartialEq)]
pub enum Objects {
    Nodes,
    Edges,
}

impl Objects {
    pub fn count(self, g: &Graph) -> usize {
        match self {
            Objects::Nodes => g.nodes.len(),
            Objects::Edges => g.edges.len(),
        }
    }

    pub fn object(self, g: &mut Graph, place: usize) -> (&mut u64, &mut Vec<Property>) {
        match self {
            Objects::Nodes => {
                let node = &mut g.nodes[place];
                (&mut node.labels, &mut node.properties)
            }
            Objects::Edges => {
                let edge = &mut g.edges[place];
                (&mut edge.labels, &mut edge.properties)
            }
        }
    }

    pub fn shapes(self, s: &Schema) -> Vec<&Shape> {
        match self {
            Objects::Nodes => s.nodes.iter().collect(),
            Objects::Edges => s.edges.iter().map(|e| &e.shape).collect(),
        }
    }
}

/// 21 and 22 for nodes, 23 and 24 for edges.
fn objects(recipes: &mut Recipes, kind: Objects, code: u32) {
    for how in OTHER {
        recipes.add(format!("{code} {how}"), move |r| {
            let mut pair = sound(r, &SMALL);
            let place = r.index_where(kind.count(&pair.graph), |_| true)?;
            let count = pair.graph.labels;
            let (labels, _) = kind.object(&mut pair.graph, place);
            *labels = other_labels(r, how, *labels, count, &kind.shapes(&pair.schema))?;
            Some(Made::of(&pair, Owed::Exactly(alone(code, place as u32))))
        });
    }
    for (wanted, name) in [(1, "b"), (2, "c"), (3, "d")] {
        for lone in [true, false] {
            let several = if lone { "" } else { ", several of equal labels in the schema" };
            recipes.add(format!("{} ({name}){several}", code + 1), move |r| {
                let mut pair = sound(r, &SMALL);
                let place = r.index_where(kind.count(&pair.graph), |_| true)?;
                let (names, text) = (pair.graph.names, pair.graph.text.len());
                let (labels, properties) = kind.object(&mut pair.graph, place);
                other_record(r, properties, names, text);
                let shapes = kind.shapes(&pair.schema);
                let (at, letter, name) = unfit(*labels, properties, &shapes)?;
                let equal = shapes.iter().filter(|s| s.labels == *labels).count();
                if letter != wanted || (equal == 1) != lone {
                    return None;
                }
                Some(Made::of(&pair, Owed::Exactly([code + 1, place as u32, at, letter, name])))
            });
        }
    }
}

/// Which ends misfit at the lowest schema edge that the edge fits, and whether another that it fits misses fewer.
pub fn misfit_ends(g: &Graph, s: &Schema, edge: &Edge) -> Option<(u32, [bool; 2], bool)> {
    let fitting: Vec<usize> = (0..s.edges.len()).filter(|&j| edge_fits(edge, &s.edges[j])).collect();
    let misfits = |j: usize| [0, 1].map(|end| !end_fits(g, s, edge, &s.edges[j], end));
    if fitting.is_empty() || fitting.iter().any(|&j| misfits(j) == [false, false]) {
        return None;
    }
    let lowest = misfits(fitting[0]);
    let another = fitting[1..].iter().any(|&j| misfits(j) != lowest);
    Some((fitting[0] as u32, lowest, another))
}

/// The answer for an edge whose ends never fit: 1 if its source misfits, else 2.
pub fn ends_told(place: usize, at: u32, misfits: [bool; 2]) -> Numbers {
    without_property(25, place as u32, at, if misfits[0] { 1 } else { 2 })
}

fn ends(recipes: &mut Recipes) {
    let wanted = [("source misfits", [true, false]), ("target misfits", [false, true]), ("both misfit", [true, true])];
    for (name, misfits) in wanted {
        for alone in [true, false] {
            let another = if alone { "" } else { ", another schema edge otherwise" };
            recipes.add(format!("25 {name}{another}"), move |r| {
                let mut pair = sound(r, &SMALL);
                let place = r.index_where(pair.graph.edges.len(), |_| true)?;
                let nodes = pair.graph.nodes.len();
                pair.graph.edges[place].ends = [r.below(nodes) as u32, r.below(nodes) as u32];
                let (at, ends, other) = misfit_ends(&pair.graph, &pair.schema, &pair.graph.edges[place])?;
                if ends != misfits || other == alone {
                    return None;
                }
                Some(Made::of(&pair, Owed::Exactly(ends_told(place, at, ends))))
            });
        }
    }
}

/// The pair with the interval that a way looks at laid anew on one schema edge, and the first node whose number it no longer
/// holds. `lay` gives the interval from the lowest and the highest number.
pub fn with_interval(r: &mut Random, way: usize, lay: impl Fn(&mut Random, u32, u32) -> Option<Interval>) -> Option<(Sound, Numbers)> {
    let mut pair = sound(r, &SMALL);
    let at = r.index_where(pair.schema.edges.len(), |_| true)?;
    let owed = numbers(&pair.graph, &pair.schema, &pair.schema.edges[at], way);
    let (low, high) = (owed.iter().map(|o| o.1).min()?, owed.iter().map(|o| o.1).max()?);
    let laid = lay(r, low, high)?;
    if laid.high != ANY && laid.low > laid.high {
        return None;
    }
    *interval(&mut pair.schema.edges[at], way) = laid;
    let first = owed.iter().find(|o| o.1 < laid.low || o.1 > laid.high);
    let told = match first {
        Some(&(node, number)) => without_property(31 + 2 * way as u32 + (number > laid.high) as u32, node, at as u32, number),
        None => CONFORMS,
    };
    Some((pair, told))
}

type Lay = fn(&mut Random, u32, u32) -> Option<Interval>;

/// Each place of a number and its interval, by the lowest and the highest number counted.
const INTERVALS: [(&str, u32, Lay); 10] = [
    ("at the minimum", 0, |_, low, _| Some(Interval { low, high: ANY })),
    ("at the maximum", 0, |_, _, high| Some(Interval { low: 0, high })),
    ("at both", 0, |_, low, high| if low == high { Some(Interval { low, high }) } else { None }),
    ("any", 0, |_, _, _| Some(Interval { low: 0, high: ANY })),
    ("one below the minimum", 31, |_, low, _| Some(Interval { low: low + 1, high: ANY })),
    ("below the minimum", 31, |r, low, high| Some(Interval { low: r.within(low as usize + 2, 60) as u32, high: high.max(60) })),
    ("none, and one owed", 31, |_, low, _| if low == 0 { Some(Interval { low: 1, high: ANY }) } else { None }),
    ("below the highest minimum", 31, |_, _, _| Some(Interval { low: 65_535, high: 65_535 })),
    ("one above the maximum", 32, |r, low, high| Some(Interval { low: r.within(0, low as usize) as u32, high: high.checked_sub(1)? })),
    ("above the maximum", 32, |r, _, high| if high < 2 { None } else { Some(Interval { low: 0, high: r.below(high as usize - 1) as u32 }) }),
];

fn intervals(recipes: &mut Recipes) {
    for way in 0..2 {
        for (name, code, lay) in INTERVALS {
            let rule = 3 + way;
            let code = if code == 0 { 0 } else { code + 2 * way as u32 };
            recipes.add(format!("{code} rule {rule}, {name}"), move |r| {
                let (pair, told) = with_interval(r, way, lay)?;
                if told[0] != code {
                    return None;
                }
                Some(Made::of(&pair, Owed::Exactly(told)))
            });
        }
    }
}

/// What a pair that conforms has in it. Each is counted, so that no run goes without.
fn conforming(recipes: &mut Recipes) {
    type Has = fn(&Graph, &Schema) -> bool;
    let kinds: [(&str, Has); 8] = [
        ("a node that fits several schema nodes", |g, s| g.nodes.iter().any(|n| s.nodes.iter().filter(|shape| node_fits(n, shape)).count() > 1)),
        ("an edge that counts for several schema edges", |g, s| g.edges.iter().any(|e| s.edges.iter().filter(|j| counts(g, s, e, j)).count() > 1)),
        ("an edge that fits a schema edge whose ends misfit", |g, s| {
            g.edges.iter().any(|e| s.edges.iter().any(|j| edge_fits(e, j) && !counts(g, s, e, j)))
        }),
        ("parallel edges", |g, _| (1..g.edges.len()).any(|i| g.edges[..i].iter().any(|e| e.ends == g.edges[i].ends))),
        ("a loop", |g, _| g.edges.iter().any(|e| e.ends[0] == e.ends[1])),
        ("prefaces", |g, s| !g.preface.is_empty() && !s.preface.is_empty()),
        ("other label counts", |g, s| g.labels != s.labels && !g.nodes.is_empty()),
        ("an unlisted name in an open type", |g, s| {
            g.nodes.iter().any(|n| {
                s.nodes.iter().any(|shape| node_fits(n, shape) && n.properties.iter().any(|p| shape.listed.iter().all(|l| l.name != p.name)))
            })
        }),
    ];
    for (name, has) in kinds {
        recipes.add(format!("0 {name}"), move |r| {
            let pair = sound(r, &SMALL);
            if has(&pair.graph, &pair.schema) {
                Some(Made::of(&pair, Owed::Exactly(CONFORMS)))
            } else {
                None
            }
        });
    }
}

pub fn add(recipes: &mut Recipes) {
    conforming(recipes);
    objects(recipes, Objects::Nodes, 21);
    objects(recipes, Objects::Edges, 23);
    ends(recipes);
    intervals(recipes);
}
