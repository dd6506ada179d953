//! Damaged bytes, and pairs that were made for no answer in particular. What they are owed is the second program's to say.

use super::*;
use crate::account::interval;
use crate::sound::property;

fn bytes_of(r: &mut Random) -> [Vec<u8>; 2] {
    let pair = sound(r, &SMALL);
    [lay_graph(&pair.graph).bytes, lay_schema(&pair.schema).bytes]
}

fn made([graph, schema]: [Vec<u8>; 2]) -> Option<Made> {
    Some(Made::new(graph, schema, Owed::Any))
}

/// Numbers at which a careless program goes wrong.
pub fn odd_number(r: &mut Random) -> u32 {
    r.pick(&[
        0,
        1,
        2,
        3,
        4,
        5,
        7,
        8,
        15,
        16,
        17,
        24,
        28,
        31,
        32,
        33,
        40,
        63,
        64,
        65,
        0x7F,
        0xFF,
        0x100,
        0x7FFF,
        0xFFFF,
        0x1_0000,
        0x7FFF_FFFF,
        0x8000_0000,
        0xFFFF_FFF0,
        0xFFFF_FFFE,
        0xFFFF_FFFF,
    ])
}

fn bytes(recipes: &mut Recipes) {
    recipes.add("damage: bits flipped", |r| {
        let mut files = bytes_of(r);
        for _ in 0..r.within(1, 6) {
            let file = &mut files[r.below(2)];
            let at = r.below(file.len());
            file[at] ^= 1 << r.below(8);
        }
        made(files)
    });
    recipes.add("damage: a part cut out", |r| {
        let mut files = bytes_of(r);
        let file = &mut files[r.below(2)];
        let from = r.below(file.len());
        let to = r.within(from, file.len());
        file.drain(from..to);
        made(files)
    });
    recipes.add("damage: the end cut off", |r| {
        let mut files = bytes_of(r);
        let file = &mut files[r.below(2)];
        file.truncate(r.below(file.len() + 1));
        made(files)
    });
    recipes.add("damage: a part of one file in the other", |r| {
        let mut files = bytes_of(r);
        let (from, into) = (r.below(2), r.below(2));
        let start = r.below(files[from].len());
        let part = files[from][start..(start + r.within(1, 40)).min(files[from].len())].to_vec();
        let at = r.within(0, files[into].len());
        let over = (at + if r.chance(50) { part.len() } else { 0 }).min(files[into].len());
        files[into].splice(at..over, part);
        made(files)
    });
    recipes.add("damage: an odd number in a field", |r| {
        let mut files = bytes_of(r);
        for _ in 0..r.within(1, 3) {
            let file = &mut files[r.below(2)];
            let (bytes, number) = (r.pick(&[1, 2, 4]), odd_number(r).to_le_bytes());
            let behind = r.below((file.len() / bytes).max(1));
            let at = file.len() - (behind + 1) * bytes;
            file[at..at + bytes].copy_from_slice(&number[..bytes]);
        }
        made(files)
    });
    recipes.add("damage: random bytes behind a good trailer", |r| {
        let pair = sound(r, &SMALL);
        let (mut graph, mut schema) = (lay_graph(&pair.graph), lay_schema(&pair.schema));
        let laid = if r.chance(50) { &mut graph } else { &mut schema };
        let few = r.chance(50);
        for at in laid.starts[0]..laid.trailer {
            laid.bytes[at] = if few { r.pick(&[0, 0, 0, 0, 1, 2, 3]) } else { r.next() as u8 };
        }
        made([graph.bytes, schema.bytes])
    });
    recipes.add("damage: random bytes", |r| {
        let (graph, schema) = (r.below(200), r.below(200));
        made([r.bytes(graph), r.bytes(schema)])
    });
    recipes.add("damage: the files the wrong way round", |r| {
        let [graph, schema] = bytes_of(r);
        made([schema, graph])
    });
}

pub fn change_graph(r: &mut Random, g: &mut Graph, s: &Schema) {
    if g.nodes.is_empty() {
        return;
    }
    let node = r.below(g.nodes.len());
    match r.below(7) {
        0 if !s.nodes.is_empty() => g.nodes[node].labels = s.nodes[r.below(s.nodes.len())].labels,
        1 => {
            g.nodes[node].properties.pop();
        }
        2 => g.nodes.push(g.nodes[node].clone()),
        3 if !g.edges.is_empty() => {
            let edge = r.below(g.edges.len());
            g.edges[edge].ends[r.below(2)] = node as u32;
        }
        4 if !g.edges.is_empty() => {
            let edge = r.below(g.edges.len());
            g.edges.remove(edge);
        }
        5 if !g.edges.is_empty() => {
            let edge = g.edges[r.below(g.edges.len())].clone();
            g.edges.push(edge);
        }
        _ => {
            for at in 0..g.nodes[node].properties.len() {
                if r.chance(30) {
                    let kind = r.within(1, 5) as u8;
                    let name = g.nodes[node].properties[at].name;
                    g.nodes[node].properties[at] = property(r, name, kind, g.text.len());
                }
            }
        }
    }
}

pub fn change_schema(r: &mut Random, s: &mut Schema) {
    if s.edges.is_empty() {
        return;
    }
    let at = r.below(s.edges.len());
    match r.below(6) {
        0 => {
            let way = r.below(2);
            let low = r.below(3) as u32;
            *interval(&mut s.edges[at], way) = Interval { low, high: if r.chance(40) { ANY } else { low + r.below(3) as u32 } };
        }
        1 => s.edges[at].ends[r.below(2)] = r.below(s.nodes.len()) as u32,
        2 => {
            let of = s.edges[at].clone();
            s.edges.insert(0, of);
        }
        3 => s.edges[at].ends.reverse(),
        4 => {
            let (a, b) = (r.below(s.nodes.len()), r.below(s.nodes.len()));
            s.nodes.swap(a, b);
        }
        _ => {
            let edge = &mut s.edges[at];
            std::mem::swap(&mut edge.source, &mut edge.target);
        }
    }
}

/// Changes one thing in the graph or in the schema.
pub fn change(r: &mut Random, pair: &mut Sound) {
    if r.chance(60) {
        change_graph(r, &mut pair.graph, &pair.schema);
    } else {
        change_schema(r, &mut pair.schema);
    }
}

pub fn add(recipes: &mut Recipes) {
    bytes(recipes);
    // the only ones that reach every rule with several violations at once, so they come in several strengths
    for most in [1, 2, 4, 8] {
        recipes.add(format!("changed: up to {most} changes of a pair that conforms"), move |r| {
            let mut pair = sound(r, &SMALL);
            (0..r.within(1, most)).for_each(|_| change(r, &mut pair));
            Some(Made::of(&pair, Owed::Any))
        });
    }
    recipes.add("changed: the schema of another pair", |r| {
        let (pair, other) = (sound(r, &SMALL), sound(r, &SMALL));
        Some(Made::new(lay_graph(&pair.graph).bytes, lay_schema(&other.schema).bytes, Owed::Any))
    });
}
