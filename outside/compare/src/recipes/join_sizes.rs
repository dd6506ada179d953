//! Joined counts at each ceiling, which are taken, and one past it, which are not (44): dealt out to the two files in any way.

use super::joins::{lend, length, owed_of};
use super::sizes::{share, stretched};
use super::writing::{Output, LONG, SHORT};
use super::*;
use crate::join::CEILINGS;
use crate::sound::property;

/// The most nodes.
pub const NODES: usize = CEILINGS[0];
/// What the two graphs have of all else: nodes, edges, property rows, text bytes.
const LOW: [usize; 4] = [70, 8, 40, 4];
const COUNTS: [&str; 4] = ["nodes", "edges", "property rows", "text bytes"];

/// A graph of so many nodes, edges, property rows and text bytes.
pub fn sized(r: &mut Random, [nodes, edges, rows, text]: [usize; 4]) -> Graph {
    let mut g = Graph { text: vec![b'x'; text], labels: 64, names: 256, ..Graph::default() };
    let objects = (nodes + edges).max(1);
    let record = |r: &mut Random, at: usize| -> Vec<Property> {
        (0..share(rows, objects, at)).map(|name| property(r, name as u16, if name % 2 == 0 { 5 } else { 2 }, text)).collect()
    };
    for at in 0..nodes {
        g.nodes.push(Node { labels: r.below(4) as u64, properties: record(r, at) });
    }
    for at in 0..edges {
        let ends = [0; 2].map(|_: u32| r.below(nodes) as u32);
        g.edges.push(Edge { labels: 1 << 63, ends, properties: record(r, nodes + at) });
    }
    g
}

/// How a number is dealt out to the two.
type Deal = fn(&mut Random, usize) -> usize;

const DEALS: [(&str, Deal); 4] =
    [("all in the first", |_, all| all), ("all in the second", |_, _| 0), ("halves", |_, all| all / 2), ("dealt out", |r, all| r.within(1, all - 1))];

/// The two graphs whose joined counts are low but for one.
fn two(r: &mut Random, count: usize, number: usize, deal: Deal) -> [Graph; 2] {
    let first = deal(r, number);
    [first, number - first].map(|part| {
        let mut counts = LOW;
        if count == 0 {
            // a graph without nodes has nothing else
            counts = [0; 4];
        }
        counts[count] = part;
        sized(r, counts)
    })
}

fn made(r: &mut Random, [first, second]: [Graph; 2], output: Output) -> Made {
    let output = output(r, length(&first, &second));
    let files = [&first, &second].map(|g| lay_graph(g).bytes).to_vec();
    // a schema of nothing, which is soon answered
    let after = After { schemas: vec![lay_schema(&Schema::default()).bytes], third: None };
    lend(files, output, owed_of(&first, &second, output), Some(after))
}

/// At the ceiling, and one past it.
fn ceilings(recipes: &mut Recipes) {
    for (count, ceiling) in CEILINGS.into_iter().enumerate() {
        let (name, rare) = (COUNTS[count], count != 0);
        for (code, number, how) in [(0, ceiling, "at the ceiling"), (44, ceiling + 1, "one past the ceiling")] {
            // more than the ceiling are not in one file
            let deals = if code == 0 { &DEALS[..] } else { &DEALS[2..] };
            if rare {
                recipes.push(Function::Join, format!("{code} {name} {how}"), true, move |r| {
                    let (deal, output) = (r.pick(deals).1, r.pick(&LONG).1);
                    let graphs = two(r, count, number, deal);
                    Some(made(r, graphs, output))
                });
                continue;
            }
            for &(dealt, deal) in deals {
                recipes.push(Function::Join, format!("{code} {name} {how}, {dealt}"), false, move |r| {
                    let (graphs, output) = (two(r, count, number, deal), r.pick(&LONG).1);
                    Some(made(r, graphs, output))
                });
            }
        }
        recipes.push(Function::Join, format!("44 before 42: too many {name}, any short output"), rare, move |r| {
            let (graphs, output) = (two(r, count, ceiling + 1, DEALS[3].1), r.pick(&SHORT).1);
            Some(made(r, graphs, output))
        });
    }
}

/// All ceilings at once; and one block twice, which has half of the nodes, or one more.
fn at_once(recipes: &mut Recipes) {
    for (code, how, output) in [(0, "as long as the file", LONG[0].1), (42, "one byte short", SHORT[1].1)] {
        recipes.push(Function::Join, format!("{code} all ceilings at once, output {how}"), true, move |r| {
            let first = CEILINGS.map(|ceiling| r.within(ceiling / 4, ceiling / 2));
            let second = [0, 1, 2, 3].map(|at| CEILINGS[at] - first[at]);
            let graphs = [first, second].map(|counts| sized(r, counts));
            Some(made(r, graphs, output))
        });
    }
    for (code, nodes) in [(0, NODES / 2), (44, NODES / 2 + 1)] {
        recipes.push(Function::Twice, format!("{code} {nodes} nodes"), false, move |r| {
            let g = sized(r, [nodes, 0, 0, 0]);
            let (file, output) = (lay_graph(&g).bytes, r.pick(&LONG).1(r, length(&g, &g)));
            Some(lend(vec![file], output, owed_of(&g, &g, output), None))
        });
    }
}

/// The longest files, by their prefaces, and one byte more.
fn lengths(recipes: &mut Recipes) {
    for (code, lengths) in [(0, [1_048_576; 2]), (2, [1_048_577, 1_048_576]), (2, [1_048_576, 1_048_577])] {
        let [first, second] = lengths;
        recipes.push(Function::Join, format!("{code} files of {first} and {second} bytes"), true, move |r| {
            let graphs = [sound(r, &SMALL).graph, sound(r, &SMALL).graph];
            let output = length(&graphs[0], &graphs[1]) + r.below(20);
            let owed = if code == 0 { owed_of(&graphs[0], &graphs[1], output) } else { Owed::Returned(vec![code, (second > first) as u32], vec![]) };
            let files = [0, 1].map(|at| stretched(r, &lay_graph(&graphs[at]).bytes, lengths[at]));
            Some(lend(files.to_vec(), output, owed, None))
        });
    }
}

pub fn add(recipes: &mut Recipes) {
    ceilings(recipes);
    at_once(recipes);
    lengths(recipes);
}
