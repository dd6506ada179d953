//! Writing graph files and finding their tables: round trips, codes 41 and 42, and what each refusal 2 to 8 means for both.

use super::damage::odd_number;
use super::*;

pub const NOT_A_GRAPH: u32 = 41;
pub const SHORT_OUTPUT: u32 = 42;

/// How often a sub-case of `check` is tried before another is taken, so that those which seldom come about have their share.
const AGAIN: usize = 100;

/// A call of the writer, with an output of so many bytes.
fn lend(lent: Vec<Vec<u8>>, counts: [u32; 2], output: usize, owed: Owed) -> Made {
    Made { function: Function::Write, lent, counts, owed, block: Some(output), all: None, after: None }
}

/// The writer with a file's tables as they lie in it.
pub fn lend_laid(laid: &Laid, output: usize, owed: Owed) -> Made {
    lend(laid.tables(), counts_of(laid), output, owed)
}

pub fn find(graph: Vec<u8>, owed: Owed) -> Made {
    Made { function: Function::Find, lent: vec![graph], counts: [0; 2], owed, block: Some(0), all: None, after: None }
}

/// All three functions one after the other. `answer` is what the pair is owed of `check`.
pub fn again(graph: &Laid, schema: Vec<u8>, output: usize, answer: Numbers) -> Made {
    let owed = written_again(graph, output, answer);
    Made { function: Function::Again, lent: vec![graph.bytes.clone(), schema], counts: [0; 2], owed, block: Some(output), all: None, after: None }
}

fn counts_of(laid: &Laid) -> [u32; 2] {
    [laid.labels as u32, laid.names as u32]
}

/// 0 and the length; the output starts with the file, without its preface.
pub fn written(laid: &Laid) -> Owed {
    let file = laid.without_preface();
    Owed::Returned(vec![0, file.len() as u32], file.to_vec())
}

/// A code and 0; nothing is written.
pub fn refused(code: u32) -> Owed {
    Owed::Returned(vec![code], vec![])
}

/// The accepted file is found, written where the output is long enough, and then has the answer that it had.
fn written_again(graph: &Laid, output: usize, answer: Numbers) -> Owed {
    let (mut numbers, file) = (graph.places().to_vec(), graph.without_preface());
    if output < file.len() {
        numbers.push(SHORT_OUTPUT);
        return Owed::Returned(numbers, vec![]);
    }
    numbers.extend([0, file.len() as u32, answer[0]]);
    numbers.extend(answer);
    Owed::Returned(numbers, file.to_vec())
}

pub fn small_graph(r: &mut Random) -> Laid {
    lay_graph(&sound(r, &SMALL).graph)
}

/// An output of any length: none, too short, as long as the file, longer.
pub fn any_output(r: &mut Random, file: usize) -> usize {
    match r.below(5) {
        0 => 0,
        1 => r.below(file),
        2 => file,
        3 => file + 1,
        _ => file + r.within(2, 400),
    }
}

/// Lengths of an output, from the file's.
pub type Output = fn(&mut Random, usize) -> usize;

pub const LONG: [(&str, Output); 3] =
    [("as long as the file", |_, file| file), ("one byte longer", |_, file| file + 1), ("much longer", |r, file| file + r.within(2, 2_000))];

pub const SHORT: [(&str, Output); 3] = [("empty", |_, _| 0), ("one byte short", |_, file| file - 1), ("shorter", |r, file| r.below(file))];

/// A graph file that is refused has no places, and tables with such rows are not written.
pub fn add_refused(recipes: &mut Recipes, code: u32, cause: &str, change: &Change) {
    let changed = change.clone();
    recipes.push(Function::Find, format!("{code} {cause}"), false, move |r| {
        let mut graph = small_graph(r);
        let place = changed(r, &mut graph)? as u32;
        Some(find(graph.bytes, Owed::Returned(vec![code, place], vec![])))
    });
    if (6..=8).contains(&code) {
        let changed = change.clone();
        recipes.push(Function::Write, format!("41 for {code}, {cause}"), false, move |r| {
            let mut graph = small_graph(r);
            changed(r, &mut graph)?;
            let output = any_output(r, graph.without_preface().len());
            Some(lend_laid(&graph, output, refused(NOT_A_GRAPH)))
        });
    }
}

fn round_trips(recipes: &mut Recipes) {
    for (preface, most) in [("without preface", 0), ("with a preface", 60)] {
        let pair = move |r: &mut Random| {
            let mut pair = sound(r, &SMALL);
            let bytes = r.within(most.min(1), most);
            pair.graph.preface = r.bytes(bytes);
            pair
        };
        for (how, output) in LONG {
            recipes.push(Function::Write, format!("0 a graph {preface}, output {how}"), false, move |r| {
                let graph = lay_graph(&pair(r).graph);
                let output = output(r, graph.without_preface().len());
                Some(lend_laid(&graph, output, written(&graph)))
            });
        }
        recipes.push(Function::Find, format!("0 a graph {preface}"), false, move |r| {
            let graph = lay_graph(&pair(r).graph);
            let places = graph.places().to_vec();
            Some(find(graph.bytes, Owed::Returned(places, vec![])))
        });
        for (how, output) in LONG.into_iter().chain(SHORT) {
            recipes.push(Function::Again, format!("a graph {preface}, output {how}"), false, move |r| {
                let pair = pair(r);
                let graph = lay_graph(&pair.graph);
                let output = output(r, graph.without_preface().len());
                Some(again(&graph, lay_schema(&pair.schema).bytes, output, CONFORMS))
            });
        }
    }
}

/// Graphs at a border that are accepted: written, found and written again. A schema of nothing answers them with node 0, if
/// there is one.
fn add_accepted(recipes: &mut Recipes, name: &str, graph: fn(&mut Random) -> Option<Graph>) {
    recipes.push(Function::Write, format!("0 {name}"), false, move |r| {
        let graph = lay_graph(&graph(r)?);
        let file = graph.without_preface().len();
        let output = if r.chance(50) { file } else { file + r.within(1, 40) };
        Some(lend_laid(&graph, output, written(&graph)))
    });
    recipes.push(Function::Find, format!("0 {name}"), false, move |r| {
        let graph = lay_graph(&graph(r)?);
        let places = graph.places().to_vec();
        Some(find(graph.bytes, Owed::Returned(places, vec![])))
    });
    recipes.push(Function::Again, name.to_string(), false, move |r| {
        let graph = lay_graph(&graph(r)?);
        let output = any_output(r, graph.without_preface().len());
        let code = if graph.counts[0] > 0 { 21 } else { 0 };
        Some(again(&graph, lay_schema(&Schema::default()).bytes, output, alone(code, 0)))
    });
}

pub fn records(g: &mut Graph) -> impl Iterator<Item = &mut Vec<Property>> {
    g.nodes.iter_mut().map(|n| &mut n.properties).chain(g.edges.iter_mut().map(|e| &mut e.properties))
}

/// A random graph with nodes, changed.
fn with_nodes(r: &mut Random, change: impl Fn(&mut Graph)) -> Option<Graph> {
    let mut graph = sound(r, &SMALL).graph;
    if graph.nodes.is_empty() {
        return None;
    }
    change(&mut graph);
    Some(graph)
}

fn empty_graph(r: &mut Random) -> Graph {
    Graph { labels: r.within(0, 64) as u16, names: r.within(0, 256) as u16, ..Graph::default() }
}

fn accepted(recipes: &mut Recipes) {
    add_accepted(recipes, "the empty graph", |r| Some(empty_graph(r)));
    add_accepted(recipes, "the empty graph, all zero", |_| Some(Graph::default()));
    add_accepted(recipes, "nothing but text", |r| {
        let bytes = r.within(1, 40);
        Some(Graph { text: r.bytes(bytes), ..empty_graph(r) })
    });
    add_accepted(recipes, "no edges", |r| with_nodes(r, |g| g.edges.clear()));
    add_accepted(recipes, "no property rows", |r| with_nodes(r, |g| records(g).for_each(|record| record.clear())));
    add_accepted(recipes, "no text", |r| {
        with_nodes(r, |g| {
            g.text.clear();
            records(g).flatten().filter(|p| p.kind == 5).for_each(|p| (p.length, p.value) = (0, 0));
        })
    });
    add_accepted(recipes, "label count 0", |r| {
        with_nodes(r, |g| {
            g.labels = 0;
            g.nodes.iter_mut().map(|n| &mut n.labels).chain(g.edges.iter_mut().map(|e| &mut e.labels)).for_each(|l| *l = 0);
        })
    });
    add_accepted(recipes, "name count 0", |r| {
        with_nodes(r, |g| {
            g.names = 0;
            records(g).for_each(|record| record.clear());
        })
    });
    add_accepted(recipes, "label count 64", |r| with_nodes(r, |g| g.labels = 64));
    add_accepted(recipes, "name count 256", |r| with_nodes(r, |g| g.names = 256));
}

const TABLES: [(&str, usize); 3] = [("nodes", 16), ("edges", 24), ("property rows", 16)];

/// A table that is not whole rows: `more` says how many bytes there are too many, or too few.
fn add_broken(recipes: &mut Recipes, table: usize, how: &str, more: impl Fn(&mut Random) -> isize + Send + Sync + 'static) {
    recipes.push(Function::Write, format!("41 {}, {how}", TABLES[table].0), false, move |r| {
        let graph = small_graph(r);
        let mut made = lend_laid(&graph, any_output(r, graph.without_preface().len()), refused(NOT_A_GRAPH));
        let (lent, more) = (&mut made.lent[table], more(r));
        if more < 0 {
            let rest = lent.len().checked_sub(more.unsigned_abs())?;
            lent.truncate(rest);
        } else if r.chance(50) {
            lent.extend(r.bytes(more as usize));
        } else {
            lent.extend(vec![0; more as usize]);
        }
        Some(made)
    });
}

fn not_whole(recipes: &mut Recipes) {
    for (table, (_, width)) in TABLES.into_iter().enumerate() {
        add_broken(recipes, table, "one byte more", |_| 1);
        add_broken(recipes, table, "one byte fewer", |_| -1);
        add_broken(recipes, table, "8 bytes more", |_| 8);
        add_broken(recipes, table, "part of a row more", move |r| r.within(1, width - 1) as isize);
        add_broken(recipes, table, "part of a row fewer", move |r| -(r.within(1, width - 1) as isize));
    }
    // whole rows of the other two tables
    add_broken(recipes, 1, "16 bytes more", |_| 16);
    add_broken(recipes, 1, "16 bytes fewer", |_| -16);
}

/// A label or name count above its ceiling, from the good count: also one that is good where it is cut to 16 bits.
fn too_high(recipes: &mut Recipes) {
    type Count = fn(&mut Random, u32, u32) -> u32;
    let counts: [(&str, Count); 6] = [
        ("one above", |_, _, ceiling| ceiling + 1),
        ("above", |r, _, ceiling| r.within(ceiling as usize + 1, 65_535) as u32),
        ("65,536 and a good one", |_, good, _| 65_536 + good),
        ("65,536 and a small number", |r, _, ceiling| 65_536 + r.within(0, ceiling as usize) as u32),
        ("many times 65,536 and a good one", |r, good, _| (r.within(1, 65_535) as u32) << 16 | good),
        ("top", |_, _, _| u32::MAX),
    ];
    for (at, name, ceiling) in [(0, "label count", 64), (1, "name count", 256)] {
        for (how, count) in counts {
            recipes.push(Function::Write, format!("41 {name}, {how}"), false, move |r| {
                let graph = small_graph(r);
                let mut made = lend_laid(&graph, any_output(r, graph.without_preface().len()), refused(NOT_A_GRAPH));
                made.counts[at] = count(r, made.counts[at], ceiling);
                Some(made)
            });
        }
    }
}

fn short_outputs(recipes: &mut Recipes) {
    type Spoil = fn(&mut Made) -> Option<()>;
    let spoils: [(&str, Spoil); 3] = [
        ("not whole rows", |made| {
            made.lent[1].push(0);
            Some(())
        }),
        ("a label count above its ceiling", |made| {
            made.counts[0] = 65;
            Some(())
        }),
        ("a bad row", |made| {
            // the last edge's run is the longest
            let bytes = made.lent[1].len();
            made.lent[1].get_mut(bytes.checked_sub(4)?..)?.fill(0xFF);
            Some(())
        }),
    ];
    for (how, output) in SHORT {
        recipes.push(Function::Write, format!("42 output {how}"), false, move |r| {
            let graph = small_graph(r);
            let output = output(r, graph.without_preface().len());
            Some(lend_laid(&graph, output, refused(SHORT_OUTPUT)))
        });
        recipes.push(Function::Write, format!("42 the empty graph, output {how}"), false, move |r| {
            let graph = lay_graph(&empty_graph(r));
            Some(lend_laid(&graph, output(r, 28), refused(SHORT_OUTPUT)))
        });
        for (cause, spoil) in spoils {
            recipes.push(Function::Write, format!("41 before 42: {cause}, output {how}"), false, move |r| {
                let graph = small_graph(r);
                let output = output(r, graph.without_preface().len());
                let mut made = lend_laid(&graph, output, refused(NOT_A_GRAPH));
                spoil(&mut made)?;
                Some(made)
            });
        }
    }
}

/// Tables made for no outcome in particular.
fn damaged_tables(recipes: &mut Recipes) {
    let mut add = |name: &str, change: fn(&mut Random, &mut Made)| {
        recipes.push(Function::Write, name.to_string(), false, move |r| {
            let graph = small_graph(r);
            let mut made = lend_laid(&graph, 0, Owed::Any);
            change(r, &mut made);
            let file = 28 + made.lent.iter().map(|table| table.len()).sum::<usize>();
            made.block = Some(any_output(r, file));
            Some(made)
        });
    };
    add("damage: random bytes as tables", |r, made| {
        let few = r.chance(50);
        for (table, (_, width)) in made.lent.iter_mut().zip(TABLES.into_iter().chain([("text", 1)])) {
            let bytes = if r.chance(90) { width * r.below(4) } else { r.below(100) };
            *table = if few { (0..bytes).map(|_| r.pick(&[0, 0, 0, 0, 0, 0, 1, 2])).collect() } else { r.bytes(bytes) };
        }
    });
    add("damage: bits flipped in the tables", |r, made| {
        for _ in 0..r.within(1, 3) {
            let table = &mut made.lent[r.below(4)];
            if !table.is_empty() {
                let at = r.below(table.len());
                table[at] ^= 1 << r.below(8);
            }
        }
    });
    add("damage: a part cut out of a table", |r, made| {
        let table = &mut made.lent[r.below(4)];
        let from = r.within(0, table.len());
        let to = r.within(from, table.len());
        table.drain(from..to);
    });
    add("damage: an odd number in a field of the tables", |r, made| {
        let (at, number) = (r.below(5), odd_number(r));
        match made.lent.get_mut(at) {
            Some(table) => {
                let bytes = r.pick(&[1, 2, 4]);
                let fields = table.len() / bytes;
                if fields > 0 {
                    let field = bytes * r.below(fields);
                    table[field..field + bytes].copy_from_slice(&number.to_le_bytes()[..bytes]);
                }
            }
            None => made.counts[r.below(2)] = number,
        }
    });
    add("changed: a table of another graph", |r, made| {
        let at = r.below(4);
        made.lent[at] = small_graph(r).tables().swap_remove(at);
    });
}

/// A pair for `check`, sent through all three functions. What it is owed of `check` it is owed at the end.
fn made_again(r: &mut Random, made: Made) -> Made {
    let graph = &made.lent[0];
    let output = if r.chance(80) { graph.len() + r.below(40) } else { r.below(graph.len() + 1) };
    let owed = match made.owed {
        Owed::Exactly([code, place, ..]) if (2..=8).contains(&code) => Owed::Returned(vec![code, place], vec![]),
        Owed::Exactly(answer) => written_again(&laid_of(File::Graph, graph), output, answer),
        _ => Owed::Any,
    };
    Made { function: Function::Again, owed, block: Some(output), ..made }
}

fn push_again(recipes: &mut Recipes, those: Vec<(String, Make)>) {
    for (name, make) in those {
        recipes.push(Function::Again, name, false, move |r| make(r).map(|made| made_again(r, made)));
    }
}

/// Each sub-case of `check` from the given one on, through all three functions.
pub fn add_again(recipes: &mut Recipes, from: usize) {
    let those = recipes.0[from..].iter().filter(|recipe| recipe.function == Function::Check);
    let those = those.map(|recipe| (recipe.name.clone(), recipe.make.clone())).collect();
    push_again(recipes, those);
}

fn pairs_again(recipes: &mut Recipes) {
    let mut any: Vec<Make> = vec![];
    let mut open: Vec<(String, Make)> = vec![];
    for recipe in recipes.0.iter().filter(|recipe| recipe.function == Function::Check && !recipe.rare) {
        if recipe.open() {
            open.push((recipe.name.clone(), recipe.make.clone()));
        } else {
            any.push(recipe.make.clone());
        }
    }
    push_again(recipes, open);
    recipes.push(Function::Again, "changed: a pair of any sub-case of check".to_string(), false, move |r| {
        let make = &any[r.below(any.len())];
        let made = (0..AGAIN).find_map(|_| make(r))?;
        Some(made_again(r, made))
    });
}

pub fn add(recipes: &mut Recipes) {
    round_trips(recipes);
    accepted(recipes);
    not_whole(recipes);
    too_high(recipes);
    short_outputs(recipes);
    damaged_tables(recipes);
    pairs_again(recipes);
}
