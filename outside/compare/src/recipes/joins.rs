//! Two graphs joined: what each of them has and has not, outputs long and short (42), one file twice, three graphs. And files made for no
//! outcome in particular.

use super::damage::{change_graph, change_schema, odd_number};
use super::writing::{any_output, records, refused, Output, LONG, SHORT, SHORT_OUTPUT};
use super::*;
use crate::join::{counts, joined, CEILINGS};
use crate::sound::{sound_two, Two};

pub const COUNT_ABOVE: u32 = 44;

/// Which of the two graphs.
pub const WHICH: [(&str, [bool; 2]); 3] = [("the first", [true, false]), ("the second", [false, true]), ("both", [true, true])];

/// A call of the joiner, with an output of so many bytes. One graph is joined with itself.
pub fn lend(graphs: Vec<Vec<u8>>, output: usize, owed: Owed, after: Option<After>) -> Made {
    let function = if graphs.len() == 1 { Function::Twice } else { Function::Join };
    Made { function, lent: graphs, counts: [0; 2], owed, block: Some(output), all: None, after }
}

/// The third opinion: the joined graph's file where its counts and the output allow it.
pub fn owed_of(first: &Graph, second: &Graph, output: usize) -> Owed {
    let g = joined(first, second);
    if counts(&g).iter().zip(CEILINGS).any(|(count, ceiling)| *count > ceiling) {
        return refused(COUNT_ABOVE);
    }
    let file = lay_graph(&g).bytes;
    if output < file.len() {
        refused(SHORT_OUTPUT)
    } else {
        Owed::Returned(vec![0, file.len() as u32], file)
    }
}

/// How long the joined file is, also where it cannot be.
pub fn length(first: &Graph, second: &Graph) -> usize {
    let [a, b] = [first, second].map(counts);
    let [nodes, edges, rows, text] = [0, 1, 2, 3].map(|at| a[at] + b[at]);
    16 * nodes + 24 * edges + 16 * rows + text + 28
}

/// What is asked of a joined file: under the schema of both, and under another one, which is sometimes bad.
fn after(r: &mut Random, schema: &Schema) -> After {
    let mut other = if r.chance(60) { schema.clone() } else { sound(r, &SMALL).schema };
    (0..r.within(1, 3)).for_each(|_| change_schema(r, &mut other));
    let mut schemas = [schema, &other].map(|schema| lay_schema(schema).bytes);
    if r.chance(8) {
        let at = r.below(schemas[1].len());
        schemas[1][at] ^= 1 << r.below(8);
    }
    After { schemas: schemas.to_vec(), third: None }
}

/// Both graphs joined into an output of that length.
fn lend_two(r: &mut Random, two: &Two, output: Output) -> Made {
    let output = output(r, length(&two.first, &two.second));
    let files = [&two.first, &two.second].map(|g| lay_graph(g).bytes).to_vec();
    let after = after(r, &two.schema);
    lend(files, output, owed_of(&two.first, &two.second, output), Some(after))
}

type Change = fn(&mut Random, &mut Two) -> Option<()>;

fn add_good(recipes: &mut Recipes, name: String, change: impl Fn(&mut Random, &mut Two) -> Option<()> + Send + Sync + 'static) {
    recipes.push(Function::Join, format!("0 {name}"), false, move |r| {
        let mut two = sound_two(r, &SMALL);
        change(r, &mut two)?;
        let output = r.pick(&LONG).1;
        Some(lend_two(r, &two, output))
    });
}

/// The two graphs, each with whether it is meant.
fn each(two: &mut Two, which: [bool; 2]) -> [(&mut Graph, bool); 2] {
    [(&mut two.first, which[0]), (&mut two.second, which[1])]
}

/// One of the two, or both, have something that `has` gives, and the other one has what `lacks` leaves.
type Part = (&'static str, fn(&mut Random, &mut Graph) -> Option<()>, fn(&mut Random, &mut Graph) -> Option<()>);

fn is(good: bool) -> Option<()> {
    good.then_some(())
}

fn without_text(g: &mut Graph) {
    g.text.clear();
    records(g).flatten().filter(|p| p.kind == 5).for_each(|p| (p.length, p.value) = (0, 0));
}

const PARTS: [Part; 6] = [
    (
        "with a preface",
        |r, g| {
            let bytes = r.within(1, 60);
            g.preface = r.bytes(bytes);
            Some(())
        },
        |_, g| {
            g.preface.clear();
            Some(())
        },
    ),
    (
        "without a node",
        |_, g| {
            g.nodes.clear();
            g.edges.clear();
            Some(())
        },
        |_, g| is(!g.nodes.is_empty()),
    ),
    (
        "without an edge",
        |_, g| {
            g.edges.clear();
            Some(())
        },
        |_, g| is(!g.edges.is_empty()),
    ),
    (
        "without a property row",
        |_, g| {
            records(g).for_each(|record| record.clear());
            Some(())
        },
        |_, g| is(records(g).any(|record| !record.is_empty())),
    ),
    (
        "without text",
        |_, g| {
            without_text(g);
            Some(())
        },
        |_, g| is(!g.text.is_empty() && records(g).flatten().any(|p| p.kind == 5)),
    ),
    (
        "with property rows at edges",
        |_, g| is(g.edges.iter().any(|e| !e.properties.is_empty())),
        |_, g| {
            g.edges.iter_mut().for_each(|e| e.properties.clear());
            Some(())
        },
    ),
];

fn parts(recipes: &mut Recipes) {
    for ((name, has, lacks), (whose, which)) in PARTS.into_iter().flat_map(|part| WHICH.map(|which| (part, which))) {
        add_good(recipes, format!("{whose} {name}"), move |r, two| {
            each(two, which).into_iter().try_for_each(|(g, meant)| if meant { has(r, g) } else { lacks(r, g) })
        });
    }
    add_good(recipes, "rows at the first's nodes and the second's edges alone".into(), |_, two| {
        two.first.edges.iter_mut().for_each(|e| e.properties.clear());
        two.second.nodes.iter_mut().for_each(|n| n.properties.clear());
        is(two.first.nodes.iter().any(|n| !n.properties.is_empty()) && two.second.edges.iter().any(|e| !e.properties.is_empty()))
    });
    add_good(recipes, "rows at the first's edges and the second's nodes alone".into(), |_, two| {
        two.first.nodes.iter_mut().for_each(|n| n.properties.clear());
        two.second.edges.iter_mut().for_each(|e| e.properties.clear());
        is(two.first.edges.iter().any(|e| !e.properties.is_empty()) && two.second.nodes.iter().any(|n| !n.properties.is_empty()))
    });
    add_good(recipes, "two graphs".into(), |_, _| Some(()));
    add_good(recipes, "the same file in two blocks".into(), |_, two| {
        two.second = two.first.clone();
        Some(())
    });
}

/// Text parts by their length and offset in a text of so many bytes, four or more.
type Texts = fn(&mut Random, usize) -> Vec<(usize, usize)>;

const TEXTS: [(&str, Texts); 5] = [
    ("parts that overlap", |r, text| {
        let middle = r.within(1, text - 1);
        vec![(middle + 1, 0), (text - middle + 1, middle - 1)]
    }),
    ("two rows of one part", |r, text| {
        let start = r.below(text);
        vec![(text - start, start); 2]
    }),
    ("a part within another", |r, text| vec![(text, 0), (1, r.below(text))]),
    ("no byte at the end of the text", |_, text| vec![(0, text)]),
    ("all the text, and none of it at its start", |_, text| vec![(text, 0), (0, 0)]),
];

/// Good values at their borders: kind, length, value.
const BORDERS: [(u8, u32, u64); 9] = [
    (1, 0, 0),
    (1, 0, 1),
    (2, 0, 1 << 63),
    (2, 0, (1 << 63) - 1),
    (2, 0, u64::MAX),
    // negative zero, then the smallest Real, and the one farthest below
    (3, 0, 1 << 63),
    (3, 0, 1),
    (3, 0, 0xFFEF_FFFF_FFFF_FFFF),
    (4, 0, 99_991_231),
];

/// The graph's first rows become these Texts, in a text of their own.
fn put_texts(r: &mut Random, g: &mut Graph, texts: Texts) -> Option<()> {
    let bytes = r.within(4, 24);
    without_text(g);
    g.text = r.bytes(bytes);
    let parts = texts(r, bytes);
    let mut rows: Vec<&mut Property> = records(g).flatten().collect();
    for (row, (length, start)) in rows.get_mut(..parts.len())?.iter_mut().zip(parts) {
        (row.kind, row.length, row.value) = (5, length as u32, start as u64);
    }
    Some(())
}

fn texts(recipes: &mut Recipes) {
    for ((name, texts), (whose, which)) in TEXTS.into_iter().flat_map(|texts| WHICH.map(|which| (texts, which))) {
        add_good(recipes, format!("{whose} with {name}"), move |r, two| {
            each(two, which).into_iter().filter(|(_, meant)| *meant).try_for_each(|(g, _)| put_texts(r, g, texts))
        });
    }
    add_good(recipes, "Texts of no byte, and no text at all".into(), |_, two| {
        each(two, [true; 2]).into_iter().try_for_each(|(g, _)| {
            without_text(g);
            is(records(g).flatten().any(|p| p.kind == 5))
        })
    });
}

/// Values at their borders, and values that could be taken for offsets.
fn values(recipes: &mut Recipes) {
    for (whose, which) in WHICH {
        add_good(recipes, format!("{whose} with values at their borders"), move |r, two| {
            each(two, which).into_iter().filter(|(_, meant)| *meant).try_for_each(|(g, _)| {
                let rows: Vec<&mut Property> = records(g).flatten().collect();
                is(!rows.is_empty())?;
                rows.into_iter().for_each(|row| (row.kind, row.length, row.value) = r.pick(&BORDERS));
                Some(())
            })
        });
    }
    // a Date is 10,101 at least, and so is an offset like it
    for (name, kind, text) in [("Booleans", 1, 24), ("Integers", 2, 24), ("Reals", 3, 24), ("Dates", 4, 10_200)] {
        add_good(recipes, format!("{name} whose bits are an offset in the text"), move |r, two| {
            two.first.text = r.bytes(text);
            two.second.text = r.bytes(text);
            let rows: Vec<&mut Property> = records(&mut two.second).flatten().collect();
            is(!rows.is_empty())?;
            for row in rows {
                let value = match kind {
                    1 => r.below(2),
                    4 => r.within(10_101, 10_131),
                    _ => r.within(0, text),
                };
                (row.kind, row.length, row.value) = (kind, 0, value as u64);
            }
            Some(())
        });
    }
}

/// By which of the two label counts and which of the two name counts is the greater.
fn greater_counts(recipes: &mut Recipes) {
    let orders = [("the first's", [1, 0]), ("the second's", [0, 1]), ("neither", [0, 0])];
    for ((labels, more_labels), (names, more_names)) in orders.into_iter().flat_map(|labels| orders.map(|names| (labels, names))) {
        add_good(recipes, format!("label count: {labels} is greater, name count: {names} is greater"), move |r, two| {
            let [label, name] =
                [[two.schema.labels, 64], [two.schema.names, 256]].map(|[low, high]| (low < high).then(|| r.within(low as usize, high as usize - 1)));
            let [most_labels, most_names] = [r.within(label? + 1, 64), r.within(name? + 1, 256)];
            let pick = |more: usize, low: usize, high: usize| if more == 1 { high as u16 } else { low as u16 };
            for (at, (g, _)) in each(two, [true; 2]).into_iter().enumerate() {
                (g.labels, g.names) = (pick(more_labels[at], label?, most_labels), pick(more_names[at], name?, most_names));
            }
            Some(())
        });
    }
}

fn outputs(recipes: &mut Recipes) {
    for (how, output) in LONG {
        recipes.push(Function::Join, format!("0 output {how}"), false, move |r| {
            let two = sound_two(r, &SMALL);
            Some(lend_two(r, &two, output))
        });
    }
    for (how, output) in SHORT {
        recipes.push(Function::Join, format!("42 output {how}"), false, move |r| {
            let two = sound_two(r, &SMALL);
            Some(lend_two(r, &two, output))
        });
        recipes.push(Function::Join, format!("42 two empty graphs, output {how}"), false, move |r| {
            let empty = Graph::default();
            let (file, output) = (lay_graph(&empty).bytes, output(r, 28));
            Some(lend(vec![file; 2], output, refused(SHORT_OUTPUT), None))
        });
    }
}

/// An empty graph beside another: what is owed is the other's own file, without its preface and with the greater counts.
fn with_empty(recipes: &mut Recipes) {
    for (name, first) in [("an empty graph first", true), ("an empty graph behind", false)] {
        recipes.push(Function::Join, format!("0 {name}, and the other's own bytes"), false, move |r| {
            let two = sound_two(r, &SMALL);
            let bytes = if r.chance(50) { r.within(1, 60) } else { 0 };
            let empty = Graph { labels: r.within(0, 64) as u16, names: r.within(0, 256) as u16, preface: r.bytes(bytes), ..Graph::default() };
            let own =
                Graph { preface: vec![], labels: two.first.labels.max(empty.labels), names: two.first.names.max(empty.names), ..two.first.clone() };
            let own = lay_graph(&own).bytes;
            let mut files = vec![lay_graph(&two.first).bytes, lay_graph(&empty).bytes];
            if first {
                files.reverse();
            }
            let (output, after) = (r.pick(&LONG).1(r, own.len()), after(r, &two.schema));
            Some(lend(files, output, Owed::Returned(vec![0, own.len() as u32], own), Some(after)))
        });
    }
    add_good(recipes, "two empty graphs".into(), |_, two| {
        each(two, [true; 2]).into_iter().for_each(|(g, _)| *g = Graph { labels: g.labels, names: g.names, ..Graph::default() });
        Some(())
    });
}

/// The same block lent as both files.
fn twice(recipes: &mut Recipes) {
    let changes: [(&str, Change); 5] = [
        ("a graph", |_, _| Some(())),
        ("a graph with a preface", |r, two| PARTS[0].1(r, &mut two.first)),
        ("a graph with Texts and property rows at edges", |r, two| {
            PARTS[5].1(r, &mut two.first)?;
            put_texts(r, &mut two.first, TEXTS[0].1)
        }),
        ("a graph without text", |r, two| PARTS[4].1(r, &mut two.first)),
        ("an empty graph", |r, two| PARTS[1].1(r, &mut two.first)),
    ];
    let outputs = LONG.into_iter().map(|long| (0, long)).chain(SHORT.into_iter().map(|short| (SHORT_OUTPUT, short)));
    for ((code, (how, output)), (name, change)) in outputs.flat_map(|output| changes.map(|change| (output, change))) {
        recipes.push(Function::Twice, format!("{code} {name}, output {how}"), false, move |r| {
            let mut two = sound_two(r, &SMALL);
            change(r, &mut two)?;
            let (file, output) = (lay_graph(&two.first).bytes, output(r, length(&two.first, &two.first)));
            let after = after(r, &two.schema);
            Some(lend(vec![file], output, owed_of(&two.first, &two.first, output), Some(after)))
        });
    }
}

/// A third graph: it does not matter which two are joined first.
fn three(recipes: &mut Recipes) {
    type Three = fn(&mut Random, &mut Two, &mut Graph);
    let all: [(&str, Three); 6] = [
        ("three graphs", |_, _, _| {}),
        ("three graphs, the first empty", |_, two, _| two.first = Graph::default()),
        ("three graphs, the second empty", |_, two, _| two.second = Graph::default()),
        ("three graphs, the third empty", |_, _, third| *third = Graph::default()),
        ("three graphs with prefaces", |r, two, third| [&mut two.first, &mut two.second, third].into_iter().for_each(|g| g.preface = r.bytes(9))),
        ("three graphs, one three times", |_, two, third| (two.second, *third) = (two.first.clone(), two.first.clone())),
    ];
    for (name, change) in all {
        recipes.push(Function::Join, format!("0 {name}"), false, move |r| {
            let (mut two, mut third) = (sound_two(r, &SMALL), sound(r, &SMALL).graph);
            change(r, &mut two, &mut third);
            let output = r.pick(&LONG).1;
            let mut made = lend_two(r, &two, output);
            made.after = made.after.map(|after| After { third: Some(lay_graph(&third).bytes), ..after });
            Some(made)
        });
    }
}

/// Graphs changed, so that one of them or both have violations, which ones no one knows.
fn changed(recipes: &mut Recipes) {
    for ((whose, which), most) in WHICH.into_iter().flat_map(|which| [1, 3, 8].map(|most| (which, most))) {
        recipes.push(Function::Join, format!("changed: up to {most} changes of {whose}"), false, move |r| {
            let mut two = sound_two(r, &SMALL);
            let schema = two.schema.clone();
            for (g, _) in each(&mut two, which).into_iter().filter(|(_, meant)| *meant) {
                (0..r.within(1, most)).for_each(|_| change_graph(r, g, &schema));
            }
            let output = r.pick(&LONG).1;
            Some(lend_two(r, &two, output))
        });
    }
    recipes.push(Function::Join, "changed: two graphs of two schemas".to_string(), false, |r| {
        let (two, other) = (sound_two(r, &SMALL), sound(r, &SMALL).graph);
        let two = Two { second: other, ..two };
        let output = r.pick(&LONG).1;
        Some(lend_two(r, &two, output))
    });
}

/// Damages one of two files.
type Damage = fn(&mut Random, &mut Vec<u8>);

const DAMAGES: [(&str, Damage); 6] = [
    ("bits flipped", |r, file| {
        for _ in 0..r.within(1, 3) {
            let at = r.below(file.len());
            file[at] ^= 1 << r.below(8);
        }
    }),
    ("a part cut out", |r, file| {
        let from = r.below(file.len());
        let to = r.within(from, file.len());
        file.drain(from..to);
    }),
    ("the end cut off", |r, file| file.truncate(r.below(file.len() + 1))),
    ("an odd number in a field", |r, file| {
        let (bytes, number) = (r.pick(&[1, 2, 4]), odd_number(r).to_le_bytes());
        let at = file.len() - (r.below(file.len() / bytes) + 1) * bytes;
        file[at..at + bytes].copy_from_slice(&number[..bytes]);
    }),
    ("random bytes behind a good trailer", |r, file| {
        let (laid, few) = (laid_of(File::Graph, file), r.chance(70));
        for byte in &mut file[laid.starts[0]..laid.trailer] {
            *byte = if few { r.pick(&[0, 0, 0, 0, 0, 0, 1, 2]) } else { r.next() as u8 };
        }
    }),
    ("random bytes", |r, file| {
        let bytes = r.below(200);
        *file = r.bytes(bytes);
    }),
];

fn damaged(recipes: &mut Recipes) {
    for (name, damage) in DAMAGES {
        recipes.push(Function::Join, format!("damage: {name}"), false, move |r| {
            let two = sound_two(r, &SMALL);
            let mut files = [&two.first, &two.second].map(|g| lay_graph(g).bytes).to_vec();
            let which = r.below(3);
            (0..2).filter(|&at| which == 2 || which == at).for_each(|at| damage(r, &mut files[at]));
            let (output, after) = (any_output(r, length(&two.first, &two.second)), after(r, &two.schema));
            Some(lend(files, output, Owed::Any, Some(after)))
        });
    }
    recipes.push(Function::Join, "damage: a schema for one of the graphs".to_string(), false, |r| {
        let two = sound_two(r, &SMALL);
        let mut files = [&two.first, &two.second].map(|g| lay_graph(g).bytes).to_vec();
        files[r.below(2)] = lay_schema(&two.schema).bytes;
        let output = any_output(r, length(&two.first, &two.second));
        Some(lend(files, output, Owed::Code(2, 8), None))
    });
}

pub fn add(recipes: &mut Recipes) {
    parts(recipes);
    texts(recipes);
    values(recipes);
    greater_counts(recipes);
    outputs(recipes);
    with_empty(recipes);
    twice(recipes);
    three(recipes);
    changed(recipes);
    damaged(recipes);
}
