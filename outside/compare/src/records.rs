//! Every small record against every small shape, and long lists of names that end apart: both programs are held to what the
//! names were made for.

use crate::model::*;
use crate::options::Options;
use crate::recipes::{Numbers, CONFORMS};
use crate::{compare, report, Ready};

/// How many names a small record has. Each has one of nine states.
const NAMES: u32 = 5;
const STATES: u64 = 9;
const SMALL: u64 = STATES.pow(NAMES);
/// The lengths of the long lists: all up to 24, and those about powers of two. Each comes beside each, in two ways: see `long`.
const LENGTHS: [u64; 36] =
    [0, 1, 2, 3, 4, 5, 6, 7, 8, 9, 10, 11, 12, 13, 14, 15, 16, 17, 18, 19, 20, 21, 22, 23, 24, 31, 32, 33, 63, 64, 65, 127, 128, 129, 255, 256];
const COUNT: u64 = LENGTHS.len() as u64;
const LONG: u64 = 2 * COUNT * COUNT;
/// The names of a long one: as many as there can be.
const MOST: u64 = 256;
/// Each is the record of a node and of an edge, in a closed and in an open shape.
const FOLD: u64 = 4;
const ALL: u64 = FOLD * (SMALL + LONG);
/// What has to come of them: how many fit, and how many break (b), (c) and (d) first.
///
/// Of a name's nine states one is against (b), two are against (c) where the shape is closed, and two are against (d). So of the
/// small ones in a closed shape 9^5 - 8^5 break (b), 8^5 - 6^5 of the others (c), 6^5 - 4^5 of the others (d), and 4^5 fit. In an
/// open one 9^5 - 8^5 break (b), 8^5 - 6^5 of the others (d), and 6^5 fit.
const SMALL_OWED: [u64; 4] = [2 * (1_024 + 7_776), 2 * (26_281 + 26_281), 2 * 24_992, 2 * (6_752 + 24_992)];
/// Of the long ones with names apart all 1,296 in an open shape fit, in a closed one only the 36 without a property. With the same
/// names 36 are as long as their shape and fit, 630 are shorter and break (b), and 630 are longer: these fit an open shape alone.
const LONG_OWED: [u64; 4] = [2 * (1_296 + 36 + 2 * 36 + 630), 2 * (2 * 630), 2 * (1_260 + 630), 0];
/// Boolean, Integer and Real come in turn: kinds for which 0 is a good value.
const KINDS: u32 = 3;

/// What a name is in the object.
#[derive(Clone, Copy, PartialEq)]
enum Held {
    Absent,
    Right,
    Other,
}

/// What it is in the shape.
#[derive(Clone, Copy, PartialEq)]
enum Asked {
    Unlisted,
    Mandatory,
    Optional,
}

use Asked::*;
use Held::*;

type State = (Held, Asked);

/// Name by name, the lowest first, what it is to the object and to the shape.
struct Record {
    edge: bool,
    open: bool,
    states: Vec<State>,
}

/// The nth combination of five names' states. The first have none but low names.
fn small(nth: u64) -> Vec<State> {
    let state = |name: u32| (nth / STATES.pow(name) % STATES) as usize;
    (0..NAMES).map(|name| ([Absent, Right, Other][state(name) % 3], [Unlisted, Mandatory, Optional][state(name) / 3])).collect()
}

/// The lowest names in both the object and the shape, or even ones in the object and odd ones in the shape, as far as there are.
fn long(nth: u64) -> Vec<State> {
    let [held, asked] = [nth / 2 / COUNT, nth / 2 % COUNT].map(|length| LENGTHS[length as usize]);
    let same = |name: u64| (if name < held { Right } else { Absent }, if name < asked { Mandatory } else { Unlisted });
    let apart = |name: u64| match (name % 2, name / 2) {
        (0, half) if half < held => (Right, Unlisted),
        (1, half) if half < asked => (Absent, Optional),
        _ => (Absent, Unlisted),
    };
    (0..MOST).map(|name| if nth % 2 == 0 { same(name) } else { apart(name) }).collect()
}

/// The kind that a name is listed with. Another one is that of the next name: a higher one or a lower one.
fn kind(name: u32) -> u8 {
    1 + (name % KINDS) as u8
}

impl Record {
    fn new(number: u64) -> Record {
        let nth = number / FOLD;
        let states = if nth < SMALL { small(nth) } else { long(nth - SMALL) };
        Record { edge: number % 2 == 1, open: number / 2 % 2 == 1, states }
    }

    fn those(&self, wanted: impl Fn(Held, Asked) -> bool) -> Vec<u32> {
        (0..).zip(&self.states).filter(|(_, state)| wanted(state.0, state.1)).map(|(name, _)| name).collect()
    }

    /// The third opinion: the first letter that is broken, as 1, 2 or 3, and the lowest name at fault. None if the record fits.
    fn broken(&self) -> Option<(u32, u32)> {
        let missing = self.those(|held, asked| asked == Mandatory && held == Absent);
        let unlisted = self.those(|held, asked| held != Absent && asked == Unlisted && !self.open);
        let mistyped = self.those(|held, asked| held == Other && asked != Unlisted);
        (1..).zip([missing, unlisted, mistyped]).find_map(|(letter, names)| Some((letter, *names.first()?)))
    }

    fn owed(&self) -> Numbers {
        let code = if self.edge { 24 } else { 22 };
        self.broken().map_or(CONFORMS, |(letter, name)| [code, 0, 0, letter, name])
    }

    fn properties(&self) -> Vec<Property> {
        let of = |name: u32| if self.states[name as usize].0 == Right { kind(name) } else { kind(name + 1) };
        let present = self.those(|held, _| held != Absent).into_iter();
        present.map(|name| Property { name: name as u16, kind: of(name), length: 0, value: 0 }).collect()
    }

    fn shape(&self) -> Shape {
        let optional = |name: u32| self.states[name as usize].1 == Optional;
        let listed = self.those(|_, asked| asked != Unlisted).into_iter();
        let listed = listed.map(|name| Listed { name: name as u16, kind: kind(name), optional: optional(name) }).collect();
        Shape { labels: 1, open: self.open, listed }
    }

    /// One node with the record, and one schema node. Or a node and a schema node with nothing, and a loop with the record.
    fn pair(&self) -> (Graph, Schema) {
        let (labels, names) = (1, self.states.len() as u16);
        let (properties, shape) = (self.properties(), self.shape());
        let mut graph = Graph { labels, names, ..Graph::default() };
        let mut schema = Schema { labels, names, ..Schema::default() };
        if self.edge {
            let any = Interval { low: 0, high: ANY };
            graph.nodes = vec![Node { labels: 0, properties: vec![] }];
            graph.edges = vec![Edge { labels: 1, ends: [0; 2], properties }];
            schema.nodes = vec![Shape { labels: 0, open: false, listed: vec![] }];
            schema.edges = vec![SchemaEdge { shape, ends: [0; 2], source: any, target: any }];
        } else {
            graph.nodes = vec![Node { labels: 1, properties }];
            schema.nodes = vec![shape];
        }
        (graph, schema)
    }

    /// The call that tries it, counted by its letter.
    fn call(&self) -> Ready {
        let (graph, schema) = self.pair();
        let owed = self.owed();
        let letter = owed[3] as usize;
        Ready { recipe: Some(letter), ..Ready::check(lay_graph(&graph).bytes, lay_schema(&schema).bytes, owed) }
    }

    /// What it is made of, for a difference.
    fn words(&self) -> String {
        let object = if self.edge { "edge" } else { "node" };
        let shape = if self.open { "open" } else { "closed" };
        let parts = [
            ("right type", self.those(|held, _| held == Right)),
            ("another type", self.those(|held, _| held == Other)),
            ("mandatory", self.those(|_, asked| asked == Mandatory)),
            ("optional", self.those(|_, asked| asked == Optional)),
        ];
        let told = |names: &[u32]| {
            let first: Vec<String> = names.iter().take(8).map(|name| name.to_string()).collect();
            let rest = if names.len() > first.len() { format!(" .. ({} names)", names.len()) } else { String::new() };
            first.join(" ") + &rest
        };
        let parts = parts.iter().filter(|(_, names)| !names.is_empty()).map(|(word, names)| format!("; {word}: {}", told(names)));
        format!("{object}, {shape}{}", parts.collect::<String>())
    }
}

/// True if both programs take the records that fit, and tell the letter and the name of every other one. `one` is the number of the
/// only one to try.
pub fn compare_records(options: &Options, one: Option<u64>) -> bool {
    if one.map_or(false, |number| number >= ALL) {
        println!("compare: records: there are {ALL}, counted from 0");
        return false;
    }
    let numbers = one.map_or(0..ALL, |number| number..number + 1);
    let long = numbers.end.saturating_sub(numbers.start.max(FOLD * SMALL));
    let tried = numbers.end - numbers.start;
    match compare(options, numbers, 4, &|number| Record::new(number).call()) {
        Ok(tally) => {
            let came = [0, 1, 2, 3].map(|letter| tally.of_recipe(letter));
            let owed = [0, 1, 2, 3].map(|letter| SMALL_OWED[letter] + LONG_OWED[letter]);
            assert!(came.iter().sum::<u64>() == tried && (one.is_some() || came == owed), "a record was not tried");
            let [fit, b, c, d] = came;
            println!("compare: records: {tried} records tried, {long} of them long, {fit} fit, {b} (b), {c} (c), {d} (d)");
            true
        }
        Err(difference) => {
            let number = difference.index;
            let what = format!("records: record {number} ({})", Record::new(number).words());
            report::difference(options, &what, &format!("--record {number}"), *difference)
        }
    }
}
