//! Sub-cases of joined files: what each of the two has or has not, which of them conforms, whose violations of each code the joined file
//! has. They are read off the files, whatever recipe made them; how often each came up is counted, and a run has to see all of them.

use crate::after::Joins;
use crate::border::{Call, Function};
use crate::join::{counts, CEILINGS};
use crate::list_cases::CODES;
use crate::model::*;
use std::collections::BTreeMap;
use std::fmt;

/// Which of the two files.
#[derive(Clone, Copy, PartialEq, Eq, PartialOrd, Ord)]
enum Whose {
    First,
    Second,
    Both,
}

use Whose::*;

/// What a graph file has or has not.
#[derive(Clone, Copy, PartialEq, Eq, PartialOrd, Ord)]
enum Thing {
    Preface,
    NoNode,
    NoEdge,
    NoRow,
    NoText,
    RowsAtEdges,
    Overlap,
    Shared,
    NothingAtEnd,
    Unnamed,
}

use Thing::*;

const THINGS: [(Thing, &str); 10] = [
    (Preface, "a preface"),
    (NoNode, "no node"),
    (NoEdge, "no edge"),
    (NoRow, "no property row"),
    (NoText, "no text"),
    (RowsAtEdges, "property rows at edges"),
    (Overlap, "Texts that overlap"),
    (Shared, "two Texts of one part"),
    (NothingAtEnd, "a Text of no byte at the end of the text"),
    (Unnamed, "text that no row names"),
];

#[derive(Clone, Copy, PartialEq, Eq, PartialOrd, Ord)]
enum Case {
    /// of a joined file: what one of the two has, or both
    Has(Thing, Whose),
    /// the greater of the label counts (0) and of the name counts (1)
    Greater(usize, Whose),
    /// a value of this kind in the second file that could be an offset in its text, where offsets are moved
    Looks(u8),
    /// which of the two conforms, if one does, under the schema of both (0) and under another one (1)
    Conforms(usize, Option<Whose>),
    /// who has violations of a code
    Told(u32, Whose),
    BadSchema,
    /// three graphs, joined from either side
    Three,
    /// one of the four counts is at its ceiling
    AtCeiling(usize),
}

use Case::*;

fn whose(first: bool, second: bool) -> Option<Whose> {
    match (first, second) {
        (true, true) => Some(Both),
        (true, false) => Some(First),
        (false, true) => Some(Second),
        (false, false) => None,
    }
}

/// The things of a graph.
fn things(g: &Graph) -> Vec<Thing> {
    let rows: Vec<&Property> = g.nodes.iter().map(|n| &n.properties).chain(g.edges.iter().map(|e| &e.properties)).flatten().collect();
    let end = g.text.len() as u64;
    let mut parts: Vec<(u64, u64)> = rows.iter().filter(|p| p.kind == 5).map(|p| (p.value, p.value + p.length as u64)).collect();
    parts.sort_unstable();
    let (empty, full): (Vec<(u64, u64)>, Vec<(u64, u64)>) = parts.into_iter().partition(|part| part.0 == part.1);
    let two = |wanted: fn((u64, u64), (u64, u64)) -> bool| full.windows(2).any(|two| wanted(two[0], two[1]));
    // the parts are sorted, so that a gap before one is a gap; none where a part begins behind it
    let named = full.iter().fold(Some(0), |named: Option<u64>, part| named.filter(|named| part.0 <= *named).map(|named| named.max(part.1)));
    let is = |thing: Thing| match thing {
        Preface => !g.preface.is_empty(),
        NoNode => g.nodes.is_empty(),
        NoEdge => g.edges.is_empty(),
        NoRow => rows.is_empty(),
        NoText => g.text.is_empty(),
        RowsAtEdges => g.edges.iter().any(|e| !e.properties.is_empty()),
        Overlap => two(|a, b| b.0 < a.1 && a != b),
        Shared => two(|a, b| a == b),
        NothingAtEnd => end > 0 && empty.iter().any(|part| part.0 == end),
        Unnamed => named != Some(end),
    };
    THINGS.into_iter().map(|(thing, _)| thing).filter(|&thing| is(thing)).collect()
}

/// What two accepted graphs are, each once.
fn of_graphs(first: &Graph, second: &Graph) -> Vec<Case> {
    let [a, b] = [first, second].map(things);
    let mut cases: Vec<Case> = THINGS.iter().filter_map(|(thing, _)| Some(Has(*thing, whose(a.contains(thing), b.contains(thing))?))).collect();
    let greater = |a: u16, b: u16| if a == b { Both } else { [Second, First][(a > b) as usize] };
    cases.extend([Greater(0, greater(first.labels, second.labels)), Greater(1, greater(first.names, second.names))]);
    let rows = second.nodes.iter().map(|n| &n.properties).chain(second.edges.iter().map(|e| &e.properties)).flatten();
    let offset = |p: &&Property| !first.text.is_empty() && p.kind != 5 && p.value <= second.text.len() as u64;
    cases.extend(rows.filter(offset).map(|p| Looks(p.kind)));
    let [a, b] = [first, second].map(counts);
    cases.extend((0..CEILINGS.len()).filter(|&at| a[at] + b[at] == CEILINGS[at]).map(AtCeiling));
    cases
}

/// What the two were told, and the third graph.
fn of_answers(joins: &Joins) -> Vec<Case> {
    let given: Vec<_> = joins.second.iter().collect();
    let mut cases = vec![];
    for (schema, ([first, second, _], lists)) in joins.told(&given).enumerate() {
        if (2..=15).contains(&first[0]) {
            cases.push(BadSchema);
            continue;
        }
        cases.push(Conforms(schema, whose(first[0] == 0, second[0] == 0)));
        let has = |list: usize, code: u32| lists[list].iter().any(|told| told[0] == code);
        cases.extend(CODES.iter().filter_map(|&code| Some(Told(code, whose(has(0, code), has(1, code))?))));
    }
    if joins.calls.last().map_or(false, |call| call.function == Function::Join) {
        cases.push(Three);
    }
    cases
}

/// Those that a run has to see.
fn owed() -> Vec<Case> {
    let all = [First, Second, Both];
    let mut owed: Vec<Case> = THINGS.iter().flat_map(|(thing, _)| all.map(|whose| Has(*thing, whose))).collect();
    owed.extend([0, 1].into_iter().flat_map(|count| all.map(|whose| Greater(count, whose))));
    owed.extend((1..=4).map(Looks));
    owed.extend([0, 1].into_iter().flat_map(|schema| [None, Some(First), Some(Second), Some(Both)].map(|whose| Conforms(schema, whose))));
    owed.extend(CODES.iter().flat_map(|&code| all.map(|whose| Told(code, whose))));
    owed.extend([BadSchema, Three]);
    owed.extend((0..CEILINGS.len()).map(AtCeiling));
    owed
}

impl fmt::Display for Case {
    fn fmt(&self, f: &mut fmt::Formatter) -> fmt::Result {
        let word = |whose: &Whose| ["the first", "the second", "both"][*whose as usize];
        match self {
            Has(thing, of) => write!(f, "{}: {}", THINGS.iter().find(|(this, _)| this == thing).expect("each has a word").1, word(of)),
            Greater(count, Both) => write!(f, "equal {} counts", ["label", "name"][*count]),
            Greater(count, of) => write!(f, "the greater {} count: {}", ["label", "name"][*count], word(of)),
            Looks(kind) => write!(f, "{} that could be offsets", ["Booleans", "Integers", "Reals", "Dates"][*kind as usize - 1]),
            Conforms(schema, of) => {
                write!(f, "conforms to {}: {}", ["the schema of both", "another schema"][*schema], of.as_ref().map_or("neither", word))
            }
            Told(code, of) => write!(f, "{code}: {}", word(of)),
            BadSchema => write!(f, "a schema that is refused"),
            Three => write!(f, "three graphs, joined from either side"),
            AtCeiling(count) => write!(f, "as many {} as there may be", ["nodes", "edges", "property rows", "text bytes"][*count]),
        }
    }
}

/// How often each came up, and how many files were joined.
#[derive(Default)]
pub struct Came {
    cases: BTreeMap<Case, u64>,
    pub files: u64,
    /// calls with a joined file and the two that it was made of
    pub asked: u64,
}

impl Came {
    /// Counts a call that joined two files.
    pub fn count(&mut self, call: &Call, joins: Option<&Joins>) {
        self.files += 1;
        self.asked += joins.map_or(0, |joins| joins.calls.len() as u64);
        let mut cases = joins.map_or(vec![], of_answers);
        // of one block lent twice all is of both
        if call.function == Function::Join {
            cases.extend(of_graphs(&graph_of(&call.lent[0]), &graph_of(&call.lent[1])));
        }
        cases.sort_unstable();
        cases.dedup();
        for case in cases {
            *self.cases.entry(case).or_default() += 1;
        }
    }

    pub fn add(&mut self, other: &Came) {
        for (case, count) in &other.cases {
            *self.cases.entry(*case).or_default() += count;
        }
        self.files += other.files;
        self.asked += other.asked;
    }

    /// Each that a run has to see, by name, with how often it came up.
    pub fn told(&self) -> Vec<(String, u64)> {
        owed().into_iter().map(|case| (format!("joined: {case}"), self.cases.get(&case).map_or(0, |count| *count))).collect()
    }
}
