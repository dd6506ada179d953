//! What a joined file is asked: its answers are held to those of the two files that it was joined from, under two schemas; and
//! where there is a third graph, it does not matter which two are joined first.

use crate::border::{Call, Function, Given, ANSWER_BYTES};
use crate::join::put_together;
use crate::lists::{block_of, list_of};
use crate::model::{laid_of, File, Table};
use crate::random::Random;
use crate::recipes::{Numbers, CONFORMS};
use crate::report;

/// A longer file is not asked, since the second program takes long.
const LARGE_FILE: usize = 150_000;
/// The calls with one schema: `check` with the first, the second and the joined file, then `check_all` with these.
const OF_SCHEMA: usize = 6;
/// The calls with a third graph: it joined to the joined file, it joined to the second, the first joined to that.
const OF_THIRD: usize = 3;

/// What a recipe has beside the two graphs.
#[derive(Clone)]
pub struct After {
    /// one or two
    pub schemas: Vec<Vec<u8>>,
    /// one more graph, or none
    pub third: Option<Vec<u8>>,
}

/// The calls after a join, and what is owed of their results together.
pub struct Joins {
    pub calls: Vec<Call>,
    /// what the second program gives
    pub second: Vec<Given>,
    /// the first's nodes and edges
    pub before: [u32; 2],
    schemas: usize,
}

/// A result that does not go with the others: the call's number, and what is owed.
pub type Wrong = (usize, String);

fn joined(first: &[u8], second: &[u8]) -> Option<Vec<u8>> {
    let mut out = vec![0; first.len() + second.len()];
    let (code, number) = second::join_graphs(first, second, &mut out);
    out.truncate(number as usize);
    (code == 0).then_some(out)
}

/// A call, and what the second program gives.
type Asked = (Call, Given);

/// The call of `check` with these files.
fn checked(r: &mut Random, graph: &[u8], schema: &[u8]) -> Asked {
    let call = Call { function: Function::Check, lent: vec![graph.to_vec(), schema.to_vec()], counts: [0; 2], block: r.bytes(ANSWER_BYTES) };
    let second = report::second_of(&call);
    (call, second)
}

/// The call of `check_all` with these files, with room for all violations and one more.
fn listed(r: &mut Random, graph: &[u8], schema: &[u8]) -> Asked {
    let found = second::violations(graph, schema);
    let block = r.bytes((1 + found.as_ref().map_or(0, |all| all.len())) * ANSWER_BYTES);
    let mut list = list_of(&block);
    let numbers = second::fill(&mut list, &found);
    let call = Call { function: Function::All, lent: vec![graph.to_vec(), schema.to_vec()], counts: [0; 2], block };
    (call, Given::new(&numbers, block_of(&list)))
}

/// The calls with a third graph, whose outputs hold the same before, so that they can be compared. None if three are too many.
fn with_third(r: &mut Random, first: &[u8], second: &[u8], file: &[u8], third: &[u8]) -> Option<[Asked; OF_THIRD]> {
    let behind = joined(second, third)?;
    let block = r.bytes(joined(file, third)?.len() + 8);
    let asked = |[a, b]: [&[u8]; 2]| {
        let call = Call { function: Function::Join, lent: vec![a.to_vec(), b.to_vec()], counts: [0; 2], block: block.clone() };
        let second = report::second_of(&call);
        (call, second)
    };
    Some([[file, third], [second, third], [first, &behind]].map(asked))
}

impl Joins {
    /// The calls after this one, if it joins two files.
    pub fn new(r: &mut Random, call: &Call, after: &After) -> Option<Joins> {
        let (first, second) = (&call.lent[0], call.lent.last().expect("a graph"));
        let file = joined(first, second).filter(|file| file.len() <= LARGE_FILE && file.len() <= call.block.len())?;
        let laid = laid_of(File::Graph, first);
        let before = [Table::Nodes, Table::Edges].map(|table| laid.count(table) as u32);
        let mut asked = vec![];
        for schema in &after.schemas {
            asked.extend([first, second, &file].map(|graph| checked(r, graph, schema)));
            asked.extend([first, second, &file].map(|graph| listed(r, graph, schema)));
        }
        asked.extend(after.third.iter().filter_map(|third| with_third(r, first, second, &file, third)).flatten());
        let (calls, second) = asked.into_iter().unzip();
        Some(Joins { calls, second, before, schemas: after.schemas.len() })
    }

    /// By schema what `check` answered, then every violation: of the first, the second and the joined file.
    pub fn told<'a>(&'a self, given: &'a [&Given]) -> impl Iterator<Item = ([Numbers; 3], [Vec<Numbers>; 3])> + 'a {
        given[..self.schemas * OF_SCHEMA].chunks(OF_SCHEMA).map(|of| {
            let answer = |at: usize| of[at].answer().and_then(|answer| answer.try_into().ok()).expect("an answer");
            let list = |at: usize| list_of(&of[at].block).into_iter().take(of[at].numbers[2] as usize).collect();
            ([0, 1, 2].map(answer), [3, 4, 5].map(list))
        })
    }

    /// What does not go with the other results: of the second program, or of the proved functions, each time that they were called.
    pub fn wrong_in(&self, ours: Option<&[[Given; 2]]>) -> Option<Wrong> {
        let times = ours.map_or(0, |_| 2);
        let ours = (0..times).map(|time| ours.into_iter().flatten().map(|both| &both[time]).collect());
        let all: Vec<Vec<&Given>> = std::iter::once(self.second.iter().collect()).chain(ours).collect();
        all.iter().find_map(|given| self.wrong(given))
    }

    fn wrong(&self, given: &[&Given]) -> Option<Wrong> {
        for (schema, ([first, second, file], lists)) in self.told(given).enumerate() {
            let at = |nth: usize| schema * OF_SCHEMA + nth;
            // a bad schema is told of all three
            let refused = (2..=15).contains(&first[0]);
            let conforms = first == CONFORMS && second == CONFORMS;
            if if refused { [second, file] != [first; 2] } else { (file == CONFORMS) != conforms } {
                return Some((at(2), format!("0 exactly if it is owed to both: {} and {}", report::joined(&first), report::joined(&second))));
            }
            let all = put_together(&lists[0], &lists[1], self.before);
            if lists[2] != all || !refused && file != all.first().map_or(CONFORMS, |told| *told) {
                return Some((at(5), format!("both lists put together, {}", report::told_list(&all, &[]))));
            }
        }
        match &given[self.schemas * OF_SCHEMA..] {
            [left, _, right] if left != right => Some((given.len() - 1, format!("as with the first two joined first, {:?}", &left.numbers[..2]))),
            rest => {
                assert!(rest.is_empty() || rest.len() == OF_THIRD, "a third graph has three calls");
                None
            }
        }
    }
}
