//! Sub-cases of lists: by room and total, by refusal, by how often a code stands in one list, by what follows what. How often each
//! came up is counted, and a run has to see all of them.

use crate::border::ANSWER_BYTES;
use crate::lists::Lists;
use crate::recipes::Numbers;
use std::collections::BTreeMap;
use std::fmt;

pub const CODES: [u32; 9] = [21, 22, 23, 24, 25, 31, 32, 33, 34];

/// How many there are: of violations, or of records with one code.
#[derive(Clone, Copy, PartialEq, Eq, PartialOrd, Ord)]
enum Many {
    Zero,
    One,
    Few,
    Tens,
    Hundreds,
    Thousands,
}

use Many::*;

const MANY: [(Many, usize, &str); 6] = [
    (Zero, 0, "none"),
    (One, 1, "one"),
    (Few, 2, "2 to 9"),
    (Tens, 10, "10 to 99"),
    (Hundreds, 100, "100 to 9,999"),
    (Thousands, 10_000, "10,000 or more"),
];

/// A room beside a total.
#[derive(Clone, Copy, PartialEq, Eq, PartialOrd, Ord)]
enum Room {
    Nothing,
    OneRecord,
    OneFewer,
    AsMany,
    OneMore,
    Between,
    More,
}

use Room::*;

#[derive(Clone, Copy, PartialEq, Eq, PartialOrd, Ord)]
enum Case {
    /// a refusal's code, and whether there was room for a record
    Refused(u32, bool),
    Rooms(Many, Room),
    /// how often a code stands in one list
    Times(u32, Many),
    /// two records one after the other, 0 for none; and whether both are of one schema edge
    Follows(u32, u32, bool),
    EveryCode,
}

use Case::*;

fn many(count: usize) -> Many {
    MANY.iter().rev().find(|(_, least, _)| count >= *least).expect("none is the least").0
}

fn room(room: usize, total: usize) -> Room {
    match room {
        0 => Nothing,
        _ if room == total => AsMany,
        _ if room == total + 1 => OneMore,
        _ if room > total => More,
        _ if room + 1 == total => OneFewer,
        1 => OneRecord,
        _ => Between,
    }
}

/// The rule of a violation's code.
pub fn rule(code: u32) -> u32 {
    match code {
        21 | 22 => 1,
        23..=25 => 2,
        31 | 32 => 3,
        _ => 4,
    }
}

/// What a list and its rooms are, each once.
fn cases(lists: &Lists) -> Vec<Case> {
    let rooms = lists.calls.iter().map(|call| call.block.len() / ANSWER_BYTES);
    let all = match &lists.found {
        Err(refusal) => return rooms.map(|room| Refused(refusal.code, room > 0)).collect(),
        Ok(all) => all,
    };
    let mut cases: Vec<Case> = rooms.map(|r| Rooms(many(all.len()), room(r, all.len()))).collect();
    let times = CODES.map(|code| all.iter().filter(|record| record[0] == code).count());
    cases.extend(CODES.iter().zip(times).filter(|(_, times)| *times > 0).map(|(code, times)| Times(*code, many(times))));
    if times.iter().all(|times| *times > 0) {
        cases.push(EveryCode);
    }
    let follows = |two: &[Numbers]| Follows(two[0][0], two[1][0], two[0][0] > 30 && rule(two[0][0]) == rule(two[1][0]) && two[0][2] == two[1][2]);
    cases.extend(all.windows(2).map(follows));
    let end = |record: Option<&Numbers>| record.map_or(0, |record| record[0]);
    cases.extend([Follows(0, end(all.first()), false), Follows(end(all.last()), 0, false)]);
    cases.sort_unstable();
    cases.dedup();
    cases
}

/// Those that a run has to see.
fn owed() -> Vec<Case> {
    let mut all: Vec<Case> = (2..=15).flat_map(|code| [Refused(code, false), Refused(code, true)]).collect();
    all.extend([Nothing, OneMore, More].map(|room| Rooms(Zero, room)));
    all.extend([Nothing, AsMany, OneMore, More].map(|room| Rooms(One, room)));
    for total in [Few, Tens, Hundreds, Thousands] {
        all.extend([Nothing, OneRecord, OneFewer, AsMany, OneMore, Between, More].map(|room| Rooms(total, room)));
    }
    all.extend(CODES.iter().flat_map(|&code| [One, Few, Tens, Hundreds].map(|times| Times(code, times))));
    for (before, behind) in CODES.iter().flat_map(|&before| CODES.map(|behind| (before, behind))) {
        if rule(before) == rule(behind) && before > 30 {
            all.push(Follows(before, behind, true));
        }
        if rule(before) <= rule(behind) {
            all.push(Follows(before, behind, false));
        }
    }
    all.extend(CODES.iter().flat_map(|&code| [Follows(0, code, false), Follows(code, 0, false)]));
    all.push(EveryCode);
    all
}

impl fmt::Display for Case {
    fn fmt(&self, f: &mut fmt::Formatter) -> fmt::Result {
        let word = |many: &Many| MANY.iter().find(|(of, _, _)| of == many).expect("each has a word").2;
        match self {
            Refused(code, false) => write!(f, "{code}, no room"),
            Refused(code, true) => write!(f, "{code}, with room"),
            Rooms(total, room) => {
                let room = match room {
                    Nothing => "no room",
                    OneRecord => "room for one",
                    OneFewer => "room for one fewer",
                    AsMany => "room for as many",
                    OneMore => "room for one more",
                    Between => "room for some",
                    More => "more room",
                };
                write!(f, "violations: {}, {room}", word(total))
            }
            Times(code, times) => write!(f, "{code} in one list: {}", word(times)),
            Follows(0, code, _) => write!(f, "{code} first"),
            Follows(code, 0, _) => write!(f, "{code} last"),
            Follows(before, behind, same) => write!(f, "{behind} behind {before}{}", if *same { ", the same schema edge" } else { "" }),
            EveryCode => write!(f, "every code in one list"),
        }
    }
}

/// How often each came up, how many lists there were, and how many violations of each code their files have.
#[derive(Default)]
pub struct Came {
    cases: BTreeMap<Case, u64>,
    pub lists: u64,
    pub violations: [u64; CODES.len()],
}

impl Came {
    pub fn count(&mut self, lists: &Lists) {
        for case in cases(lists) {
            *self.cases.entry(case).or_default() += 1;
        }
        self.lists += lists.calls.len() as u64;
        for told in lists.found.iter().flatten() {
            let at = CODES.iter().position(|code| *code == told[0]).expect("a violation's code");
            self.violations[at] += 1;
        }
    }

    pub fn add(&mut self, other: &Came) {
        for (case, count) in &other.cases {
            *self.cases.entry(*case).or_default() += count;
        }
        self.lists += other.lists;
        self.violations.iter_mut().zip(other.violations).for_each(|(sum, n)| *sum += n);
    }

    /// The violations by their codes.
    pub fn by_code(&self) -> String {
        let told: Vec<String> = CODES.iter().zip(self.violations).map(|(code, came)| format!("{code}: {came}")).collect();
        told.join(", ")
    }

    /// Each that a run has to see, by name, with how often it came up.
    pub fn told(&self) -> Vec<(String, u64)> {
        owed().into_iter().map(|case| (format!("list: {case}"), self.cases.get(&case).map_or(0, |count| *count))).collect()
    }
}
