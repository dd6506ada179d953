//! Compares the proved functions, called through their entries for C, with the second program on random calls, then on every
//! number that could be a date, on every small record, on every small placing of edges and its list, on the longest lists, and on
//! sheets of many coefficients: the numbers returned and every byte of the written block. Where a call was made for a certain
//! result, both are held to it, too. With the two files of a pair all violations are listed, too; a joined file is asked what the two
//! were asked that it was joined from.

mod account;
mod after;
mod border;
mod calendar;
mod coefficients;
mod join;
mod join_cases;
mod list_cases;
mod listings;
mod lists;
mod longest;
mod model;
mod options;
mod placings;
mod plan;
mod random;
mod recipes;
mod records;
mod report;
mod sheet;
mod shrink;
mod sound;
mod told;

use after::Joins;
use border::{Border, Call, Function, Given, ANSWER_BYTES};
use lists::Lists;
use options::{Options, Part};
use random::Random;
use recipes::{Made, Numbers, Owed, Recipe, CONFORMS};
use report::{Difference, Tally};
use std::ops::Range;
use std::sync::atomic::{AtomicBool, AtomicU64, Ordering};
use std::sync::Mutex;

/// Calls are sent in batches.
const BATCH: u64 = 256;
/// Every so many pairs each rare recipe has its turn once.
const TURN: u64 = 8192;
/// How often a recipe is tried anew where its random pair did not have what it needs.
const TRIES: usize = 400;

/// A call, ready to be made.
struct Ready {
    /// the sub-case, if it is one
    recipe: Option<usize>,
    call: Call,
    owed: Owed,
    /// calls that list all violations, with the same two files
    lists: Option<Lists>,
    /// calls with the joined file
    joins: Option<Joins>,
}

impl Ready {
    /// A call of `check` that is no pair of the seed. Its block has four bytes behind the answer.
    fn check(graph: Vec<u8>, schema: Vec<u8>, owed: Numbers) -> Ready {
        let (lent, block) = (vec![graph, schema], vec![0x5A; ANSWER_BYTES + 4]);
        Ready {
            recipe: None,
            call: Call { function: Function::Check, lent, counts: [0; 2], block },
            owed: Owed::Exactly(owed),
            lists: None,
            joins: None,
        }
    }

    /// The same, and calls that list all violations.
    fn check_all(graph: Vec<u8>, schema: Vec<u8>, owed: Vec<Numbers>, rooms: &[usize]) -> Ready {
        let mut ready = Ready::check(graph, schema, owed.first().map_or(CONFORMS, |first| *first));
        ready.lists = Some(Lists::with_rooms(&ready.call.lent, owed, rooms));
        ready
    }

    fn calls(&self) -> impl Iterator<Item = &Call> {
        let beside = self.lists.iter().flat_map(|lists| &lists.calls);
        std::iter::once(&self.call).chain(beside).chain(self.joins.iter().flat_map(|joins| &joins.calls))
    }
}

/// The recipes by their turns: each rare one once a turn; of the other pairs half go round the sub-cases, and half round those
/// without an answer in mind, which reach combinations that nobody thought of.
struct Turns {
    rare: Vec<usize>,
    cases: Vec<usize>,
    /// without those of sheets, lists and joined files, and all: while the sub-cases go round for the first time, the pairs with which a seed
    /// starts stay what they were before there were these
    open: [Vec<usize>; 2],
}

impl Turns {
    fn new(recipes: &[Recipe]) -> Turns {
        let those = |wanted: &dyn Fn(&Recipe) -> bool| (0..recipes.len()).filter(|&i| wanted(&recipes[i])).collect();
        let later = |r: &Recipe| matches!(r.function, Function::Sheet | Function::All | Function::Join | Function::Twice);
        let open = [those(&|r| r.open() && !later(r)), those(&|r| r.open())];
        Turns { rare: those(&|r| r.rare), cases: those(&|r| !r.rare && !r.open()), open }
    }

    fn recipe(&self, index: u64) -> usize {
        // the large pairs come in the middle of a turn, so that a run starts with small ones
        let turn = ((index + TURN / 2) % TURN) as usize;
        let half = (index / 2) as usize;
        let open = &self.open[(half >= self.cases.len()) as usize];
        match turn {
            _ if turn < self.rare.len() => self.rare[turn],
            _ if index % 2 == 0 => self.cases[half % self.cases.len()],
            _ => open[half % open.len()],
        }
    }
}

fn make(recipes: &[Recipe], turns: &Turns, seed: u64, index: u64) -> Ready {
    let mut r = Random::of_pair(seed, index);
    let wanted = turns.recipe(index);
    let found = (0..TRIES).find_map(|_| (recipes[wanted].make)(&mut r));
    let recipe = found.as_ref().map(|_| wanted);
    let Made { function, lent, counts, owed, block, all, after } = found.unwrap_or_else(|| (recipes[0].make)(&mut r).expect("a pair that conforms"));
    let bytes = block.unwrap_or_else(|| if r.chance(50) { ANSWER_BYTES } else { r.within(ANSWER_BYTES, 64) });
    let block = r.bytes(bytes);
    let files = matches!(function, Function::Check | Function::Again);
    let lists = files.then(|| Lists::new(&mut r, &lent, all));
    let call = Call { function, lent, counts, block };
    let joins = after.and_then(|after| Joins::new(&mut r, &call, &after));
    Ready { recipe, call, owed, lists, joins }
}

/// Whether a result is the one that the call was made for.
fn met(owed: &Owed, call: &Call, given: &Given) -> bool {
    let kept = |returned: &[u32], written: &[u8]| Given::new(returned, [written, &call.block[written.len()..]].concat());
    match owed {
        Owed::Any => true,
        Owed::Code(low, high) => (*low..=*high).contains(&given.numbers[0]),
        Owed::Exactly(numbers) => *given == kept(&numbers[..1], &numbers.map(u32::to_le_bytes).concat()),
        Owed::Returned(numbers, written) => *given == kept(numbers, written),
    }
}

/// What a worker shares with the others.
struct Shared<'a> {
    options: &'a Options,
    /// how many sub-cases are counted
    recipes: usize,
    /// the call of an index
    make: &'a (dyn Fn(u64) -> Ready + Sync),
    next: AtomicU64,
    last: u64,
    stop: AtomicBool,
    found: Mutex<Vec<Difference>>,
}

/// The two results of each call. Fewer come if the border ended: then the call after the last result ended it.
fn run(shared: &Shared, border: &mut Border, calls: &[&Call]) -> Vec<[Given; 2]> {
    let mut given = border.run(calls);
    // a border that ended took results with it that it had not sent yet: one by one to the call that ends it
    for call in &calls[given.len()..] {
        match Border::start(&shared.options.border).run(&[call]).pop() {
            Some(both) => given.push(both),
            None => break,
        }
    }
    given
}

/// Compares the results of one pair, which stand at the start of `given`: its code, or the differences.
fn compare_one(index: u64, m: &Ready, given: &[[Given; 2]]) -> Result<u32, Vec<Difference>> {
    let mut found = vec![];
    let mut look = |nth: usize, call: &Call, second: Given, met: bool, owed: Option<String>| {
        let ours = given.get(nth);
        let agree = ours.map_or(false, |both| both.iter().all(|one| *one == second));
        // what comes after a call that ended the border was not answered
        if (!agree || !met) && nth <= given.len() {
            found.push(Difference { index, recipe: m.recipe, call: call.clone(), ours: ours.cloned(), second, agree, owed });
        }
    };
    let (asked, checked) = (m.call.function, report::second_of(&m.call));
    look(0, &m.call, checked.clone(), met(&m.owed, &m.call, &checked), report::owed(&m.owed));
    if let Some(lists) = &m.lists {
        for (nth, call) in (1..).zip(&lists.calls) {
            let second = lists.second_of(call);
            let met = lists.met(call, &second, asked, &checked);
            look(nth, call, second, met, if met { None } else { lists.owed(asked, &checked) });
        }
    }
    if let Some(joins) = &m.joins {
        let wrong = joins.wrong_in(given.get(1..1 + joins.calls.len()));
        for (nth, (call, second)) in joins.calls.iter().zip(&joins.second).enumerate() {
            let owed = wrong.as_ref().filter(|(at, _)| *at == nth).map(|(_, owed)| owed.clone());
            look(1 + nth, call, second.clone(), owed.is_none(), owed);
        }
    }
    if found.is_empty() {
        Ok(checked.code(asked))
    } else {
        Err(found)
    }
}

fn compare_batch(shared: &Shared, border: &mut Border, first: u64, last: u64, tally: &mut Tally) {
    let made: Vec<Ready> = (first..last).map(shared.make).collect();
    let calls: Vec<&Call> = made.iter().flat_map(|m| m.calls()).collect();
    let given = run(shared, border, &calls);
    let mut at = 0;
    for (index, m) in (first..).zip(&made) {
        let compared = compare_one(index, m, &given[at..]);
        at += m.calls().count();
        match compared {
            Ok(code) => tally.count(m, code),
            Err(found) => {
                shared.found.lock().expect("no worker failed").extend(found);
                shared.stop.store(true, Ordering::Relaxed);
            }
        }
        if at > given.len() {
            return; // the border ended in this pair
        }
    }
}

fn work(shared: &Shared) -> Tally {
    let mut border = Border::start(&shared.options.border);
    let mut tally = Tally::new(shared.recipes);
    while !shared.stop.load(Ordering::Relaxed) {
        let first = shared.next.fetch_add(BATCH, Ordering::Relaxed);
        let last = (first + BATCH).min(shared.last);
        if first >= last {
            break;
        }
        compare_batch(shared, &mut border, first, last, &mut tally);
    }
    tally
}

/// Makes the calls of these indices on both programs, by all workers. Gives what was counted, or the difference that says most.
fn compare(options: &Options, calls: Range<u64>, recipes: usize, make: &(dyn Fn(u64) -> Ready + Sync)) -> Result<Tally, Box<Difference>> {
    let (next, stop, found) = (AtomicU64::new(calls.start), AtomicBool::new(false), Mutex::new(vec![]));
    let shared = Shared { options, recipes, make, next, last: calls.end, stop, found };
    let mut tally = Tally::new(recipes);
    std::thread::scope(|scope| {
        let workers: Vec<_> = (0..options.jobs).map(|_| scope.spawn(|| work(&shared))).collect();
        for worker in workers {
            tally.add(&worker.join().expect("a worker ended by itself"));
        }
    });
    let mut found = shared.found.into_inner().expect("no worker failed");
    // of the differences in one batch the smallest pair says most
    found.sort_by_key(|d| (d.agree, d.call.lent.iter().map(|block| block.len()).sum::<usize>()));
    match found.into_iter().next() {
        Some(difference) => Err(Box::new(difference)),
        None => Ok(tally),
    }
}

fn compare_pairs(options: &Options) -> bool {
    let recipes = recipes::all();
    let turns = Turns::new(&recipes);
    println!("compare: seed {}", options.seed);
    match compare(options, options.first..options.last, recipes.len(), &|i| make(&recipes, &turns, options.seed, i)) {
        Ok(tally) => report::tally(options, &recipes, &tally),
        Err(found) => {
            let recipe = found.recipe.map_or("0 conforms", |r| &recipes[r].name);
            let what = format!("pair {} ({recipe})", found.index);
            let again = format!("--seed {} --pair {}", options.seed, found.index);
            report::difference(options, &what, &again, *found)
        }
    }
}

fn main() {
    let options = Options::read();
    let good = match options.part {
        Part::All => {
            compare_pairs(&options)
                && calendar::compare_days(&options, None)
                && records::compare_records(&options, None)
                && placings::compare_placings(&options, None)
                && listings::compare_listings(&options, None)
                && longest::compare_longest(&options, None)
                && coefficients::compare_coefficients(&options, None)
        }
        Part::Pair => compare_pairs(&options),
        Part::Date(number) => calendar::compare_days(&options, Some(number)),
        Part::Record(number) => records::compare_records(&options, Some(number)),
        Part::Placing(number) => placings::compare_placings(&options, Some(number)),
        Part::Listing(number) => listings::compare_listings(&options, Some(number)),
        Part::Longest(number) => longest::compare_longest(&options, Some(number)),
        Part::Sheet(index) => coefficients::compare_coefficients(&options, Some(index)),
    };
    std::process::exit(if good { 0 } else { 1 });
}
