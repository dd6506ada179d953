//! What is said at the end: how often each sub-case came up, or the first difference, made small.

use crate::border::{Border, Call, Function, Given, ANSWER, ANSWER_BYTES, TOLD};
use crate::join_cases;
use crate::list_cases::Came;
use crate::lists::{block_of, list_of};
use crate::options::{Options, LEAST};
use crate::recipes::{Numbers, Owed, Recipe};
use crate::shrink::shrink;
use crate::Ready;
use std::fmt::Write as _;
use std::time::{Duration, Instant};

/// The codes that each function gives, by its number. All three one after the other give the first that is not 0.
const CODES: [(&str, &[u32]); 8] = [
    ("check", &[0, 1, 2, 3, 4, 5, 6, 7, 8, 9, 10, 11, 12, 13, 14, 15, 21, 22, 23, 24, 25, 31, 32, 33, 34]),
    ("write_graph", &[0, 41, 42]),
    ("find_tables", &[0, 2, 3, 4, 5, 6, 7, 8]),
    ("all three", &[0, 2, 3, 4, 5, 6, 7, 8, 9, 10, 11, 12, 13, 14, 15, 21, 22, 23, 24, 25, 31, 32, 33, 34, 42]),
    ("read_sheet", &[0, 42, 51, 52]),
    ("check_all", &[0, 2, 3, 4, 5, 6, 7, 8, 9, 10, 11, 12, 13, 14, 15]),
    ("join_graphs", &[0, 2, 3, 4, 5, 6, 7, 8, 42, 44]),
    ("join_graphs, one block twice", &[0, 2, 3, 4, 5, 6, 7, 8, 42, 44]),
];

/// How long a difference is made smaller: a list of very many records takes its time.
const PATIENCE: Duration = Duration::from_secs(120);
/// How many records are printed, at most.
const MOST_TOLD: usize = 12;

/// The numbers by their names, in the order in which the functions return or write them.
const PLACES: [&str; 12] = ["code", "place", "nodes_at", "nodes", "edges_at", "edges", "rows_at", "rows", "text_at", "text", "labels", "names"];
const OUTCOME: [&str; 2] = ["code", "number"];
const LISTED: [&str; 3] = ["code", "place", "total"];
const NUMBERS: [&str; ANSWER] = ["code", "place", "schema place", "count", "property"];

pub struct Tally {
    recipes: Vec<u64>,
    /// by function and code
    codes: [[u64; 64]; CODES.len()],
    pairs: u64,
    /// pairs whose recipe found nothing to work on, so that a plain pair stood in
    plain: u64,
    pub lists: Came,
    joins: join_cases::Came,
}

impl Tally {
    pub fn new(recipes: usize) -> Tally {
        Tally {
            recipes: vec![0; recipes],
            codes: [[0; 64]; CODES.len()],
            pairs: 0,
            plain: 0,
            lists: Came::default(),
            joins: join_cases::Came::default(),
        }
    }

    pub fn count(&mut self, m: &Ready, code: u32) {
        match m.recipe {
            Some(r) => self.recipes[r] += 1,
            None => self.plain += 1,
        }
        self.codes[m.call.function as usize][code as usize] += 1;
        self.pairs += 1;
        if let Some(lists) = &m.lists {
            let code = lists.found.as_ref().err().map_or(0, |refusal| refusal.code);
            self.codes[Function::All as usize][code as usize] += lists.calls.len() as u64;
            self.lists.count(lists);
        }
        if code == 0 && matches!(m.call.function, Function::Join | Function::Twice) {
            self.joins.count(&m.call, m.joins.as_ref());
        }
    }

    pub fn add(&mut self, other: &Tally) {
        self.recipes.iter_mut().zip(&other.recipes).for_each(|(sum, n)| *sum += n);
        self.codes.iter_mut().flatten().zip(other.codes.iter().flatten()).for_each(|(sum, n)| *sum += n);
        self.pairs += other.pairs;
        self.plain += other.plain;
        self.lists.add(&other.lists);
        self.joins.add(&other.joins);
    }

    pub fn of_recipe(&self, recipe: usize) -> u64 {
        self.recipes[recipe]
    }

    pub fn of_code(&self, function: Function, code: u32) -> u64 {
        self.codes[function as usize][code as usize]
    }
}

pub struct Difference {
    pub index: u64,
    pub recipe: Option<usize>,
    pub call: Call,
    /// none where the border ended
    pub ours: Option<[Given; 2]>,
    pub second: Given,
    /// the two programs agree, and are owed another result
    pub agree: bool,
    /// what they are owed, if that is known
    pub owed: Option<String>,
}

/// Writes how often each sub-case came up, where that is asked for.
fn write_table(options: &Options, cases: &[(String, u64)]) {
    let mut table = String::new();
    for (name, count) in cases {
        let _ = writeln!(table, "{count:8}  {name}");
    }
    if let Some(file) = &options.table {
        std::fs::write(file, &table).unwrap_or_else(|e| panic!("{file} cannot be written: {e}"));
    }
}

/// True if every code and every sub-case came up often enough, where that is owed.
pub fn tally(options: &Options, recipes: &[Recipe], tally: &Tally) -> bool {
    let of_recipes = recipes.iter().map(|recipe| recipe.name.clone()).zip(tally.recipes.clone());
    let (of_lists, of_joins) = (tally.lists.told(), tally.joins.told());
    let more = [of_lists.len(), of_joins.len()];
    let cases: Vec<(String, u64)> = of_recipes.chain(of_lists).chain(of_joins).collect();
    write_table(options, &cases);
    let seldom = |count: u64| options.whole() && count < LEAST;
    let mut good = true;
    for (name, _) in cases.iter().filter(|(_, count)| seldom(*count)) {
        println!("compare: came up fewer than {LEAST} times: {name}");
        good = false;
    }
    for ((function, codes), counts) in CODES.iter().zip(&tally.codes) {
        let told: Vec<String> = codes.iter().map(|&code| format!("{code}: {}", counts[code as usize])).collect();
        println!("compare: {function} by code: {}", told.join(", "));
        for code in codes.iter().filter(|&&code| seldom(counts[code as usize])) {
            println!("compare: came up fewer than {LEAST} times: code {code} of {function}");
            good = false;
        }
    }
    let rarest = cases.iter().min_by_key(|(_, count)| count).expect("there are recipes");
    println!("compare: {} lists, the violations of their pairs by code {}", tally.lists.lists, tally.lists.by_code());
    println!("compare: {} files joined, and {} calls to hold them to what they were joined from", tally.joins.files, tally.joins.asked);
    println!(
        "compare: {} pairs, each called twice, 0 differences; {} sub-cases, {} more of lists, {} of joined files, the rarest {} times ({}); {} plain pairs",
        tally.pairs,
        recipes.len(),
        more[0],
        more[1],
        rarest.1,
        rarest.0,
        tally.plain
    );
    good
}

pub fn joined(numbers: &[u32]) -> String {
    numbers.iter().map(|n| n.to_string()).collect::<Vec<_>>().join(" ")
}

/// The records of a list, where those that are as they were before are kept.
fn records(list: &[Numbers], before: &[Numbers]) -> Vec<String> {
    let record = |at: usize| if before.get(at) == Some(&list[at]) { "kept".to_string() } else { joined(&list[at]) };
    (0..list.len()).map(record).collect()
}

/// The records of a list in a line; of many only the first.
pub fn told_list(list: &[Numbers], before: &[Numbers]) -> String {
    let told = records(&list[..list.len().min(MOST_TOLD)], before);
    let rest = if list.len() > told.len() { format!(" .. ({} records)", list.len()) } else { String::new() };
    format!("[{}]{rest}", told.join(", "))
}

fn told(call: &Call, given: &Given) -> String {
    let numbers = |from: usize, to: usize| joined(&given.numbers[from..to]);
    match call.function {
        Function::Check => match given.answer() {
            None => format!("returned {}, block {}", given.numbers[0], hex(&given.block)),
            Some(answer) => {
                let behind = &given.block[ANSWER_BYTES..];
                let behind = if behind.is_empty() { String::new() } else { format!(", behind them {}", hex(behind)) };
                format!("returned {}, wrote {}{behind}", given.numbers[0], joined(&answer))
            }
        },
        Function::Write | Function::Sheet | Function::Join | Function::Twice => format!("returned {}, output {}", numbers(0, 2), hex(&given.block)),
        Function::Find => format!("returned {}", numbers(0, 12)),
        Function::Again => {
            let [found, written, checked] = [numbers(0, 12), numbers(12, 14), numbers(14, TOLD)];
            format!("found {found}, then returned {written}, then {checked}, output {}", hex(&given.block))
        }
        Function::All => format!("returned {}, list {}", numbers(0, 3), told_list(&list_of(&given.block), &list_of(&call.block))),
    }
}

/// The bytes; of many only the first, since a pair can be made again.
fn hex(bytes: &[u8]) -> String {
    let told: Vec<String> = bytes.iter().take(2048).map(|b| format!("{b:02x}")).collect();
    let rest = if bytes.len() > told.len() { format!(" .. ({} bytes)", bytes.len()) } else { String::new() };
    told.join(" ") + &rest
}

/// A sheet's text, with its line ends and all bytes that do not print escaped; of a long one only the start.
fn escaped(bytes: &[u8]) -> String {
    let told = bytes[..bytes.len().min(2048)].escape_ascii();
    let rest = if bytes.len() > 2048 { format!(" .. ({} bytes)", bytes.len()) } else { String::new() };
    format!("\"{told}\"{rest}")
}

/// Each number that was told, with its name.
fn named(function: Function, given: &Given) -> Vec<(String, u32)> {
    let those = |of: &str, names: &[&str], numbers: &[u32]| -> Vec<(String, u32)> {
        names.iter().zip(numbers).map(|(name, &number)| (format!("{of}{name}"), number)).collect()
    };
    let numbers = &given.numbers;
    match function {
        Function::Check => [those("returned ", &["code"], numbers), those("", &NUMBERS, &given.answer().unwrap_or_default())].concat(),
        Function::Write | Function::Sheet | Function::Join | Function::Twice => those("", &OUTCOME, numbers),
        Function::Find => those("", &PLACES, numbers),
        Function::Again => [
            those("found ", &PLACES, numbers),
            those("written ", &OUTCOME, &numbers[12..]),
            those("returned ", &["code"], &numbers[14..]),
            those("checked ", &NUMBERS, &numbers[15..]),
        ]
        .concat(),
        Function::All => those("", &LISTED, numbers),
    }
}

/// The records that differ; of many only the first.
fn differing_records(call: &Call, ours: &Given, second: &Given) -> Vec<String> {
    let before = list_of(&call.block);
    let [ours, second] = [ours, second].map(|given| records(&list_of(&given.block), &before));
    let differ: Vec<usize> = (0..ours.len()).filter(|&at| ours[at] != second[at]).collect();
    let told = differ.iter().take(MOST_TOLD).map(|&at| format!("record {at}: {} and {}", ours[at], second[at]));
    let rest = differ.len().checked_sub(MOST_TOLD).filter(|&rest| rest > 0).map(|rest| format!("{rest} records more"));
    told.chain(rest).collect()
}

/// The numbers that differ, by their names, and the records of a list; or the first byte of the written block that does.
fn differing(call: &Call, ours: &Given, second: &Given) -> String {
    let pairs = named(call.function, ours).into_iter().zip(named(call.function, second));
    let mut told: Vec<String> = pairs.filter(|(a, b)| a != b).map(|((name, a), (_, b))| format!("{name} {a} and {b}")).collect();
    if call.function == Function::All {
        told.extend(differing_records(call, ours, second));
    }
    let byte = ours.block.iter().zip(&second.block).position(|(a, b)| a != b);
    match byte {
        Some(at) if told.is_empty() => format!("byte {at} of the written block"),
        _ => told.join(", "),
    }
}

fn print_both(call: &Call, given: Option<&[Given; 2]>, second: &Given) {
    println!("  proved: {}", ours(call, given));
    println!("  second: {}", told(call, second));
    if let Some(one) = given.and_then(|both| both.iter().find(|one| *one != second)) {
        println!("  differ: {}", differing(call, one, second));
    }
}

/// What a call was made for.
pub fn owed(owed: &Owed) -> Option<String> {
    match owed {
        Owed::Any => None,
        Owed::Code(low, high) => Some(format!("a code from {low} to {high}")),
        Owed::Exactly(numbers) => Some(joined(numbers)),
        Owed::Returned(numbers, written) => Some(format!("returned {}, written {}", joined(numbers), hex(written))),
    }
}

fn ours(call: &Call, given: Option<&[Given; 2]>) -> String {
    match given {
        None => "the border ended in this call".to_string(),
        Some([front, back]) if front == back => told(call, front),
        Some([front, back]) => format!("{}; at the end of its page: {}", told(call, front), told(call, back)),
    }
}

/// The lent blocks' names.
fn names(function: Function) -> &'static [&'static str] {
    match function {
        Function::Check | Function::Again | Function::All => &["graph", "schema"],
        Function::Write => &["nodes", "edges", "rows", "text"],
        Function::Find | Function::Twice => &["graph"],
        Function::Sheet => &["sheet"],
        Function::Join => &["first", "second"],
    }
}

fn sizes(call: &Call) -> String {
    let lent = names(call.function).iter().zip(&call.lent).map(|(name, block)| format!("{name} of {} bytes", block.len()));
    let output = match call.function {
        Function::Write | Function::Again | Function::Sheet | Function::Join | Function::Twice => {
            Some(format!("output of {} bytes", call.block.len()))
        }
        Function::All => Some(format!("room for {}", call.block.len() / ANSWER_BYTES)),
        _ => None,
    };
    lent.chain(output).collect::<Vec<_>>().join(", ")
}

fn print_lent(call: &Call) {
    for (name, block) in names(call.function).iter().zip(&call.lent) {
        println!("  {:8}{}", format!("{name}:"), if call.function == Function::Sheet { escaped(block) } else { hex(block) });
    }
    if call.function == Function::Write {
        println!("  counts: {} labels, {} names", call.counts[0], call.counts[1]);
    }
}

/// A file is read and written again from its own tables, as the border does it. What was written is owed the answer that the
/// file has itself. Where a place is wrong, there is nothing, and the results differ.
fn again(graph: &[u8], schema: &[u8], mut block: Vec<u8>) -> Given {
    let mut told = second::find_tables(graph).to_vec();
    if told[0] == 0 {
        let part = |at: usize, bytes: usize| graph.get(at..at + bytes).unwrap_or(&[]);
        let table = |at: usize, width: usize| part(told[at] as usize, told[at + 1] as usize * width);
        let (nodes, edges, rows, text) = (table(2, 16), table(4, 24), table(6, 16), table(8, 1));
        let (code, number) = second::write_graph(nodes, edges, rows, text, told[10], told[11], &mut block);
        told.extend([code, number]);
        if code == 0 {
            let answer = second::answer(graph, schema);
            told.push(answer[0]);
            told.extend(answer);
        }
    }
    Given::new(&told, block)
}

/// What the second program gives for the same call.
pub fn second_of(call: &Call) -> Given {
    let (lent, mut block) = (&call.lent, call.block.clone());
    match call.function {
        Function::Check => {
            let code = second::check(&lent[0], &lent[1], &mut block);
            Given::new(&[code], block)
        }
        Function::Write => {
            let (code, number) = second::write_graph(&lent[0], &lent[1], &lent[2], &lent[3], call.counts[0], call.counts[1], &mut block);
            Given::new(&[code, number], block)
        }
        Function::Find => Given::new(&second::find_tables(&lent[0]), block),
        Function::Again => again(&lent[0], &lent[1], block),
        Function::Sheet => {
            let (code, number) = second::read_sheet(&lent[0], &mut block);
            Given::new(&[code, number], block)
        }
        Function::All => {
            let mut list = list_of(&block);
            let listed = second::check_all(&lent[0], &lent[1], &mut list);
            Given::new(&listed, block_of(&list))
        }
        Function::Join | Function::Twice => {
            // one block is joined with itself
            let (code, number) = second::join_graphs(&lent[0], lent.last().expect("a graph"), &mut block);
            Given::new(&[code, number], block)
        }
    }
}

/// Says which call it is and how to make it again, and makes it small. Always false.
pub fn difference(options: &Options, what: &str, again: &str, found: Difference) -> bool {
    println!("compare: {what} differs");
    print_both(&found.call, found.ours.as_ref(), &found.second);
    if let Some(owed) = found.owed {
        println!("  owed:   {owed}");
    }
    println!("  again:  bash outside/compare/run.sh {again}");
    if found.agree {
        println!("  The two programs agree, and are owed another result.");
        print_lent(&found.call);
        return false;
    }
    let mut border = Border::start(&options.border);
    let start = Instant::now();
    let call = shrink(found.call, |call| {
        if start.elapsed() > PATIENCE {
            return false;
        }
        let given = border.run(&[call]);
        if given.is_empty() {
            border = Border::start(&options.border);
            return true;
        }
        let second = second_of(call);
        given[0].iter().any(|one| *one != second)
    });
    let given = Border::start(&options.border).run(&[&call]);
    println!("  made small, {}:", sizes(&call));
    print_both(&call, given.first(), &second_of(&call));
    print_lent(&call);
    false
}
