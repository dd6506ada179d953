//! Every day of every year: each number that could be a date is the one value of a smallest graph, and both programs are held to
//! the list of days that Python's calendar has.

use crate::border::Function;
use crate::model::*;
use crate::options::Options;
use crate::recipes::{alone, CONFORMS};
use crate::{compare, report, Ready};
use std::process::{Command, Stdio};

/// The program that prints the list, one day to a line.
const LIST: &str = include_str!("../days.py");
/// How many days the list has, and how many of them each cycle of 400 years.
const DAYS: usize = 3_652_059;
const CYCLE: usize = 146_097;
const DATE: u8 = 4;
const BAD_ROW: u32 = 8;

/// The list's days, rising.
fn listed() -> Vec<u64> {
    let python = Command::new("python3").args(["-I", "-c", LIST]).stderr(Stdio::inherit()).output();
    let printed = python.unwrap_or_else(|e| panic!("python3 cannot be started: {e}")).stdout;
    String::from_utf8_lossy(&printed).lines().map(|day| day.parse().expect("a number")).collect()
}

/// Whether the list has all days. The last cycle of 400 years that ends before 9999 starts with 9201.
fn whole(days: &[u64]) -> bool {
    let before = |year: u64| days.partition_point(|&day| day < year * 10_000);
    days.len() == DAYS && (1..=9_201).step_by(400).all(|year| before(year + 400) - before(year) == CYCLE)
}

/// Years, months and days, each from below its lowest to above its highest.
fn numbers() -> Vec<u64> {
    let months = (0..=10_000).flat_map(|year| (0..=13).map(move |month| year * 10_000 + month * 100));
    months.flat_map(|month| (0..=32).map(move |day| month + day)).collect()
}

struct Calendar {
    days: Vec<u64>,
    /// one node with one property, a date
    graph: Laid,
    /// a schema that the graph fits
    schema: Vec<u8>,
}

impl Calendar {
    fn new(days: Vec<u64>) -> Calendar {
        let node = Node { labels: 1, properties: vec![Property { name: 0, kind: DATE, length: 0, value: 0 }] };
        let shape = Shape { labels: 1, open: false, listed: vec![Listed { name: 0, kind: DATE, optional: false }] };
        let graph = Graph { nodes: vec![node], labels: 1, names: 1, ..Graph::default() };
        let schema = Schema { nodes: vec![shape], labels: 1, names: 1, ..Schema::default() };
        Calendar { days, graph: lay_graph(&graph), schema: lay_schema(&schema).bytes }
    }

    fn has(&self, number: u64) -> bool {
        self.days.binary_search(&number).is_ok()
    }

    /// The call that tries a number as the date.
    fn call(&self, number: u64) -> Ready {
        let mut graph = self.graph.clone();
        graph.put(graph.row(Table::Properties, 0) + 8, 8, number);
        let owed = if self.has(number) { CONFORMS } else { alone(BAD_ROW, 0) };
        Ready::check(graph.bytes, self.schema.clone(), owed)
    }
}

/// True if both programs take the days of the list, and no other number. `one` is the only number to try.
pub fn compare_days(options: &Options, one: Option<u64>) -> bool {
    let calendar = Calendar::new(listed());
    if !whole(&calendar.days) {
        println!("compare: calendar: Python's list of {} days is not whole", calendar.days.len());
        return false;
    }
    let numbers = one.map_or_else(numbers, |number| vec![number]);
    match compare(options, 0..numbers.len() as u64, 0, &|i| calendar.call(numbers[i as usize])) {
        Ok(tally) => {
            let [taken, refused] = [0, BAD_ROW].map(|code| tally.of_code(Function::Check, code) as usize);
            let tried = taken + refused;
            assert!(tried == numbers.len() && (one.is_some() || taken == DAYS), "a number was not tried");
            println!("compare: calendar: {tried} numbers tried, {taken} of them days; every cycle of 400 years has {CYCLE}");
            true
        }
        Err(difference) => {
            let number = numbers[difference.index as usize];
            let what = format!("calendar: {number} ({} of Python's list)", if calendar.has(number) { "a day" } else { "no day" });
            report::difference(options, &what, &format!("--date {number}"), *difference)
        }
    }
}
