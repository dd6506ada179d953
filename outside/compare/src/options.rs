//! What the command line asks for.

use std::time::{SystemTime, UNIX_EPOCH};

const USAGE: &str = "usage: compare [--seed S] [--pairs N] [ONE] [--jobs J] [--table FILE] -- BORDER [WORD...]

  --seed S      makes the pairs of an earlier run again; without it a fresh seed is taken, and printed
  --pairs N     how many pairs (1000000)
  --jobs J      how many at a time (the machine's processors)
  --table FILE  writes how often each sub-case came up
  BORDER        the program that calls the proved functions

ONE is one of these:

  --pair I      only pair I of that seed
  --date D      only the number D of the calendar
  --record N    only record N of the small and the long ones
  --placing N   only placing N of the small ones and those far apart
  --listing N   only list N of the small placings
  --longest N   only list N of the longest
  --sheet I     only sheet I of that seed's coefficients";

/// From here on every code and every sub-case has to come up LEAST times.
pub const WHOLE_RUN: u64 = 1_000_000;
pub const LEAST: u64 = 100;

/// What is compared.
pub enum Part {
    /// the pairs, then the calendar, the records, the placings, their lists, the longest lists, the coefficients
    All,
    Pair,
    Date(u64),
    Record(u64),
    Placing(u64),
    Listing(u64),
    Longest(u64),
    Sheet(u64),
}

pub struct Options {
    pub seed: u64,
    pub first: u64,
    pub last: u64,
    pub part: Part,
    pub jobs: usize,
    pub table: Option<String>,
    pub border: Vec<String>,
}

fn wrong(what: &str) -> ! {
    eprintln!("compare: {what}\n{USAGE}");
    std::process::exit(2);
}

fn fresh_seed() -> u64 {
    let now = SystemTime::now().duration_since(UNIX_EPOCH).map_or(0, |d| d.as_nanos() as u64);
    now ^ (std::process::id() as u64) << 40
}

impl Options {
    pub fn read() -> Options {
        let jobs = std::thread::available_parallelism().map_or(1, |n| n.get());
        let mut options = Options { seed: fresh_seed(), first: 0, last: WHOLE_RUN, part: Part::All, jobs, table: None, border: vec![] };
        let mut words = std::env::args().skip(1);
        while let Some(word) = words.next() {
            if word == "--" {
                options.border = words.by_ref().collect();
                break;
            }
            let value = words.next().unwrap_or_else(|| wrong(&format!("{word} needs a value")));
            let number = || value.parse::<u64>().unwrap_or_else(|_| wrong(&format!("{value} is no number")));
            match word.as_str() {
                "--seed" => options.seed = number(),
                "--pairs" => options.last = number(),
                "--pair" => (options.part, options.first, options.last) = (Part::Pair, number(), number() + 1),
                "--date" => options.part = Part::Date(number()),
                "--record" => options.part = Part::Record(number()),
                "--placing" => options.part = Part::Placing(number()),
                "--listing" => options.part = Part::Listing(number()),
                "--longest" => options.part = Part::Longest(number()),
                "--sheet" => options.part = Part::Sheet(number()),
                "--jobs" => options.jobs = number().max(1) as usize,
                "--table" => options.table = Some(value),
                _ => wrong(&format!("{word} is not known")),
            }
        }
        if options.border.is_empty() {
            wrong("the border is missing");
        }
        options
    }

    /// Whether every code and sub-case is owed.
    pub fn whole(&self) -> bool {
        self.first == 0 && self.last >= WHOLE_RUN
    }
}
