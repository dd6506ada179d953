//! Coefficients by the million, 180 to a sheet: both programs are held to every bit that Rust's division gives, and Rust's
//! reading of decimal texts. The degrees beside them go through every text that they can have.

use crate::border::{Call, Function, Given};
use crate::options::Options;
use crate::random::Random;
use crate::recipes::Owed;
use crate::report::{self, Difference};
use crate::sheet::*;
use crate::{compare, Ready};

/// Every text of so few digits is tried, and so many of any number of digits at random.
const FEW: usize = 5;
const AT_RANDOM: usize = 2_000_000;
/// What the outputs have behind the file.
const BEHIND: [u8; 4] = [0x5A; 4];

/// Each number of digits before and behind the comma, with and without minus.
fn shapes() -> impl Iterator<Item = (usize, usize, bool)> {
    let lengths = (1..=MOST_DIGITS).flat_map(|whole| (0..=MOST_DIGITS).map(move |fraction| (whole, fraction)));
    lengths.flat_map(|(whole, fraction)| [false, true].map(|minus| (whole, fraction, minus)))
}

/// In each shape the digits at the borders, every combination of both sides.
fn edges() -> Vec<Coefficient> {
    let mut all = vec![];
    for (whole, fraction, minus) in shapes() {
        for digits in edge_digits(whole) {
            for behind in edge_digits(fraction) {
                all.push(Coefficient { minus, whole: digits.clone(), fraction: behind });
            }
        }
    }
    all
}

/// The shapes of few digits, each with the number of its texts.
fn few() -> impl Iterator<Item = ((usize, usize, bool), usize)> {
    shapes().filter(|(whole, fraction, _)| whole + fraction <= FEW).map(|shape| (shape, 10usize.pow((shape.0 + shape.1) as u32)))
}

/// The nth of all texts of few digits, if there are so many.
fn short(mut nth: usize) -> Option<Coefficient> {
    for ((whole, fraction, minus), texts) in few() {
        if nth < texts {
            let digits = format!("{nth:0width$}", width = whole + fraction);
            return Some(Coefficient { minus, whole: digits[..whole].to_string(), fraction: digits[whole..].to_string() });
        }
        nth -= texts;
    }
    None
}

/// Every text of the degrees, by its number of digits.
fn every_degrees() -> Vec<String> {
    let digits = (1..=MOST_DEGREES).flat_map(|count| (0..10usize.pow(count as u32)).map(move |number| format!("{number:0count$}")));
    digits.flat_map(|digits| [digits.clone(), format!("-{digits}")]).collect()
}

/// Which coefficient stands where: those at the borders, then those of few digits, then any.
struct Plan {
    seed: u64,
    edges: Vec<Coefficient>,
    degrees: Vec<String>,
}

impl Plan {
    fn new(seed: u64) -> Plan {
        Plan { seed, edges: edges(), degrees: every_degrees() }
    }

    /// How many sheets there are; the last one is filled up at random.
    fn sheets(&self) -> usize {
        let short: usize = few().map(|(_, texts)| texts).sum();
        (self.edges.len() + short + AT_RANDOM + MOST_ANGLES - 1) / MOST_ANGLES
    }

    fn coefficient(&self, r: &mut Random, at: usize) -> Coefficient {
        let known = self.edges.get(at).cloned().or_else(|| short(at - self.edges.len()));
        let coefficient = known.unwrap_or_else(|| {
            let (minus, whole, fraction) = (r.chance(50), r.within(1, MOST_DIGITS), r.within(0, MOST_DIGITS));
            Coefficient { minus, whole: any_digits(r, whole), fraction: any_digits(r, fraction) }
        });
        let (nearest, quotient) = (coefficient.nearest().to_bits(), coefficient.quotient().to_bits());
        assert!(nearest == quotient, "{}: Rust reads {nearest:016x} and divides {quotient:016x}", coefficient.text());
        coefficient
    }

    fn sheet(&self, index: u64) -> Sheet {
        let mut r = Random::of_pair(self.seed, index);
        let first = index as usize * MOST_ANGLES;
        let degrees = |at: usize| self.degrees[at % self.degrees.len()].clone();
        let angles = (first..first + MOST_ANGLES).map(|at| Angle { degrees: degrees(at), coefficient: self.coefficient(&mut r, at) });
        let angles = angles.collect();
        sheet_of(&mut r, angles)
    }

    fn call(&self, index: u64) -> Ready {
        let sheet = self.sheet(index);
        let file = sheet.file();
        let block = [vec![0x5A; file.len()], BEHIND.to_vec()].concat();
        let call = Call { function: Function::Sheet, lent: vec![sheet.bytes()], counts: [0; 2], block };
        Ready { recipe: None, call, owed: Owed::Returned(vec![0, file.len() as u32], file), lists: None, joins: None }
    }

    /// The first coefficient of the sheet that a program has otherwise, with its bits.
    fn wrong(&self, found: &Difference) -> Option<String> {
        let sheet = self.sheet(found.index);
        let bits = |given: &Given, at: usize| {
            let from = coefficient_at(sheet.angles.len(), at);
            u64::from_le_bytes(given.block[from..from + 8].try_into().expect("eight bytes"))
        };
        let ours = found.ours.as_ref()?;
        let [front, back] = ours;
        sheet.angles.iter().enumerate().find_map(|(at, angle)| {
            let owed = angle.coefficient.nearest().to_bits();
            let told = [front, back, &found.second].map(|given| bits(given, at));
            let [ours, second] = [told[if told[0] == owed { 1 } else { 0 }], told[2]];
            let what = || format!("{}, proved {ours:016x}, second {second:016x}, owed {owed:016x}", angle.coefficient.text());
            told.iter().any(|&told| told != owed).then(what)
        })
    }
}

/// True if both programs have every bit. `one` is the only sheet to try.
pub fn compare_coefficients(options: &Options, one: Option<u64>) -> bool {
    let plan = Plan::new(options.seed);
    let sheets = one.map_or(0..plan.sheets() as u64, |index| index..index + 1);
    let tried = (sheets.end - sheets.start) as usize;
    match compare(options, sheets, 0, &|index| plan.call(index)) {
        Ok(tally) => {
            assert!(tally.of_code(Function::Sheet, 0) as usize == tried, "a sheet was not read");
            let texts = tried * MOST_ANGLES;
            println!("compare: coefficients: {texts} of {tried} sheets, each with the bits of Rust's division and of its reading");
            true
        }
        Err(difference) => {
            let wrong = plan.wrong(&difference).unwrap_or_else(|| "no coefficient by itself".to_string());
            let what = format!("coefficients: sheet {} ({wrong})", difference.index);
            let again = format!("--seed {} --sheet {}", options.seed, difference.index);
            report::difference(options, &what, &again, *difference)
        }
    }
}
