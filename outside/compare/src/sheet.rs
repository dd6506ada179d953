//! Angle sheets as values: the lines that they are, and the graph that is written for a good one.

use crate::model::*;
use crate::random::Random;
use crate::sound::{is_leap, month_length};

pub const MOST_SERIAL: usize = 32;
pub const MOST_ANGLES: usize = 180;
/// The most digits of the degrees, and of a coefficient on each side of its comma.
pub const MOST_DEGREES: usize = 3;
pub const MOST_DIGITS: usize = 6;

/// How a line may end.
pub const LF: &[u8] = b"\n";
pub const CR_LF: &[u8] = b"\r\n";

/// A coefficient as it stands in its line. One without a comma has an empty fraction.
#[derive(Clone)]
pub struct Coefficient {
    pub minus: bool,
    pub whole: String,
    pub fraction: String,
}

impl Coefficient {
    /// Its text with a comma as in a sheet, or with a point as Rust reads it.
    fn with(&self, comma: &str) -> String {
        let (minus, comma) = (if self.minus { "-" } else { "" }, if self.fraction.is_empty() { "" } else { comma });
        [minus, &self.whole, comma, &self.fraction].concat()
    }

    pub fn text(&self) -> String {
        self.with(",")
    }

    /// The double that is nearest to it, as Rust reads a decimal text.
    pub fn nearest(&self) -> f64 {
        self.with(".").parse().expect("a decimal text")
    }

    /// All digits as one number, divided once by the power of ten that the fraction's length gives; then the minus.
    pub fn quotient(&self) -> f64 {
        let number: u64 = [&self.whole[..], &self.fraction].concat().parse().expect("digits");
        let quotient = number as f64 / 10u64.pow(self.fraction.len() as u32) as f64;
        if self.minus {
            -quotient
        } else {
            quotient
        }
    }
}

#[derive(Clone)]
pub struct Angle {
    /// with its minus
    pub degrees: String,
    pub coefficient: Coefficient,
}

impl Angle {
    pub fn text(&self) -> String {
        format!("{};{}", self.degrees, self.coefficient.text())
    }
}

/// A good sheet.
#[derive(Clone)]
pub struct Sheet {
    pub serial: Vec<u8>,
    /// year, month, day
    pub date: [usize; 3],
    pub angles: Vec<Angle>,
    /// the end of each line
    pub ends: Vec<&'static [u8]>,
}

pub fn date_text([year, month, day]: [usize; 3]) -> String {
    format!("{year:04}-{month:02}-{day:02}")
}

impl Sheet {
    /// The lines without their ends.
    pub fn texts(&self) -> Vec<Vec<u8>> {
        let first = [&self.serial[..], b";", date_text(self.date).as_bytes()].concat();
        [first].into_iter().chain(self.angles.iter().map(|angle| angle.text().into_bytes())).collect()
    }

    /// The lines with their ends.
    pub fn lines(&self) -> Vec<Vec<u8>> {
        self.texts().iter().zip(&self.ends).map(|(text, end)| [&text[..], end].concat()).collect()
    }

    pub fn bytes(&self) -> Vec<u8> {
        self.lines().concat()
    }

    /// The file that is written for it.
    pub fn file(&self) -> Vec<u8> {
        let [sensor, run, angle, of, at] = [0, 1, 2, 3, 4].map(|label| 1 << label);
        let property = |name: u16, kind: u8, length: usize, value: u64| Property { name, kind, length: length as u32, value };
        let [year, month, day] = self.date;
        let [serial, date] = [property(0, 5, self.serial.len(), 0), property(1, 4, 0, (year * 10_000 + month * 100 + day) as u64)];
        let mut nodes = vec![Node { labels: sensor, properties: vec![serial] }, Node { labels: run, properties: vec![date] }];
        let mut edges = vec![Edge { labels: of, ends: [1, 0], properties: vec![] }];
        for Angle { degrees, coefficient } in &self.angles {
            let degrees: i64 = degrees.parse().expect("a number");
            edges.push(Edge { labels: at, ends: [1, nodes.len() as u32], properties: vec![] });
            let properties = vec![property(3, 2, 0, degrees as u64), property(4, 3, 0, coefficient.nearest().to_bits())];
            nodes.push(Node { labels: angle, properties });
        }
        lay_graph(&Graph { nodes, edges, text: self.serial.clone(), labels: 5, names: 5, preface: vec![] }).bytes
    }
}

/// How long the file of these bytes is if they are a good sheet; of a bad one a guess, by its first semicolon and its lines.
pub fn file_bytes(sheet: &[u8]) -> usize {
    let serial = sheet.iter().position(|&byte| byte == b';').unwrap_or(0);
    let lines = sheet.iter().filter(|&&byte| byte == b'\n').count().max(1);
    116 + serial.min(MOST_SERIAL) + 72 * (lines - 1).min(MOST_ANGLES)
}

/// Where the coefficient of an angle stands in the file of a sheet with so many angles.
pub fn coefficient_at(angles: usize, index: usize) -> usize {
    16 * (2 + angles) + 24 * (1 + angles) + 16 * (2 + 2 * index + 1) + 8
}

// ---- random ones

/// Digits at random.
pub fn any_digits(r: &mut Random, count: usize) -> String {
    (0..count).map(|_| (b'0' + r.below(10) as u8) as char).collect()
}

/// The digits at the borders: all 0, all 9, a 1 before zeros, a 1 behind zeros.
pub fn edge_digits(count: usize) -> [String; 4] {
    let zeros = "0".repeat(count.saturating_sub(1));
    let one = &"1"[..count.min(1)];
    ["0".repeat(count), "9".repeat(count), format!("{one}{zeros}"), format!("{zeros}{one}")]
}

/// Digits at random, those at the borders among them more often than chance would have it.
pub fn digits(r: &mut Random, count: usize) -> String {
    if r.chance(40) {
        edge_digits(count)[r.below(4)].clone()
    } else {
        any_digits(r, count)
    }
}

/// A coefficient with so many digits before and behind its comma; without a comma, if behind it there would be none.
pub fn coefficient(r: &mut Random, minus: bool, whole: usize, fraction: usize) -> Coefficient {
    Coefficient { minus, whole: digits(r, whole), fraction: digits(r, fraction) }
}

pub fn degrees(r: &mut Random, minus: bool, count: usize) -> String {
    (if minus { "-" } else { "" }).to_string() + &digits(r, count)
}

pub fn angle(r: &mut Random) -> Angle {
    let (minus, count) = (r.chance(30), r.within(1, MOST_DEGREES));
    let degrees = degrees(r, minus, count);
    let (minus, whole, fraction) = (r.chance(30), r.within(1, MOST_DIGITS), r.within(0, MOST_DIGITS));
    Angle { degrees, coefficient: coefficient(r, minus, whole, fraction) }
}

/// A serial of so many bytes: such as people write, or any that are allowed.
pub fn serial(r: &mut Random, bytes: usize) -> Vec<u8> {
    let plain = r.chance(50);
    let any = std::iter::repeat_with(|| if plain { r.pick(b"ABCXYZ0123456789-_., ") } else { r.next() as u8 });
    any.filter(|byte| !b";\r\n".contains(byte)).take(bytes).collect()
}

pub fn date(r: &mut Random) -> [usize; 3] {
    let (year, month) = (r.within(1, 9999), r.within(1, 12));
    let last = month_length(is_leap(year), month);
    [year, month, if r.chance(20) { last } else { r.within(1, last) }]
}

/// The last day of a month, in a year that is leap or is not.
pub fn last_day(r: &mut Random, leap: bool, month: usize) -> [usize; 3] {
    let mut years = std::iter::repeat_with(|| r.within(1, 9999));
    let year = years.find(|&year| is_leap(year) == leap).expect("there are both");
    [year, month, month_length(leap, month)]
}

/// The ends of so many lines: all alike, or each by itself.
pub fn ends(r: &mut Random, lines: usize) -> Vec<&'static [u8]> {
    match r.below(3) {
        0 => vec![LF; lines],
        1 => vec![CR_LF; lines],
        _ => (0..lines).map(|_| r.pick(&[LF, CR_LF])).collect(),
    }
}

/// A good sheet with these angles.
pub fn sheet_of(r: &mut Random, angles: Vec<Angle>) -> Sheet {
    let bytes = if r.chance(20) { r.pick(&[1, MOST_SERIAL]) } else { r.within(1, MOST_SERIAL) };
    Sheet { serial: serial(r, bytes), date: date(r), ends: ends(r, 1 + angles.len()), angles }
}

/// A good sheet with so many angles.
pub fn sheet(r: &mut Random, angles: usize) -> Sheet {
    let angles = (0..angles).map(|_| angle(r)).collect();
    sheet_of(r, angles)
}
