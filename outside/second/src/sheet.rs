//! Ask 4: "Read the angle sheet." The sheet is cut into lines, the text of each
//! line is read into values, and the graph of these is written "as in Ask 1".

use crate::graph::{Edge, Graph, Object};
use crate::tables::{EdgeRow, ObjectRow, PropertyRow};
use crate::values::{Kind, Value};
use crate::write::{put_edge, put_node, put_property, write_graph, Outcome};
use std::ops::RangeInclusive;

/// "51 a bad or missing first line, which is line 1".
const BAD_FIRST_LINE: Outcome = (51, 1);
/// "52 a bad later line or a 181st angle line", with that line's number.
const BAD_LATER_LINE: u32 = 52;
/// "Up to 180 angle lines".
const MOST_ANGLES: usize = 180;

/// "Labels: 0 Sensor, 1 Run, 2 Angle, 3 OF, 4 AT", as label sets of one label.
const SENSOR: u64 = 1 << 0;
const RUN: u64 = 1 << 1;
const ANGLE: u64 = 1 << 2;
const OF: u64 = 1 << 3;
const AT: u64 = 1 << 4;
/// "Names: 0 serial, 1 date, 2 remark, 3 degrees, 4 coefficient"; "no remark is
/// made".
const SERIAL: u64 = 0;
const DATE: u64 = 1;
const DEGREES: u64 = 3;
const COEFFICIENT: u64 = 4;
/// "Label and name counts are 5".
const LABEL_COUNT: u32 = 5;
const NAME_COUNT: u32 = 5;

/// "51 [...]; 52 [...] returned with the lowest line number at fault; then 42."
/// The outcome is as `write_graph`'s: 0 and the length written, or a refusal.
pub fn read_sheet(sheet: &[u8], out: &mut [u8]) -> Outcome {
    let sheet = match Sheet::read(sheet) {
        Ok(sheet) => sheet,
        Err(refusal) => return refusal,
    };
    let Tables {
        nodes,
        edges,
        rows,
        text,
        ..
    } = Tables::of(&sheet.graph());
    write_graph(&nodes, &edges, &rows, &text, LABEL_COUNT, NAME_COUNT, out)
}

/// What the lines of a good sheet say; the angles are "in line order".
struct Sheet<'a> {
    serial: Value<'a>,
    date: Value<'a>,
    angles: Vec<Angle<'a>>,
}

struct Angle<'a> {
    degrees: Value<'a>,
    coefficient: Value<'a>,
}

impl<'a> Sheet<'a> {
    /// The sheet, or the refusal of the first line that is bad. A line goes up to
    /// its LF; bytes behind the last LF are a line too, and an empty sheet has none.
    fn read(sheet: &'a [u8]) -> Result<Sheet<'a>, Outcome> {
        let mut lines = sheet.split_inclusive(|byte| *byte == b'\n');
        let first = lines.next().and_then(first_line);
        let (serial, date) = first.ok_or(BAD_FIRST_LINE)?;
        let mut angles = Vec::new();
        for (number, line) in (2..).zip(lines) {
            match angle_line(line) {
                Some(angle) if angles.len() < MOST_ANGLES => angles.push(angle),
                _ => return Err((BAD_LATER_LINE, number)),
            }
        }
        Ok(Sheet {
            serial,
            date,
            angles,
        })
    }

    /// "nodes Sensor, Run, then the angles in line order, edges OF, then one AT
    /// for each angle"; OF is "Run to Sensor", AT is "Run to Angle".
    fn graph(&self) -> Graph<'a> {
        let (sensor, run) = (0, 1);
        let mut nodes = vec![
            object(SENSOR, &[(SERIAL, self.serial)]),
            object(RUN, &[(DATE, self.date)]),
        ];
        let mut edges = vec![edge(OF, run, sensor)];
        for angle in &self.angles {
            edges.push(edge(AT, run, nodes.len()));
            let degrees = (DEGREES, angle.degrees);
            let coefficient = (COEFFICIENT, angle.coefficient);
            nodes.push(object(ANGLE, &[degrees, coefficient]));
        }
        Graph { nodes, edges }
    }
}

fn object<'a>(labels: u64, properties: &[(u64, Value<'a>)]) -> Object<'a> {
    let properties = properties.to_vec();
    Object { labels, properties }
}

/// An edge without properties.
fn edge<'a>(labels: u64, source: usize, target: usize) -> Edge<'a> {
    Edge {
        object: object(labels, &[]),
        source,
        target,
    }
}

/// "serial [...], a semicolon, the date": neither has a semicolon in it.
fn first_line(line: &[u8]) -> Option<(Value<'_>, Value<'_>)> {
    let [serial, date] = parts(text_of(line)?, b';')?;
    Some((read_serial(serial)?, read_date(date)?))
}

/// "degrees [...], a semicolon, coefficient": neither has a semicolon in it.
fn angle_line(line: &[u8]) -> Option<Angle<'_>> {
    let [degrees, coefficient] = parts(text_of(line)?, b';')?;
    Some(Angle {
        degrees: read_degrees(degrees)?,
        coefficient: read_coefficient(coefficient)?,
    })
}

/// The line without its end: "every line, the last too, ends with LF or CR LF,
/// or it is bad". A CR elsewhere is part of the text, and no text may have one.
fn text_of(line: &[u8]) -> Option<&[u8]> {
    let text = line.strip_suffix(b"\n")?;
    Some(text.strip_suffix(b"\r").unwrap_or(text))
}

/// What stands before, between and after the marks, if that gives N parts.
fn parts<const N: usize>(text: &[u8], mark: u8) -> Option<[&[u8]; N]> {
    let parts: Vec<&[u8]> = text.split(|byte| *byte == mark).collect();
    parts.try_into().ok()
}

/// "serial (1 to 32 bytes, no semicolon, CR or LF)"
fn read_serial(text: &[u8]) -> Option<Value<'_>> {
    let forbidden = |byte: &u8| [b';', b'\r', b'\n'].contains(byte);
    if !(1..=32).contains(&text.len()) || text.iter().any(forbidden) {
        return None;
    }
    Some(Value::Text(text))
}

/// "the date as YYYY-MM-DD, good for the Date kind", whose value is "year x
/// 10,000 + month x 100 + day"
fn read_date(text: &[u8]) -> Option<Value<'_>> {
    let [year, month, day] = parts(text, b'-')?;
    if !digits(year, 4..=4) || !digits(month, 2..=2) || !digits(day, 2..=2) {
        return None;
    }
    let date = number(year) * 10_000 + number(month) * 100 + number(day);
    Value::read(Kind::Date, 0, date, &[])
}

/// "degrees (optional minus, 1 to 3 digits)"; "-0" is the Integer 0.
fn read_degrees(text: &[u8]) -> Option<Value<'_>> {
    let (minus, text) = optional_minus(text);
    if !digits(text, 1..=3) {
        return None;
    }
    let degrees = number(text) as i64;
    Some(Value::Integer(if minus { -degrees } else { degrees }))
}

/// "coefficient (optional minus, 1 to 6 digits, or those, a comma and 1 to 6
/// digits)"
fn read_coefficient(text: &[u8]) -> Option<Value<'_>> {
    let (minus, text) = optional_minus(text);
    let parts: Vec<&[u8]> = text.split(|byte| *byte == b',').collect();
    let (whole, fraction) = match parts[..] {
        [whole] => (whole, &[][..]),
        [whole, fraction] if digits(fraction, 1..=6) => (whole, fraction),
        _ => return None,
    };
    if !digits(whole, 1..=6) {
        return None;
    }
    let quotient = quotient(whole, fraction);
    // "a minus negates the quotient, so "-0" is negative zero"
    Some(Value::Real(if minus { -quotient } else { quotient }))
}

/// "the whole digits as a float divided once by the power of ten that the
/// fraction's length gives (digits on both sides of the comma as one number; no
/// comma, length 0)". Twelve digits and 10^6 are below 2^53: both casts are exact.
fn quotient(whole: &[u8], fraction: &[u8]) -> f64 {
    let whole_digits = number(&[whole, fraction].concat());
    let power_of_ten = 10_u64.pow(fraction.len() as u32);
    whole_digits as f64 / power_of_ten as f64
}

/// Whether there is an "optional minus", and the text after it.
fn optional_minus(text: &[u8]) -> (bool, &[u8]) {
    match text.strip_prefix(b"-") {
        Some(after) => (true, after),
        None => (false, text),
    }
}

/// Whether the text is digits and nothing else, as many as one of these lengths.
fn digits(text: &[u8], lengths: RangeInclusive<usize>) -> bool {
    lengths.contains(&text.len()) && text.iter().all(u8::is_ascii_digit)
}

/// The number that these digits are, twelve at most.
fn number(digits: &[u8]) -> u64 {
    digits
        .iter()
        .fold(0, |number, digit| number * 10 + u64::from(digit - b'0'))
}

/// "lent tables of all row fields, text", made for a graph.
#[derive(Default)]
struct Tables {
    nodes: Vec<u8>,
    edges: Vec<u8>,
    rows: Vec<u8>,
    text: Vec<u8>,
    /// The property rows there are so far: where the next run starts.
    next: u64,
}

impl Tables {
    /// "The first run of all starts at 0, each next run starts where the one
    /// before ended, edges follow nodes."
    fn of(graph: &Graph) -> Tables {
        let mut tables = Tables::default();
        for node in &graph.nodes {
            let row = tables.object(node);
            put_node(&mut tables.nodes, &row);
        }
        for edge in &graph.edges {
            let row = EdgeRow {
                object: tables.object(&edge.object),
                source: edge.source as u64,
                target: edge.target as u64,
            };
            put_edge(&mut tables.edges, &row);
        }
        tables
    }

    /// The object's row; its property rows are put. "A run of count 0 still gives
    /// the current start."
    fn object(&mut self, object: &Object) -> ObjectRow {
        let first = self.next;
        for (name, value) in &object.properties {
            self.property(*name, value);
        }
        ObjectRow {
            labels: object.labels,
            first,
            count: self.next - first,
        }
    }

    /// Puts a property row. A text's bytes go behind the text there is, so that
    /// the serial, a sheet's one text, is all the text bytes and has offset 0.
    fn property(&mut self, name: u64, value: &Value) {
        let (kind, length, bits) = match *value {
            Value::Boolean(boolean) => (1, 0, u64::from(boolean)),
            Value::Integer(integer) => (2, 0, integer as u64),
            Value::Real(float) => (3, 0, float.to_bits()),
            Value::Date(date) => (4, 0, u64::from(date)),
            Value::Text(text) => (5, text.len() as u64, self.text.len() as u64),
        };
        if let Value::Text(text) = value {
            self.text.extend_from_slice(text);
        }
        let row = PropertyRow {
            name,
            kind,
            zero: 0,
            length,
            value: bits,
        };
        put_property(&mut self.rows, &row);
        self.next += 1;
    }
}
