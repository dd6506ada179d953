//! Codes 51 and 52 for one bad line: each fault of a first line, and each of an angle line, in line 2, a later one and the last.

use super::sheets::{any_sheet, lend, MONTHS};
use super::writing::any_output;
use super::*;
use crate::sheet::*;

const FIRST_LINE: u32 = 51;
const LATER_LINE: u32 = 52;

pub fn code_of(at: usize) -> u32 {
    if at == 0 {
        FIRST_LINE
    } else {
        LATER_LINE
    }
}

/// The code and the line, which people count from 1; nothing is written.
pub fn refused_at(at: usize) -> Owed {
    Owed::Returned(vec![code_of(at), at as u32 + 1], vec![])
}

pub fn lend_bad(r: &mut Random, lines: &[Vec<u8>], at: usize) -> Made {
    let sheet = lines.concat();
    let output = any_output(r, file_bytes(&sheet));
    lend(sheet, output, refused_at(at))
}

// ---- angle lines

/// A line's place from 0, in a sheet of so many lines.
pub type Place = fn(&mut Random, usize) -> usize;

const ANGLE_LINE: [(&str, Place); 3] =
    [("line 2", |_, _| 1), ("a later line", |r, lines| r.within(1, lines - 1)), ("the last line", |_, lines| lines - 1)];

/// A bad angle line: from its degrees, and the digits on both sides of the coefficient's comma. Each char is one byte.
type Bad = fn(&mut Random, &str, &str, &str) -> String;

/// The text with another byte for one of its digits.
fn other(r: &mut Random, text: &str, byte: char) -> String {
    let digits: Vec<usize> = text.match_indices(|c: char| c.is_ascii_digit()).map(|(at, _)| at).collect();
    let at = r.pick(&digits);
    [&text[..at], &byte.to_string(), &text[at + 1..]].concat()
}

/// The line with a byte put in at the start of one of these parts: degrees, semicolon, digits, comma, digits, and the end.
fn between(r: &mut Random, line: [&str; 3], byte: &str, parts: &[usize]) -> String {
    let mut all = vec![line[0], ";", line[1], ",", line[2]];
    all.insert(r.pick(parts), byte);
    all.concat()
}

fn unsigned(text: &str) -> &str {
    text.trim_start_matches('-')
}

const BAD_ANGLES: &[(&str, Bad)] = &[
    ("no semicolon", |_, d, w, f| format!("{d}{w},{f}")),
    ("two semicolons", |_, d, w, f| format!("{d};;{w},{f}")),
    ("a semicolon at the front", |_, d, w, f| format!(";{d};{w},{f}")),
    ("a semicolon at the end", |_, d, w, f| format!("{d};{w},{f};")),
    ("a semicolon for the comma", |_, d, w, f| format!("{d};{w};{f}")),
    ("a comma for the semicolon", |_, d, w, f| format!("{d},{w},{f}")),
    ("no digit before the comma", |_, d, _, f| format!("{d};,{f}")),
    ("no digit behind the comma", |_, d, w, _| format!("{d};{w},")),
    ("two commas", |_, d, w, f| format!("{d};{w},,{f}")),
    ("a second comma", |r, d, w, f| format!("{d};{w},{f},{}", digits(r, 2))),
    ("a comma alone", |_, d, _, _| format!("{d};,")),
    ("a comma in the degrees", |_, d, w, f| format!("{d},0;{w},{f}")),
    ("a point for the comma", |_, d, w, f| format!("{d};{w}.{f}")),
    ("7 digits before the comma", |r, d, _, f| format!("{d};{},{f}", digits(r, 7))),
    ("7 digits and no comma", |r, d, _, _| format!("{d};{}", digits(r, 7))),
    ("7 digits behind the comma", |r, d, w, _| format!("{d};{w},{}", digits(r, 7))),
    ("20 digits before the comma", |r, d, _, f| format!("{d};{},{f}", digits(r, 20))),
    ("20 digits behind the comma", |r, d, w, _| format!("{d};{w},{}", digits(r, 20))),
    ("4 digits of degrees", |r, _, w, f| format!("{};{w},{f}", digits(r, 4))),
    ("4 digits of degrees with minus", |r, _, w, f| format!("-{};{w},{f}", digits(r, 4))),
    ("20 digits of degrees", |r, _, w, f| format!("{};{w},{f}", digits(r, 20))),
    ("no degrees", |_, _, w, f| format!(";{w},{f}")),
    ("no coefficient", |_, d, _, _| format!("{d};")),
    ("a semicolon alone", |_, _, _, _| ";".to_string()),
    ("degrees alone", |_, d, _, _| d.to_string()),
    ("plus before the degrees", |_, d, w, f| format!("+{};{w},{f}", unsigned(d))),
    ("plus before the coefficient", |_, d, w, f| format!("{d};+{},{f}", unsigned(w))),
    ("minus twice before the degrees", |_, d, w, f| format!("--{};{w},{f}", unsigned(d))),
    ("minus twice before the coefficient", |_, d, w, f| format!("{d};--{},{f}", unsigned(w))),
    ("minus alone for the degrees", |_, _, w, f| format!("-;{w},{f}")),
    ("minus alone for the coefficient", |_, d, _, _| format!("{d};-")),
    ("minus alone before the comma", |_, d, _, f| format!("{d};-,{f}")),
    ("minus behind the degrees", |_, d, w, f| format!("{d}-;{w},{f}")),
    ("minus behind the coefficient", |_, d, w, f| format!("{d};{w},{f}-")),
    ("minus behind the comma", |_, d, w, f| format!("{d};{w},-{f}")),
    ("a space", |r, d, w, f| between(r, [d, w, f], " ", &[0, 1, 2, 3, 4, 5])),
    ("a tab", |r, d, w, f| between(r, [d, w, f], "\t", &[0, 1, 2, 3, 4, 5])),
    ("a zero byte", |r, d, w, f| between(r, [d, w, f], "\0", &[0, 1, 2, 3, 4, 5])),
    ("CR within", |r, d, w, f| between(r, [d, w, f], "\r", &[0, 1, 2, 3, 4])),
    // behind the digits before the comma it would end a good line
    ("LF within", |r, d, w, f| between(r, [d, w, f], "\n", &[0, 1, 2, 4])),
    ("0x2F in the degrees", |r, d, w, f| format!("{};{w},{f}", other(r, d, '/'))),
    ("0x3A in the degrees", |r, d, w, f| format!("{};{w},{f}", other(r, d, ':'))),
    ("0x2F before the comma", |r, d, w, f| format!("{d};{},{f}", other(r, w, '/'))),
    ("0x3A before the comma", |r, d, w, f| format!("{d};{},{f}", other(r, w, ':'))),
    ("0x2F behind the comma", |r, d, w, f| format!("{d};{w},{}", other(r, f, '/'))),
    ("0x3A behind the comma", |r, d, w, f| format!("{d};{w},{}", other(r, f, ':'))),
    ("a digit's high bit set", |r, d, w, f| other(r, &format!("{d};{w},{f}"), '\u{B5}')),
    ("an exponent", |_, d, w, f| format!("{d};{w},{f}e0")),
    ("a letter", |r, d, w, f| other(r, &format!("{d};{w},{f}"), 'O')),
];

fn bad_line(r: &mut Random, bad: Bad, end: &[u8]) -> Vec<u8> {
    let sign = |r: &mut Random| if r.chance(30) { "-" } else { "" };
    let [degrees, whole, fraction] = [MOST_DEGREES, MOST_DIGITS, MOST_DIGITS].map(|most| {
        let count = r.within(1, most);
        digits(r, count)
    });
    let (degrees, whole) = (format!("{}{degrees}", sign(r)), format!("{}{whole}", sign(r)));
    let text: Vec<u8> = bad(r, &degrees, &whole, &fraction).chars().map(|c| c as u8).collect();
    [&text[..], end].concat()
}

pub fn any_bad_line(r: &mut Random) -> Vec<u8> {
    let bad = r.pick(BAD_ANGLES).1;
    let end = r.pick(&[LF, CR_LF]);
    bad_line(r, bad, end)
}

/// Now and then a line behind the bad one is bad, too.
fn spoil_behind(r: &mut Random, lines: &mut [Vec<u8>], at: usize) {
    if at + 1 < lines.len() && r.chance(30) {
        lines[r.within(at + 1, lines.len() - 1)] = any_bad_line(r);
    }
}

fn angle_lines(recipes: &mut Recipes) {
    for &(cause, bad) in BAD_ANGLES {
        for (which, place) in ANGLE_LINE {
            recipes.push(Function::Sheet, format!("52 {cause}, {which}"), false, move |r| {
                let sheet = any_sheet(r, 1);
                let mut lines = sheet.lines();
                let at = place(r, lines.len());
                lines[at] = bad_line(r, bad, sheet.ends[at]);
                spoil_behind(r, &mut lines, at);
                Some(lend_bad(r, &lines, at))
            });
        }
    }
}

// ---- the first line

/// A bad first line, from its serial and its date.
pub type BadFirst = fn(&mut Random, &[u8], &str) -> Vec<u8>;

fn line_of(serial: &[u8], date: &str) -> Vec<u8> {
    [serial, b";", date.as_bytes()].concat()
}

pub fn no_serial() -> Vec<u8> {
    line_of(b"", "2000-01-01\n")
}

/// The serial with some bytes put in.
fn with(r: &mut Random, serial: &[u8], more: &[u8]) -> Vec<u8> {
    let at = r.within(0, serial.len());
    [&serial[..at], more, &serial[at..]].concat()
}

pub const BAD_FIRST: &[(&str, BadFirst)] = &[
    ("serial of 33 bytes", |r, _, d| line_of(&serial(r, MOST_SERIAL + 1), d)),
    ("serial of many bytes", |r, _, d| {
        let bytes = r.within(MOST_SERIAL + 2, 300);
        line_of(&serial(r, bytes), d)
    }),
    ("no serial", |_, _, d| line_of(b"", d)),
    ("CR in the serial", |r, s, d| line_of(&with(r, s, b"\r"), d)),
    ("LF in the serial", |r, s, d| line_of(&with(r, s, b"\n"), d)),
    ("CR LF in the serial", |r, s, d| line_of(&with(r, s, b"\r\n"), d)),
    ("a semicolon in the serial", |r, s, d| line_of(&with(r, s, b";"), d)),
    ("no semicolon", |_, s, d| [s, d.as_bytes()].concat()),
    ("a comma for the semicolon", |_, s, d| [s, b",", d.as_bytes()].concat()),
    ("LF for the semicolon", |_, s, d| [s, LF, d.as_bytes()].concat()),
    ("CR for the semicolon", |_, s, d| [s, b"\r", d.as_bytes()].concat()),
    ("a serial of 32 bytes and a comma for the semicolon", |r, _, d| [&serial(r, MOST_SERIAL)[..], b",", d.as_bytes()].concat()),
    ("a semicolon behind the date", |_, s, d| line_of(s, &format!("{d};"))),
    ("no date", |_, s, _| line_of(s, "")),
    ("serial alone", |_, s, _| s.to_vec()),
    ("date alone", |_, _, d| d.as_bytes().to_vec()),
    ("nothing", |_, _, _| vec![]),
    ("an angle line", |r, _, _| angle(r).text().into_bytes()),
    ("a space before the date", |_, s, d| line_of(s, &format!(" {d}"))),
    ("a space behind the date", |_, s, d| line_of(s, &format!("{d} "))),
    ("date one byte short", |_, s, d| line_of(s, &d[..9])),
    ("date cut short", |r, s, d| line_of(s, &d[..r.within(1, 8)])),
    ("date one digit longer", |r, s, d| line_of(s, &format!("{d}{}", digits(r, 1)))),
    ("date with a time", |_, s, d| line_of(s, &format!("{d}T00:00"))),
    ("date without its minus signs", |_, s, d| line_of(s, &d.replace('-', ""))),
    ("date without the first minus sign", |_, s, d| line_of(s, &d.replacen('-', "", 1))),
    ("minus before the year", |_, s, d| line_of(s, &format!("-{d}"))),
    ("year of three digits", |_, s, d| line_of(s, &d[1..])),
    ("year of five digits", |_, s, d| line_of(s, &format!("0{d}"))),
    ("month of one digit", |_, s, d| line_of(s, &format!("{}{}", &d[..5], &d[6..]))),
    ("date the other way round", |_, s, d| line_of(s, &format!("{}-{}-{}", &d[8..], &d[5..7], &d[..4]))),
];

/// No days; 2100, 1900 and 2023 have no 29 February.
const NO_DAYS: &[[usize; 3]] = &[
    [2100, 2, 29],
    [1900, 2, 29],
    [2023, 2, 29],
    [2024, 2, 30],
    [2023, 1, 32],
    [2023, 4, 31],
    [2023, 6, 31],
    [2023, 9, 31],
    [2023, 11, 31],
    [2023, 12, 32],
    [2023, 1, 0],
    [2023, 0, 1],
    [2023, 13, 1],
    [2024, 0, 1],
    [2024, 13, 1],
    [0, 1, 1],
    [0, 0, 0],
    [9999, 99, 99],
];

fn add_first(recipes: &mut Recipes, cause: &str, bad: impl Fn(&mut Random, &[u8], &str) -> Vec<u8> + Send + Sync + 'static) {
    recipes.push(Function::Sheet, format!("51 {cause}"), false, move |r| {
        let sheet = any_sheet(r, 0);
        let mut lines = sheet.lines();
        lines[0] = [&bad(r, &sheet.serial, &date_text(sheet.date))[..], sheet.ends[0]].concat();
        spoil_behind(r, &mut lines, 0);
        Some(lend_bad(r, &lines, 0))
    });
}

fn first_lines(recipes: &mut Recipes) {
    for &(cause, bad) in BAD_FIRST {
        add_first(recipes, cause, bad);
    }
    for &day in NO_DAYS {
        add_first(recipes, &format!("date {}", date_text(day)), move |_, s, _| line_of(s, &date_text(day)));
    }
    for (year, month) in MONTHS.into_iter().flat_map(|year| (1..=12).map(move |month| (year, month))) {
        add_first(recipes, &format!("date, the day behind month {month} of a {} year", year.0), move |r, s, _| {
            let [of, month, last] = last_day(r, year.1, month);
            line_of(s, &date_text([of, month, last + 1]))
        });
    }
    for at in 0..10 {
        let (name, bytes) = if at == 4 || at == 7 { ("minus sign", b"/,._ 05:") } else { ("digit", b"/:- aO+\0") };
        add_first(recipes, &format!("date, byte {at} no {name}"), move |r, s, d| {
            let mut line = line_of(s, d);
            line[s.len() + 1 + at] = r.pick(bytes);
            line
        });
    }
    recipes.push(Function::Sheet, "51 no byte".to_string(), false, |r| Some(lend_bad(r, &[], 0)));
    recipes.push(Function::Sheet, "51 no first line".to_string(), false, |r| {
        let lines = any_sheet(r, 1).lines();
        Some(lend_bad(r, &lines[1..], 0))
    });
    recipes.push(Function::Sheet, "51 the first line alone, without its end".to_string(), false, |r| {
        let texts = sheet(r, 0).texts();
        Some(lend_bad(r, &texts, 0))
    });
}

pub fn add(recipes: &mut Recipes) {
    first_lines(recipes);
    angle_lines(recipes);
}
