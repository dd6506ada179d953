//! Codes 8 and 15: property rows, with the good values at the same borders.

use super::*;
use crate::sound::{is_leap, month_length};

/// The part of a run that a row stands in: the row before it is of the same run.
fn follows(laid: &Laid, row: usize) -> bool {
    let runs = [(Table::Nodes, 8), (Table::Edges, 16)];
    let mut starts = runs.iter().flat_map(|&(table, at)| (0..laid.count(table)).map(move |i| (table, at, i)));
    row > 0 && starts.all(|(table, at, i)| laid.get(laid.row(table, i) + at, 4) != row as u64)
}

fn add_row(recipes: &mut Recipes, file: File, cause: &str, change: impl Fn(&mut Random, &mut Laid, usize) -> Option<()> + Send + Sync + 'static) {
    recipes.add_refusal(file, 8, cause, move |r, laid| {
        let rows = laid.count(Table::Properties);
        if rows == 0 {
            return None;
        }
        let row = r.below(rows);
        let at = laid.row(Table::Properties, row);
        change(r, laid, at)?;
        if row + 1 < rows && r.chance(30) {
            // a higher row is bad, too
            let later = laid.row(Table::Properties, r.within(row + 1, rows - 1));
            laid.put(later + 2, 1, 0);
        }
        Some(row)
    });
}

fn names(recipes: &mut Recipes, file: File) {
    add_row(recipes, file, "name at the name count", |_, laid, at| {
        laid.put(at, 2, laid.names as u64);
        Some(())
    });
    add_row(recipes, file, "name at the top", |_, laid, at| {
        laid.put(at, 2, 0xFFFF);
        Some(())
    });
    for (cause, less) in [("name equal to the one before", false), ("name below the one before", true)] {
        recipes.add_refusal(file, 8, cause, move |r, laid| {
            let row = r.index_where(laid.count(Table::Properties), |row| follows(laid, row))?;
            let before = laid.get(laid.row(Table::Properties, row - 1), 2);
            let name = if less { before.checked_sub(1)? } else { before };
            let at = laid.row(Table::Properties, row);
            laid.put(at, 2, name);
            Some(row)
        });
    }
}

/// Rows that no run holds are put behind the last run; the table's count and back know of them.
fn spare(laid: &mut Laid, rows: &[u8], count: usize) {
    let (end, old) = (laid.row(Table::Properties, laid.count(Table::Properties)), laid.count(Table::Properties));
    laid.bytes.splice(end..end, rows.iter().copied());
    laid.trailer += rows.len();
    let (at, bytes) = if laid.file == File::Graph { (8, 4) } else { (4, 4) };
    let trailer = laid.trailer;
    laid.put(trailer + at, bytes, (old + count) as u64);
    let back = laid.back();
    laid.put(back, 4, (trailer - laid.starts[0]) as u64);
}

fn in_no_run(recipes: &mut Recipes, file: File) {
    recipes.add_refusal(file, 8, "in no run", move |r, laid| {
        let old = laid.count(Table::Properties);
        let count = r.within(1, 3);
        let row: Vec<u8> = if file == File::Graph { [0, 0, 2, 0].into_iter().chain([0; 12]).collect() } else { vec![0, 0, 2, 0] };
        spare(laid, &row.repeat(count), count);
        Some(old)
    });
}

fn flags(recipes: &mut Recipes) {
    for (cause, at, value) in [("type 0", 2, 0), ("type 6", 2, 6), ("type at the top", 2, 255), ("flag 2", 3, 2), ("flag at the top", 3, 255)] {
        add_row(recipes, File::Schema, cause, move |_, laid, row| {
            laid.put(row + at, 1, value);
            Some(())
        });
    }
}

/// A row's kind, zero byte, length and value, from the text's bytes.
type Value = (u64, u64, u64, u64);

fn put_value(laid: &mut Laid, at: usize, (kind, zero, length, value): Value) {
    laid.put(at + 2, 1, kind);
    laid.put(at + 3, 1, zero);
    laid.put(at + 4, 4, length);
    laid.put(at + 8, 8, value);
}

fn text_bytes(laid: &Laid) -> u64 {
    laid.get(laid.trailer + 12, 4)
}

fn date(year: usize, month: usize, day: usize) -> u64 {
    (year * 10_000 + month * 100 + day) as u64
}

/// Bad values that are the same for every graph.
fn bad_values() -> Vec<(String, Value)> {
    let bits = |x: f64| x.to_bits();
    let all: Vec<(&str, Value)> = vec![
        ("kind 0", (0, 0, 0, 0)),
        ("kind 6", (6, 0, 0, 0)),
        ("kind at the top", (255, 0, 0, 0)),
        ("zero byte 1", (2, 1, 0, 7)),
        ("zero byte at the top", (5, 255, 0, 0)),
        ("Boolean with a length", (1, 0, 1, 1)),
        ("Integer with a length", (2, 0, 0xFFFF_FFFF, 1)),
        ("Real with a length", (3, 0, 1, bits(1.05))),
        ("Date with a length", (4, 0, 0x8000_0000, date(2024, 1, 31))),
        ("Boolean 2", (1, 0, 0, 2)),
        ("Boolean 256", (1, 0, 0, 256)),
        ("Boolean that is 1 in 32 bits", (1, 0, 0, (1 << 32) + 1)),
        ("Boolean at the top", (1, 0, 0, u64::MAX)),
        ("Real infinite", (3, 0, 0, bits(f64::INFINITY))),
        ("Real minus infinite", (3, 0, 0, bits(f64::NEG_INFINITY))),
        ("Real not a number", (3, 0, 0, 0x7FF8_0000_0000_0000)),
        ("Real not a number, the least", (3, 0, 0, 0x7FF0_0000_0000_0001)),
        ("Real not a number, the top", (3, 0, 0, u64::MAX)),
        ("Date 0", (4, 0, 0, 0)),
        ("Date of year 0", (4, 0, 0, date(0, 1, 1))),
        ("Date of year 10000", (4, 0, 0, date(10_000, 1, 1))),
        ("Date of month 0", (4, 0, 0, date(2023, 0, 15))),
        ("Date of month 13", (4, 0, 0, date(2023, 13, 1))),
        ("Date of month 99", (4, 0, 0, date(2023, 99, 1))),
        ("Date of day 0", (4, 0, 0, date(2023, 5, 0))),
        ("Date of day 99", (4, 0, 0, date(2023, 5, 99))),
        ("Date that is good in 32 bits", (4, 0, 0, (1 << 32) + date(2024, 1, 31))),
        ("Date at the top", (4, 0, 0, u64::MAX)),
        ("Text that wraps in 64 bits", (5, 0, 1, u64::MAX)),
        ("Text that wraps far", (5, 0, 0xFFFF_FFFF, u64::MAX - 0xFFFF_FFFE)),
        ("Text of offset 2^32", (5, 0, 0, 1 << 32)),
        ("Text of the longest length", (5, 0, 0xFFFF_FFFF, 1)),
    ];
    let mut all: Vec<(String, Value)> = all.into_iter().map(|(name, value)| (name.to_string(), value)).collect();
    for (name, year) in [("common", 2023), ("leap", 2024)] {
        for month in 1..=12 {
            let day = month_length(is_leap(year), month) + 1;
            all.push((format!("Date of month {month}, a day late in a {name} year"), (4, 0, 0, date(year, month, day))));
        }
    }
    all
}

fn add_bad(recipes: &mut Recipes, cause: &str, value: Value) {
    add_row(recipes, File::Graph, cause, move |_, laid, at| {
        put_value(laid, at, value);
        Some(())
    });
}

fn graph_values(recipes: &mut Recipes) {
    for (cause, value) in bad_values() {
        add_bad(recipes, &cause, value);
    }
    add_row(recipes, File::Graph, "Text one byte past the end", |r, laid, at| {
        let start = r.within(0, text_bytes(laid) as usize) as u64;
        put_value(laid, at, (5, 0, text_bytes(laid) - start + 1, start));
        Some(())
    });
    add_row(recipes, File::Graph, "Text of no byte past the end", |_, laid, at| {
        put_value(laid, at, (5, 0, 0, text_bytes(laid) + 1));
        Some(())
    });
}

/// Good values at the borders.
fn good_values() -> Vec<(String, u8, Option<u64>)> {
    let mut all: Vec<(String, u8, Option<u64>)> = [
        ("Boolean 0", 1, 0),
        ("Boolean 1", 1, 1),
        ("Integer 0", 2, 0),
        ("Integer, the least", 2, 1 << 63),
        ("Integer, the greatest", 2, (1 << 63) - 1),
        ("Integer -1", 2, u64::MAX),
        ("Real negative zero", 3, 1 << 63),
        ("Real, the greatest", 3, f64::MAX.to_bits()),
        ("Real, the least", 3, f64::MIN.to_bits()),
        ("Real, the smallest", 3, 1),
        ("Date, the first", 4, date(1, 1, 1)),
        ("Date, the last", 4, date(9999, 12, 31)),
    ]
    .into_iter()
    .map(|(name, kind, value)| (name.to_string(), kind, Some(value)))
    .collect();
    for year in [4, 1900, 2000, 2023, 2024, 2100, 9996] {
        let month = 2;
        let day = month_length(is_leap(year), month);
        all.push((format!("Date, the last of February {year}"), 4, Some(date(year, month, day))));
    }
    for month in 1..=12 {
        let day = month_length(false, month);
        all.push((format!("Date, the last of month {month}"), 4, Some(date(2023, month, day))));
    }
    all.push(("Text of no byte at the end".to_string(), 5, None));
    all
}

/// A property of that kind takes the value, and the pair still conforms. None is the text's end.
fn add_good(recipes: &mut Recipes, name: &str, kind: u8, value: Option<u64>) {
    recipes.add(format!("0 {name}"), move |r| {
        let pair = sound(r, &SMALL);
        let (mut graph, schema) = (lay_graph(&pair.graph), lay_schema(&pair.schema));
        let rows = graph.count(Table::Properties);
        let row = r.index_where(rows, |row| graph.get(graph.row(Table::Properties, row) + 2, 1) == kind as u64)?;
        let at = graph.row(Table::Properties, row);
        let value = value.unwrap_or(text_bytes(&graph));
        put_value(&mut graph, at, (kind as u64, 0, 0, value));
        Some(Made::new(graph.bytes, schema.bytes, Owed::Exactly(CONFORMS)))
    });
}

fn borders(recipes: &mut Recipes) {
    for (name, kind, value) in good_values() {
        add_good(recipes, &name, kind, value);
    }
}

/// A year that 100 divides is leap only if 400 divides it. These stand here by hand, so that a wrong `is_leap` would show.
pub fn add_centuries(recipes: &mut Recipes) {
    let before = recipes.0.len();
    for year in [100, 1900, 2100, 9900] {
        add_bad(recipes, &format!("Date of 29 February {year}"), (4, 0, 0, date(year, 2, 29)));
    }
    for year in [400, 2000, 9600] {
        add_good(recipes, &format!("Date of 29 February {year}"), 4, Some(date(year, 2, 29)));
    }
    writing::add_again(recipes, before);
}

pub fn add(recipes: &mut Recipes) {
    for file in FILES {
        names(recipes, file);
        in_no_run(recipes, file);
    }
    flags(recipes);
    graph_values(recipes);
    borders(recipes);
}
