//! Codes 6, 7, 13 and 14: label sets, runs, open, ends, intervals.

use super::*;

/// Where a row has the start of its run; the count stands behind it.
fn first_at(table: Table) -> usize {
    if table == Table::Nodes {
        8
    } else {
        16
    }
}

fn count_bytes(file: File) -> usize {
    if file == File::Graph {
        4
    } else {
        2
    }
}

/// A row's first property row and its count.
fn run(laid: &Laid, table: Table, row: usize) -> (u64, u64) {
    let at = laid.row(table, row) + first_at(table);
    (laid.get(at, 4), laid.get(at + 4, count_bytes(laid.file)))
}

fn bad_label(laid: &mut Laid, table: Table, row: usize, label: usize) {
    let at = laid.row(table, row);
    laid.put(at, 8, laid.get(at, 8) | 1 << label);
}

/// What comes later in the order is often bad, too: a higher row of the table, or a row of a later table.
fn also_later(r: &mut Random, laid: &mut Laid, table: Table, row: usize) {
    if laid.labels < 64 && r.chance(30) {
        let label = laid.labels;
        if row + 1 < laid.count(table) {
            let later = r.within(row + 1, laid.count(table) - 1);
            bad_label(laid, table, later, label);
        } else if table == Table::Nodes && laid.count(Table::Edges) > 0 {
            bad_label(laid, Table::Edges, 0, label);
        }
    }
}

/// A cause that sets one field of a row which `wanted` likes.
fn add_field(
    recipes: &mut Recipes,
    file: File,
    table: Table,
    cause: &str,
    change: impl Fn(&mut Random, &mut Laid, usize) -> Option<()> + Send + Sync + 'static,
) {
    let code = if table == Table::Nodes { 6 } else { 7 };
    recipes.add_refusal(file, code, cause, move |r, laid| {
        if laid.count(table) == 0 {
            return None;
        }
        let row = r.below(laid.count(table));
        change(r, laid, row)?;
        also_later(r, laid, table, row);
        Some(row)
    });
}

fn labels(recipes: &mut Recipes, file: File, table: Table) {
    add_field(recipes, file, table, "label at the label count", move |_, laid, row| {
        if laid.labels == 64 {
            return None;
        }
        let label = laid.labels;
        bad_label(laid, table, row, label);
        Some(())
    });
    add_field(recipes, file, table, "label above the label count", move |r, laid, row| {
        if laid.labels >= 63 {
            return None;
        }
        let label = r.within(laid.labels + 1, 63);
        bad_label(laid, table, row, label);
        Some(())
    });
}

fn runs(recipes: &mut Recipes, file: File, table: Table) {
    type Start = fn(&mut Random, u64) -> Option<u64>;
    let wrong: [(&str, Start); 5] = [
        ("run starts one late", |_, first| Some(first + 1)),
        ("run starts one early", |_, first| first.checked_sub(1)),
        ("run starts at 0 again", |_, first| if first > 0 { Some(0) } else { None }),
        ("run start at the top", |_, _| Some(0xFFFF_FFFF)),
        ("run start 2^31 late", |_, first| Some(first + 0x8000_0000)),
    ];
    for (cause, start) in wrong {
        for empty in [false, true] {
            let cause = if empty { format!("empty run: {cause}") } else { cause.to_string() };
            add_field(recipes, file, table, &cause, move |r, laid, row| {
                let (first, count) = run(laid, table, row);
                if (count == 0) != empty {
                    return None;
                }
                let at = laid.row(table, row) + first_at(table);
                laid.put(at, 4, start(r, first)?);
                Some(())
            });
        }
    }
    add_field(recipes, file, table, "run one past the rows", move |_, laid, row| {
        let past = laid.count(Table::Properties) as u64 - run(laid, table, row).0 + 1;
        let at = laid.row(table, row) + first_at(table) + 4;
        laid.put(at, count_bytes(laid.file), past);
        Some(())
    });
    add_field(recipes, file, table, "run past the rows, the longest", move |_, laid, row| {
        let at = laid.row(table, row) + first_at(table) + 4;
        laid.put(at, count_bytes(laid.file), 0xFFFF_FFFF);
        Some(())
    });
    if file == File::Graph {
        add_field(recipes, file, table, "run whose end wraps to a row", move |r, laid, row| {
            let (first, _) = run(laid, table, row);
            if first == 0 {
                return None;
            }
            let end = r.below(first as usize + 1) as u64;
            let at = laid.row(table, row) + first_at(table) + 4;
            laid.put(at, 4, (1u64 << 32) - first + end.min(first - 1));
            Some(())
        });
    } else {
        for (cause, open) in [("open 2", 2), ("open 256", 256), ("open 257", 257), ("open at the top", 0xFFFF)] {
            add_field(recipes, file, table, cause, move |_, laid, row| {
                let at = laid.row(table, row) + first_at(table) + 6;
                laid.put(at, 2, open);
                Some(())
            });
        }
    }
}

fn ends(recipes: &mut Recipes, file: File) {
    for (end, at) in [("source", 8), ("target", 12)] {
        for (how, far) in [("at the node count", 0), ("one above the node count", 1), ("at the top", 0xFFFF_FFFF)] {
            add_field(recipes, file, Table::Edges, &format!("{end} {how}"), move |_, laid, row| {
                let at = laid.row(Table::Edges, row) + at;
                let value = if far > 1 { far } else { laid.count(Table::Nodes) as u64 + far };
                laid.put(at, 4, value);
                Some(())
            });
        }
    }
}

fn intervals(recipes: &mut Recipes) {
    // minimum, maximum: what is not allowed of either, and a minimum above its maximum
    let wrong: [(&str, u64, u64); 8] = [
        ("minimum 65,536", 65_536, 0xFFFF_FFFF),
        ("minimum any", 0xFFFF_FFFF, 0xFFFF_FFFF),
        ("maximum 65,536", 0, 65_536),
        ("maximum one under any", 0, 0xFFFF_FFFE),
        ("maximum 2^31", 0, 0x8000_0000),
        ("minimum one above maximum", 5, 4),
        ("minimum 65,535 above maximum 0", 65_535, 0),
        ("minimum 1 above maximum 0", 1, 0),
    ];
    for (which, at) in [("source", 24), ("target", 32)] {
        for (cause, low, high) in wrong {
            add_field(recipes, File::Schema, Table::Edges, &format!("{which} {cause}"), move |_, laid, row| {
                let at = laid.row(Table::Edges, row) + at;
                laid.put(at, 4, low);
                laid.put(at + 4, 4, high);
                Some(())
            });
        }
    }
}

pub fn add(recipes: &mut Recipes) {
    for file in FILES {
        for table in [Table::Nodes, Table::Edges] {
            labels(recipes, file, table);
            runs(recipes, file, table);
        }
        ends(recipes, file);
    }
    intervals(recipes);
}
