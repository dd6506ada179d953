//! Codes 51 and 52 for whole sheets: ends of lines, empty lines, too many lines, cuts and swaps, and several faults at once, of
//! which the lowest line is told.

use super::sheet_lines::*;
use super::sheets::{any_sheet, lend, lend_good};
use super::writing::{any_output, Output, SHORT};
use super::*;
use crate::sheet::*;

const ANY_LINE: [(&str, Place); 3] = [("the first line", |_, _| 0), ("a line", |r, lines| r.below(lines)), ("the last line", |_, lines| lines - 1)];

// ---- ends and empty lines

fn line_ends(recipes: &mut Recipes) {
    let ends: [(&str, &[&[u8]]); 5] = [
        ("no end", &[b""]),
        ("CR alone as its end", &[b"\r"]),
        ("CR CR LF", &[b"\r\r\n", b"\r\r\r\n"]),
        ("another byte before LF", &[b"\0\n", b" \n", b"\t\n", b"\x0B\n", b"\x8D\n"]),
        ("another byte for LF", &[b"\0", b"\x0B", b"\x0C", b"\x85", b"\x8A"]),
    ];
    for (which, place) in ANY_LINE {
        for (cause, ends) in ends {
            recipes.push(Function::Sheet, format!("51 or 52 {cause}, {which}"), false, move |r| {
                let sheet = any_sheet(r, 0);
                let (mut lines, texts) = (sheet.lines(), sheet.texts());
                let at = place(r, lines.len());
                lines[at] = [&texts[at][..], r.pick(ends)].concat();
                Some(lend_bad(r, &lines, at))
            });
        }
        // the CR belongs to the next line, or is one by itself
        recipes.push(Function::Sheet, format!("52 LF CR, {which}"), false, move |r| {
            let sheet = any_sheet(r, 0);
            let (mut lines, texts) = (sheet.lines(), sheet.texts());
            let at = place(r, lines.len());
            lines[at] = [&texts[at][..], b"\n\r"].concat();
            Some(lend_bad(r, &lines, at + 1))
        });
        recipes.push(Function::Sheet, format!("51 or 52 an empty line before {which}"), false, move |r| {
            let mut lines = any_sheet(r, 0).lines();
            let at = place(r, lines.len());
            lines.insert(at, r.pick(&[LF, CR_LF]).to_vec());
            Some(lend_bad(r, &lines, at))
        });
    }
}

/// Something behind the last line.
fn behind(recipes: &mut Recipes) {
    type Behind = fn(&mut Random, &[Vec<u8>]) -> Vec<u8>;
    let all: [(&str, Behind); 6] = [
        ("an empty line", |_, _| LF.to_vec()),
        ("an empty line of CR LF", |_, _| CR_LF.to_vec()),
        ("a byte", |r, _| r.bytes(1)),
        ("a zero byte or 0x1A", |r, _| vec![r.pick(&[0, 0x1A])]),
        ("the first line once more", |_, lines| lines[0].clone()),
        ("the whole sheet once more", |_, lines| lines.concat()),
    ];
    for (name, behind) in all {
        for (number, angles) in [("some angles", 0), ("180 angles", MOST_ANGLES)] {
            recipes.push(Function::Sheet, format!("52 {number}, then {name}"), false, move |r| {
                let mut lines = if angles == 0 { any_sheet(r, 0) } else { sheet(r, angles) }.lines();
                let more = behind(r, &lines);
                lines.push(more);
                Some(lend_bad(r, &lines, lines.len() - 1))
            });
        }
    }
}

// ---- many lines

/// The first line that is one too many.
const TOO_MANY: usize = MOST_ANGLES + 1;

/// Sheets of many angle lines: how many, which of them is made bad, and which is told.
fn many_lines(recipes: &mut Recipes) {
    type Many = fn(&mut Random) -> (usize, Option<usize>);
    let all: [(&str, Many); 8] = [
        ("181 angles", |_| (TOO_MANY, None)),
        ("182 angles", |_| (TOO_MANY + 1, None)),
        ("more angles than 182", |r| (r.within(TOO_MANY + 2, 600), None)),
        ("181 angles, the last one bad", |_| (TOO_MANY, Some(TOO_MANY))),
        ("181 angles, one before it bad", |r| (TOO_MANY, Some(r.within(1, MOST_ANGLES)))),
        ("more than 181 angles, one before it bad", |r| (TOO_MANY + r.within(1, 100), Some(r.within(1, MOST_ANGLES)))),
        ("more than 181 angles, one behind it bad", |r| (TOO_MANY + 100, Some(TOO_MANY + r.within(1, 100)))),
        ("180 angles, the last one bad", |_| (MOST_ANGLES, Some(MOST_ANGLES))),
    ];
    for (name, many) in all {
        recipes.push(Function::Sheet, format!("52 {name}"), false, move |r| {
            let (angles, bad) = many(r);
            let mut lines = sheet(r, angles).lines();
            if let Some(bad) = bad {
                lines[bad] = any_bad_line(r);
            }
            Some(lend_bad(r, &lines, bad.unwrap_or(TOO_MANY).min(TOO_MANY)))
        });
    }
    recipes.push(Function::Sheet, "51 a bad first line before 181 angles".to_string(), false, |r| {
        let mut lines = sheet(r, TOO_MANY).lines();
        lines[0] = no_serial();
        Some(lend_bad(r, &lines, 0))
    });
    // so many that a number of lines in 16 bits is a good one again
    recipes.push(Function::Sheet, "52 more than 65,536 angles".to_string(), true, |r| {
        let mut lines = sheet(r, 100).lines();
        lines.push(b"0;0\n".repeat(65_536));
        Some(lend_bad(r, &lines, TOO_MANY))
    });
}

// ---- several faults, cuts, swaps, and a short output besides

fn several(recipes: &mut Recipes) {
    recipes.push(Function::Sheet, "51 a bad first line and a bad later line".to_string(), false, |r| {
        let sheet = any_sheet(r, 1);
        let (mut lines, bad) = (sheet.lines(), r.pick(BAD_FIRST).1);
        lines[0] = [&bad(r, &sheet.serial, &date_text(sheet.date))[..], sheet.ends[0]].concat();
        let later = r.within(1, lines.len() - 1);
        lines[later] = any_bad_line(r);
        Some(lend_bad(r, &lines, 0))
    });
    recipes.push(Function::Sheet, "52 two bad lines".to_string(), false, |r| {
        let mut lines = any_sheet(r, 2).lines();
        let at = r.within(1, lines.len() - 2);
        for at in [at, r.within(at + 1, lines.len() - 1)] {
            lines[at] = any_bad_line(r);
        }
        Some(lend_bad(r, &lines, at))
    });
    recipes.push(Function::Sheet, "52 every angle line bad".to_string(), false, |r| {
        let mut lines = any_sheet(r, 1).lines();
        lines[1..].iter_mut().for_each(|line| *line = any_bad_line(r));
        Some(lend_bad(r, &lines, 1))
    });
    recipes.push(Function::Sheet, "52 a bad line, and the last without its end".to_string(), false, |r| {
        let sheet = any_sheet(r, 2);
        let mut lines = sheet.lines();
        let last = lines.len() - 1;
        let at = r.within(1, last - 1);
        lines[at] = any_bad_line(r);
        lines[last] = sheet.texts().swap_remove(last);
        Some(lend_bad(r, &lines, at))
    });
}

/// A sheet with its end cut off, so many bytes of it left: good where that is between two lines.
fn cut(r: &mut Random, sheet: &Sheet, left: usize) -> Made {
    let mut lines = sheet.lines();
    let mut whole = 0;
    let mut bytes = 0;
    while bytes + lines[whole].len() <= left {
        bytes += lines[whole].len();
        whole += 1;
    }
    if whole > 0 && bytes == left {
        let smaller = Sheet { angles: sheet.angles[..whole - 1].to_vec(), ends: sheet.ends[..whole].to_vec(), ..sheet.clone() };
        let output = any_output(r, smaller.file().len());
        return lend_good(&smaller, output);
    }
    lines.truncate(whole + 1);
    lines[whole].truncate(left - bytes);
    lend_bad(r, &lines, whole)
}

fn cuts_and_swaps(recipes: &mut Recipes) {
    recipes.push(Function::Sheet, "cut at any byte".to_string(), false, |r| {
        let sheet = any_sheet(r, 0);
        let left = r.below(sheet.bytes().len());
        Some(cut(r, &sheet, left))
    });
    recipes.push(Function::Sheet, "cut behind any line".to_string(), false, |r| {
        let sheet = any_sheet(r, 1);
        let lines = sheet.lines();
        let whole = r.within(1, lines.len() - 1);
        Some(cut(r, &sheet, lines[..whole].concat().len()))
    });
    recipes.push(Function::Sheet, "52 cut by one byte".to_string(), false, |r| {
        let sheet = any_sheet(r, 1);
        Some(cut(r, &sheet, sheet.bytes().len() - 1))
    });
    recipes.push(Function::Sheet, "0 or 42 two angle lines swapped".to_string(), false, |r| {
        let mut sheet = any_sheet(r, 2);
        let [one, two] = [0; 2].map(|_: usize| r.below(sheet.angles.len()));
        sheet.angles.swap(one, two);
        sheet.ends.swap(1 + one, 1 + two);
        let output = any_output(r, sheet.file().len());
        Some(lend_good(&sheet, output))
    });
    recipes.push(Function::Sheet, "51 the first line and another swapped".to_string(), false, |r| {
        let mut lines = any_sheet(r, 1).lines();
        let other = r.within(1, lines.len() - 1);
        lines.swap(0, other);
        Some(lend_bad(r, &lines, 0))
    });
}

/// A sheet that ends within a line, right behind one of its parts: what comes next is read only where there is something.
fn ends_behind(recipes: &mut Recipes) {
    let first: [(&str, fn(&Sheet) -> usize); 3] =
        [("a byte", |_| 1), ("the serial", |sheet| sheet.serial.len()), ("the semicolon", |sheet| sheet.serial.len() + 1)];
    for (part, left) in first {
        recipes.push(Function::Sheet, format!("51 the sheet ends behind {part}"), false, move |r| {
            let sheet = any_sheet(r, 0);
            Some(cut(r, &sheet, left(&sheet)))
        });
    }
    let parts = ["minus", "degrees", "semicolon", "second minus", "digits", "comma", "fraction", "CR"];
    for (part, name) in parts.into_iter().enumerate() {
        recipes.push(Function::Sheet, format!("52 the sheet ends behind the last line's {name}"), false, move |r| {
            let mut sheet = any_sheet(r, 1);
            let [degrees, whole, fraction] = [MOST_DEGREES, MOST_DIGITS, MOST_DIGITS].map(|most| r.within(1, most));
            let last = Angle { degrees: crate::sheet::degrees(r, true, degrees), coefficient: coefficient(r, true, whole, fraction) };
            *sheet.angles.last_mut().expect("an angle") = last;
            *sheet.ends.last_mut().expect("a line") = CR_LF;
            let left: usize = [1, degrees, 1, 1, whole, 1, fraction, 1][..=part].iter().sum();
            let before = sheet.lines()[..sheet.angles.len()].concat().len();
            Some(cut(r, &sheet, before + left))
        });
    }
}

fn before_short_output(recipes: &mut Recipes, (how, output): (&str, Output)) {
    for at in [0, 1] {
        recipes.push(Function::Sheet, format!("{} before 42, output {how}", code_of(at)), false, move |r| {
            let mut lines = any_sheet(r, 1).lines();
            let output = output(r, file_bytes(&lines.concat()));
            lines[at] = if at == 0 { no_serial() } else { any_bad_line(r) };
            Some(lend(lines.concat(), output, refused_at(at)))
        });
    }
    recipes.push(Function::Sheet, format!("52 for 181 angles before 42, output {how}"), false, move |r| {
        let bytes = sheet(r, TOO_MANY).bytes();
        let output = output(r, file_bytes(&bytes));
        Some(lend(bytes, output, refused_at(TOO_MANY)))
    });
}

pub fn add(recipes: &mut Recipes) {
    line_ends(recipes);
    behind(recipes);
    many_lines(recipes);
    several(recipes);
    cuts_and_swaps(recipes);
    ends_behind(recipes);
    SHORT.into_iter().for_each(|short| before_short_output(recipes, short));
}
