//! Angle sheets that are good: every form of a line, each number of angles at the borders, outputs long and short (42). And
//! sheets made for no outcome in particular.

use super::writing::{any_output, refused, Output, LONG, SHORT, SHORT_OUTPUT};
use super::*;
use crate::sheet::*;

/// A call of the sheet reader, with an output of so many bytes.
pub fn lend(sheet: Vec<u8>, output: usize, owed: Owed) -> Made {
    Made { function: Function::Sheet, lent: vec![sheet], counts: [0; 2], owed, block: Some(output), all: None, after: None }
}

/// A good sheet is written where the output is long enough.
pub fn lend_good(sheet: &Sheet, output: usize) -> Made {
    let file = sheet.file();
    let owed = if output < file.len() { refused(SHORT_OUTPUT) } else { Owed::Returned(vec![0, file.len() as u32], file) };
    lend(sheet.bytes(), output, owed)
}

/// Mostly few angles, so that a run has many sheets.
pub fn any_sheet(r: &mut Random, fewest: usize) -> Sheet {
    let most = if r.chance(5) { 30 } else { 6 };
    let angles = r.within(fewest, most);
    sheet(r, angles)
}

fn add_good(recipes: &mut Recipes, name: String, make: impl Fn(&mut Random) -> Sheet + Send + Sync + 'static) {
    recipes.push(Function::Sheet, format!("0 {name}"), false, move |r| {
        let sheet = make(r);
        let file = sheet.file().len();
        let output = r.pick(&LONG).1(r, file);
        Some(lend_good(&sheet, output))
    });
}

/// A good sheet of these angles, in any order and among others.
fn among_others(r: &mut Random, mut angles: Vec<Angle>) -> Sheet {
    for _ in 0..r.below(4) {
        angles.push(angle(r));
    }
    for last in (1..angles.len()).rev() {
        let other = r.within(0, last);
        angles.swap(other, last);
    }
    sheet_of(r, angles)
}

fn numbers_of_angles(recipes: &mut Recipes) {
    type Ends = fn(&mut Random, usize) -> Vec<&'static [u8]>;
    let all: [(&str, Ends); 3] = [
        ("LF", |_, lines| vec![LF; lines]),
        ("CR LF", |_, lines| vec![CR_LF; lines]),
        // of more than one line there are both
        ("LF and CR LF", |r, lines| {
            let first = r.below(2);
            (0..lines).map(|line| if line < 2 { [LF, CR_LF][(first + line) % 2] } else { r.pick(&[LF, CR_LF]) }).collect()
        }),
    ];
    for angles in [0, 1, 2, 3, 90, 179, 180] {
        for (name, ends) in all {
            let number = ["no angle", "1 angle"].get(angles).map_or_else(|| format!("{angles} angles"), |few| few.to_string());
            add_good(recipes, format!("{number}, {name}"), move |r| {
                let sheet = sheet(r, angles);
                Sheet { ends: ends(r, 1 + angles), ..sheet }
            });
        }
    }
}

fn coefficients(recipes: &mut Recipes) {
    let angle_with = |r: &mut Random, coefficient: Coefficient| Angle { coefficient, ..angle(r) };
    for whole in 1..=MOST_DIGITS {
        add_good(recipes, format!("coefficients of {whole} digits before the comma, every number behind it, both signs"), move |r| {
            let shapes = (0..=MOST_DIGITS).flat_map(|fraction| [(fraction, false), (fraction, true)]);
            let coefficients: Vec<Coefficient> = shapes.map(|(fraction, minus)| coefficient(r, minus, whole, fraction)).collect();
            let angles = coefficients.into_iter().map(|coefficient| angle_with(r, coefficient)).collect();
            among_others(r, angles)
        });
    }
    for (name, minus) in [("coefficients of zeros", false), ("coefficients of zeros with minus", true)] {
        add_good(recipes, name.to_string(), move |r| {
            let zeros = |count: usize| "0".repeat(count);
            let lengths = (1..=MOST_DIGITS).flat_map(|whole| (0..=MOST_DIGITS).map(move |fraction| (whole, fraction)));
            let angles = lengths.map(|(whole, fraction)| angle_with(r, Coefficient { minus, whole: zeros(whole), fraction: zeros(fraction) }));
            let angles = angles.collect();
            among_others(r, angles)
        });
    }
}

fn degrees_texts(recipes: &mut Recipes) {
    for count in 1..=MOST_DEGREES {
        for (name, minus) in [("", false), (" with minus", true)] {
            add_good(recipes, format!("degrees of {count} digits{name}"), move |r| {
                let angles = edge_digits(count).into_iter().chain([any_digits(r, count)]);
                let signed = angles.map(|digits| if minus { format!("-{digits}") } else { digits });
                let angles = signed.map(|degrees| Angle { degrees, ..angle(r) }).collect();
                among_others(r, angles)
            });
        }
    }
    add_good(recipes, "degrees -0, -00 and -000".to_string(), |r| {
        let angles = ["-0", "-00", "-000"].map(|degrees| Angle { degrees: degrees.to_string(), ..angle(r) });
        among_others(r, angles.to_vec())
    });
    add_good(recipes, "the same degrees in every line".to_string(), |r| {
        let (of, count) = (angle(r), r.within(2, 8));
        let angles = (0..count).map(|_| Angle { degrees: of.degrees.clone(), ..angle(r) }).collect();
        sheet_of(r, angles)
    });
}

/// The two rows of months.
pub const MONTHS: [(&str, bool); 2] = [("common", false), ("leap", true)];

fn first_lines(recipes: &mut Recipes) {
    type Serial = fn(&mut Random) -> Vec<u8>;
    let serials: [(&str, Serial); 6] = [
        ("serial of 1 byte", |r| serial(r, 1)),
        ("serial of 32 bytes", |r| serial(r, MOST_SERIAL)),
        ("serial of 2 to 31 bytes", |r| {
            let bytes = r.within(2, MOST_SERIAL - 1);
            serial(r, bytes)
        }),
        ("serial of zero bytes", |r| vec![0; r.within(1, MOST_SERIAL)]),
        ("serial of bytes 0xFF", |r| vec![0xFF; r.within(1, MOST_SERIAL)]),
        ("serial as an angle line has it", |r| angle(r).text().replace(';', ",").into_bytes()),
    ];
    for (name, serial) in serials {
        add_good(recipes, name.to_string(), move |r| Sheet { serial: serial(r), ..any_sheet(r, 0) });
    }
    let days = [[1, 1, 1], [9999, 12, 31], [2000, 2, 29], [400, 2, 29], [2024, 2, 29], [2100, 2, 28], [1900, 2, 28]];
    for date in days {
        add_good(recipes, format!("date {}", date_text(date)), move |r| Sheet { date, ..any_sheet(r, 0) });
    }
    for (year, month) in MONTHS.into_iter().flat_map(|year| (1..=12).map(move |month| (year, month))) {
        add_good(recipes, format!("date, the last of month {month} of a {} year", year.0), move |r| {
            let date = last_day(r, year.1, month);
            Sheet { date, ..any_sheet(r, 0) }
        });
    }
}

fn outputs(recipes: &mut Recipes) {
    type Angles = fn(&mut Random) -> usize;
    let numbers: [(&str, Angles); 3] = [("no angle", |_| 0), ("some angles", |r| r.within(1, 8)), ("180 angles", |_| MOST_ANGLES)];
    for (name, angles) in numbers {
        let mut add = |code: u32, (how, output): (&str, Output)| {
            recipes.push(Function::Sheet, format!("{code} {name}, output {how}"), false, move |r| {
                let angles = angles(r);
                let sheet = sheet(r, angles);
                let output = output(r, sheet.file().len());
                Some(lend_good(&sheet, output))
            });
        };
        LONG.into_iter().for_each(|long| add(0, long));
        SHORT.into_iter().for_each(|short| add(SHORT_OUTPUT, short));
    }
}

// ---- sheets made for no outcome in particular

/// The bytes that sheets are made of, and some that stand next to them.
const USUAL: &[u8] = b"0123456789001122;;;,,,---\r\n\n\n+./: ";

fn add_open(recipes: &mut Recipes, name: &str, make: fn(&mut Random) -> Vec<u8>) {
    recipes.push(Function::Sheet, name.to_string(), false, move |r| {
        let sheet = make(r);
        let file = file_bytes(&sheet);
        // mostly room for the file, since else the answer hides what was read
        let output = if r.chance(70) { file + r.below(40) } else { any_output(r, file) };
        Some(lend(sheet, output, Owed::Any))
    });
}

fn usual(r: &mut Random, bytes: usize) -> Vec<u8> {
    (0..bytes).map(|_| r.pick(USUAL)).collect()
}

fn random_bytes(recipes: &mut Recipes) {
    add_open(recipes, "damage: random bytes", |r| {
        let bytes = r.below(100);
        r.bytes(bytes)
    });
    add_open(recipes, "damage: a good first line, then bytes that sheets have", |r| {
        let bytes = r.below(24);
        [sheet(r, 0).bytes(), usual(r, bytes)].concat()
    });
}

fn damaged(recipes: &mut Recipes) {
    add_open(recipes, "damage: some bytes changed", |r| {
        let mut bytes = any_sheet(r, 0).bytes();
        for _ in 0..r.within(1, 2) {
            let at = r.below(bytes.len());
            bytes[at] = if r.chance(70) { r.pick(USUAL) } else { r.next() as u8 };
        }
        bytes
    });
    add_open(recipes, "damage: a bit flipped", |r| {
        let mut bytes = any_sheet(r, 0).bytes();
        let at = r.below(bytes.len());
        bytes[at] ^= 1 << r.below(8);
        bytes
    });
    add_open(recipes, "damage: bytes put in", |r| {
        let mut bytes = any_sheet(r, 0).bytes();
        for _ in 0..r.within(1, 2) {
            bytes.insert(r.within(0, bytes.len()), r.pick(USUAL));
        }
        bytes
    });
    add_open(recipes, "damage: a part cut out", |r| {
        let mut bytes = any_sheet(r, 0).bytes();
        let from = r.below(bytes.len());
        let to = (from + r.within(1, 12)).min(bytes.len());
        bytes.drain(from..to);
        bytes
    });
    add_open(recipes, "changed: a part of another sheet", |r| {
        let (mut bytes, other) = (any_sheet(r, 0).bytes(), any_sheet(r, 0).bytes());
        let [at, from] = [r.within(0, bytes.len()), r.within(0, other.len())];
        bytes.splice(at.., other[from..].iter().copied());
        bytes
    });
}

pub fn add(recipes: &mut Recipes) {
    numbers_of_angles(recipes);
    coefficients(recipes);
    degrees_texts(recipes);
    first_lines(recipes);
    outputs(recipes);
    random_bytes(recipes);
    damaged(recipes);
}
