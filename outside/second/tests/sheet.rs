//! Ask 4: "Read the angle sheet."
mod common;
use common::*;
use second::values::{Kind, Value};
use second::{find_tables, graph, read_sheet, Outcome};
use std::collections::BTreeSet;

const FILL: u8 = 0xa5;
/// More than the 13,108 bytes of the longest file.
const ROOM: usize = 13_200;
/// A good first line.
const FIRST: &str = "LX-7;2024-02-29\n";

/// The file that is written for a good sheet; "Output after the file keeps its
/// values".
fn file(sheet: impl AsRef<[u8]>) -> Vec<u8> {
    let sheet = sheet.as_ref();
    let mut out = vec![FILL; ROOM];
    let (code, length) = read_sheet(sheet, &mut out);
    assert_eq!(code, 0, "{}", String::from_utf8_lossy(sheet));
    let kept = out.split_off(length as usize);
    assert!(kept.iter().all(|byte| *byte == FILL));
    out
}

/// What is told of a bad sheet: the same for an output of any length, the short
/// ones of 42 among them; "a refusal writes nothing".
fn refused(sheet: impl AsRef<[u8]>) -> Outcome {
    let sheet = sheet.as_ref();
    let told = [0, 27, 119, 120, 300, ROOM].map(|length| {
        let mut out = vec![FILL; length];
        let told = read_sheet(sheet, &mut out);
        assert!(out.iter().all(|byte| *byte == FILL));
        told
    });
    assert_eq!(told, [told[0]; 6], "{}", String::from_utf8_lossy(sheet));
    told[0]
}

/// Whether no line of the sheet is bad: there is a file, and no room for it.
fn good(sheet: impl AsRef<[u8]>) -> bool {
    let told = read_sheet(sheet.as_ref(), &mut []);
    assert!([42, 51, 52].contains(&told.0), "{told:?}");
    told == (42, 0)
}

/// A good first line, then these lines.
fn with(lines: &str) -> String {
    format!("{FIRST}{lines}")
}

/// A good first line, then this many good lines.
fn with_angles(count: usize) -> String {
    with(&"-30;1,5\n".repeat(count))
}

/// The serial and the date that a good sheet's file says.
fn serial_and_date(sheet: impl AsRef<[u8]>) -> (Vec<u8>, u32) {
    let file = file(sheet);
    let graph = graph::decode(&file).unwrap();
    let (sensor, run) = (&graph.nodes[0], &graph.nodes[1]);
    match (&sensor.properties[..], &run.properties[..]) {
        ([(0, Value::Text(serial))], [(1, Value::Date(date))]) => (serial.to_vec(), *date),
        other => panic!("{other:?}"),
    }
}

/// The degrees and coefficients that a good sheet's file says.
fn angles(sheet: impl AsRef<[u8]>) -> Vec<(i64, f64)> {
    let file = file(sheet);
    let graph = graph::decode(&file).unwrap();
    let angle = |node: &graph::Object| match node.properties[..] {
        [(3, Value::Integer(degrees)), (4, Value::Real(coefficient))] => (degrees, coefficient),
        ref other => panic!("{other:?}"),
    };
    graph.nodes[2..].iter().map(angle).collect()
}

/// The bits of these texts' coefficients, each on its own line.
fn coefficients<T: AsRef<str>>(texts: &[T]) -> Vec<u64> {
    let mut bits = Vec::new();
    for texts in texts.chunks(180) {
        let lines = texts.iter().map(|text| format!("0;{}\n", text.as_ref()));
        let angles = angles(with(&lines.collect::<String>()));
        bits.extend(angles.iter().map(|(_, coefficient)| coefficient.to_bits()));
    }
    bits
}

/// The float nearest to the number that the text says, with another reader.
fn coefficient_by_std(text: &str) -> f64 {
    text.replace(',', ".").parse().unwrap()
}

/// The graph that a sheet of these values owes, for the tests' own encoder.
fn owed(serial: &'static str, date: u32, angles: &[(i64, f64)]) -> G {
    let mut g = G {
        nodes: vec![
            obj(SENSOR, &[(0, V::Text(serial))]),
            obj(RUN, &[(1, V::Date(date))]),
        ],
        edges: vec![edge(1, 0, OF)],
        labels: 5,
        names: 5,
        preface: Vec::new(),
    };
    for (place, (degrees, coefficient)) in (2..).zip(angles) {
        let props = [(3, V::Int(*degrees)), (4, V::Real(*coefficient))];
        g.nodes.push(obj(ANGLE, &props));
        g.edges.push(edge(1, place, AT));
    }
    g
}

/// The rows of these bytes, each cut into numbers of these widths.
fn rows(bytes: &[u8], widths: &[usize]) -> Vec<Vec<u64>> {
    let mut rows = Vec::new();
    for row in bytes.chunks(widths.iter().sum()) {
        let mut rest = row;
        rows.push(Vec::new());
        for width in widths {
            let (field, after) = rest.split_at(*width);
            let high_first = field.iter().rev();
            let number = high_first.fold(0, |number, byte| (number << 8) | u64::from(*byte));
            rows.last_mut().unwrap().push(number);
            rest = after;
        }
    }
    rows
}

#[test]
fn a_small_file_field_by_field() {
    let file = file("LX-7;2026-11-15\r\n-45;1,05\n120;-0\r\n");
    assert_eq!(file.len(), 264);
    let nodes = [[1, 0, 1], [2, 1, 1], [4, 2, 2], [4, 4, 2]];
    assert_eq!(rows(&file[..64], &[8, 4, 4]), nodes);
    // "A run of count 0 still gives the current start": after all six rows.
    let edges = [[8, 1, 0, 6, 0], [16, 1, 2, 6, 0], [16, 1, 3, 6, 0]];
    assert_eq!(rows(&file[64..136], &[8, 4, 4, 4, 4]), edges);
    let properties = [
        [0, 5, 0, 4, 0],
        [1, 4, 0, 0, 20_261_115],
        [3, 2, 0, 0, 0xffff_ffff_ffff_ffd3],
        [4, 3, 0, 0, 0x3ff0_cccc_cccc_cccd],
        [3, 2, 0, 0, 120],
        [4, 3, 0, 0, 0x8000_0000_0000_0000],
    ];
    assert_eq!(rows(&file[136..232], &[2, 1, 1, 4, 8]), properties);
    assert_eq!(&file[232..236], b"LX-7");
    let trailer = [[4, 3, 6, 4, 5, 5, 236]];
    assert_eq!(rows(&file[236..260], &[4, 4, 4, 4, 2, 2, 4]), trailer);
    assert_eq!(file[260..], [0x47, 0x50, 0x48, 0x31]);
}

#[test]
fn the_first_line_only() {
    let file = file("a;0001-01-01\n");
    assert_eq!(file.len(), 117);
    assert_eq!(rows(&file[..32], &[8, 4, 4]), [[1, 0, 1], [2, 1, 1]]);
    assert_eq!(rows(&file[32..56], &[8, 4, 4, 4, 4]), [[8, 1, 0, 2, 0]]);
    let properties = [[0, 5, 0, 1, 0], [1, 4, 0, 0, 10_101]];
    assert_eq!(rows(&file[56..88], &[2, 1, 1, 4, 8]), properties);
    assert_eq!(file[88], b'a');
    let trailer = [[2, 1, 2, 1, 5, 5, 89]];
    assert_eq!(rows(&file[89..113], &[4, 4, 4, 4, 2, 2, 4]), trailer);
    assert_eq!(file[113..], *b"GPH1");
}

#[test]
fn the_bench_from_its_sheet() {
    let sheet = with("0;0,5\n-45;0,5\n");
    assert_eq!(file(&sheet), bench_graph().bytes());
    let answer = second::answer(&file(&sheet), &bench_schema().bytes());
    assert_eq!(answer, [0, 0, 0, 0, 0]);
}

#[test]
fn every_number_of_angles_against_the_schema() {
    let s = bench_schema();
    let mut wide = bench_schema();
    wide.edges[1].target_interval = (0, ANY);
    for count in 0..=180 {
        let file = file(with_angles(count));
        assert_eq!(file.len(), 116 + 4 + 72 * count);
        let number = count as u32;
        assert_eq!(second::answer(&file, &wide.bytes()), [0, 0, 0, 0, 0]);
        let answer = match number {
            0 | 1 => [31, 1, 1, number, 0],
            2 | 3 => [0, 0, 0, 0, 0],
            _ => [32, 1, 1, number, 0],
        };
        assert_eq!(second::answer(&file, &s.bytes()), answer);
        let owed = owed("LX-7", 20240229, &vec![(-30, 1.5); count]);
        assert_eq!(file, owed.bytes());
        // Nodes, edges, rows and text follow one another from 0 on.
        let (nodes, edges, rows) = (2 + number, 1 + number, 2 + 2 * number);
        let edges_at = 16 * nodes;
        let rows_at = edges_at + 24 * edges;
        let text_at = rows_at + 16 * rows;
        let found = [
            0, 0, 0, nodes, edges_at, edges, rows_at, rows, text_at, 4, 5, 5,
        ];
        assert_eq!(find_tables(&file), found);
    }
}

#[test]
fn outputs_shorter_and_longer() {
    for count in [0, 2, 180] {
        let sheet = with_angles(count);
        let file = file(&sheet);
        let length = file.len();
        for short in (0..length.min(400)).chain([length - 2, length - 1]) {
            let mut out = vec![FILL; short];
            assert_eq!(read_sheet(sheet.as_bytes(), &mut out), (42, 0));
            assert_eq!(out, vec![FILL; short]);
        }
        for more in [0, 1, 27, 28, 5_000] {
            let mut out = vec![FILL; length + more];
            let told = read_sheet(sheet.as_bytes(), &mut out);
            assert_eq!(told, (0, length as u32));
            assert_eq!(out[..length], file);
            assert_eq!(out[length..], vec![FILL; more]);
        }
    }
    // The longest file of all.
    let lines = "-30;1,5\n".repeat(180);
    let sheet = format!("{};2024-02-29\n{lines}", "s".repeat(32));
    assert_eq!(file(sheet).len(), 13_108);
}

const BAD_FIRST_TEXTS: &[&str] = &[
    "",
    ";",
    ";;",
    "LX-7",
    "LX-7;",
    "2024-02-29",
    ";2024-02-29",
    "LX-72024-02-29",
    "LX-7,2024-02-29",
    "LX-7:2024-02-29",
    "LX-7;;2024-02-29",
    "LX-7;2024-02-29;",
    ";LX-7;2024-02-29",
    "LX;7;2024-02-29",
    "LX-7;2024;02;29",
    "2024-02-29;LX-7",
    "30;1,5",
    "LX-7;2024-02-29;30;1,5",
    "LX-7; 2024-02-29",
    "LX-7;2024-02-29 ",
    "LX-7;2024-02-29\0",
    "LX-7;2024-02-290",
    "LX-7;\"2024-02-29\"",
];

#[test]
fn bad_first_lines() {
    for text in BAD_FIRST_TEXTS {
        for end in ["", "\r", "\n", "\r\n"] {
            for later in ["", "30;1,5\n", "\n", "?\n"] {
                assert_eq!(refused(format!("{text}{end}{later}")), (51, 1));
            }
        }
    }
    assert_eq!(refused(""), (51, 1));
    // A good first line comes too late.
    assert_eq!(refused(format!("\n{FIRST}")), (51, 1));
    assert_eq!(refused(format!("\u{feff};\n{FIRST}")), (51, 1));
}

#[test]
fn ends_of_the_first_line() {
    let text = "LX-7;2024-02-29";
    for end in ["\n", "\r\n"] {
        let said = (b"LX-7".to_vec(), 20240229);
        assert_eq!(serial_and_date(format!("{text}{end}")), said);
        assert_eq!(serial_and_date(format!("{text}{end}0;0{end}")), said);
    }
    for end in ["", "\r", "\r\r", "\r\r\n", "\r\r\r\n", "\n\r"] {
        let line = if end == "\n\r" { (52, 2) } else { (51, 1) };
        assert_eq!(refused(format!("{text}{end}")), line);
    }
    // A lone CR ends no line, wherever it stands.
    for place in 0..=text.len() {
        let (before, after) = text.split_at(place);
        let sheet = format!("{before}\r{after}\n");
        assert_eq!(good(&sheet), place == text.len());
        assert_eq!(refused(format!("{before}\r{after} \n")), (51, 1));
        assert_eq!(refused(format!("{before}\r{after}0;0\n")), (51, 1));
    }
}

#[test]
fn serials() {
    for byte in 0..=255 {
        for serial in [vec![byte], vec![b'A', byte], vec![byte; 3], vec![byte; 32]] {
            let sheet = [&serial[..], b";2024-02-29\n0;1\n"].concat();
            if b";\r\n".contains(&byte) {
                assert_eq!(refused(sheet), (51, 1));
                continue;
            }
            assert_eq!(serial_and_date(&sheet), (serial.clone(), 20240229));
            // The text bytes are the serial's, and no others.
            let file = file(&sheet);
            let [rows_at, text_at, text] = [6, 8, 9].map(|at| find_tables(&file)[at] as usize);
            assert_eq!(file[text_at..text_at + text], serial);
            let row = &file[rows_at..rows_at + 16];
            let row = rows(row, &[2, 1, 1, 4, 8]);
            assert_eq!(row, [[0, 5, 0, serial.len() as u64, 0]]);
        }
    }
    for length in 0..=100 {
        let sheet = format!("{};2024-02-29\n", "x".repeat(length));
        assert_eq!(good(&sheet), (1..=32).contains(&length));
    }
    assert!(!good(format!("{};2024-02-29\n", "x".repeat(100_000))));
    // 32 bytes are meant, whatever they spell.
    assert!(good(format!("{};2024-02-29\n", "ü".repeat(16))));
    assert!(!good(format!("{};2024-02-29\n", "ü".repeat(17))));
    for serial in [" ", "-", ",", "--,, ", "2024-02-29", "\0\0", "0", "\t"] {
        assert!(good(format!("{serial};2024-02-29\n")));
    }
}

const BAD_DATE_TEXTS: &[&str] = &[
    "2026-1-01",
    "2026-01-1",
    "2026-001-1",
    "206-01-01",
    "02026-01-01",
    "20260101",
    "2026-0101",
    "202601-01",
    "2026-01-01-",
    "-2026-01-01",
    "-026-01-01",
    "+026-01-01",
    "2026--1-01",
    "2026-01--1",
    "2026-01-+1",
    "2026- 1-01",
    "2026/01/01",
    "2026.01.01",
    "2026–01–01",
    "01-01-2026",
    "2026-01-0a",
    "2026-01-01T00",
    "2026-W01-1",
    "",
    "--",
    "----------",
];

#[test]
fn dates() {
    for text in BAD_DATE_TEXTS {
        assert_eq!(refused(format!("LX-7;{text}\n")), (51, 1), "{text}");
    }
    let days = [
        ("2100-02-29", false),
        ("1900-02-29", false),
        ("2000-02-29", true),
        ("2026-02-29", false),
        ("2026-00-01", false),
        ("2026-13-01", false),
        ("2026-01-00", false),
        ("2026-04-31", false),
        ("0000-01-01", false),
        ("0001-01-01", true),
        ("9999-12-31", true),
    ];
    for (day, is_date) in days {
        assert_eq!(good(format!("LX-7;{day}\n")), is_date);
    }
}

/// "good for the Date kind": every month and day of two digits.
#[test]
fn dates_of_some_years() {
    for year in [0, 1, 4, 1900, 2000, 2024, 2100, 9999] {
        let mut days = 0;
        for (month, day) in (0..10_000).map(|number| (number / 100, number % 100)) {
            let sheet = format!("LX-7;{year:04}-{month:02}-{day:02}\n");
            let number = year * 10_000 + month * 100 + day;
            let is_date = Value::read(Kind::Date, 0, u64::from(number), &[]).is_some();
            assert_eq!(good(&sheet), is_date);
            if is_date {
                assert_eq!(serial_and_date(&sheet).1, number);
                days += 1;
            }
        }
        let leap = [4, 2000, 2024].contains(&year);
        assert_eq!(days, if year == 0 { 0 } else { 365 + u32::from(leap) });
    }
}

/// This line is at fault wherever it stands among good ones.
fn bad_line(line: &str) {
    for before in [0, 1, 7, 179, 180] {
        let sheet = with_angles(before) + line;
        let fault = (52, before as u32 + 2);
        assert_eq!(refused(&sheet), fault, "{line:?}");
        assert_eq!(refused(sheet.clone() + "30;1,5\n"), fault, "{line:?}");
        assert_eq!(refused(sheet + "?\n"), fault, "{line:?}");
    }
}

const BAD_ANGLE_TEXTS: &[&str] = &[
    "",
    ";",
    ";;",
    "30",
    "30;",
    ";1,5",
    "301,5",
    "30,1,5",
    "30:1,5",
    "30 1,5",
    "30;;1,5",
    "30;1,5;",
    ";30;1,5",
    "30;1;5",
    "30;1,5;20;1,5",
    " 30;1,5",
    "30 ;1,5",
    "30; 1,5",
    "30;1,5 ",
    "30;1,5\0",
    "30;1,5#",
    "LX-7;2024-02-29",
    "?",
    "\u{feff}30;1,5",
];

#[test]
fn bad_angle_lines() {
    for text in BAD_ANGLE_TEXTS {
        bad_line(&format!("{text}\n"));
        bad_line(&format!("{text}\r\n"));
    }
}

#[test]
fn ends_of_angle_lines() {
    for end in ["\n", "\r\n"] {
        let sheet = with(&format!("30;1,5{end}-5;2{end}"));
        assert_eq!(angles(sheet), [(30, 1.5), (-5, 2.0)]);
    }
    assert_eq!(angles(with("1;1\r\n2;2\n3;3\r\n")).len(), 3);
    bad_line("30;1,5\r\r\n");
    bad_line("30;1,5\r20;1\n");
    bad_line("30\r;1,5\n");
    bad_line("30;\r1,5\r\n");
    bad_line("\r30;1,5\n");
    bad_line("\r\r\n");
    // "the last too": no LF at the end of the sheet.
    for before in [0, 1, 7, 179, 180] {
        for last in ["30;1,5", "30;1,5\r", "\r", "3", " ", "\0"] {
            let fault = (52, before as u32 + 2);
            assert_eq!(refused(with_angles(before) + last), fault);
        }
    }
}

#[test]
fn as_many_angles_as_there_may_be() {
    for count in [0, 1, 179, 180] {
        assert_eq!(angles(with_angles(count)).len(), count);
    }
    for count in [181, 182, 183, 1_000, 100_000] {
        assert_eq!(refused(with_angles(count)), (52, 182));
    }
    // The 182nd line is at fault whenever it exists, whatever it is.
    for line in ["\n", "\r\n", "x", ";", "\0", "30;1,5", "30;1,5\r", "\r"] {
        assert_eq!(refused(with_angles(180) + line), (52, 182));
        assert_eq!(refused(with_angles(181) + line), (52, 182));
    }
    // A lower line at fault goes before it, and the first line before all.
    for good_ones in 0..=183 {
        let lines = "0;1\n".repeat(good_ones) + &"0;x\n".repeat(183 - good_ones);
        let fault = (52, (good_ones + 2).min(182) as u32);
        assert_eq!(refused(with(&lines)), fault);
        assert_eq!(refused(lines), (51, 1));
    }
}

#[test]
fn degrees() {
    let good = [
        ("0", 0),
        ("-0", 0),
        ("000", 0),
        ("-000", 0),
        ("7", 7),
        ("007", 7),
        ("-007", -7),
        ("30", 30),
        ("-45", -45),
        ("180", 180),
        ("361", 361),
        ("999", 999),
        ("-999", -999),
    ];
    for (text, degrees) in good {
        assert_eq!(angles(with(&format!("{text};1\n"))), [(degrees, 1.0)]);
    }
    for number in -999..=999 {
        assert_eq!(angles(with(&format!("{number};1\n"))), [(number, 1.0)]);
    }
    let bad = [
        "", "-", "--1", "-+1", "+1", "1-", "1000", "0000", "-0007", "-1000", "1,0", "1.0", "1e2",
        "0x1", " 1", "1 ", "- 1", "1 0", "a", "−1", "١", "½", "999999",
    ];
    for text in bad {
        bad_line(&format!("{text};1\n"));
    }
}

#[test]
fn coefficients_of_a_good_form() {
    let good = [
        ("0", 0),
        ("-0", 1 << 63),
        ("0,0", 0),
        ("-0,000000", 1 << 63),
        ("-000000,000000", 1 << 63),
        ("0,1", 0x3fb9_9999_9999_999a),
        ("1,05", 0x3ff0_cccc_cccc_cccd),
        ("-1,05", 0xbff0_cccc_cccc_cccd),
        ("0,5", 0x3fe0_0000_0000_0000),
        ("00,50", 0x3fe0_0000_0000_0000),
        ("-2", 0xc000_0000_0000_0000),
        ("000002,000000", 0x4000_0000_0000_0000),
        ("999999,999999", 999_999.999_999_f64.to_bits()),
        ("-999999,999999", (-999_999.999_999_f64).to_bits()),
        ("000000,000001", 0.000_001_f64.to_bits()),
        ("999999", 999_999_f64.to_bits()),
        ("0,3", 0.3_f64.to_bits()),
        ("007,50", 7.5_f64.to_bits()),
    ];
    let (texts, bits): (Vec<&str>, Vec<u64>) = good.into_iter().unzip();
    assert_eq!(coefficients(&texts), bits);
}

const BAD_COEFFICIENT_TEXTS: &[&str] = &[
    "",
    "-",
    ",",
    "-,",
    "1234567",
    "-1234567",
    "0000001",
    "1234567,1",
    "1,1234567",
    "1,0000000",
    "1234567,1234567",
    ",5",
    "-,5",
    "5,",
    "-5,",
    "1,,5",
    "1,5,",
    ",1,5",
    "1,2,3",
    "1.5",
    "1.5,0",
    "1;5",
    "--1",
    "-1-",
    "1-",
    "1,-5",
    "-1,-5",
    "1-,5",
    "+1",
    "+1,5",
    "1,+5",
    "1,5e3",
    "1e3",
    "0x1",
    "inf",
    "NaN",
    "1 ",
    " 1",
    "1 000",
    "1'000",
    "1_000",
    "- 1",
    "1, 5",
    "1 ,5",
    "1,5%",
    "a",
    "1,a",
    "a,1",
    "−1",
    "٣",
];

#[test]
fn coefficients_of_a_bad_form() {
    for text in BAD_COEFFICIENT_TEXTS {
        bad_line(&format!("0;{text}\n"));
        bad_line(&format!("0;{text}\r\n"));
    }
}

/// A text of this many digits: all 0, all 9, or any.
fn some_digits(dice: &mut Dice, count: usize) -> String {
    let style = dice.roll(8);
    let digit = |_| match style {
        0 => '0',
        1 => '9',
        _ => char::from(b'0' + dice.roll(10) as u8),
    };
    (0..count).map(digit).collect()
}

/// The quotient of two exact floats is the float nearest to what the text says:
/// "that single rounding".
#[test]
fn coefficients_of_every_number_of_digits_by_std() {
    let mut dice = Dice(0x9e37_79b9_7f4a_7c15);
    let mut texts = Vec::new();
    for (before, after) in (0..42).map(|pair| (1 + pair / 7, pair % 7)) {
        for turn in 0..1_000 {
            let minus = ["", "-"][turn % 2];
            let whole = some_digits(&mut dice, before);
            let comma = ["", ","][usize::from(after > 0)];
            let fraction = some_digits(&mut dice, after);
            texts.push(format!("{minus}{whole}{comma}{fraction}"));
        }
    }
    // All of up to four digits, cut at every place.
    for number in 0..10_000 {
        let digits = format!("{number:04}");
        for cut in 1..4 {
            texts.push(format!("{},{}", &digits[..cut], &digits[cut..]));
        }
        texts.push(digits);
    }
    assert_eq!(texts.len(), 82_000);
    let by_std = texts.iter().map(|text| coefficient_by_std(text).to_bits());
    assert!(coefficients(&texts).into_iter().eq(by_std));
}

/// Each of the texts with each of these bytes behind it.
fn longer(texts: &[String], bytes: &str) -> Vec<String> {
    let mut longer = Vec::new();
    for text in texts {
        longer.extend(bytes.chars().map(|byte| format!("{text}{byte}")));
    }
    longer
}

/// The texts of 1 up to this many digits, each of them 0 or 9.
fn digit_texts(most: usize) -> Vec<String> {
    let mut texts = Vec::new();
    let mut last = vec![String::new()];
    for _ in 0..most {
        last = longer(&last, "09");
        texts.extend(last.clone());
    }
    texts
}

/// The lines of up to six bytes before their LF that the ask spells, with the
/// digits 0 and 9.
fn spelled_lines() -> BTreeSet<String> {
    let mut coefficients = digit_texts(6);
    for whole in digit_texts(3) {
        let fractions = digit_texts(3).into_iter();
        coefficients.extend(fractions.map(|fraction| format!("{whole},{fraction}")));
    }
    let mut lines = BTreeSet::new();
    for degrees in digit_texts(3) {
        for coefficient in &coefficients {
            for (minus, other) in [("", ""), ("", "-"), ("-", ""), ("-", "-")] {
                let line = format!("{minus}{degrees};{other}{coefficient}");
                lines.insert(format!("{line}\r"));
                lines.insert(line);
            }
        }
    }
    lines.into_iter().filter(|line| line.len() <= 6).collect()
}

/// Of all texts of up to six of these bytes the good ones are those spelled.
#[test]
fn every_short_angle_line() {
    let spelled = spelled_lines();
    let mut texts = vec![String::new()];
    let mut good_ones = 0;
    for length in 0..=6 {
        if length > 0 {
            texts = longer(&texts, "09-;,.\r");
        }
        for text in &texts {
            let sheet = with(&format!("{text}\n"));
            let told = read_sheet(sheet.as_bytes(), &mut []);
            let is_good = spelled.contains(text);
            assert_eq!(told, if is_good { (42, 0) } else { (52, 2) }, "{text:?}");
            good_ones += usize::from(is_good);
        }
    }
    assert_eq!(good_ones, spelled.len());
}

/// What is told of the sheet with a byte put over what stands at this place.
fn replaced(sheet: &[u8], place: usize, byte: u8) -> Outcome {
    let mut sheet = sheet.to_vec();
    sheet[place] = byte;
    read_sheet(&sheet, &mut [])
}

/// What is told of the sheet with a byte put before what stands at this place.
fn inserted(sheet: &[u8], place: usize, byte: u8) -> Outcome {
    let mut sheet = sheet.to_vec();
    sheet.insert(place, byte);
    read_sheet(&sheet, &mut [])
}

/// What is told of the sheet without the byte at this place.
fn removed(sheet: &[u8], place: usize) -> Outcome {
    let mut sheet = sheet.to_vec();
    sheet.remove(place);
    read_sheet(&sheet, &mut [])
}

/// Every byte at every place of a first line; who is at fault is told by hand.
#[test]
fn every_change_of_one_byte_in_the_first_line() {
    let sheet = b"S;2024-02-29\n";
    for byte in 0..=255 {
        for place in 0..13 {
            let still_good = match (place, byte) {
                (0, byte) => !b";\r\n".contains(&byte),
                // Leap years: 0024 to 9024, 2024 to 2924, 2004 to 2084, and 2020
                // to 2028. Then months with a day 29, and days of February.
                (2 | 3, b'0'..=b'9') => true,
                (4, b'0' | b'2' | b'4' | b'6' | b'8') => true,
                (5, b'0' | b'4' | b'8') => true,
                (7, b'0' | b'1') | (8, b'1'..=b'9') => true,
                (10, b'0'..=b'2') | (11, b'0'..=b'9') => true,
                _ => byte == sheet[place],
            };
            let owed = if still_good { (42, 0) } else { (51, 1) };
            assert_eq!(replaced(sheet, place, byte), owed, "{place} {byte}");
        }
        for place in 0..=13 {
            let owed = match (place, byte) {
                (0 | 1, byte) if !b";\r\n".contains(&byte) => (42, 0),
                (12, b'\r') => (42, 0),
                (12, b'\n') | (13, _) => (52, 2),
                _ => (51, 1),
            };
            assert_eq!(inserted(sheet, place, byte), owed, "{place} {byte}");
        }
    }
    for place in 0..13 {
        assert_eq!(removed(sheet, place), (51, 1));
    }
}

/// The same for an angle line, which begins at 13.
#[test]
fn every_change_of_one_byte_in_an_angle_line() {
    let sheet = b"S;2024-02-29\n-12;-3,45\n";
    for byte in 0..=255 {
        for place in 0..10 {
            let owed = match (place, byte) {
                (place, byte) if byte == sheet[13 + place] => (42, 0),
                (0 | 1 | 2 | 4..=8, b'0'..=b'9') | (8, b'\r') => (42, 0),
                (6 | 8, b'\n') => (52, 3),
                _ => (52, 2),
            };
            assert_eq!(replaced(sheet, 13 + place, byte), owed, "{place} {byte}");
        }
        for place in 0..=10 {
            let owed = match (place, byte) {
                (1 | 2 | 3 | 5..=9, b'0'..=b'9') | (9, b'\r') => (42, 0),
                (6 | 8 | 9, b'\n') | (10, _) => (52, 3),
                _ => (52, 2),
            };
            assert_eq!(inserted(sheet, 13 + place, byte), owed, "{place} {byte}");
        }
    }
    for place in 0..10 {
        let bad = [3, 5, 9].contains(&place);
        let owed = if bad { (52, 2) } else { (42, 0) };
        assert_eq!(removed(sheet, 13 + place), owed);
    }
}

/// Lines with their ends, and the graph that they owe.
fn some_sheet(dice: &mut Dice) -> (Vec<String>, G) {
    let serial: String = (0..=dice.roll(32))
        .map(|_| ["L", "x", "7", "-", ",", " ", "\0", "\x7f", "\""][dice.roll(9)])
        .collect();
    let serial: &'static str = Box::leak(serial.into_boxed_str());
    let (year, month, day) = (1 + dice.roll(9_999), 1 + dice.roll(12), 1 + dice.roll(28));
    let mut lines = vec![format!("{serial};{year:04}-{month:02}-{day:02}")];
    let mut angles = Vec::new();
    let count = [dice.roll(8), dice.roll(181), 180][[0, 0, 0, 1, 1, 2][dice.roll(6)]];
    for _ in 0..count {
        let minus = ["", "", "-"];
        let count = 1 + dice.roll(3);
        let degrees = format!("{}{}", minus[dice.roll(3)], some_digits(dice, count));
        let count = 1 + dice.roll(6);
        let mut coefficient = format!("{}{}", minus[dice.roll(3)], some_digits(dice, count));
        let count = dice.roll(7);
        if count > 0 {
            coefficient += &format!(",{}", some_digits(dice, count));
        }
        lines.push(format!("{degrees};{coefficient}"));
        angles.push((degrees.parse().unwrap(), coefficient_by_std(&coefficient)));
    }
    for line in &mut lines {
        *line += ["\n", "\r\n"][dice.roll(2)];
    }
    let date = year * 10_000 + month * 100 + day;
    (lines, owed(serial, date as u32, &angles))
}

#[test]
fn random_sheets_give_the_graphs_they_owe() {
    let mut dice = Dice(0x2545_f491_4f6c_dd1d);
    let s = bench_schema();
    let mut wide = bench_schema();
    wide.edges[1].target_interval = (0, ANY);
    for _ in 0..2_000 {
        let (lines, owed) = some_sheet(&mut dice);
        let file = file(lines.concat());
        assert_eq!(file, owed.bytes());
        assert_eq!(second::answer(&file, &wide.bytes()), [0, 0, 0, 0, 0]);
        let fits = [2, 3].contains(&(lines.len() - 1));
        assert_eq!(second::answer(&file, &s.bytes())[0] == 0, fits);
    }
}

/// A damaged line, still one line; the last one may lose its LF.
fn damaged(dice: &mut Dice, line: &str, last: bool) -> String {
    match dice.roll(if last { 6 } else { 5 }) {
        0 => line.replace(';', ""),
        1 => line.replace(';', ";;"),
        2 => format!("0;{line}"),
        3 => line.replace('\n', "\r\r\n"),
        4 => "\n".to_string(),
        _ => line.replace('\n', ""),
    }
}

#[test]
fn the_lowest_line_at_fault_in_random_sheets() {
    let mut dice = Dice(0x9e37_79b9_7f4a_7c15);
    for _ in 0..2_000 {
        let (mut lines, _) = some_sheet(&mut dice);
        // Twice on one line, a damage might mend another.
        let places: BTreeSet<usize> = (0..=dice.roll(3)).map(|_| dice.roll(lines.len())).collect();
        for place in &places {
            let last = *place == lines.len() - 1;
            lines[*place] = damaged(&mut dice, &lines[*place], last);
        }
        let owed = match places.iter().next() {
            Some(0) => (51, 1),
            Some(later) => (52, *later as u32 + 1),
            None => unreachable!(),
        };
        assert_eq!(refused(lines.concat()), owed, "{lines:?}");
    }
}
