//! "Two benches, one graph": the joiner of two graph files.
mod common;
use common::*;
use second::{check_all, find_tables, graph, join_graphs};

const FILL: u8 = 0xa5;

/// What joining these files returns, into outputs short and long: every byte
/// beyond the file is kept, and with a refusal every byte.
fn outcome(first: &[u8], second: &[u8]) -> ((u32, u32), Vec<u8>) {
    let long = first.len() + second.len() + 60;
    let mut out = vec![FILL; long];
    let (code, number) = join_graphs(first, second, &mut out);
    let length = if code == 0 { number as usize } else { 0 };
    assert_eq!(out[length..], vec![FILL; long - length]);
    out.truncate(length);
    for more in [0, 1, 27, 28] {
        let mut longer = vec![FILL; length + more];
        let answer = join_graphs(first, second, &mut longer);
        assert!(code == 0 || answer == (code, number));
        assert!(code != 0 || answer == (0, length as u32));
        assert_eq!(longer[..length], out);
        assert_eq!(longer[length..], vec![FILL; more]);
    }
    ((code, number), out)
}

fn joined(first: &G, second: &G) -> Vec<u8> {
    let ((code, number), file) = outcome(&first.bytes(), &second.bytes());
    assert_eq!((code, number as usize), (0, file.len()));
    file
}

fn refusal(first: &[u8], second: &[u8]) -> (u32, u32) {
    let (answer, file) = outcome(first, second);
    assert!(answer.0 != 0 && file.is_empty());
    // Whatever the output is, 42 comes last.
    for length in [0, 1, 27, 28] {
        let mut out = vec![FILL; length];
        assert_eq!(join_graphs(first, second, &mut out), answer);
        assert_eq!(out, vec![FILL; length]);
    }
    answer
}

/// The numbers of one width at this offset of each row.
fn column(file: &[u8], table: usize, at: usize, width: usize) -> Vec<u64> {
    let found = find_tables(file);
    let (start, rows) = (found[2 + 2 * table] as usize, found[3 + 2 * table]);
    let size = [16, 24, 16][table];
    let number = |row: usize| {
        let from = start + row * size + at;
        let bytes = file[from..from + width].iter().rev();
        bytes.fold(0, |number, byte| (number << 8) | u64::from(*byte))
    };
    (0..rows as usize).map(number).collect()
}

fn text_of(file: &[u8]) -> &[u8] {
    let found = find_tables(file);
    &file[found[8] as usize..][..found[9] as usize]
}

/// Every kind of value, on nodes and on edges; two nodes, two edges.
fn every_kind() -> G {
    let values = [
        (0, V::Bool(true)),
        (1, V::Int(3)),
        (2, V::Real(-0.0)),
        (3, V::Date(20000229)),
        (4, V::Text("")),
        (5, V::Text("lamp")),
    ];
    let mut g = G {
        nodes: vec![obj(1, &values), obj(2, &values[4..])],
        edges: vec![edge(1, 0, 1), edge(0, 0, 2)],
        labels: 2,
        names: 6,
        preface: Vec::new(),
    };
    g.edges[0].o.props = vec![(0, V::Int(0)), (5, V::Text("at"))];
    g.edges[1].o.props = values[1..].to_vec();
    g
}

/// The file of the next test, number by number with its bytes.
#[rustfmt::skip]
const IN_FULL: [(u64, usize); 41] = [
    // the nodes
    (1, 8), (0, 4), (1, 4),
    (4, 8), (1, 4), (1, 4),
    (0, 8), (2, 4), (0, 4),
    // the edges; the second's from 1 + 1 to 1 + 0
    (2, 8), (0, 4), (0, 4), (2, 4), (0, 4),
    (0, 8), (2, 4), (1, 4), (2, 4), (1, 4),
    // the property rows: the Integer stays 1, the offset 0 becomes 2
    (0, 2), (5, 2), (2, 4), (0, 8),
    (2, 2), (2, 2), (0, 4), (1, 8),
    (0, 2), (5, 2), (1, 4), (2, 8),
    // the text
    (0x61, 1), (0x62, 1), (0x63, 1),
    // the trailer; the label count is the second's, and so is the name count
    (3, 4), (2, 4), (3, 4), (3, 4), (3, 2), (3, 2), (147, 4),
];

#[test]
fn one_file_in_full() {
    let first = G {
        nodes: vec![obj(1, &[(0, V::Text("ab"))])],
        edges: vec![edge(0, 0, 2)],
        labels: 2,
        names: 1,
        preface: b"before".to_vec(),
    };
    let mut second = G {
        nodes: vec![obj(4, &[(2, V::Int(1))]), obj(0, &[])],
        edges: vec![edge(1, 0, 0)],
        labels: 3,
        names: 3,
        preface: vec![9; 30],
    };
    second.edges[0].o.props = vec![(0, V::Text("c"))];
    let mut owed = Vec::new();
    for (number, width) in IN_FULL {
        owed.extend(&number.to_le_bytes()[..width]);
    }
    owed.extend(b"GPH1");
    assert_eq!(joined(&first, &second), owed);
}

#[test]
fn the_values_of_both() {
    let all = [bench_graph(), every_kind(), G::default()];
    for (a, b) in all.iter().flat_map(|a| all.iter().map(move |b| (a, b))) {
        let file = joined(a, b);
        let (a_bytes, b_bytes) = (a.bytes(), b.bytes());
        let mut owed = graph::decode(&a_bytes).unwrap();
        let mut moved = graph::decode(&b_bytes).unwrap();
        for edge in &mut moved.edges {
            edge.source += a.nodes.len();
            edge.target += a.nodes.len();
        }
        owed.nodes.extend(moved.nodes);
        owed.edges.extend(moved.edges);
        assert_eq!(graph::decode(&file).unwrap(), owed);
        assert_eq!(
            text_of(&file),
            [text_of(&a_bytes), text_of(&b_bytes)].concat()
        );
        let counts = find_tables(&file)[10..].to_vec();
        let greater = [a.labels.max(b.labels), a.names.max(b.names)];
        assert_eq!(counts, greater.map(u32::from));
    }
}

#[test]
fn runs_in_the_order_of_the_new_rows() {
    let file = joined(&every_kind(), &every_kind());
    assert_eq!(column(&file, 0, 8, 4), [0, 6, 8, 14]);
    assert_eq!(column(&file, 0, 12, 4), [6, 2, 6, 2]);
    assert_eq!(column(&file, 1, 16, 4), [16, 18, 23, 25]);
    assert_eq!(column(&file, 1, 20, 4), [2, 5, 2, 5]);
    assert_eq!(column(&file, 1, 8, 4), [1, 0, 3, 2]);
    assert_eq!(column(&file, 1, 12, 4), [0, 0, 2, 2]);
}

#[test]
fn offsets_of_texts_alone_are_moved() {
    let file = joined(&every_kind(), &every_kind());
    let (kinds, values) = (column(&file, 2, 2, 1), column(&file, 2, 8, 8));
    let texts = |rows: std::ops::Range<usize>| -> Vec<u64> {
        let those = rows.filter(|row| kinds[*row] == 5);
        those.map(|row| values[row]).collect()
    };
    // Two nodes, then two edges: "", lamp; "", lamp; at; "", lamp: 14 bytes.
    assert_eq!(texts(0..8), [0, 0, 4, 4]);
    assert_eq!(texts(16..23), [8, 10, 10]);
    assert_eq!(texts(8..16), [14, 14, 18, 18]);
    assert_eq!(texts(23..30), [22, 24, 24]);
    // The Integers 3 and 0 are no offsets.
    assert_eq!((values[1], values[9], values[16], values[23]), (3, 3, 0, 0));
    assert_eq!(find_tables(&file)[9], 28);
}

#[test]
fn parts_that_overlap_and_text_that_no_row_names() {
    let g = G {
        nodes: vec![obj(
            0,
            &[
                (0, V::Text("abcdef")),
                (1, V::Text("xyz")),
                (2, V::Text("")),
            ],
        )],
        names: 3,
        ..G::default()
    };
    let mut bytes = g.bytes();
    // Row 0 names nothing, row 1 the bytes 2 to 8, row 2 none from the end on.
    put(&mut bytes, 16 + 4, 4, 0);
    put(&mut bytes, 16 + 8, 8, 9);
    put(&mut bytes, 32 + 4, 4, 6);
    put(&mut bytes, 32 + 8, 8, 2);
    put(&mut bytes, 48 + 8, 8, 9);
    let ((code, _), file) = outcome(&bytes, &bytes);
    assert_eq!(code, 0);
    assert_eq!(column(&file, 2, 8, 8), [9, 2, 9, 18, 11, 18]);
    assert_eq!(column(&file, 2, 4, 4), [0, 6, 0, 0, 6, 0]);
    assert_eq!(text_of(&file), b"abcdefxyzabcdefxyz");
    // "parts may overlap": the other way round, beside a file of the same text.
    let ((_, _), file) = outcome(&g.bytes(), &bytes);
    assert_eq!(column(&file, 2, 8, 8), [0, 6, 9, 18, 11, 18]);
}

#[test]
fn with_an_empty_graph() {
    for counts in [(0, 0), (64, 256), (1, 256), (64, 3)] {
        let empty = G {
            labels: counts.0,
            names: counts.1,
            preface: vec![7; 5],
            ..G::default()
        };
        for mut g in [bench_graph(), every_kind(), G::default()] {
            g.preface = b"GPH1".to_vec();
            let both = [joined(&g, &empty), joined(&empty, &g)];
            g.preface.clear();
            g.labels = g.labels.max(counts.0);
            g.names = g.names.max(counts.1);
            assert_eq!(both, [g.bytes(), g.bytes()]);
        }
    }
}

#[test]
fn three_graphs_in_either_order() {
    let all = [bench_graph(), every_kind(), G::default()].map(|g| g.bytes());
    let join = |a: &[u8], b: &[u8]| outcome(a, b).1;
    for a in &all {
        for b in &all {
            for c in &all {
                assert_eq!(join(&join(a, b), c), join(a, &join(b, c)));
            }
        }
    }
}

#[test]
fn outputs_shorter() {
    let (a, b) = (every_kind().bytes(), bench_graph().bytes());
    let length = a.len() + b.len() - 28;
    assert_eq!(outcome(&a, &b).0, (0, length as u32));
    for short in 0..length {
        let mut out = vec![FILL; short];
        assert_eq!(join_graphs(&a, &b, &mut out), (42, 0));
        assert_eq!(out, vec![FILL; short]);
    }
}

/// One file for each of the codes 2 to 8.
fn refused() -> Vec<(u32, Vec<u8>)> {
    let good = every_kind().bytes();
    let end = good.len();
    let with = |at: usize, width: usize, number: u64| {
        let mut bytes = good.clone();
        put(&mut bytes, at, width, number);
        bytes
    };
    let rows_at = find_tables(&good)[6] as usize;
    vec![
        (2, good[..27].to_vec()),
        (2, Vec::new()),
        (3, with(end - 1, 1, 0x32)),
        (4, with(end - 28, 4, 1_025)),
        (5, with(end - 8, 4, 1)),
        (6, with(16 + 8, 4, 5)),
        (7, with(32 + 24 + 8, 4, 2)),
        (8, with(rows_at + 16 + 3, 1, 1)),
    ]
}

#[test]
fn which_file_is_refused() {
    let good = bench_graph().bytes();
    for (code, bad) in refused() {
        // The place of 6 to 8 doesn't come back.
        assert_eq!(second::answer(&bad, &[])[0], code);
        assert_eq!(refusal(&bad, &good), (code, 0));
        assert_eq!(refusal(&good, &bad), (code, 1));
        for (_, other) in refused() {
            assert_eq!(refusal(&bad, &other), (code, 0));
        }
    }
}

/// Graphs of so many nodes, edges, property rows and text bytes.
fn of_counts(nodes: usize, edges: usize, rows: usize, text: usize) -> Vec<u8> {
    let mut g = G {
        nodes: vec![obj(0, &[]); nodes],
        edges: vec![edge(0, 0, 0); edges],
        names: 256,
        ..G::default()
    };
    for row in 0..rows {
        g.nodes[row / 256]
            .props
            .push(((row % 256) as u16, V::Bool(true)));
    }
    let mut bytes = g.bytes();
    let trailer = bytes.split_off(bytes.len() - 28);
    bytes.extend(vec![b'x'; text]);
    let back = bytes.len() as u64;
    bytes.extend(trailer);
    let end = bytes.len();
    put(&mut bytes, end - 16, 4, text as u64);
    put(&mut bytes, end - 8, 4, back);
    bytes
}

#[test]
fn counts_at_their_ceilings_and_above() {
    let ceilings = [1_024, 4_096, 16_384, 262_144];
    let few = [70, 3, 5, 7];
    for (at, ceiling) in ceilings.into_iter().enumerate() {
        for part in [1, ceiling / 2, ceiling - 70] {
            let of = |number: usize| {
                let mut counts = few;
                counts[at] = number;
                counts[0] = counts[0].max(70);
                of_counts(counts[0], counts[1], counts[2], counts[3])
            };
            let part = if at == 0 { part.max(70) } else { part };
            let (first, second) = (of(part), of(ceiling - part));
            let ((code, number), file) = outcome(&first, &second);
            assert_eq!((code, number as usize), (0, file.len()));
            assert_eq!(find_tables(&file)[3 + 2 * at] as usize, ceiling);
            assert_eq!(refusal(&of(part + 1), &second), (44, 0));
            assert_eq!(refusal(&first, &of(ceiling - part + 1)), (44, 0));
        }
    }
    // The refusals of a file come before 44: a second of too many nodes is 4.
    let many = of_counts(1_024, 0, 0, 0);
    assert_eq!(refusal(&many, &of_counts(1_025, 0, 0, 0)), (4, 1));
    assert_eq!(refusal(&of_counts(1_025, 0, 0, 0), &many), (4, 0));
    for (code, bad) in refused() {
        assert_eq!(refusal(&many, &bad), (code, 1));
        assert_eq!(refusal(&bad, &many), (code, 0));
    }
    assert_eq!(refusal(&many, &many), (44, 0));
}

#[test]
fn labels_and_names_are_never_too_many() {
    let mut g = every_kind();
    (g.labels, g.names) = (64, 256);
    assert_eq!(find_tables(&joined(&g, &g))[10..], [64, 256]);
    assert_eq!(find_tables(&joined(&g, &every_kind()))[10..], [64, 256]);
    assert_eq!(find_tables(&joined(&every_kind(), &g))[10..], [64, 256]);
    let mut other = every_kind();
    (g.labels, g.names) = (3, 200);
    (other.labels, other.names) = (40, 6);
    assert_eq!(find_tables(&joined(&g, &other))[10..], [40, 200]);
    assert_eq!(find_tables(&joined(&other, &g))[10..], [40, 200]);
}

type Record = [u32; 5];

fn violations(file: &[u8], s: &S) -> Vec<Record> {
    let schema = s.bytes();
    let [code, _, total] = check_all(file, &schema, &mut []);
    assert_eq!(code, 0);
    let mut list = vec![[0; 5]; total as usize];
    check_all(file, &schema, &mut list);
    list
}

/// The two lists put together "in 01's order", the second's places moved.
fn put_together(a: &G, b: &G, s: &S) -> Vec<Record> {
    let mut all = violations(&a.bytes(), s);
    for mut record in violations(&b.bytes(), s) {
        let edge = (23..26).contains(&record[0]);
        let moved = if edge { a.edges.len() } else { a.nodes.len() };
        record[1] += moved as u32;
        all.push(record);
    }
    let rule = |code: u32| {
        [(22, 1), (25, 2), (32, 3), (34, 4)]
            .into_iter()
            .find(|(last, _)| code <= *last)
    };
    all.sort_by_key(
        |[code, place, schema_place, ..]| match rule(*code).unwrap().1 {
            by_object @ (1 | 2) => (by_object, 0, *place),
            by_schema_edge => (by_schema_edge, *schema_place, *place),
        },
    );
    all
}

/// Two benches: graphs that conform, and graphs with faults of each rule.
fn benches() -> Vec<G> {
    let mut all = vec![bench_graph(); 6];
    all[1].nodes[2].labels = SENSOR | ANGLE;
    all[2].nodes[3].props.pop();
    all[3].edges[1] = edge(2, 1, AT);
    all[3].edges.push(edge(1, 0, OF | AT));
    all[4].edges.push(edge(1, 3, AT));
    all[4].edges.push(edge(1, 0, OF));
    all[5].edges.clear();
    all.push(G::default());
    all
}

#[test]
fn it_conforms_exactly_if_both_do() {
    let s = bench_schema();
    let mut seen = std::collections::BTreeSet::new();
    for a in &benches() {
        for b in &benches() {
            let file = joined(a, b);
            let all = violations(&file, &s);
            assert_eq!(all, put_together(a, b, &s));
            let conform = [answer(a, &s), answer(b, &s)].map(|told| told[0] == 0);
            let told = second::answer(&file, &s.bytes());
            assert_eq!(told[0] == 0, conform == [true, true]);
            assert_eq!(told, all.first().copied().unwrap_or([0; 5]));
            seen.extend(all.iter().map(|record| record[0]));
        }
    }
    let codes = [21, 22, 23, 25, 31, 32, 33, 34];
    assert!(codes.iter().all(|code| seen.contains(code)), "{seen:?}");
}

#[test]
fn noise_in_either_file() {
    let mut dice = Dice(0x0007_0007);
    let good = [bench_graph().bytes(), every_kind().bytes()];
    let numbers = [0, 1, 2, 4, 5, 16, 64, 0x7f, 0x80, 0xff];
    let mut seen = std::collections::BTreeMap::new();
    for _ in 0..30_000 {
        let mut files = [good[dice.roll(2)].clone(), good[dice.roll(2)].clone()];
        for _ in 0..dice.roll(3) {
            let file = &mut files[dice.roll(2)];
            let at = dice.roll(file.len());
            file[at] = numbers[dice.roll(numbers.len())];
        }
        let codes = [0, 1].map(|at: usize| find_tables(&files[at])[0]);
        let owed = match codes {
            [0, 0] => (0, (files[0].len() + files[1].len() - 28) as u32),
            [0, code] => (code, 1),
            [code, _] => (code, 0),
        };
        let (answer, file) = outcome(&files[0], &files[1]);
        assert_eq!(answer, owed);
        assert!(answer.0 != 0 || find_tables(&file)[0] == 0);
        *seen
            .entry((answer.0, answer.0 != 0 && answer.1 == 1))
            .or_insert(0) += 1;
    }
    for code in 3..9 {
        for which in [false, true] {
            assert!(seen[&(code, which)] > 20, "{code} seldom given: {seen:?}");
        }
    }
}
