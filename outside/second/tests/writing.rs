//! "Write graph files, too", and where the tables of a graph file lie.
mod common;
use common::*;
use second::{find_tables, graph, write_graph};

/// What the writer is lent.
#[derive(Clone, Debug, Default)]
struct Lent {
    nodes: Vec<u8>,
    edges: Vec<u8>,
    rows: Vec<u8>,
    text: Vec<u8>,
    labels: u32,
    names: u32,
}

const FILL: u8 = 0xa5;

impl Lent {
    /// The tables of these values, cut out of the tests' own encoding.
    fn of(g: &G) -> Lent {
        let objects = g.nodes.iter().chain(g.edges.iter().map(|edge| &edge.o));
        let rows: usize = objects.map(|object| object.props.len()).sum();
        let mut nodes = g.bytes().split_off(g.preface.len());
        let mut edges = nodes.split_off(16 * g.nodes.len());
        let mut rest = edges.split_off(24 * g.edges.len());
        let mut text = rest.split_off(16 * rows);
        text.truncate(text.len() - 28);
        Lent {
            nodes,
            edges,
            rows: rest,
            text,
            labels: u32::from(g.labels),
            names: u32::from(g.names),
        }
    }

    /// The tables of an accepted file, from where they are said to lie.
    fn found(file: &[u8]) -> Lent {
        let [code, place, nodes_at, nodes, edges_at, edges, rows_at, rows, text_at, text, labels, names] =
            find_tables(file);
        assert_eq!((code, place), (0, 0));
        let cut = |at: u32, count: u32, size: usize| {
            let at = at as usize;
            file[at..at + count as usize * size].to_vec()
        };
        Lent {
            nodes: cut(nodes_at, nodes, 16),
            edges: cut(edges_at, edges, 24),
            rows: cut(rows_at, rows, 16),
            text: cut(text_at, text, 1),
            labels,
            names,
        }
    }

    fn write(&self, out: &mut [u8]) -> (u32, u32) {
        let Lent {
            nodes,
            edges,
            rows,
            text,
            ..
        } = self;
        write_graph(nodes, edges, rows, text, self.labels, self.names, out)
    }

    /// All bytes of the tables and a trailer: what the file's length has to be.
    fn length(&self) -> usize {
        self.nodes.len() + self.edges.len() + self.rows.len() + self.text.len() + 28
    }

    /// The file written for tables that are accepted.
    fn file(&self) -> Vec<u8> {
        let length = self.length();
        let mut out = vec![FILL; length + 5];
        assert_eq!(self.write(&mut out), (0, length as u32));
        assert_eq!(out[length..], [FILL; 5]);
        out.truncate(length);
        out
    }

    /// Whether this is refused with 41; if so, into an output of any length, the
    /// short ones of 42 among them, and nothing is written.
    fn refused(&self) -> bool {
        let mut answers = Vec::new();
        for length in [self.length(), 0, 27, self.length() - 1, self.length() + 40] {
            let mut out = vec![FILL; length];
            let answer = self.write(&mut out);
            assert!(answer.0 == 0 || out.iter().all(|byte| *byte == FILL));
            answers.push(answer);
        }
        let refused = answers[0] != (0, self.length() as u32);
        assert!(!refused || answers.iter().all(|answer| *answer == (41, 0)));
        refused
    }
}

/// Every kind of value, on nodes and on edges, and runs of 0, 1 and more rows.
fn every_kind() -> G {
    let values = [
        (0, V::Bool(true)),
        (7, V::Int(i64::MIN)),
        (8, V::Real(-0.0)),
        (200, V::Date(20000229)),
        (254, V::Text("")),
        (255, V::Text("lamp")),
    ];
    let mut g = G {
        nodes: vec![obj(1 << 63, &values), obj(0, &[]), obj(u64::MAX, &[])],
        edges: vec![edge(2, 0, 5), edge(1, 1, 0), edge(0, 2, 1 << 40)],
        labels: 64,
        names: 256,
        preface: Vec::new(),
    };
    g.edges[1].o.props = values[1..].to_vec();
    g.edges[2].o.props = vec![(3, V::Text("bench")), (4, V::Bool(false))];
    g
}

/// 1,024 nodes, 4,096 edges, 16,384 rows, 262,144 text bytes, 64 labels and 256
/// names: the nodes have 16 rows each, and every row names all the text.
fn at_the_ceilings() -> Lent {
    let props: Vec<(u16, V)> = (0..16).map(|name| (16 * name + 15, V::Text(""))).collect();
    let g = G {
        nodes: vec![obj(1 << 63, &props); 1_024],
        edges: vec![edge(1_023, 1_023, 1 << 63); 4_096],
        labels: 64,
        names: 256,
        preface: Vec::new(),
    };
    let mut lent = Lent::of(&g);
    lent.text = vec![b'x'; 262_144];
    for row in lent.rows.chunks_exact_mut(16) {
        put(row, 4, 4, 262_144);
    }
    lent
}

#[test]
fn what_was_written_reads_the_same() {
    for g in [bench_graph(), every_kind(), G::default()] {
        let file = Lent::of(&g).file();
        assert_eq!(file, g.bytes());
        assert_eq!(second::answer(&file, &[]), [9, 0, 0, 0, 0]);
        let read = graph::decode(&file).unwrap();
        assert_eq!(read, graph::decode(&g.bytes()).unwrap());
        assert_eq!(read.nodes.len(), g.nodes.len());
        for (edge, lent) in read.edges.iter().zip(&g.edges) {
            assert_eq!(edge.object.labels, lent.o.labels);
            assert_eq!(edge.object.properties.len(), lent.o.props.len());
            assert_eq!(
                (edge.source, edge.target),
                (lent.source as usize, lent.target as usize)
            );
        }
    }
    let (file, s) = (Lent::of(&bench_graph()).file(), bench_schema().bytes());
    assert_eq!(second::answer(&file, &s), [0, 0, 0, 0, 0]);
}

#[test]
fn an_accepted_file_written_again() {
    for mut g in [bench_graph(), every_kind(), G::default()] {
        let bare = g.bytes();
        for preface in [&b""[..], b"x", b"any bytes GPH1", &[0; 1_000]] {
            g.preface = preface.to_vec();
            let file = g.bytes();
            let again = Lent::found(&file).file();
            assert_eq!(again, bare);
            assert_eq!(graph::decode(&again), graph::decode(&file));
        }
    }
}

#[test]
fn text_that_no_row_names_and_parts_that_overlap() {
    let mut lent = Lent::of(&every_kind());
    lent.text.extend(b"named nowhere");
    let file = lent.file();
    assert_eq!(Lent::found(&file).text, lent.text);
    // Row 5 names all the text, row 4 none of it, from its end on.
    let all = lent.text.len() as u64;
    put(&mut lent.rows, 16 * 5 + 4, 4, all);
    put(&mut lent.rows, 16 * 5 + 8, 8, 0);
    put(&mut lent.rows, 16 * 4 + 8, 8, all);
    let file = lent.file();
    let again = Lent::found(&file).file();
    assert_eq!(again, file);
    assert_ne!(graph::decode(&file), graph::decode(&every_kind().bytes()));
}

#[test]
fn the_empty_graph() {
    let empty = [&[0; 24][..], b"GPH1"].concat();
    assert_eq!(Lent::default().file(), empty);
    let lent = Lent {
        labels: 64,
        names: 256,
        ..Lent::default()
    };
    let counts = [0x40, 0, 0, 1, 0, 0, 0, 0];
    assert_eq!(lent.file(), [&[0; 16][..], &counts, b"GPH1"].concat());
    let mut short = [FILL; 27];
    assert_eq!(lent.write(&mut short), (42, 0));
    assert_eq!(short, [FILL; 27]);
}

#[test]
fn one_file_in_full() {
    // "The graph is 16 zero bytes, then 01, fifteen bytes 00, four bytes 00,
    // then 10 00 00 00 47 50 48 31."
    let lent = Lent {
        nodes: vec![0; 16],
        ..Lent::default()
    };
    let file = [&[0; 16][..], &[1], &[0; 19], &[16, 0, 0, 0], b"GPH1"].concat();
    assert_eq!(lent.file(), file);
}

#[test]
fn outputs_shorter_and_longer() {
    let lent = Lent::of(&every_kind());
    let file = every_kind().bytes();
    for length in 0..file.len() {
        let mut out = vec![FILL; length];
        assert_eq!(lent.write(&mut out), (42, 0));
        assert_eq!(out, vec![FILL; length]);
    }
    for more in [0, 1, 27, 28, 5_000] {
        let mut out = vec![FILL; file.len() + more];
        assert_eq!(lent.write(&mut out), (0, file.len() as u32));
        assert_eq!(out[..file.len()], file);
        assert_eq!(out[file.len()..], vec![FILL; more]);
    }
}

#[test]
fn tables_that_are_not_whole_rows() {
    for lent in [Lent::of(&every_kind()), Lent::default()] {
        assert!(!lent.refused());
        let with = |change: &dyn Fn(&mut Lent)| {
            let mut lent = lent.clone();
            change(&mut lent);
            lent.refused()
        };
        for more in 1..16 {
            assert!(with(&|lent| lent.nodes.extend(vec![0; more])));
            assert!(with(&|lent| lent.rows.extend(vec![0; more])));
        }
        for more in 1..24 {
            assert!(with(&|lent| lent.edges.extend(vec![0; more])));
        }
        // Text bytes are no rows.
        for more in 1..24 {
            assert!(!with(&|lent| lent.text.extend(vec![0; more])));
        }
    }
    // Parts of rows that would come to a whole row, or to none too many.
    let lent = Lent {
        nodes: vec![0; 8],
        rows: vec![0; 8],
        ..Lent::default()
    };
    assert!(lent.refused());
    let mut lent = Lent::of(&every_kind());
    lent.nodes.truncate(24);
    lent.edges.truncate(16);
    assert!(lent.refused());
}

#[test]
fn counts_at_their_ceilings() {
    let lent = at_the_ceilings();
    let file = lent.file();
    assert_eq!(file.len(), 639_004);
    assert_eq!(second::answer(&file, &[]), [9, 0, 0, 0, 0]);
    assert_eq!(Lent::found(&file).file(), file);
    let found = [
        0, 0, 0, 1_024, 16_384, 4_096, 114_688, 16_384, 376_832, 262_144, 64, 256,
    ];
    assert_eq!(find_tables(&file), found);
    let mut short = vec![FILL; 639_003];
    assert_eq!(lent.write(&mut short), (42, 0));
    assert_eq!(short, vec![FILL; 639_003]);
}

#[test]
fn tables_above_their_ceilings() {
    // All right but for the one row or byte too many.
    let mut node = obj(1, &[]);
    let mut g = G {
        nodes: vec![node.clone(); 1_024],
        edges: vec![edge(0, 1_023, 1); 4_096],
        labels: 1,
        ..G::default()
    };
    assert!(!Lent::of(&g).refused());
    g.nodes.push(node.clone());
    assert!(Lent::of(&g).refused());
    g.nodes.pop();
    g.edges.push(edge(0, 0, 1));
    assert!(Lent::of(&g).refused());

    g.edges.clear();
    g.names = 256;
    node.props = (0..256).map(|name| (name, V::Bool(true))).collect();
    g.nodes = vec![node; 64];
    assert!(!Lent::of(&g).refused());
    g.nodes.push(obj(1, &[(0, V::Bool(true))]));
    assert!(Lent::of(&g).refused());

    let mut lent = Lent {
        text: vec![0; 262_144],
        ..Lent::default()
    };
    assert!(!lent.refused());
    lent.text.push(0);
    assert!(lent.refused());
    // Sixteen times as many rows as 16 bits can count.
    let lent = Lent {
        nodes: vec![0; 16 << 20],
        ..Lent::default()
    };
    assert!(lent.refused());
}

#[test]
fn label_and_name_counts_above_their_ceilings() {
    let mut lent = Lent::of(&every_kind());
    for labels in [65, 66, 255, 256, 320, 65_535, u32::MAX] {
        lent.labels = labels;
        assert!(lent.refused());
    }
    lent.labels = 64;
    for names in [257, 258, 512, 65_535, u32::MAX] {
        lent.names = names;
        assert!(lent.refused());
    }
    lent.names = 256;
    assert!(!lent.refused());
    // Nothing wraps into the 16 bits of the field.
    let mut lent = Lent::of(&bench_graph());
    for wrapped in [0, 3, 5, 64] {
        for high in [1 << 16, 1 << 17, 1 << 24, 1 << 31] {
            lent.labels = high + wrapped;
            assert!(lent.refused());
            lent.labels = 5;
            lent.names = high + wrapped;
            assert!(lent.refused());
            lent.names = 5;
        }
    }
    assert!(!lent.refused());
    // The counts may be lower than the ceilings, but not than labels and names.
    lent.labels = 4;
    assert!(lent.refused());
    lent.labels = 5;
    lent.names = 4;
    assert!(lent.refused());
}

/// (offset, width, number)
type Puts<'a> = &'a [(usize, usize, u64)];

/// Whether the bench graph's tables are refused once these numbers are put over
/// its node rows, edge rows and property rows.
fn bad(nodes: Puts, edges: Puts, rows: Puts) -> bool {
    let mut lent = Lent::of(&bench_graph());
    let tables = [
        (&mut lent.nodes, nodes),
        (&mut lent.edges, edges),
        (&mut lent.rows, rows),
    ];
    for (table, puts) in tables {
        for (at, width, number) in puts {
            put(table, *at, *width, *number);
        }
    }
    lent.refused()
}

#[test]
fn bad_node_rows() {
    assert!(!bad(&[], &[], &[]));
    for row in [0, 16, 32, 48] {
        let bad = |at: usize, width, number| bad(&[(row + at, width, number)], &[], &[]);
        assert!(bad(0, 8, 1 << 5) && bad(0, 8, 1 << 63) && bad(0, 8, u64::MAX));
        assert!(!bad(0, 8, 0) && !bad(0, 8, 31));
        assert!(bad(8, 4, 5) && bad(8, 4, 0xffff_ffff));
        assert!(bad(12, 4, 0) && bad(12, 4, 3) && bad(12, 4, 7));
        assert!(bad(12, 4, 0xffff_ffff));
    }
    // "A run of count 0 still gives the current start."
    let mut lent = Lent {
        nodes: vec![0; 32],
        ..Lent::default()
    };
    assert!(!lent.refused());
    put(&mut lent.nodes, 16 + 8, 4, 1);
    assert!(lent.refused());
}

#[test]
fn bad_edge_rows() {
    for row in [0, 24, 48] {
        let bad = |at: usize, width, number| bad(&[], &[(row + at, width, number)], &[]);
        assert!(bad(0, 8, 1 << 5) && bad(0, 8, 1 << 63));
        assert!(!bad(0, 8, 0) && !bad(0, 8, 31));
        for end in [8, 12] {
            assert!(bad(end, 4, 4) && bad(end, 4, 0xffff_ffff));
            assert!(!bad(end, 4, 0) && !bad(end, 4, 3));
        }
        assert!(bad(16, 4, 0) && bad(16, 4, 5) && bad(16, 4, 7));
        assert!(bad(16, 4, 0xffff_ffff));
        assert!(bad(20, 4, 1) && bad(20, 4, 0xffff_ffff));
    }
    // "edge 0's, if there are no nodes": but then no end is below the count.
    let lent = Lent {
        edges: vec![0; 24],
        ..Lent::default()
    };
    assert!(lent.refused());
}

#[test]
fn bad_property_rows() {
    for row in [0, 16, 32, 48, 64, 80] {
        let bad = |at: usize, width, number| bad(&[], &[], &[(row + at, width, number)]);
        assert!(bad(0, 2, 5) && bad(0, 2, 0xffff));
        assert!(bad(2, 1, 0) && bad(2, 1, 6) && bad(2, 1, 255));
        assert!(bad(3, 1, 1) && bad(3, 1, 128));
        assert!(bad(4, 4, 9) && bad(4, 4, 0xffff_ffff));
    }
    // Names in one run are equal or fall; across runs they may.
    assert!(bad(&[], &[], &[(48, 2, 3)]));
    assert!(bad(&[], &[], &[(80, 2, 2)]));
    assert!(!bad(&[], &[], &[(16, 2, 0)]));
    // In no run: the last node's run ends at 5 or 4, and the edges begin there.
    for end in [5, 4] {
        let starts = [0, 24, 48].map(|row| (row + 16, 4, end));
        assert!(bad(&[(60, 4, end - 4)], &starts, &[]));
    }
    // In no run: there is no object at all.
    let mut lent = Lent::of(&bench_graph());
    lent.nodes.clear();
    lent.edges.clear();
    assert!(lent.refused());
}

#[test]
fn bad_values() {
    // The first property row of this kind, length and value; 4 text bytes.
    let bad = |kind, length, value| {
        let bad = bad(&[], &[], &[(2, 1, kind), (4, 4, length), (8, 8, value)]);
        // The reader and the writer are of one mind.
        let mut file = bench_graph().bytes();
        for (at, width, number) in [(2, 1, kind), (4, 4, length), (8, 8, value)] {
            put(&mut file, 136 + at, width, number);
        }
        assert_eq!(bad, find_tables(&file)[0] == 8);
        bad
    };
    assert!(!bad(1, 0, 0) && !bad(1, 0, 1) && bad(1, 0, 2) && bad(1, 1, 0));
    assert!(!bad(2, 0, u64::MAX) && bad(2, 1, 0));
    for float in [0.0, -0.0, f64::MAX, 5e-324] {
        assert!(!bad(3, 0, float.to_bits()) && bad(3, 8, float.to_bits()));
    }
    for float in [f64::INFINITY, f64::NEG_INFINITY, f64::NAN] {
        assert!(bad(3, 0, float.to_bits()));
    }
    assert!(!bad(4, 0, 10_101) && !bad(4, 0, 99_991_231) && !bad(4, 0, 20_000_229));
    assert!(bad(4, 0, 19_000_229) && bad(4, 0, 21_000_229));
    assert!(bad(4, 0, 101) && bad(4, 0, 20_230_229) && bad(4, 0, 100_000_101));
    assert!(bad(4, 0, 20_241_301) && bad(4, 0, 20_240_100) && bad(4, 8, 20_240_101));
    assert!(!bad(5, 4, 0) && !bad(5, 0, 4) && bad(5, 0, 5) && bad(5, 5, 0));
    assert!(bad(5, 1, 4) && bad(5, 1, u64::MAX));
}

#[test]
fn places_of_accepted_files() {
    let mut g = bench_graph();
    let bare = [0, 0, 0, 4, 64, 3, 136, 6, 232, 4, 5, 5];
    assert_eq!(find_tables(&g.bytes()), bare);
    g.preface = b"thirteen more".to_vec();
    let moved = [0, 0, 13, 4, 77, 3, 149, 6, 245, 4, 5, 5];
    assert_eq!(find_tables(&g.bytes()), moved);

    // "An empty table has the offset where it would start."
    let mut g = G::default();
    assert_eq!(find_tables(&g.bytes()), [0; 12]);
    g.preface = vec![7; 100];
    g.labels = 64;
    g.names = 256;
    let empty = [0, 0, 100, 0, 100, 0, 100, 0, 100, 0, 64, 256];
    assert_eq!(find_tables(&g.bytes()), empty);
    g.nodes = vec![obj(0, &[])];
    let node = [0, 0, 100, 1, 116, 0, 116, 0, 116, 0, 64, 256];
    assert_eq!(find_tables(&g.bytes()), node);

    // The longest file: all but the trailer is preface.
    g = G::default();
    g.preface = vec![7; 1_048_576 - 28];
    let at = 1_048_548;
    let longest = [0, 0, at, 0, at, 0, at, 0, at, 0, 0, 0];
    assert_eq!(find_tables(&g.bytes()), longest);
}

/// What is found in the bench graph with these puts, under a preface of 9 bytes.
fn found_with(puts: Puts) -> [u32; 12] {
    let mut g = bench_graph();
    g.preface = b"a preface".to_vec();
    let mut bytes = g.bytes();
    for (at, width, number) in puts {
        put(&mut bytes, 9 + at, *width, *number);
    }
    find_tables(&bytes)
}

#[test]
fn places_of_refused_files() {
    let refused = |code, place| [code, place, 0, 0, 0, 0, 0, 0, 0, 0, 0, 0];
    assert_eq!(find_tables(&[]), refused(2, 0));
    assert_eq!(find_tables(&G::default().bytes()[1..]), refused(2, 0));
    let long = [&[7; 1_048_549][..], &G::default().bytes()].concat();
    assert_eq!(find_tables(&long), refused(2, 0));
    assert_eq!(find_tables(&[0; 28]), refused(3, 0));
    assert_eq!(found_with(&[(236 + 27, 1, 0x32)]), refused(3, 0));
    let above = [
        (0, 4, 1_025),
        (4, 4, 4_097),
        (8, 4, 16_385),
        (12, 4, 262_145),
        (16, 2, 65),
        (18, 2, 257),
    ];
    for (at, width, count) in above {
        assert_eq!(found_with(&[(236 + at, width, count)]), refused(4, 0));
    }
    for back in [0, 235, 237, 245, 0xffff_ffff] {
        assert_eq!(found_with(&[(236 + 20, 4, back)]), refused(5, 0));
    }
    assert_eq!(find_tables(&bench_graph().bytes()[1..]), refused(5, 0));
    for place in 0..4 {
        let row = 16 * place as usize;
        assert_eq!(found_with(&[(row, 8, 32)]), refused(6, place));
    }
    for place in 0..3 {
        let row = 64 + 24 * place as usize;
        assert_eq!(found_with(&[(row + 12, 4, 4)]), refused(7, place));
    }
    for place in 0..6 {
        let row = 136 + 16 * place as usize;
        assert_eq!(found_with(&[(row + 3, 1, 1)]), refused(8, place));
    }
}

/// The tables end to end with a trailer: what the reader is shown in the place
/// of what the writer is lent, for whole rows and counts of 16 bits.
fn end_to_end(lent: &Lent) -> Vec<u8> {
    let mut file = [&lent.nodes[..], &lent.edges, &lent.rows, &lent.text].concat();
    let back = file.len();
    let (nodes, edges) = (lent.nodes.len() / 16, lent.edges.len() / 24);
    for count in [nodes, edges, lent.rows.len() / 16, lent.text.len()] {
        file.extend((count as u32).to_le_bytes());
    }
    file.extend((lent.labels as u16).to_le_bytes());
    file.extend((lent.names as u16).to_le_bytes());
    file.extend((back as u32).to_le_bytes());
    file.extend(b"GPH1");
    file
}

#[test]
fn changed_tables_are_written_just_when_the_reader_takes_them() {
    let mut dice = Dice(0x2545_f491_4f6c_dd1d);
    let lents = [Lent::of(&bench_graph()), Lent::of(&every_kind())];
    let numbers = [0, 1, 2, 3, 4, 5, 16, 64, 0x7f, 0x80, 0xff];
    let mut seen = std::collections::BTreeMap::new();
    for _ in 0..20_000 {
        let mut lent = lents[dice.roll(2)].clone();
        for _ in 0..dice.roll(4) {
            let tables = [
                &mut lent.nodes,
                &mut lent.edges,
                &mut lent.rows,
                &mut lent.text,
            ];
            let table = tables.into_iter().nth(dice.roll(4)).unwrap();
            let at = dice.roll(table.len());
            table[at] = numbers[dice.roll(numbers.len())];
        }
        match dice.roll(16) {
            0 => lent.labels = [0, 4, 65, 65_535][dice.roll(4)],
            1 => lent.names = [0, 4, 257, 65_535][dice.roll(4)],
            2 => drop(lent.rows.drain(..16)),
            3 => lent.edges.truncate(24 * dice.roll(3)),
            4 => lent.text.truncate(dice.roll(5)),
            _ => (),
        }
        let file = end_to_end(&lent);
        let code = find_tables(&file)[0];
        *seen.entry(code).or_insert(0) += 1;
        assert_eq!(lent.refused(), code != 0);
        if code == 0 {
            assert_eq!(lent.file(), file);
        }
    }
    for code in [0, 4, 6, 7, 8] {
        assert!(seen[&code] > 100, "code {code} seldom given: {seen:?}");
    }
    assert_eq!(seen.len(), 5);
}
