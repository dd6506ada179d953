//! "Ceilings and refusals": each code with each of its causes.
mod common;
use common::*;

// Offsets in the bench graph's file: 4 nodes, 3 edges, 6 property rows, 4 text bytes.
const G_NODE: usize = 0;
const G_EDGE: usize = 64;
const G_PROP: usize = 136;
const G_TRAILER: usize = 236;
// Offsets in the bench schema's file: 3 nodes, 2 edges, 5 property rows.
const S_NODE: usize = 0;
const S_EDGE: usize = 48;
const S_PROP: usize = 128;
const S_TRAILER: usize = 148;

/// The bench graph's answer once these (offset, width, number) are put over it,
/// with a schema that is itself refused, so that the order is seen too.
fn graph_with(puts: &[(usize, usize, u64)]) -> [u32; 5] {
    let mut bytes = bench_graph().bytes();
    for (at, width, number) in puts {
        put(&mut bytes, *at, *width, *number);
    }
    second::answer(&bytes, &[])
}

fn schema_with(puts: &[(usize, usize, u64)]) -> [u32; 5] {
    let mut bytes = bench_schema().bytes();
    for (at, width, number) in puts {
        put(&mut bytes, *at, *width, *number);
    }
    second::answer(&bench_graph().bytes(), &bytes)
}

const GOOD_GRAPH: [u32; 5] = [9, 0, 0, 0, 0];

#[test]
fn lengths() {
    let (g, s) = (G::default().bytes(), S::default().bytes());
    assert_eq!((g.len(), s.len()), (28, 20));
    assert_eq!(second::answer(&g, &s), [0, 0, 0, 0, 0]);
    assert_eq!(second::answer(&[], &s), [2, 0, 0, 0, 0]);
    assert_eq!(second::answer(&g[1..], &s), [2, 0, 0, 0, 0]);
    assert_eq!(second::answer(&g, &[]), [9, 0, 0, 0, 0]);
    assert_eq!(second::answer(&g, &s[1..]), [9, 0, 0, 0, 0]);
    let longer = |bytes: &[u8], length: usize| {
        let mut long = vec![7; length - bytes.len()];
        long.extend_from_slice(bytes);
        long
    };
    assert_eq!(second::answer(&longer(&g, 1_048_576), &s), [0, 0, 0, 0, 0]);
    assert_eq!(second::answer(&longer(&g, 1_048_577), &s), [2, 0, 0, 0, 0]);
    assert_eq!(second::answer(&g, &longer(&s, 16_384)), [0, 0, 0, 0, 0]);
    assert_eq!(second::answer(&g, &longer(&s, 16_385)), [9, 0, 0, 0, 0]);
}

#[test]
fn marks() {
    for byte in 0..4 {
        assert_eq!(graph_with(&[(G_TRAILER + 24 + byte, 1, 0)])[0], 3);
        assert_eq!(schema_with(&[(S_TRAILER + 16 + byte, 1, 0)])[0], 10);
    }
    let (g, s) = (bench_graph().bytes(), bench_schema().bytes());
    assert_eq!(second::answer(&s, &g), [3, 0, 0, 0, 0]);
    assert_eq!(second::answer(&g, &g), [10, 0, 0, 0, 0]);
}

#[test]
fn graph_ceilings() {
    // At its ceiling a count is no refusal 4; the body size then differs.
    let counts = [
        (0, 4, 1_024),
        (4, 4, 4_096),
        (8, 4, 16_384),
        (12, 4, 262_144),
    ];
    for (at, width, ceiling) in counts {
        let at = G_TRAILER + at;
        assert_eq!(graph_with(&[(at, width, ceiling)]), [5, 0, 0, 0, 0]);
        assert_eq!(graph_with(&[(at, width, ceiling + 1)]), [4, 0, 0, 0, 0]);
        assert_eq!(graph_with(&[(at, width, 0xffff_ffff)]), [4, 0, 0, 0, 0]);
    }
    for (at, ceiling) in [(16, 64), (18, 256)] {
        let at = G_TRAILER + at;
        assert_eq!(graph_with(&[(at, 2, ceiling)]), GOOD_GRAPH);
        assert_eq!(graph_with(&[(at, 2, ceiling + 1)]), [4, 0, 0, 0, 0]);
        assert_eq!(graph_with(&[(at, 2, 0xffff)]), [4, 0, 0, 0, 0]);
    }
}

#[test]
fn schema_ceilings() {
    for (at, width, ceiling) in [(0, 2, 32), (2, 2, 64), (4, 4, 1_024)] {
        let at = S_TRAILER + at;
        assert_eq!(schema_with(&[(at, width, ceiling)]), [12, 0, 0, 0, 0]);
        assert_eq!(schema_with(&[(at, width, ceiling + 1)]), [11, 0, 0, 0, 0]);
    }
    for (at, ceiling) in [(8, 64), (10, 256)] {
        let at = S_TRAILER + at;
        assert_eq!(schema_with(&[(at, 2, ceiling)]), [0, 0, 0, 0, 0]);
        assert_eq!(schema_with(&[(at, 2, ceiling + 1)]), [11, 0, 0, 0, 0]);
    }
}

#[test]
fn back() {
    let (g, s) = (bench_graph().bytes(), bench_schema().bytes());
    for back in [0, 235, 237, 0xffff_ffff] {
        assert_eq!(graph_with(&[(G_TRAILER + 20, 4, back)]), [5, 0, 0, 0, 0]);
    }
    for back in [0, 147, 149, 0xffff_ffff] {
        assert_eq!(schema_with(&[(S_TRAILER + 12, 4, back)]), [12, 0, 0, 0, 0]);
    }
    // Right by the counts, but more than the bytes before the trailer.
    assert_eq!(second::answer(&g[1..], &s), [5, 0, 0, 0, 0]);
    assert_eq!(second::answer(&g, &s[1..]), [12, 0, 0, 0, 0]);
}

#[test]
fn node_rows() {
    assert_eq!(graph_with(&[]), GOOD_GRAPH);
    for place in 0..4 {
        let row = G_NODE + 16 * place;
        let bad = [6, place as u32, 0, 0, 0];
        assert_eq!(graph_with(&[(row, 8, 1 << 5)]), bad);
        assert_eq!(graph_with(&[(row, 8, 1 << 63)]), bad);
        assert_eq!(graph_with(&[(row + 8, 4, 5)]), bad);
        assert_eq!(graph_with(&[(row + 12, 4, 7)]), bad);
        assert_eq!(graph_with(&[(row + 12, 4, 0xffff_ffff)]), bad);
        assert_eq!(graph_with(&[(row, 8, 32), (48, 8, 32)]), bad);
    }
    // With a label count of 0 no bit may stand.
    assert_eq!(graph_with(&[(G_TRAILER + 16, 2, 0)]), [6, 0, 0, 0, 0]);
    // A run that is longer, but within the rows, moves the next start.
    assert_eq!(graph_with(&[(G_NODE + 12, 4, 2)]), [6, 1, 0, 0, 0]);
}

#[test]
fn edge_rows() {
    for place in 0..3 {
        let row = G_EDGE + 24 * place;
        let bad = [7, place as u32, 0, 0, 0];
        assert_eq!(graph_with(&[(row, 8, 1 << 5)]), bad);
        assert_eq!(graph_with(&[(row + 8, 4, 4)]), bad);
        assert_eq!(graph_with(&[(row + 12, 4, 4)]), bad);
        assert_eq!(graph_with(&[(row + 12, 4, 0xffff_ffff)]), bad);
        assert_eq!(graph_with(&[(row + 16, 4, 0)]), bad);
        assert_eq!(graph_with(&[(row + 16, 4, 7)]), bad);
        assert_eq!(graph_with(&[(row + 20, 4, 1)]), bad);
        // A bad property row below it comes later, a bad node row before.
        assert_eq!(graph_with(&[(row + 8, 4, 4), (G_PROP + 3, 1, 1)]), bad);
        let both = [(row + 8, 4, 4), (G_NODE + 48, 8, 32)];
        assert_eq!(graph_with(&both), [6, 3, 0, 0, 0]);
    }
    // The last node's run one short: edge 0 starts too late.
    assert_eq!(graph_with(&[(G_NODE + 60, 4, 1)]), [7, 0, 0, 0, 0]);
    let mut only = G::default();
    only.edges.push(edge(0, 0, 0));
    assert_eq!(answer(&only, &S::default()), [7, 0, 0, 0, 0]);
}

#[test]
fn property_rows() {
    let row = |place: usize| G_PROP + 16 * place;
    for place in 0..6 {
        let bad = [8, place as u32, 0, 0, 0];
        assert_eq!(graph_with(&[(row(place), 2, 5)]), bad);
        assert_eq!(graph_with(&[(row(place), 2, 0xffff)]), bad);
        assert_eq!(graph_with(&[(row(place) + 2, 1, 0)]), bad);
        assert_eq!(graph_with(&[(row(place) + 2, 1, 6)]), bad);
        assert_eq!(graph_with(&[(row(place) + 3, 1, 1)]), bad);
        assert_eq!(graph_with(&[(row(place) + 4, 4, 9)]), bad);
    }
    // Names in one run are equal or fall; across runs they may.
    assert_eq!(graph_with(&[(row(3), 2, 3)]), [8, 3, 0, 0, 0]);
    assert_eq!(graph_with(&[(row(5), 2, 2)]), [8, 5, 0, 0, 0]);
    assert_eq!(graph_with(&[(row(1), 2, 0)]), GOOD_GRAPH);
    // In no run: the last node's run ends at 4 or 5, and the edges begin there.
    for end in [4, 5] {
        let starts = [0, 1, 2].map(|e| (G_EDGE + 24 * e + 16, 4, end));
        let mut puts = starts.to_vec();
        puts.push((G_NODE + 60, 4, end - 4));
        assert_eq!(graph_with(&puts), [8, end as u32, 0, 0, 0]);
        // A row in no run is bad itself, but a lower row comes first.
        puts.push((row(2) + 3, 1, 1));
        assert_eq!(graph_with(&puts), [8, 2, 0, 0, 0]);
    }
}

/// Whether the bench graph stands with its first property row of this kind,
/// length and value; there are 4 text bytes.
fn stands(kind: u64, length: u64, value: u64) -> bool {
    let puts = [
        (G_PROP + 2, 1, kind),
        (G_PROP + 4, 4, length),
        (G_PROP + 8, 8, value),
    ];
    let answer = graph_with(&puts);
    assert!(answer == GOOD_GRAPH || answer == [8, 0, 0, 0, 0]);
    answer == GOOD_GRAPH
}

#[test]
fn values() {
    assert!(stands(1, 0, 0) && stands(1, 0, 1));
    assert!(!stands(1, 0, 2) && !stands(1, 0, 1 << 63) && !stands(1, 1, 0));
    assert!(stands(2, 0, u64::MAX) && stands(2, 0, 0) && !stands(2, 1, 0));
    for float in [0.0, -0.0, f64::MAX, f64::MIN, 5e-324] {
        assert!(stands(3, 0, float.to_bits()));
        assert!(!stands(3, 8, float.to_bits()));
    }
    for float in [f64::INFINITY, f64::NEG_INFINITY, f64::NAN, -f64::NAN] {
        assert!(!stands(3, 0, float.to_bits()));
    }
    assert!(!stands(3, 0, 0x7ff0_0000_0000_0001));
}

#[test]
fn dates() {
    let lengths = [31, 28, 31, 30, 31, 30, 31, 31, 30, 31, 30, 31];
    // Ask 3: 1900 and 2100 are common, and 2000 "stays good".
    let leap_years = [2000, 2024];
    for year in [1, 1900, 2000, 2023, 2024, 2100, 9999] {
        for (month, length) in (1..).zip(lengths) {
            let leap_day = u64::from(month == 2 && leap_years.contains(&year));
            let first = year * 10_000 + month * 100;
            assert!(!stands(4, 0, first));
            assert!(stands(4, 0, first + 1));
            assert!(stands(4, 0, first + length + leap_day));
            assert!(!stands(4, 0, first + length + leap_day + 1));
            assert!(!stands(4, 0, first + 99));
        }
        assert!(!stands(4, 0, year * 10_000 + 1));
        assert!(!stands(4, 0, year * 10_000 + 1_301));
    }
    assert!(!stands(4, 0, 101) && !stands(4, 0, 0));
    assert!(!stands(4, 0, 100_000_101) && !stands(4, 0, u64::MAX));
    assert!(!stands(4, 0, (1 << 32) + 20_240_101));
    assert!(!stands(4, 1, 20_240_101));
}

#[test]
fn text_parts() {
    for offset in 0..=4 {
        for length in 0..=4 - offset {
            assert!(stands(5, length, offset));
        }
        assert!(!stands(5, 5 - offset, offset));
    }
    assert!(!stands(5, 0, 5));
    assert!(!stands(5, 0, u64::MAX) && !stands(5, 1, u64::MAX));
    assert!(!stands(5, 0xffff_ffff, u64::MAX));
    assert!(!stands(5, 0xffff_ffff, 0xffff_ffff_0000_0001));
}

#[test]
fn schema_node_rows() {
    for place in 0..3 {
        let row = S_NODE + 16 * place;
        let bad = [13, place as u32, 0, 0, 0];
        assert_eq!(schema_with(&[(row, 8, 1 << 5)]), bad);
        assert_eq!(schema_with(&[(row + 8, 4, 4)]), bad);
        assert_eq!(schema_with(&[(row + 8, 4, 0xffff_ffff)]), bad);
        assert_eq!(schema_with(&[(row + 12, 2, 6)]), bad);
        assert_eq!(schema_with(&[(row + 12, 2, 0xffff)]), bad);
        assert_eq!(schema_with(&[(row + 14, 2, 2)]), bad);
        assert_eq!(schema_with(&[(row + 14, 2, 256)]), bad);
        assert_eq!(schema_with(&[(row + 14, 2, 1)]), [0, 0, 0, 0, 0]);
    }
}

#[test]
fn schema_edge_rows() {
    for place in 0..2 {
        let row = S_EDGE + 40 * place;
        let bad = [14, place as u32, 0, 0, 0];
        assert_eq!(schema_with(&[(row, 8, 1 << 5)]), bad);
        assert_eq!(schema_with(&[(row + 8, 4, 3)]), bad);
        assert_eq!(schema_with(&[(row + 12, 4, 3)]), bad);
        assert_eq!(schema_with(&[(row + 16, 4, 4)]), bad);
        assert_eq!(schema_with(&[(row + 20, 2, 1)]), bad);
        assert_eq!(schema_with(&[(row + 22, 2, 2)]), bad);
        assert_eq!(schema_with(&[(row + 22, 2, 1)]), [0, 0, 0, 0, 0]);
        for interval in [row + 24, row + 32] {
            let with = |minimum, maximum| {
                schema_with(&[(interval, 4, minimum), (interval + 4, 4, maximum)])
            };
            assert_eq!(with(2, 1), bad);
            assert_eq!(with(65_536, 0xffff_ffff), bad);
            assert_eq!(with(0xffff_ffff, 0xffff_ffff), bad);
            assert_eq!(with(0, 65_536), bad);
            assert_eq!(with(0, 0xffff_fffe), bad);
            assert_eq!(with(0, 65_535), [0, 0, 0, 0, 0]);
            assert_eq!(with(0, 0xffff_ffff), [0, 0, 0, 0, 0]);
            assert!(with(65_535, 65_535)[0] > 30);
            assert!(with(65_535, 0xffff_ffff)[0] > 30);
        }
    }
}

#[test]
fn schema_property_rows() {
    let row = |place: usize| S_PROP + 4 * place;
    for place in 0..5 {
        let bad = [15, place as u32, 0, 0, 0];
        assert_eq!(schema_with(&[(row(place), 2, 5)]), bad);
        assert_eq!(schema_with(&[(row(place) + 2, 1, 0)]), bad);
        assert_eq!(schema_with(&[(row(place) + 2, 1, 6)]), bad);
        assert_eq!(schema_with(&[(row(place) + 3, 1, 2)]), bad);
        assert_eq!(schema_with(&[(row(place) + 3, 1, 1)]), [0, 0, 0, 0, 0]);
    }
    assert_eq!(schema_with(&[(row(2), 2, 1)]), [15, 2, 0, 0, 0]);
    assert_eq!(schema_with(&[(row(4), 2, 0)]), [15, 4, 0, 0, 0]);
    // In no run: the last schema node's run ends at 4, the edges begin there.
    let mut puts = vec![(S_NODE + 44, 2, 1)];
    puts.extend([(S_EDGE + 16, 4, 4), (S_EDGE + 56, 4, 4)]);
    assert_eq!(schema_with(&puts), [15, 4, 0, 0, 0]);
}

#[test]
fn graph_refusals_come_before_schema_refusals() {
    let mut g = bench_graph().bytes();
    put(&mut g, G_PROP + 83, 1, 1);
    let refused = [8, 5, 0, 0, 0];
    assert_eq!(second::answer(&g, &[]), refused);
    assert_eq!(second::answer(&g, &bench_schema().bytes()), refused);
}
