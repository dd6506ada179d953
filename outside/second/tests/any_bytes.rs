//! Any bytes at all get an answer, and inputs at the ceilings get one soon.
mod common;
use common::*;

#[test]
fn noise_and_changed_bytes() {
    let mut dice = Dice(0x9e37_79b9_7f4a_7c15);
    let (g, s) = (bench_graph().bytes(), bench_schema().bytes());
    let numbers = [0, 1, 2, 4, 5, 16, 64, 0x7f, 0x80, 0xff];
    let mut seen = std::collections::BTreeSet::new();
    for _ in 0..60_000 {
        let (mut a, mut b) = (g.clone(), s.clone());
        for _ in 0..dice.roll(4) {
            let at = dice.roll(a.len());
            a[at] = numbers[dice.roll(numbers.len())];
        }
        for _ in 0..dice.roll(4) {
            let at = dice.roll(b.len());
            b[at] = numbers[dice.roll(numbers.len())];
        }
        match dice.roll(40) {
            0 => drop(a.drain(..dice.roll(g.len()))),
            1 => b.truncate(dice.roll(s.len())),
            _ => (),
        }
        let mut block = [0xaa; 24];
        let code = second::check(&a, &b, &mut block);
        let answer = second::answer(&a, &b);
        assert_eq!(block[..20], answer.map(u32::to_le_bytes).concat());
        assert_eq!(block[20..], [0xaa; 4]);
        assert_eq!(code, answer[0]);
        assert!(answer[4] == 0 || code == 22 || code == 24);
        seen.insert(code);
    }
    for code in (2..16).chain([0, 21, 22, 23, 25, 31, 33, 34]) {
        assert!(seen.contains(&code), "code {code} never given: {seen:?}");
    }
}

#[test]
fn noise_before_a_trailer() {
    let mut dice = Dice(77);
    for round in 0..2_000 {
        let mut g: Vec<u8> = (0..28 + dice.roll(300))
            .map(|_| dice.roll(256) as u8)
            .collect();
        let end = g.len();
        if round % 2 == 0 {
            let text = end - 28;
            for (at, number) in [(0, 0), (4, 0), (8, 0), (12, text), (20, text)] {
                put(&mut g, end - 28 + at, 4, number as u64);
            }
            put(&mut g, end - 12, 4, 0x0100_0040);
        }
        g[end - 4..].copy_from_slice(b"GPH1");
        let answer = second::answer(&g, &S::default().bytes());
        assert_eq!(answer[0] == 0, round % 2 == 0);
    }
}

/// 1,024 nodes, 4,096 edges and 64 schema edges, all of one label set, so that
/// every edge counts for every schema edge; four edges leave and reach a node.
fn at_the_ceilings() -> (G, S) {
    let mut s = S {
        nodes: vec![ty(1, &[]); 32],
        labels: 64,
        names: 256,
        ..S::default()
    };
    for end in 0..64 {
        s.edges.push(SE {
            t: ty(2, &[]),
            source: end % 32,
            target: 31 - end % 32,
            source_interval: (4, 4),
            target_interval: (4, 4),
        });
    }
    let between = |e: u32| edge(e % 1_024, (e * 5 + e / 1_024) % 1_024, 2);
    let g = G {
        nodes: vec![obj(1, &[]); 1_024],
        edges: (0..4_096).map(between).collect(),
        labels: 64,
        names: 256,
        ..G::default()
    };
    (g, s)
}

#[test]
fn the_ceilings() {
    let (mut g, mut s) = at_the_ceilings();
    // The full loops take long without optimisation: schema edges 0 to 3 there.
    if cfg!(debug_assertions) {
        s.edges.truncate(4);
    }
    let last = s.edges.len() - 1;
    assert_eq!(answer(&g, &s), [0, 0, 0, 0, 0]);
    s.edges[last].source_interval = (0, 3);
    assert_eq!(answer(&g, &s), [34, 0, last as u32, 4, 0]);
    g.nodes.push(obj(1, &[]));
    assert_eq!(answer(&g, &s), [4, 0, 0, 0, 0]);
}

#[test]
fn many_overlapping_texts() {
    // 16,384 rows that all name all 262,144 text bytes, on 64 nodes.
    let names: Vec<(u16, V)> = (0..256).map(|name| (name, V::Text(""))).collect();
    let g = G {
        nodes: vec![obj(1, &names); 64],
        labels: 1,
        names: 256,
        ..G::default()
    };
    let mut bytes = g.bytes();
    let trailer = bytes.split_off(bytes.len() - 28);
    for row in 0..16_384 {
        put(&mut bytes, 64 * 16 + row * 16 + 4, 4, 262_144);
    }
    bytes.extend(vec![b'x'; 262_144]);
    let back = bytes.len() as u64;
    bytes.extend(trailer);
    let end = bytes.len();
    put(&mut bytes, end - 16, 4, 262_144);
    put(&mut bytes, end - 8, 4, back);
    let mut s = S {
        nodes: vec![ty(1, &[])],
        labels: 1,
        ..S::default()
    };
    assert_eq!(second::answer(&bytes, &s.bytes()), [22, 0, 0, 2, 0]);
    s.nodes[0].open = 1;
    assert_eq!(second::answer(&bytes, &s.bytes()), [0, 0, 0, 0, 0]);
}
