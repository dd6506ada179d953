//! Ask 6: every violation once, in 01's order, as many as the list has room for.
mod common;
use common::*;

type Record = [u32; 5];

/// What a record holds before the call.
const KEPT: Record = [0xaaaa_aaaa; 5];

/// All violations of two accepted files; each room gives the first ones.
fn all(g: &G, s: &S) -> Vec<Record> {
    let (graph, schema) = (g.bytes(), s.bytes());
    let [code, place, total] = second::check_all(&graph, &schema, &mut []);
    assert_eq!([code, place], [0, 0]);
    let total = total as usize;
    let mut whole = vec![KEPT; total];
    second::check_all(&graph, &schema, &mut whole);
    for room in [0, 1, total.saturating_sub(1), total, total + 1, total + 7] {
        let mut list = vec![KEPT; room];
        let listed = second::check_all(&graph, &schema, &mut list);
        assert_eq!(listed, [0, 0, total as u32]);
        let written = room.min(total);
        assert_eq!(list[..written], whole[..written]);
        assert_eq!(list[written..], vec![KEPT; room - written]);
    }
    whole
}

/// The bench graph with faults of every code, against the bench schema.
fn nine_codes() -> G {
    let mut g = bench_graph();
    g.nodes.push(obj(SENSOR | ANGLE, &[]));
    g.nodes.push(obj(ANGLE, &[(3, V::Int(30))]));
    g.nodes.push(run());
    let mut remarked = edge(1, 0, OF);
    remarked.o.props.push((2, V::Text("dim")));
    g.edges = vec![
        edge(1, 0, OF),
        edge(1, 0, OF),
        edge(1, 2, AT),
        edge(1, 2, AT),
        edge(2, 1, AT),
        edge(1, 5, AT),
        edge(1, 0, OF | AT),
        remarked,
    ];
    g
}

#[test]
fn the_bench_with_every_code() {
    let told = [
        [21, 4, 0, 0, 0],
        [22, 5, 2, 1, 4],
        [25, 4, 1, 1, 0],
        [25, 5, 1, 2, 0],
        [23, 6, 0, 0, 0],
        [24, 7, 0, 2, 2],
        [32, 1, 0, 2, 0],
        [31, 6, 0, 0, 0],
        [31, 6, 1, 0, 0],
        [34, 2, 1, 2, 0],
        [33, 3, 1, 0, 0],
    ];
    assert_eq!(all(&nine_codes(), &bench_schema()), told);
}

#[test]
fn what_conforms_has_none() {
    let none: Vec<Record> = vec![];
    assert_eq!(all(&bench_graph(), &bench_schema()), none);
    assert_eq!(all(&G::default(), &bench_schema()), none);
    assert_eq!(all(&G::default(), &S::default()), none);
}

#[test]
fn one_fault_brings_others() {
    // P3: edge 1 then ends at a node that fits nothing, and isn't counted.
    let mut g = bench_graph();
    g.nodes[2].labels = SENSOR | ANGLE;
    let told = [[21, 2, 0, 0, 0], [25, 1, 1, 2, 0], [31, 1, 1, 1, 0]];
    assert_eq!(all(&g, &bench_schema()), told);
    // P9: node 3 is told of rule 4 behind node 1's rule 3.
    let mut g = bench_graph();
    g.edges.pop();
    let told = [[31, 1, 1, 1, 0], [33, 3, 1, 0, 0]];
    assert_eq!(all(&g, &bench_schema()), told);
}

/// Rules 3 and 4 go by schema edge, and then by node.
#[test]
fn a_node_meets_the_rules_of_all_that_it_fits() {
    let (mut g, mut s) = (bench_graph(), bench_schema());
    // Nodes 1 and 4 fit schema nodes 1 and 3, and so both sources of OF.
    s.nodes.push(s.nodes[1].clone());
    let mut other = s.edges[0].clone();
    (other.source, other.target_interval) = (3, (2, 2));
    s.edges.insert(0, other);
    g.nodes.push(run());
    let told = [
        [31, 1, 0, 1, 0],
        [31, 4, 0, 0, 0],
        [31, 4, 1, 0, 0],
        [31, 4, 2, 0, 0],
    ];
    assert_eq!(all(&g, &s), told);
}

#[test]
fn every_edge_is_told() {
    let (mut g, s) = (bench_graph(), bench_schema());
    g.nodes.truncate(2);
    g.edges = (0..5).map(|_| edge(0, 1, OF)).collect();
    let mut told: Vec<Record> = (0..5).map(|e| [25, e, 0, 1, 0]).collect();
    told.extend([[31, 1, 0, 0, 0], [31, 1, 1, 0, 0]]);
    assert_eq!(all(&g, &s), told);
}

#[test]
fn refusals_touch_no_record() {
    let (g, s) = (bench_graph().bytes(), bench_schema().bytes());
    let mut bad = bench_graph();
    bad.edges[1].source = 4;
    let mut bounds = bench_schema();
    bounds.edges[1].target_interval = (3, 2);
    let refused = [
        (vec![], s.clone(), [2, 0, 0]),
        (g.clone(), vec![], [9, 0, 0]),
        (vec![], vec![], [2, 0, 0]),
        (bad.bytes(), s, [7, 1, 0]),
        (g, bounds.bytes(), [14, 1, 0]),
        (bad.bytes(), bounds.bytes(), [7, 1, 0]),
    ];
    for (graph, schema, owed) in refused {
        for room in 0..3 {
            let mut list = vec![KEPT; room];
            assert_eq!(second::check_all(&graph, &schema, &mut list), owed);
            assert_eq!(list, vec![KEPT; room]);
        }
    }
}

/// The rule of a record, and what it is told by within the rule.
fn order([code, place, schema_place, ..]: Record) -> (u32, u32, u32) {
    match code {
        21 | 22 => (1, place, 0),
        23..=25 => (2, place, 0),
        31 | 32 => (3, schema_place, place),
        _ => (4, schema_place, place),
    }
}

/// "Where the total isn't 0 and the list has room, each field of the first
/// record is as in the old entry's answer."
#[test]
fn the_first_is_the_old_answer() {
    let mut dice = Dice(0x2545_f491_4f6c_dd1d);
    let (graph, schema) = (nine_codes().bytes(), bench_schema().bytes());
    let mut seen = std::collections::BTreeSet::new();
    for _ in 0..40_000 {
        let (mut a, mut b) = (graph.clone(), schema.clone());
        for _ in 0..dice.roll(5) {
            let at = dice.roll(a.len());
            a[at] = [0, 1, 2, 3, 4, 16, 0xff][dice.roll(7)];
        }
        for _ in 0..dice.roll(5) {
            let at = dice.roll(b.len());
            b[at] = [0, 1, 2, 3, 4, 16, 0xff][dice.roll(7)];
        }
        if dice.roll(3) == 0 {
            a = bench_graph().bytes();
        }
        let answer = second::answer(&a, &b);
        let mut list = [KEPT; 60];
        let [code, place, total] = second::check_all(&a, &b, &mut list);
        assert!(total < 60);
        let told = &list[..total as usize];
        match answer[0] {
            0 => assert_eq!([code, place, total], [0, 0, 0]),
            2..=15 => assert_eq!([code, place, total], [answer[0], answer[1], 0]),
            _ => assert_eq!((code, place, told[0]), (0, 0, answer)),
        }
        assert!(told.windows(2).all(|two| order(two[0]) < order(two[1])));
        assert!(list[total as usize..].iter().all(|kept| *kept == KEPT));
        seen.extend(told.iter().map(|record| record[0]));
        seen.insert(answer[0]);
    }
    // The lengths stay, so 2 and 9 are not given here.
    let refusals = (3..9).chain(10..16);
    for code in refusals.chain([0, 21, 22, 23, 24, 25, 31, 32, 33, 34]) {
        assert!(seen.contains(&code), "code {code} never given: {seen:?}");
    }
}

/// Each of 1,024 nodes fits both ends of 64 schema edges, and owes each of them
/// an edge both ways; each of 4,096 edges has labels of its own. No graph has
/// more violations: a node against rule 1 fits no end.
#[test]
fn the_most_there_are() {
    let link = SE {
        t: ty(2, &[]),
        source: 0,
        target: 0,
        source_interval: (1, ANY),
        target_interval: (1, 1),
    };
    let s = S {
        nodes: vec![ty(1, &[])],
        edges: vec![link; 64],
        labels: 3,
        ..S::default()
    };
    let g = G {
        nodes: vec![obj(1, &[]); 1_024],
        edges: (0..4_096).map(|e| edge(e % 1_024, e / 4, 4)).collect(),
        labels: 3,
        ..G::default()
    };
    let edges = (0..4_096).map(|e| [23, e, 0, 0, 0]);
    let numbers = |code| (0..65_536).map(move |at| [code, at % 1_024, at / 1_024, 0, 0]);
    let told: Vec<Record> = edges.chain(numbers(31)).chain(numbers(33)).collect();
    assert_eq!(told.len(), 135_168);
    assert!(all(&g, &s) == told);
}
