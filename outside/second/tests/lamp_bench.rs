//! "The lamp bench examples" P1 to P12, those run only, and "One run in full".
mod common;
use common::*;

/// The answer for the bench graph after one change, against the bench schema.
fn changed(change: impl FnOnce(&mut G)) -> [u32; 5] {
    let mut g = bench_graph();
    change(&mut g);
    answer(&g, &bench_schema())
}

#[test]
fn p1_p2_conform() {
    assert_eq!(changed(|_| ()), [0, 0, 0, 0, 0]);
    assert_eq!(answer(&G::default(), &bench_schema()), [0, 0, 0, 0, 0]);
    assert_eq!(answer(&G::default(), &S::default()), [0, 0, 0, 0, 0]);
}

#[test]
fn p3_to_p6_nodes() {
    let p3 = changed(|g| g.nodes[2].labels = SENSOR | ANGLE);
    assert_eq!(p3, [21, 2, 0, 0, 0]);
    let p4 = changed(|g| g.nodes[3].props.truncate(1));
    assert_eq!(p4, [22, 3, 2, 1, 4]);
    let p5 = changed(|g| g.nodes[3].props.insert(0, (2, V::Text("dim"))));
    assert_eq!(p5, [22, 3, 2, 2, 2]);
    let p6 = changed(|g| g.nodes[3].props[1].1 = V::Int(1));
    assert_eq!(p6, [22, 3, 2, 3, 4]);
}

#[test]
fn p7_p8_edges() {
    assert_eq!(changed(|g| g.edges[1] = edge(2, 1, AT)), [25, 1, 1, 1, 0]);
    assert_eq!(changed(|g| g.edges[1].target = 0), [25, 1, 1, 2, 0]);
}

#[test]
fn p9_to_p12_counts() {
    let p9 = changed(|g| {
        g.edges.pop();
    });
    assert_eq!(p9, [31, 1, 1, 1, 0]);
    assert_eq!(changed(|g| g.edges.push(edge(1, 0, OF))), [32, 1, 0, 2, 0]);
    assert_eq!(changed(|g| g.nodes.push(angle(30))), [33, 4, 1, 0, 0]);
    assert_eq!(changed(|g| g.edges.push(edge(1, 3, AT))), [34, 3, 1, 2, 0]);
}

#[test]
fn run_only() {
    assert_eq!(changed(|g| g.edges[0].o.labels = OF | AT), [23, 0, 0, 0, 0]);
    let four = changed(|g| {
        g.nodes.extend([angle(10), angle(20)]);
        g.edges.extend([edge(1, 4, AT), edge(1, 5, AT)]);
    });
    assert_eq!(four, [32, 1, 1, 4, 0]);
    assert_eq!(changed(|g| g.edges[1].source = 4), [7, 1, 0, 0, 0]);
    let mut s = bench_schema();
    s.edges[1].target_interval = (3, 2);
    assert_eq!(answer(&bench_graph(), &s), [14, 1, 0, 0, 0]);
}

#[test]
fn one_run_in_full() {
    let mut schema = vec![0; 16];
    schema.extend([0x53, 0x43, 0x48, 0x31]);
    let mut graph = vec![0; 16];
    graph.push(1);
    graph.extend([0; 15]);
    graph.extend([0; 4]);
    graph.extend([0x10, 0, 0, 0, 0x47, 0x50, 0x48, 0x31]);
    assert_eq!(second::answer(&graph, &schema), [21, 0, 0, 0, 0]);
}

#[test]
fn prefaces_are_ignored() {
    let (mut g, mut s) = (bench_graph(), bench_schema());
    g.preface = b"any bytes GPH1".to_vec();
    s.preface = vec![0xff; 77];
    assert_eq!(answer(&g, &s), [0, 0, 0, 0, 0]);
}

#[test]
fn the_block_form() {
    let (g, s) = (bench_graph().bytes(), bench_schema().bytes());
    let mut turned = bench_graph();
    turned.edges[1] = edge(2, 1, AT);
    let turned = turned.bytes();
    let mut without = bench_graph();
    without.nodes[3].props.truncate(1);
    let without = without.bytes();
    for length in 0..20 {
        let mut block = vec![0xaa; length];
        assert_eq!(second::check(&g, &s, &mut block), 1);
        assert_eq!(second::check(&turned, &s, &mut block), 1);
        assert_eq!(second::check(&without, &s, &mut block), 1);
        assert_eq!(second::check(&[], &[], &mut block), 1);
        assert!(block.iter().all(|byte| *byte == 0xaa));
    }
    for more in [0, 1, 3, 4, 12, 16, 20, 1_000] {
        // The first 20 bytes then; those from 20 on keep their values.
        let written = |graph: &[u8], schema: &[u8], code| {
            let mut block = vec![0xaa; 20 + more];
            assert_eq!(second::check(graph, schema, &mut block), code);
            let kept = block.split_off(20);
            assert_eq!(kept, vec![0xaa; more]);
            block
        };
        let five = |numbers: [u8; 5]| numbers.map(|number| [number, 0, 0, 0]).concat();
        assert_eq!(written(&g, &s, 0), five([0, 0, 0, 0, 0]));
        assert_eq!(written(&turned, &s, 25), five([25, 1, 1, 1, 0]));
        assert_eq!(written(&without, &s, 22), five([22, 3, 2, 1, 4]));
        assert_eq!(written(&without, &[], 9), five([9, 0, 0, 0, 0]));
        assert_eq!(written(&[], &s, 2), five([2, 0, 0, 0, 0]));
    }
}
