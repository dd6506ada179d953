//! "Traps on the bench", and the rules' finer cases.
mod common;
use common::*;

/// One schema edge {OF} from schema node 0 to schema node 1, all any.
fn plain(nodes: Vec<T>) -> S {
    let link = SE {
        t: ty(OF, &[]),
        source: 0,
        target: 1,
        source_interval: (0, ANY),
        target_interval: (0, ANY),
    };
    S {
        nodes,
        edges: vec![link],
        labels: 5,
        names: 5,
        preface: Vec::new(),
    }
}

fn graph(nodes: Vec<O>, edges: Vec<E>) -> G {
    G {
        nodes,
        edges,
        labels: 5,
        names: 5,
        preface: Vec::new(),
    }
}

#[test]
fn intervals_look_across() {
    let mut s = plain(vec![ty(SENSOR, &[]), ty(RUN, &[])]);
    let nodes = vec![obj(SENSOR, &[]), obj(RUN, &[]), obj(RUN, &[])];
    let g = graph(nodes, vec![edge(0, 1, OF), edge(0, 2, OF)]);
    s.edges[0].target_interval = (2, 2);
    s.edges[0].source_interval = (1, 1);
    assert_eq!(answer(&g, &s), [0, 0, 0, 0, 0]);
    s.edges[0].target_interval = (1, 1);
    assert_eq!(answer(&g, &s), [32, 0, 0, 2, 0]);
    s.edges[0].target_interval = (2, 2);
    s.edges[0].source_interval = (2, 2);
    assert_eq!(answer(&g, &s), [33, 1, 0, 1, 0]);
}

#[test]
fn label_sets_are_equal() {
    let s = plain(vec![ty(SENSOR, &[]), ty(SENSOR | RUN, &[])]);
    assert_eq!(answer(&graph(vec![obj(RUN, &[])], vec![]), &s)[0], 21);
    let both = graph(vec![obj(SENSOR | RUN, &[])], vec![]);
    assert_eq!(answer(&both, &s), [0, 0, 0, 0, 0]);
    let none = plain(vec![ty(0, &[]), ty(RUN, &[])]);
    assert_eq!(answer(&graph(vec![obj(0, &[])], vec![]), &none)[0], 0);
}

#[test]
fn optional_and_open_let_more_nodes_owe() {
    let mut s = plain(vec![ty(SENSOR, &[(0, TEXT, 0)]), ty(RUN, &[])]);
    s.nodes.push(ty(SENSOR, &[]));
    s.edges[0].target_interval = (1, ANY);
    let g = graph(vec![obj(SENSOR, &[])], vec![]);
    assert_eq!(answer(&g, &s), [0, 0, 0, 0, 0]);
    s.nodes[0].listed[0].2 = 1;
    assert_eq!(answer(&g, &s), [31, 0, 0, 0, 0]);
    s.nodes[0] = ty(SENSOR, &[]);
    s.nodes[2].open = 1;
    let g = graph(vec![sensor()], vec![]);
    assert_eq!(answer(&g, &s), [0, 0, 0, 0, 0]);
    s.nodes[0].open = 1;
    assert_eq!(answer(&g, &s), [31, 0, 0, 0, 0]);
}

#[test]
fn misfits_are_not_counted() {
    let mut s = plain(vec![ty(SENSOR, &[]), ty(RUN, &[]), ty(ANGLE, &[])]);
    s.edges.push(s.edges[0].clone());
    s.edges[1].target = 2;
    s.edges[0].target_interval = (0, 1);
    s.edges[1].target_interval = (0, 1);
    let nodes = vec![obj(SENSOR, &[]), obj(RUN, &[]), obj(ANGLE, &[])];
    let mut g = graph(nodes, vec![edge(0, 1, OF), edge(0, 2, OF)]);
    assert_eq!(answer(&g, &s), [0, 0, 0, 0, 0]);
    // A record that misfits schema edge 0 counts for schema edge 2 alone.
    s.edges.push(s.edges[0].clone());
    s.edges[2].t.listed = vec![(0, BOOLEAN, 0)];
    g.edges.push(edge(0, 1, OF));
    g.edges[2].o.props = vec![(0, V::Bool(true))];
    assert_eq!(answer(&g, &s), [0, 0, 0, 0, 0]);
    g.edges.push(g.edges[2].clone());
    assert_eq!(answer(&g, &s), [32, 0, 2, 2, 0]);
}

#[test]
fn misfits_are_not_counted_coming_in() {
    // Schema edge 1 starts in an Angle, schema edge 2 wants a property.
    let mut s = plain(vec![ty(SENSOR, &[]), ty(RUN, &[]), ty(ANGLE, &[])]);
    s.edges[0].source_interval = (0, 1);
    s.edges.extend([s.edges[0].clone(), s.edges[0].clone()]);
    s.edges[1].source = 2;
    s.edges[2].t.listed = vec![(0, BOOLEAN, 0)];
    let nodes = vec![obj(SENSOR, &[]), obj(RUN, &[]), obj(ANGLE, &[])];
    let mut g = graph(nodes, vec![edge(0, 1, OF), edge(2, 1, OF)]);
    g.edges.push(edge(0, 1, OF));
    g.edges[2].o.props = vec![(0, V::Bool(true))];
    assert_eq!(answer(&g, &s), [0, 0, 0, 0, 0]);
    g.edges.push(edge(2, 1, OF));
    assert_eq!(answer(&g, &s), [34, 1, 1, 2, 0]);
}

#[test]
fn an_empty_run_with_a_wrong_start() {
    let g = graph(vec![obj(SENSOR, &[]), sensor()], vec![edge(0, 0, OF)]);
    let mut bytes = g.bytes();
    put(&mut bytes, 8, 4, 1);
    assert_eq!(second::answer(&bytes, &[]), [6, 0, 0, 0, 0]);
    let mut bytes = g.bytes();
    put(&mut bytes, 32 + 16, 4, 0);
    assert_eq!(second::answer(&bytes, &[]), [7, 0, 0, 0, 0]);
}

#[test]
fn loops_and_parallels() {
    let mut s = plain(vec![ty(SENSOR, &[]), ty(RUN, &[])]);
    s.edges[0].target = 0;
    s.edges[0].source_interval = (1, 1);
    s.edges[0].target_interval = (1, 1);
    let mut g = graph(vec![obj(SENSOR, &[])], vec![edge(0, 0, OF)]);
    assert_eq!(answer(&g, &s), [0, 0, 0, 0, 0]);
    g.edges.push(edge(0, 0, OF));
    assert_eq!(answer(&g, &s), [32, 0, 0, 2, 0]);
    s.edges[0].target_interval = (1, 2);
    assert_eq!(answer(&g, &s), [34, 0, 0, 2, 0]);
}

#[test]
fn the_lowest_equal_labels_and_the_first_broken() {
    let mut s = plain(vec![ty(RUN, &[]), ty(SENSOR, &[(0, TEXT, 0)])]);
    s.nodes.push(ty(SENSOR, &[(1, DATE, 1), (3, REAL, 0)]));
    let one = |props: &[(u16, V)]| graph(vec![obj(SENSOR, props)], vec![]);
    // All three broken, then (c) and (d), then (d) alone.
    let all = one(&[(1, V::Int(1)), (2, V::Int(1))]);
    assert_eq!(answer(&all, &s), [22, 0, 1, 1, 0]);
    let two = one(&[(0, V::Int(1)), (2, V::Int(1))]);
    assert_eq!(answer(&two, &s), [22, 0, 1, 2, 2]);
    assert_eq!(answer(&one(&[(0, V::Int(1))]), &s), [22, 0, 1, 3, 0]);
    assert_eq!(answer(&one(&[(3, V::Real(-0.0))]), &s), [0, 0, 0, 0, 0]);
    // (d) holds for optional names and in open types too.
    s.nodes.remove(1);
    s.nodes[1].open = 1;
    let open = one(&[(1, V::Int(1)), (2, V::Int(1)), (3, V::Real(1.0))]);
    assert_eq!(answer(&open, &s), [22, 0, 1, 3, 1]);
}

#[test]
fn edges_against_rule_2() {
    let mut s = plain(vec![ty(SENSOR, &[]), ty(RUN, &[])]);
    s.edges.insert(0, s.edges[0].clone());
    s.edges[0].t.listed = vec![(0, BOOLEAN, 0)];
    let nodes = vec![obj(SENSOR, &[]), obj(RUN, &[])];
    let mut g = graph(nodes, vec![edge(0, 1, OF)]);
    g.edges[0].o.props = vec![(1, V::Bool(false))];
    assert_eq!(answer(&g, &s), [24, 0, 0, 1, 0]);
    g.edges[0].o.props = vec![(0, V::Bool(false)), (1, V::Bool(false))];
    assert_eq!(answer(&g, &s), [24, 0, 0, 2, 1]);
    g.edges[0].o.props = vec![(0, V::Int(0))];
    assert_eq!(answer(&g, &s), [24, 0, 0, 3, 0]);
    // It fits schema edge 1 alone; both ends misfit there, so the source is told.
    g.edges[0] = edge(1, 0, OF);
    assert_eq!(answer(&g, &s), [25, 0, 1, 1, 0]);
    g.edges[0] = edge(0, 0, OF);
    assert_eq!(answer(&g, &s), [25, 0, 1, 2, 0]);
    // A later schema edge with the right ends is enough.
    s.edges.push(s.edges[1].clone());
    s.edges[2].target = 0;
    assert_eq!(answer(&g, &s), [0, 0, 0, 0, 0]);
}

#[test]
fn the_order_of_violations() {
    let s = bench_schema();
    let mut g = bench_graph();
    g.nodes.push(angle(1));
    g.edges.push(edge(1, 0, OF));
    assert_eq!(answer(&g, &s), [32, 1, 0, 2, 0]);
    g.edges.push(edge(0, 1, AT));
    assert_eq!(answer(&g, &s), [25, 4, 1, 1, 0]);
    g.nodes[4].labels = 0;
    assert_eq!(answer(&g, &s), [21, 4, 0, 0, 0]);
    // Rule 3 goes by schema edge first, then by node.
    let nodes = vec![sensor(), run(), run(), angle(1)];
    let g = graph(nodes, vec![edge(1, 0, OF)]);
    assert_eq!(answer(&g, &s), [31, 2, 0, 0, 0]);
}

#[test]
fn label_and_name_counts_need_not_agree() {
    let mut s = bench_schema();
    s.labels = 64;
    s.names = 256;
    s.nodes[0].listed.push((255, BOOLEAN, 1));
    assert_eq!(answer(&bench_graph(), &s), [0, 0, 0, 0, 0]);
    let mut g = bench_graph();
    g.labels = 64;
    g.nodes[0].labels = 1 << 63;
    assert_eq!(answer(&g, &bench_schema()), [21, 0, 0, 0, 0]);
}

#[test]
fn a_node_of_several_types_meets_the_rules_of_all() {
    let mut s = plain(vec![ty(SENSOR, &[]), ty(RUN, &[]), ty(SENSOR, &[])]);
    s.nodes[2].open = 1;
    s.edges.push(s.edges[0].clone());
    s.edges[1].source = 2;
    s.edges[1].target_interval = (2, ANY);
    let nodes = vec![obj(SENSOR, &[]), obj(RUN, &[])];
    let g = graph(nodes, vec![edge(0, 1, OF)]);
    assert_eq!(answer(&g, &s), [31, 0, 1, 1, 0]);
}
