//! Ask 2: "Tell me which property." It is "the answer's fifth number for 22 and
//! 24, 0 for all other codes".
mod common;
use common::*;
use second::fits::first_broken;
use second::graph::Object;
use second::schema::{Listed, ObjectType};
use second::values::{Kind, Value};

type Props<'a> = &'a [(u16, V)];
type Types<'a> = &'a [(u16, u8, u8)];

const MANDATORY: u8 = 0;
const OPTIONAL: u8 = 1;

/// Schema node 0 {Sensor} and schema edge 0 {OF} from it to itself, all any.
fn schema() -> S {
    let of = SE {
        t: ty(OF, &[]),
        source: 0,
        target: 0,
        source_interval: (0, ANY),
        target_interval: (0, ANY),
    };
    S {
        nodes: vec![ty(SENSOR, &[])],
        edges: vec![of],
        labels: 5,
        names: 256,
        preface: Vec::new(),
    }
}

/// Node 0 {Sensor} and edge 0 {OF} from it to itself.
fn graph() -> G {
    G {
        nodes: vec![obj(SENSOR, &[])],
        edges: vec![edge(0, 0, OF)],
        labels: 5,
        names: 256,
        preface: Vec::new(),
    }
}

/// The answer for node 0 with this record against schema node 0 of this type.
fn node(props: Props, listed: Types, open: u16) -> [u32; 5] {
    let (mut g, mut s) = (graph(), schema());
    g.nodes[0].props = props.to_vec();
    s.nodes[0].listed = listed.to_vec();
    s.nodes[0].open = open;
    answer(&g, &s)
}

/// The answer for edge 0 with this record against schema edge 0 of this type.
fn link(props: Props, listed: Types, open: u16) -> [u32; 5] {
    let (mut g, mut s) = (graph(), schema());
    g.edges[0].o.props = props.to_vec();
    s.edges[0].t.listed = listed.to_vec();
    s.edges[0].t.open = open;
    answer(&g, &s)
}

/// The letter and the property told, the same for a node (22) and an edge (24).
fn told(props: Props, listed: Types, open: u16) -> (u32, u32) {
    let [code, place, schema_place, letter, property] = node(props, listed, open);
    assert_eq!([code, place, schema_place], [22, 0, 0]);
    let of_the_edge = [24, 0, 0, letter, property];
    assert_eq!(link(props, listed, open), of_the_edge);
    (letter, property)
}

/// A record of these names, an Integer each.
fn integers(names: &[u16]) -> Vec<(u16, V)> {
    names.iter().map(|name| (*name, V::Int(0))).collect()
}

#[test]
fn the_lowest_missing_mandatory_name() {
    let listed = [
        (3, INTEGER, OPTIONAL),
        (4, INTEGER, MANDATORY),
        (7, INTEGER, OPTIONAL),
        (9, INTEGER, MANDATORY),
        (200, INTEGER, MANDATORY),
        (201, INTEGER, OPTIONAL),
        (255, INTEGER, MANDATORY),
    ];
    // Optional names are absent below the name that is told, and not told.
    assert_eq!(told(&integers(&[]), &listed, 0), (1, 4));
    assert_eq!(told(&integers(&[3, 7]), &listed, 0), (1, 4));
    assert_eq!(told(&integers(&[9, 200, 255]), &listed, 0), (1, 4));
    assert_eq!(told(&integers(&[4]), &listed, 0), (1, 9));
    assert_eq!(told(&integers(&[4, 255]), &listed, 0), (1, 9));
    assert_eq!(told(&integers(&[4, 9]), &listed, 0), (1, 200));
    assert_eq!(told(&integers(&[4, 9, 200]), &listed, 0), (1, 255));
    assert_eq!(node(&integers(&[4, 9, 200, 255]), &listed, 0), [0; 5]);
    assert_eq!(link(&integers(&[4, 9, 200, 255]), &listed, 0), [0; 5]);
}

#[test]
fn the_lowest_unlisted_name() {
    let listed = [(2, INTEGER, MANDATORY), (8, INTEGER, OPTIONAL)];
    assert_eq!(told(&integers(&[1, 2, 3, 8, 9]), &listed, 0), (2, 1));
    assert_eq!(told(&integers(&[2, 3, 7, 8, 9]), &listed, 0), (2, 3));
    assert_eq!(told(&integers(&[2, 7, 255]), &listed, 0), (2, 7));
    assert_eq!(told(&integers(&[2, 8, 9, 255]), &listed, 0), (2, 9));
    assert_eq!(told(&integers(&[2, 8, 255]), &listed, 0), (2, 255));
    assert_eq!(told(&integers(&[6, 7]), &[], 0), (2, 6));
    assert_eq!(node(&integers(&[2, 8]), &listed, 0), [0; 5]);
    assert_eq!(link(&integers(&[2, 8]), &listed, 0), [0; 5]);
}

#[test]
fn the_lowest_wrongly_typed_name() {
    let listed = [
        (1, BOOLEAN, MANDATORY),
        (2, INTEGER, OPTIONAL),
        (5, REAL, MANDATORY),
        (6, DATE, OPTIONAL),
        (255, TEXT, MANDATORY),
    ];
    let mut props = [
        (1, V::Int(1)),
        (2, V::Real(1.0)),
        (5, V::Date(20240229)),
        (6, V::Text("")),
        (255, V::Bool(true)),
    ];
    let right = [
        V::Bool(true),
        V::Int(1),
        V::Real(1.0),
        V::Date(20240229),
        V::Text(""),
    ];
    // They are put right one after another, so the next one is told.
    for (place, value) in right.iter().enumerate() {
        let name = u32::from(props[place].0);
        assert_eq!(told(&props, &listed, 0), (3, name));
        props[place].1 = value.clone();
    }
    assert_eq!(node(&props, &listed, 0), [0; 5]);
    assert_eq!(link(&props, &listed, 0), [0; 5]);
    // From the last one on, the lowest wrong one is told each time.
    for place in (0..5).rev() {
        let name = u32::from(props[place].0);
        props[place].1 = right[(place + 1) % 5].clone();
        assert_eq!(told(&props, &listed, 0), (3, name));
    }
}

#[test]
fn the_letter_that_is_answered_now() {
    // (b) at 9, (c) at 0 and 2, (d) at 1: the first letter, not the lowest name.
    let listed = [(1, INTEGER, MANDATORY), (9, INTEGER, MANDATORY)];
    let unlisted = [(0, V::Int(0)), (1, V::Bool(true)), (2, V::Int(0))];
    assert_eq!(told(&unlisted, &listed, 0), (1, 9));
    // (b) at 9 and (d) at 1.
    assert_eq!(told(&unlisted[1..2], &listed, 0), (1, 9));
    // (c) at 7 and 8, (d) at 1 and 9.
    let mut props = vec![(1, V::Bool(true)), (7, V::Int(0)), (8, V::Int(0))];
    props.push((9, V::Bool(true)));
    assert_eq!(told(&props, &listed, 0), (2, 7));
    // The other way round: earlier letters at lower names.
    let props = [(1, V::Int(0)), (5, V::Int(0)), (9, V::Bool(true))];
    assert_eq!(told(&props[1..], &listed, 0), (1, 1));
    assert_eq!(told(&props, &listed, 0), (2, 5));
}

#[test]
fn name_0_at_fault() {
    let listed = [(0, INTEGER, MANDATORY), (1, INTEGER, MANDATORY)];
    assert_eq!(told(&[], &listed, 0), (1, 0));
    assert_eq!(told(&[(1, V::Int(0))], &listed, 0), (1, 0));
    assert_eq!(told(&[(0, V::Int(0))], &listed, 0), (1, 1));
    let unlisted = [(0, V::Int(0)), (1, V::Int(0)), (2, V::Int(0))];
    assert_eq!(told(&unlisted, &listed[1..], 0), (2, 0));
    assert_eq!(told(&unlisted, &listed, 0), (2, 2));
    let typed = [(0, V::Bool(true)), (1, V::Bool(true))];
    assert_eq!(told(&typed, &listed, 0), (3, 0));
    // Name 0 is at fault by a later letter only.
    assert_eq!(told(&unlisted[..1], &listed[1..], 0), (1, 1));
    assert_eq!(told(&typed[..1], &listed, 0), (1, 1));
}

#[test]
fn open_types() {
    let listed = [(3, INTEGER, OPTIONAL), (5, INTEGER, MANDATORY)];
    let unlisted = [(0, V::Int(0)), (4, V::Int(0)), (9, V::Int(0))];
    assert_eq!(told(&unlisted, &listed, 1), (1, 5));
    // (b) is kept; the unlisted names are no fault here, at lower names either.
    let mut props = vec![(0, V::Int(0)), (3, V::Text("")), (4, V::Int(0))];
    props.extend([(5, V::Text("")), (9, V::Int(0))]);
    assert_eq!(told(&props, &listed, 1), (3, 3));
    assert_eq!(told(&props, &listed, 0), (2, 0));
    props[1].1 = V::Int(0);
    assert_eq!(told(&props, &listed, 1), (3, 5));
    props[3].1 = V::Int(0);
    assert_eq!(node(&props, &listed, 1), [0; 5]);
    assert_eq!(link(&props, &listed, 1), [0; 5]);
}

#[test]
fn the_lowest_schema_node_of_equal_labels_is_asked() {
    let mut s = schema();
    s.nodes[0] = ty(RUN, &[(0, DATE, MANDATORY)]);
    s.nodes.push(ty(SENSOR, &[(6, TEXT, 0), (8, TEXT, 0)]));
    s.nodes.push(ty(SENSOR, &[(2, TEXT, 0), (4, TEXT, 0)]));
    let mut g = graph();
    g.edges.clear();
    g.nodes.insert(0, obj(RUN, &[(0, V::Date(20240229))]));
    // Nearer to schema node 2, but schema node 1 is the lowest.
    g.nodes[1].props = vec![(2, V::Text("")), (4, V::Int(0))];
    assert_eq!(answer(&g, &s), [22, 1, 1, 1, 6]);
    g.nodes[1].props.push((6, V::Int(0)));
    assert_eq!(answer(&g, &s), [22, 1, 1, 1, 8]);
    g.nodes[1].props.push((8, V::Int(0)));
    assert_eq!(answer(&g, &s), [22, 1, 1, 2, 2]);
    g.nodes[1].props.drain(..2);
    assert_eq!(answer(&g, &s), [22, 1, 1, 3, 6]);
    g.nodes[1].props[0].1 = V::Text("");
    assert_eq!(answer(&g, &s), [22, 1, 1, 3, 8]);
}

#[test]
fn the_lowest_schema_edge_of_equal_labels_is_asked() {
    let mut s = schema();
    s.edges.extend([s.edges[0].clone(), s.edges[0].clone()]);
    s.edges[0].t = ty(AT, &[(0, DATE, MANDATORY)]);
    s.edges[1].t = ty(OF, &[(6, TEXT, 0), (8, TEXT, 0)]);
    s.edges[2].t = ty(OF, &[(2, TEXT, 0), (4, TEXT, 0)]);
    let mut g = graph();
    g.edges.insert(0, edge(0, 0, AT));
    g.edges[0].o.props = vec![(0, V::Date(20240229))];
    g.edges[1].o.props = vec![(2, V::Text("")), (4, V::Int(0))];
    assert_eq!(answer(&g, &s), [24, 1, 1, 1, 6]);
    g.edges[1].o.props.push((6, V::Int(0)));
    assert_eq!(answer(&g, &s), [24, 1, 1, 1, 8]);
    g.edges[1].o.props.push((8, V::Int(0)));
    assert_eq!(answer(&g, &s), [24, 1, 1, 2, 2]);
    g.edges[1].o.props.drain(..2);
    assert_eq!(answer(&g, &s), [24, 1, 1, 3, 6]);
    g.edges[1].o.props[0].1 = V::Text("");
    assert_eq!(answer(&g, &s), [24, 1, 1, 3, 8]);
}

#[test]
fn the_first_object_at_fault_is_told() {
    let mut s = schema();
    s.nodes[0].listed = vec![(7, INTEGER, MANDATORY)];
    s.edges[0].t.listed = vec![(5, INTEGER, MANDATORY)];
    let mut g = graph();
    g.nodes = vec![obj(SENSOR, &[(7, V::Int(0))]); 3];
    g.nodes[1].props[0].1 = V::Bool(true);
    g.nodes[2].props[0].0 = 1;
    assert_eq!(answer(&g, &s), [22, 1, 0, 3, 7]);
    g.nodes[1].props[0].1 = V::Int(0);
    g.nodes[2].props.push((7, V::Int(0)));
    assert_eq!(answer(&g, &s), [22, 2, 0, 2, 1]);
    g.nodes.pop();
    assert_eq!(answer(&g, &s), [24, 0, 0, 1, 5]);
}

#[test]
fn the_lowest_name_in_any_order_of_rows() {
    // No file has such runs, but the lowest name is the lowest by its number.
    let value = Value::Boolean(true);
    let object = |names: &[u64]| Object {
        labels: 0,
        properties: names.iter().map(|name| (*name, value)).collect(),
    };
    let of_type = |names: &[u64], kind, optional| {
        let listed = names.iter().map(|name| Listed {
            name: *name,
            kind,
            optional,
        });
        ObjectType {
            labels: 0,
            listed: listed.collect(),
            open: false,
        }
    };
    for names in [[3, 2, 9], [9, 3, 2], [2, 9, 3], [2, 3, 9], [9, 2, 3]] {
        let wanted = of_type(&names, Kind::Boolean, false);
        assert_eq!(first_broken(&object(&[]), &wanted), Some((1, 2)));
        let none = of_type(&[], Kind::Boolean, false);
        assert_eq!(first_broken(&object(&names), &none), Some((2, 2)));
        let typed = of_type(&names, Kind::Text, true);
        assert_eq!(first_broken(&object(&names), &typed), Some((3, 2)));
        assert_eq!(first_broken(&object(&names), &wanted), None);
    }
}

/// The bench graph and schema with one more property on all nodes and edges. A
/// type that nothing fits, since it wants name 8, stands before each type of the
/// bench: so there are names at fault, though the graph conforms.
fn full_bench() -> (G, S) {
    let (mut g, mut s) = (bench_graph(), bench_schema());
    g.names = 9;
    s.names = 9;
    for node in &mut g.nodes {
        node.props.push((6, V::Int(0)));
    }
    for edge in &mut g.edges {
        edge.o.props.push((7, V::Int(0)));
    }
    for node in &mut s.nodes {
        node.listed.push((6, INTEGER, MANDATORY));
    }
    for edge in &mut s.edges {
        edge.t.listed.push((7, INTEGER, MANDATORY));
        (edge.source, edge.target) = (edge.source + 3, edge.target + 3);
    }
    let wants_8 = |t: &T| ty(t.labels, &[(8, INTEGER, MANDATORY)]);
    let nodes: Vec<T> = s.nodes.iter().map(wants_8).collect();
    s.nodes.splice(0..0, nodes);
    let mut edges = s.edges.clone();
    for edge in &mut edges {
        edge.t = wants_8(&edge.t);
        edge.source_interval = (0, ANY);
        edge.target_interval = (0, ANY);
    }
    s.edges.splice(0..0, edges);
    (g, s)
}

/// The answer for the full bench after one change of its graph.
fn changed(change: impl FnOnce(&mut G)) -> [u32; 5] {
    let (mut g, s) = full_bench();
    change(&mut g);
    answer(&g, &s)
}

#[test]
fn zero_for_all_other_codes() {
    assert_eq!(changed(|_| ()), [0, 0, 0, 0, 0]);
    let labels = changed(|g| g.nodes[2].labels = SENSOR | ANGLE);
    assert_eq!(labels, [21, 2, 0, 0, 0]);
    let labels = changed(|g| g.edges[1].o.labels = OF | AT);
    assert_eq!(labels, [23, 1, 0, 0, 0]);
    let source = changed(|g| g.edges[1].source = 2);
    assert_eq!(source, [25, 1, 3, 1, 0]);
    let target = changed(|g| g.edges[1].target = 0);
    assert_eq!(target, [25, 1, 3, 2, 0]);
    let again = |g: &mut G, e: usize| g.edges.push(g.edges[e].clone());
    assert_eq!(changed(|g| drop(g.edges.pop())), [31, 1, 3, 1, 0]);
    assert_eq!(changed(|g| again(g, 0)), [32, 1, 2, 2, 0]);
    let lone = changed(|g| g.nodes.push(g.nodes[3].clone()));
    assert_eq!(lone, [33, 4, 3, 0, 0]);
    assert_eq!(changed(|g| again(g, 2)), [34, 3, 3, 2, 0]);
    // With a misfit record, name 8 is told.
    let node = changed(|g| g.nodes[3].props.truncate(2));
    assert_eq!(node, [22, 3, 2, 1, 8]);
    let edge = changed(|g| g.edges[2].o.props.clear());
    assert_eq!(edge, [24, 2, 1, 1, 8]);
}

#[test]
fn zero_for_refusals() {
    // A pair that is answered with 22, then one of its files is refused.
    let (mut g, s) = full_bench();
    g.nodes[3].props.pop();
    assert_eq!(answer(&g, &s), [22, 3, 2, 1, 8]);
    let (g, s) = (g.bytes(), s.bytes());
    let (rows, schema_rows) = (4 * 16 + 3 * 24, 6 * 16 + 4 * 40);
    let graph_with = |at: usize, number: u8| {
        let mut bytes = g.clone();
        bytes[at] = number;
        second::answer(&bytes, &s)
    };
    assert_eq!(second::answer(&g[g.len() - 27..], &s), [2, 0, 0, 0, 0]);
    assert_eq!(graph_with(g.len() - 1, 0), [3, 0, 0, 0, 0]);
    assert_eq!(graph_with(g.len() - 25, 1), [4, 0, 0, 0, 0]);
    assert_eq!(graph_with(g.len() - 8, 0), [5, 0, 0, 0, 0]);
    assert_eq!(graph_with(2 * 16 + 8, 0), [6, 2, 0, 0, 0]);
    assert_eq!(graph_with(4 * 16 + 24 + 8, 4), [7, 1, 0, 0, 0]);
    assert_eq!(graph_with(rows + 5 * 16 + 2, 6), [8, 5, 0, 0, 0]);
    let schema_with = |at: usize, number: u8| {
        let mut bytes = s.clone();
        bytes[at] = number;
        second::answer(&g, &bytes)
    };
    assert_eq!(second::answer(&g, &s[s.len() - 19..]), [9, 0, 0, 0, 0]);
    assert_eq!(schema_with(s.len() - 1, 0), [10, 0, 0, 0, 0]);
    assert_eq!(schema_with(s.len() - 20, 33), [11, 0, 0, 0, 0]);
    assert_eq!(schema_with(s.len() - 8, 0), [12, 0, 0, 0, 0]);
    assert_eq!(schema_with(3 * 16 + 14, 2), [13, 3, 0, 0, 0]);
    assert_eq!(schema_with(6 * 16 + 40 + 8, 6), [14, 1, 0, 0, 0]);
    assert_eq!(schema_with(schema_rows + 4 * 4 + 3, 2), [15, 4, 0, 0, 0]);
}

/// What a schema says of a name: nothing, or its type and its flag.
const LISTED: [Option<(u8, u8)>; 5] = [
    None,
    Some((INTEGER, MANDATORY)),
    Some((INTEGER, OPTIONAL)),
    Some((BOOLEAN, MANDATORY)),
    Some((BOOLEAN, OPTIONAL)),
];

/// What a record has of a name: nothing, or a value with its kind.
const PRESENT: [Option<(u8, V)>; 3] = [
    None,
    Some((INTEGER, V::Int(1))),
    Some((BOOLEAN, V::Bool(true))),
];

/// The letter by which one name is at fault, or 0: no name is by two letters.
fn letter(listed: usize, present: usize, open: u16) -> u32 {
    match (LISTED[listed], &PRESENT[present]) {
        (Some((_, MANDATORY)), None) => 1,
        (None, Some(_)) if open == 0 => 2,
        (Some((kind, _)), Some((other, _))) if kind != *other => 3,
        _ => 0,
    }
}

#[test]
fn three_names_in_all_ways() {
    let names = [0, 7, 255];
    let ways = LISTED.len() * PRESENT.len();
    for way in 0..2 * ways.pow(3) {
        let open = (way % 2) as u16;
        let (mut listed, mut props, mut faults) = (Vec::new(), Vec::new(), Vec::new());
        for (place, name) in (0..).zip(names) {
            let way = way / 2 / ways.pow(place) % ways;
            let (type_way, value_way) = (way / PRESENT.len(), way % PRESENT.len());
            if let Some((kind, flag)) = LISTED[type_way] {
                listed.push((name, kind, flag));
            }
            if let Some((_, value)) = &PRESENT[value_way] {
                props.push((name, value.clone()));
            }
            match letter(type_way, value_way, open) {
                0 => (),
                letter => faults.push((letter, u32::from(name))),
            }
        }
        // The first letter, and the lowest name among those by that letter.
        match faults.iter().min() {
            Some(fault) => assert_eq!(told(&props, &listed, open), *fault),
            None => {
                assert_eq!(node(&props, &listed, open), [0; 5]);
                assert_eq!(link(&props, &listed, open), [0; 5]);
            }
        }
    }
}
