//! Graphs and schemas as values, and the two files that 01 gives them.

pub const ANY: u32 = u32::MAX;

#[derive(Clone, Debug, PartialEq)]
pub struct Property {
    pub name: u16,
    pub kind: u8,
    pub length: u32,
    pub value: u64,
}

#[derive(Clone, Debug, PartialEq)]
pub struct Node {
    pub labels: u64,
    pub properties: Vec<Property>,
}

#[derive(Clone, Debug, PartialEq)]
pub struct Edge {
    pub labels: u64,
    pub ends: [u32; 2],
    pub properties: Vec<Property>,
}

#[derive(Clone, Debug, Default, PartialEq)]
pub struct Graph {
    pub nodes: Vec<Node>,
    pub edges: Vec<Edge>,
    pub text: Vec<u8>,
    pub labels: u16,
    pub names: u16,
    pub preface: Vec<u8>,
}

#[derive(Clone, Debug, PartialEq)]
pub struct Listed {
    pub name: u16,
    pub kind: u8,
    pub optional: bool,
}

/// What a schema node and a schema edge share.
#[derive(Clone, Debug, PartialEq)]
pub struct Shape {
    pub labels: u64,
    pub open: bool,
    pub listed: Vec<Listed>,
}

#[derive(Clone, Copy, Debug, PartialEq)]
pub struct Interval {
    pub low: u32,
    pub high: u32,
}

#[derive(Clone, Debug, PartialEq)]
pub struct SchemaEdge {
    pub shape: Shape,
    pub ends: [u32; 2],
    pub source: Interval,
    pub target: Interval,
}

#[derive(Clone, Debug, Default, PartialEq)]
pub struct Schema {
    pub nodes: Vec<Shape>,
    pub edges: Vec<SchemaEdge>,
    pub labels: u16,
    pub names: u16,
    pub preface: Vec<u8>,
}

#[derive(Clone, Copy, PartialEq, Debug)]
pub enum File {
    Graph,
    Schema,
}

#[derive(Clone, Copy, PartialEq, Debug)]
pub enum Table {
    Nodes,
    Edges,
    Properties,
}

/// A row's bytes.
pub fn width(file: File, table: Table) -> usize {
    match (file, table) {
        (_, Table::Nodes) => 16,
        (File::Graph, Table::Edges) => 24,
        (File::Schema, Table::Edges) => 40,
        (File::Graph, Table::Properties) => 16,
        (File::Schema, Table::Properties) => 4,
    }
}

/// A file's least length, which is its trailer's.
pub const fn least(file: File) -> usize {
    match file {
        File::Graph => 28,
        File::Schema => 20,
    }
}

/// A file's bytes, and where its parts lie.
#[derive(Clone)]
pub struct Laid {
    pub file: File,
    pub bytes: Vec<u8>,
    pub starts: [usize; 3],
    pub counts: [usize; 3],
    /// the number of text bytes; a schema has none
    pub text: usize,
    pub trailer: usize,
    pub labels: usize,
    pub names: usize,
}

impl Laid {
    pub fn count(&self, table: Table) -> usize {
        self.counts[table as usize]
    }

    /// Where a row of a table starts.
    pub fn row(&self, table: Table, index: usize) -> usize {
        self.starts[table as usize] + index * width(self.file, table)
    }

    pub fn get(&self, at: usize, bytes: usize) -> u64 {
        (0..bytes).fold(0, |sum, i| sum | (self.bytes[at + i] as u64) << (8 * i))
    }

    pub fn put(&mut self, at: usize, bytes: usize, value: u64) {
        self.bytes[at..at + bytes].copy_from_slice(&value.to_le_bytes()[..bytes]);
    }

    /// Where "back" stands in the file.
    pub fn back(&self) -> usize {
        self.bytes.len() - 8
    }

    /// A graph file's tables, as they are lent to the writer: nodes, edges, property rows, text. A table ends where the next
    /// one starts, so rows that were put in are taken along.
    pub fn tables(&self) -> Vec<Vec<u8>> {
        let [nodes, edges, rows] = self.starts;
        let borders = [nodes, edges, rows, self.trailer - self.text, self.trailer];
        borders.windows(2).map(|part| self.bytes[part[0]..part[1]].to_vec()).collect()
    }

    /// The file as it is written: without its preface.
    pub fn without_preface(&self) -> &[u8] {
        &self.bytes[self.starts[0]..]
    }

    /// The twelve numbers that say where an accepted graph file's tables lie.
    pub fn places(&self) -> [u32; 12] {
        let ([nodes_at, edges_at, rows_at], [nodes, edges, rows]) = (self.starts, self.counts);
        let text_at = self.trailer - self.text;
        [0, 0, nodes_at, nodes, edges_at, edges, rows_at, rows, text_at, self.text, self.labels, self.names].map(|n| n as u32)
    }
}

fn write(to: &mut Vec<u8>, bytes: usize, value: u64) {
    to.extend_from_slice(&value.to_le_bytes()[..bytes]);
}

/// The runs' starts: each run starts where the one before ended.
fn starts(counts: impl Iterator<Item = usize>) -> Vec<u64> {
    counts
        .scan(0, |next, count| {
            let start = *next;
            *next += count as u64;
            Some(start)
        })
        .collect()
}

fn lay(file: File, preface: &[u8], tables: [(usize, Vec<u8>); 3], text: &[u8], trailer: &[u8], numbers: [usize; 2]) -> Laid {
    let mut bytes = preface.to_vec();
    let (labels, names) = (numbers[0], numbers[1]);
    let mut laid = Laid { file, bytes: vec![], starts: [0; 3], counts: [0; 3], text: text.len(), trailer: 0, labels, names };
    for (i, (count, rows)) in tables.iter().enumerate() {
        laid.starts[i] = bytes.len();
        laid.counts[i] = *count;
        bytes.extend_from_slice(rows);
    }
    bytes.extend_from_slice(text);
    laid.trailer = bytes.len();
    bytes.extend_from_slice(trailer);
    write(&mut bytes, 4, (laid.trailer - preface.len()) as u64);
    bytes.extend_from_slice(if file == File::Graph { b"GPH1" } else { b"SCH1" });
    laid.bytes = bytes;
    laid
}

pub fn lay_graph(g: &Graph) -> Laid {
    let starts = starts(g.nodes.iter().map(|n| n.properties.len()).chain(g.edges.iter().map(|e| e.properties.len())));
    let (mut nodes, mut edges, mut properties) = (vec![], vec![], vec![]);
    for (node, start) in g.nodes.iter().zip(&starts) {
        write(&mut nodes, 8, node.labels);
        write(&mut nodes, 4, *start);
        write(&mut nodes, 4, node.properties.len() as u64);
    }
    for (edge, start) in g.edges.iter().zip(&starts[g.nodes.len()..]) {
        write(&mut edges, 8, edge.labels);
        edge.ends.iter().for_each(|&end| write(&mut edges, 4, end as u64));
        write(&mut edges, 4, *start);
        write(&mut edges, 4, edge.properties.len() as u64);
    }
    let all = g.nodes.iter().map(|n| &n.properties).chain(g.edges.iter().map(|e| &e.properties)).flatten();
    for property in all.clone() {
        write(&mut properties, 2, property.name as u64);
        write(&mut properties, 2, property.kind as u64);
        write(&mut properties, 4, property.length as u64);
        write(&mut properties, 8, property.value);
    }
    let rows = all.count();
    let mut trailer = vec![];
    for count in [g.nodes.len(), g.edges.len(), rows, g.text.len()] {
        write(&mut trailer, 4, count as u64);
    }
    write(&mut trailer, 2, g.labels as u64);
    write(&mut trailer, 2, g.names as u64);
    let tables = [(g.nodes.len(), nodes), (g.edges.len(), edges), (rows, properties)];
    lay(File::Graph, &g.preface, tables, &g.text, &trailer, [g.labels as usize, g.names as usize])
}

pub fn lay_schema(s: &Schema) -> Laid {
    let starts = starts(s.nodes.iter().map(|n| n.listed.len()).chain(s.edges.iter().map(|e| e.shape.listed.len())));
    let (mut nodes, mut edges, mut properties) = (vec![], vec![], vec![]);
    let tail = |to: &mut Vec<u8>, shape: &Shape, start: u64| {
        write(to, 4, start);
        write(to, 2, shape.listed.len() as u64);
        write(to, 2, shape.open as u64);
    };
    for (node, start) in s.nodes.iter().zip(&starts) {
        write(&mut nodes, 8, node.labels);
        tail(&mut nodes, node, *start);
    }
    for (edge, start) in s.edges.iter().zip(&starts[s.nodes.len()..]) {
        write(&mut edges, 8, edge.shape.labels);
        edge.ends.iter().for_each(|&end| write(&mut edges, 4, end as u64));
        tail(&mut edges, &edge.shape, *start);
        for number in [edge.source.low, edge.source.high, edge.target.low, edge.target.high] {
            write(&mut edges, 4, number as u64);
        }
    }
    let all = s.nodes.iter().chain(s.edges.iter().map(|e| &e.shape)).flat_map(|shape| &shape.listed);
    for listed in all.clone() {
        write(&mut properties, 2, listed.name as u64);
        write(&mut properties, 1, listed.kind as u64);
        write(&mut properties, 1, listed.optional as u64);
    }
    let rows = all.count();
    let mut trailer = vec![];
    write(&mut trailer, 2, s.nodes.len() as u64);
    write(&mut trailer, 2, s.edges.len() as u64);
    write(&mut trailer, 4, rows as u64);
    write(&mut trailer, 2, s.labels as u64);
    write(&mut trailer, 2, s.names as u64);
    let tables = [(s.nodes.len(), nodes), (s.edges.len(), edges), (rows, properties)];
    lay(File::Schema, &s.preface, tables, &[], &trailer, [s.labels as usize, s.names as usize])
}

/// A count's place in the trailer and its bytes.
pub fn count_fields(file: File) -> [(usize, usize); 3] {
    match file {
        File::Graph => [(0, 4), (4, 4), (8, 4)],
        File::Schema => [(0, 2), (2, 2), (4, 4)],
    }
}

pub const TABLES: [Table; 3] = [Table::Nodes, Table::Edges, Table::Properties];

/// Where the parts of a file lie whose trailer is in order.
pub fn laid_of(file: File, bytes: &[u8]) -> Laid {
    let trailer = bytes.len() - least(file);
    let mut laid = Laid { file, bytes: bytes.to_vec(), starts: [0; 3], counts: [0; 3], text: 0, trailer, labels: 0, names: 0 };
    let mut at = trailer - laid.get(laid.back(), 4) as usize;
    for table in TABLES {
        let (field, size) = count_fields(file)[table as usize];
        laid.starts[table as usize] = at;
        laid.counts[table as usize] = laid.get(trailer + field, size) as usize;
        at += laid.count(table) * width(file, table);
    }
    let counts = laid.back() - 4;
    (laid.labels, laid.names) = (laid.get(counts, 2) as usize, laid.get(counts + 2, 2) as usize);
    laid.text = trailer - at;
    laid
}

/// An accepted file taken apart again: its preface, and a reader of its rows.
struct Parts<'a> {
    bytes: &'a [u8],
    at: usize,
}

impl Parts<'_> {
    fn number(&mut self, bytes: usize) -> u64 {
        let value = (0..bytes).fold(0, |sum, i| sum | (self.bytes[self.at + i] as u64) << (8 * i));
        self.at += bytes;
        value
    }

    /// The body's first byte: the trailer stands `trailer` bytes before the end, and back eight.
    fn body(bytes: &[u8], trailer: usize) -> usize {
        let mut back = Parts { bytes, at: bytes.len() - 8 };
        bytes.len() - trailer - back.number(4) as usize
    }
}

/// The graph of a file that is accepted.
pub fn graph_of(bytes: &[u8]) -> Graph {
    let body = Parts::body(bytes, 28);
    let mut trailer = Parts { bytes, at: bytes.len() - 28 };
    let counts = [0; 4].map(|_: usize| trailer.number(4) as usize);
    let mut g = Graph { labels: trailer.number(2) as u16, names: trailer.number(2) as u16, preface: bytes[..body].to_vec(), ..Graph::default() };
    let mut p = Parts { bytes, at: body };
    let mut runs = vec![];
    for _ in 0..counts[0] {
        g.nodes.push(Node { labels: p.number(8), properties: vec![] });
        p.number(4);
        runs.push(p.number(4));
    }
    for _ in 0..counts[1] {
        g.edges.push(Edge { labels: p.number(8), ends: [p.number(4) as u32, p.number(4) as u32], properties: vec![] });
        p.number(4);
        runs.push(p.number(4));
    }
    let lists = g.nodes.iter_mut().map(|n| &mut n.properties).chain(g.edges.iter_mut().map(|e| &mut e.properties));
    for (list, run) in lists.zip(runs) {
        for _ in 0..run {
            let (name, kind) = (p.number(2) as u16, p.number(2) as u8);
            list.push(Property { name, kind, length: p.number(4) as u32, value: p.number(8) });
        }
    }
    g.text = bytes[p.at..p.at + counts[3]].to_vec();
    g
}

/// The schema of a file that is accepted.
pub fn schema_of(bytes: &[u8]) -> Schema {
    let body = Parts::body(bytes, 20);
    let mut trailer = Parts { bytes, at: bytes.len() - 20 };
    let counts = [trailer.number(2), trailer.number(2), trailer.number(4)];
    let mut s = Schema { labels: trailer.number(2) as u16, names: trailer.number(2) as u16, preface: bytes[..body].to_vec(), ..Schema::default() };
    let mut p = Parts { bytes, at: body };
    let mut runs = vec![];
    let mut tail = |p: &mut Parts, labels: u64| {
        p.number(4);
        runs.push(p.number(2));
        Shape { labels, open: p.number(2) == 1, listed: vec![] }
    };
    for _ in 0..counts[0] {
        let labels = p.number(8);
        s.nodes.push(tail(&mut p, labels));
    }
    for _ in 0..counts[1] {
        let (labels, ends) = (p.number(8), [p.number(4) as u32, p.number(4) as u32]);
        let shape = tail(&mut p, labels);
        let [source, target] = [0, 1].map(|_| Interval { low: p.number(4) as u32, high: p.number(4) as u32 });
        s.edges.push(SchemaEdge { shape, ends, source, target });
    }
    let lists = s.nodes.iter_mut().chain(s.edges.iter_mut().map(|e| &mut e.shape));
    for (shape, run) in lists.zip(runs) {
        for _ in 0..run {
            shape.listed.push(Listed { name: p.number(2) as u16, kind: p.number(1) as u8, optional: p.number(1) == 1 });
        }
    }
    s
}
