//! The tests' own encoder from values to bytes, and the lamp bench.
#![allow(dead_code)]

pub const ANY: u32 = u32::MAX;

pub const SENSOR: u64 = 1;
pub const RUN: u64 = 2;
pub const ANGLE: u64 = 4;
pub const OF: u64 = 8;
pub const AT: u64 = 16;

pub const BOOLEAN: u8 = 1;
pub const INTEGER: u8 = 2;
pub const REAL: u8 = 3;
pub const DATE: u8 = 4;
pub const TEXT: u8 = 5;

#[derive(Clone, Debug)]
pub enum V {
    Bool(bool),
    Int(i64),
    Real(f64),
    Date(u32),
    Text(&'static str),
}

#[derive(Clone, Debug)]
pub struct O {
    pub labels: u64,
    pub props: Vec<(u16, V)>,
}

#[derive(Clone, Debug)]
pub struct E {
    pub o: O,
    pub source: u32,
    pub target: u32,
}

#[derive(Clone, Debug, Default)]
pub struct G {
    pub nodes: Vec<O>,
    pub edges: Vec<E>,
    pub labels: u16,
    pub names: u16,
    pub preface: Vec<u8>,
}

#[derive(Clone, Debug)]
pub struct T {
    pub labels: u64,
    pub listed: Vec<(u16, u8, u8)>,
    pub open: u16,
}

#[derive(Clone, Debug)]
pub struct SE {
    pub t: T,
    pub source: u32,
    pub target: u32,
    pub source_interval: (u32, u32),
    pub target_interval: (u32, u32),
}

#[derive(Clone, Debug, Default)]
pub struct S {
    pub nodes: Vec<T>,
    pub edges: Vec<SE>,
    pub labels: u16,
    pub names: u16,
    pub preface: Vec<u8>,
}

fn p16(out: &mut Vec<u8>, n: u16) {
    out.extend_from_slice(&n.to_le_bytes());
}

fn p32(out: &mut Vec<u8>, n: u32) {
    out.extend_from_slice(&n.to_le_bytes());
}

fn p64(out: &mut Vec<u8>, n: u64) {
    out.extend_from_slice(&n.to_le_bytes());
}

fn property_row(rows: &mut Vec<u8>, text: &mut Vec<u8>, name: u16, value: &V) {
    let (kind, length, bits) = match value {
        V::Bool(b) => (1, 0, u64::from(*b)),
        V::Int(i) => (2, 0, *i as u64),
        V::Real(f) => (3, 0, f.to_bits()),
        V::Date(d) => (4, 0, u64::from(*d)),
        V::Text(t) => (5, t.len() as u32, text.len() as u64),
    };
    if let V::Text(t) = value {
        text.extend_from_slice(t.as_bytes());
    }
    p16(rows, name);
    rows.push(kind);
    rows.push(0);
    p32(rows, length);
    p64(rows, bits);
}

impl G {
    pub fn bytes(&self) -> Vec<u8> {
        let (mut body, mut rows, mut text) = (Vec::new(), Vec::new(), Vec::new());
        let mut start = 0;
        let mut run = |body: &mut Vec<u8>, o: &O| {
            p32(body, start);
            p32(body, o.props.len() as u32);
            start += o.props.len() as u32;
            for (name, value) in &o.props {
                property_row(&mut rows, &mut text, *name, value);
            }
        };
        for node in &self.nodes {
            p64(&mut body, node.labels);
            run(&mut body, node);
        }
        for edge in &self.edges {
            p64(&mut body, edge.o.labels);
            p32(&mut body, edge.source);
            p32(&mut body, edge.target);
            run(&mut body, &edge.o);
        }
        body.extend([&rows[..], &text].concat());
        let back = body.len() as u32;
        let mut out = [&self.preface[..], &body].concat();
        let counts = [self.nodes.len(), self.edges.len(), rows.len() / 16];
        for count in counts.iter().chain([&text.len()]) {
            p32(&mut out, *count as u32);
        }
        p16(&mut out, self.labels);
        p16(&mut out, self.names);
        p32(&mut out, back);
        out.extend_from_slice(b"GPH1");
        out
    }
}

impl S {
    pub fn bytes(&self) -> Vec<u8> {
        let (mut body, mut rows) = (Vec::new(), Vec::new());
        let mut start = 0;
        let mut run = |body: &mut Vec<u8>, t: &T| {
            p32(body, start);
            p16(body, t.listed.len() as u16);
            p16(body, t.open);
            start += t.listed.len() as u32;
            for (name, kind, flag) in &t.listed {
                p16(&mut rows, *name);
                rows.extend([*kind, *flag]);
            }
        };
        for node in &self.nodes {
            p64(&mut body, node.labels);
            run(&mut body, node);
        }
        for edge in &self.edges {
            p64(&mut body, edge.t.labels);
            p32(&mut body, edge.source);
            p32(&mut body, edge.target);
            run(&mut body, &edge.t);
            let ((a, b), (c, d)) = (edge.source_interval, edge.target_interval);
            for bound in [a, b, c, d] {
                p32(&mut body, bound);
            }
        }
        body.extend_from_slice(&rows);
        let back = body.len() as u32;
        let mut out = [&self.preface[..], &body].concat();
        p16(&mut out, self.nodes.len() as u16);
        p16(&mut out, self.edges.len() as u16);
        p32(&mut out, rows.len() as u32 / 4);
        p16(&mut out, self.labels);
        p16(&mut out, self.names);
        p32(&mut out, back);
        out.extend_from_slice(b"SCH1");
        out
    }
}

/// Writes a number of this width, low byte first, over the bytes.
pub fn put(bytes: &mut [u8], at: usize, width: usize, number: u64) {
    bytes[at..at + width].copy_from_slice(&number.to_le_bytes()[..width]);
}

pub fn obj(labels: u64, props: &[(u16, V)]) -> O {
    let props = props.to_vec();
    O { labels, props }
}

pub fn edge(source: u32, target: u32, labels: u64) -> E {
    let o = obj(labels, &[]);
    E { o, source, target }
}

pub fn sensor() -> O {
    obj(SENSOR, &[(0, V::Text("LX-7"))])
}

pub fn run() -> O {
    obj(RUN, &[(1, V::Date(20240229))])
}

pub fn angle(degrees: i64) -> O {
    obj(ANGLE, &[(3, V::Int(degrees)), (4, V::Real(0.5))])
}

pub fn ty(labels: u64, listed: &[(u16, u8, u8)]) -> T {
    let (listed, open) = (listed.to_vec(), 0);
    T {
        labels,
        listed,
        open,
    }
}

/// Schema S of the lamp bench.
pub fn bench_schema() -> S {
    let of = SE {
        t: ty(OF, &[]),
        source: 1,
        target: 0,
        source_interval: (0, ANY),
        target_interval: (1, 1),
    };
    let at = SE {
        t: ty(AT, &[]),
        source: 1,
        target: 2,
        source_interval: (1, 1),
        target_interval: (2, 3),
    };
    S {
        nodes: vec![
            ty(SENSOR, &[(0, TEXT, 0)]),
            ty(RUN, &[(1, DATE, 0), (2, TEXT, 1)]),
            ty(ANGLE, &[(3, INTEGER, 0), (4, REAL, 0)]),
        ],
        edges: vec![of, at],
        labels: 5,
        names: 5,
        preface: Vec::new(),
    }
}

/// Graph G of the lamp bench.
pub fn bench_graph() -> G {
    G {
        nodes: vec![sensor(), run(), angle(0), angle(-45)],
        edges: vec![edge(1, 0, OF), edge(1, 2, AT), edge(1, 3, AT)],
        labels: 5,
        names: 5,
        preface: Vec::new(),
    }
}

pub fn answer(g: &G, s: &S) -> [u32; 5] {
    second::answer(&g.bytes(), &s.bytes())
}

/// Numbers that look random, the same in every run.
pub struct Dice(pub u64);

impl Dice {
    pub fn roll(&mut self, sides: usize) -> usize {
        self.0 ^= self.0 << 13;
        self.0 ^= self.0 >> 7;
        self.0 ^= self.0 << 17;
        (self.0 >> 11) as usize % sides
    }
}
