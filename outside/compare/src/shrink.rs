//! A call on which the programs differ, made small: what can be left out while they still differ is left out.
//!
//! A file that is accepted is made smaller as a value; one whose rows are bad, row by row; any other, byte by byte. A sheet is
//! made smaller line by line, then byte by byte.

use crate::border::{Call, Function, ANSWER_BYTES};
use crate::lists::BEFORE;
use crate::model::*;
use crate::sheet::file_bytes;

/// Tries the smaller versions of a file one after the other; `less` gives the nth, or none when there is no such one.
fn shrink_by(bytes: &mut Vec<u8>, less: impl Fn(&[u8], usize) -> Option<Vec<u8>>, differ: &mut impl FnMut(&[u8]) -> bool) {
    let mut nth = 0;
    while let Some(smaller) = less(bytes, nth) {
        if smaller != *bytes && differ(&smaller) {
            *bytes = smaller;
        } else {
            nth += 1;
        }
    }
}

/// The edges at a node that is left out go, too, and the nodes above it move down.
fn without_node(ends: [u32; 2], node: usize) -> Option<[u32; 2]> {
    if ends.iter().any(|&end| end as usize == node) {
        None
    } else {
        Some(ends.map(|end| end - (end as usize > node) as u32))
    }
}

/// Takes the nth element out of lists that are counted through.
fn take_out<'a, T: 'a>(lists: impl Iterator<Item = &'a mut Vec<T>>, mut nth: usize) -> bool {
    for list in lists {
        if nth < list.len() {
            list.remove(nth);
            return true;
        }
        nth -= list.len();
    }
    false
}

/// Of more nodes half are left out at once.
const MANY_NODES: usize = 64;

fn less_graph(bytes: &[u8], nth: usize) -> Option<Vec<u8>> {
    let mut g = graph_of(bytes);
    let (edges, nodes) = (g.edges.len(), g.nodes.len());
    match nth {
        0 => g.preface.clear(),
        1 => g.text.clear(),
        2 => g.edges.truncate(edges / 2),
        3 => drop(g.edges.drain(..edges / 2)),
        4 => g.nodes.iter_mut().map(|n| &mut n.properties).chain(g.edges.iter_mut().map(|e| &mut e.properties)).for_each(|p| p.clear()),
        5 if nodes > MANY_NODES => {
            g.nodes.truncate(nodes / 2);
            g.edges.retain(|e| e.ends.iter().all(|&end| (end as usize) < nodes / 2));
        }
        5 => {}
        _ if nth - 6 < edges => drop(g.edges.remove(nth - 6)),
        _ if nth - 6 - edges < nodes => {
            let node = nth - 6 - edges;
            g.nodes.remove(node);
            g.edges.retain_mut(|e| without_node(e.ends, node).map(|ends| e.ends = ends).is_some());
        }
        _ => {
            let lists = g.nodes.iter_mut().map(|n| &mut n.properties).chain(g.edges.iter_mut().map(|e| &mut e.properties));
            if !take_out(lists, nth - 6 - edges - nodes) {
                return None;
            }
        }
    }
    Some(lay_graph(&g).bytes)
}

fn less_schema(bytes: &[u8], nth: usize) -> Option<Vec<u8>> {
    let mut s = schema_of(bytes);
    let (edges, nodes) = (s.edges.len(), s.nodes.len());
    let free = Interval { low: 0, high: ANY };
    match nth {
        0 => s.preface.clear(),
        // an interval that holds everything lets more of the graph be left out
        _ if nth - 1 < edges => s.edges[nth - 1].source = free,
        _ if nth - 1 - edges < edges => s.edges[nth - 1 - edges].target = free,
        _ if nth - 1 - 2 * edges < edges => drop(s.edges.remove(nth - 1 - 2 * edges)),
        _ if nth - 1 - 3 * edges < nodes => {
            let node = nth - 1 - 3 * edges;
            s.nodes.remove(node);
            s.edges.retain_mut(|e| without_node(e.ends, node).map(|ends| e.ends = ends).is_some());
        }
        _ => {
            let lists = s.nodes.iter_mut().chain(s.edges.iter_mut().map(|e| &mut e.shape)).map(|shape| &mut shape.listed);
            if !take_out(lists, nth - 1 - 3 * edges - nodes) {
                return None;
            }
        }
    }
    Some(lay_schema(&s).bytes)
}

/// One row less in a file whose trailer is in order; the rows are counted from the last.
fn less_rows(file: File, bytes: &[u8], nth: usize) -> Option<Vec<u8>> {
    let mut laid = laid_of(file, bytes);
    let (body, trailer) = (laid.starts[0], laid.trailer);
    if nth == 0 {
        return Some(bytes[body..].to_vec());
    }
    let mut left = nth - 1;
    for table in TABLES.into_iter().rev() {
        let count = laid.count(table);
        if left < count {
            let row = laid.row(table, count - 1 - left);
            laid.bytes.drain(row..row + width(file, table));
            let (field, size) = count_fields(file)[table as usize];
            laid.put(trailer - width(file, table) + field, size, count as u64 - 1);
            let back = laid.back();
            laid.put(back, 4, (trailer - width(file, table) - body) as u64);
            return Some(laid.bytes);
        }
        left -= count;
    }
    None
}

/// Pieces of which there are very many are not tried.
const MANY: usize = 4096;

/// A piece left out, large ones first; then a byte made `zero`.
fn less_to(zero: u8, bytes: &[u8], nth: usize) -> Option<Vec<u8>> {
    let mut left = nth;
    for piece in [4096, 256, 16, 4, 1] {
        let pieces = bytes.len() / piece;
        if pieces > MANY {
            return None;
        }
        if left < pieces {
            return Some([&bytes[..left * piece], &bytes[(left + 1) * piece..]].concat());
        }
        left -= pieces;
    }
    let mut smaller = bytes.to_vec();
    *smaller.get_mut(left)? = zero;
    Some(smaller)
}

fn less_bytes(bytes: &[u8], nth: usize) -> Option<Vec<u8>> {
    less_to(0, bytes, nth)
}

/// Lines left out, many first; then bytes, or a byte made the digit 0.
fn less_sheet(bytes: &[u8], nth: usize) -> Option<Vec<u8>> {
    let lines: Vec<&[u8]> = bytes.split_inclusive(|&byte| byte == b'\n').collect();
    let mut left = nth;
    for piece in [4096, 256, 16, 1] {
        let pieces = lines.len() / piece;
        if pieces > MANY {
            return None;
        }
        if left < pieces {
            return Some([&lines[..left * piece], &lines[(left + 1) * piece..]].concat().concat());
        }
        left -= pieces;
    }
    less_to(b'0', bytes, left)
}

fn shrink_file(file: File, bytes: &mut Vec<u8>, differ: &mut impl FnMut(&[u8]) -> bool) {
    let refusal = match file {
        File::Graph => second::graph::decode(bytes).err(),
        File::Schema => second::schema::decode(bytes).err(),
    };
    let rows = if file == File::Graph { 6..=8 } else { 13..=15 };
    match refusal {
        None if file == File::Graph => shrink_by(bytes, less_graph, differ),
        None => shrink_by(bytes, less_schema, differ),
        // a version without its rows may have another refusal, which says nothing about its trailer
        Some(r) if rows.contains(&r.code) => shrink_by(bytes, |b, n| less_rows(file, b, n), &mut |b: &[u8]| trailer_stands(file, b) && differ(b)),
        Some(_) => shrink_by(bytes, less_bytes, differ),
    }
}

fn trailer_stands(file: File, bytes: &[u8]) -> bool {
    match file {
        File::Graph => !matches!(second::graph::decode(bytes), Err(r) if r.code < 6),
        File::Schema => !matches!(second::schema::decode(bytes), Err(r) if r.code < 13),
    }
}

/// How many bytes of a graph file are no preface; of one whose trailer is bad all are counted.
fn without_preface(bytes: &[u8]) -> usize {
    if trailer_stands(File::Graph, bytes) {
        laid_of(File::Graph, bytes).without_preface().len()
    } else {
        bytes.len()
    }
}

/// The call with another lent block. An output becomes shorter by as much as the graph does, or the two, or the file of the sheet.
fn with_block(call: &Call, at: usize, bytes: &[u8]) -> Call {
    let mut other = call.clone();
    other.lent[at] = bytes.to_vec();
    let lengths = match call.function {
        Function::Again if at == 0 => [bytes.len(), call.lent[0].len()],
        Function::Join => [bytes, &call.lent[at]].map(without_preface),
        Function::Twice => [bytes, &call.lent[0]].map(|bytes| 2 * without_preface(bytes)),
        Function::Sheet => [file_bytes(bytes), file_bytes(&call.lent[0])],
        _ => return other,
    };
    other.block.truncate((call.block.len() + lengths[0]).saturating_sub(lengths[1]));
    other
}

/// Tries smaller versions of one lent block.
fn shrink_block(call: &mut Call, at: usize, differ: &mut impl FnMut(&Call) -> bool, shrink: impl Fn(&mut Vec<u8>, &mut dyn FnMut(&[u8]) -> bool)) {
    let (of, mut bytes) = (call.clone(), call.lent[at].clone());
    shrink(&mut bytes, &mut |b| differ(&with_block(&of, at, b)));
    *call = with_block(&of, at, &bytes);
}

/// The graph file of lent tables, if they are whole rows; counts too high for it are left to the call.
fn joined(call: &Call) -> Option<Vec<u8>> {
    let mut bytes = call.lent.concat();
    let body = bytes.len();
    for table in TABLES {
        let (lent, width) = (call.lent[table as usize].len(), width(File::Graph, table));
        if lent % width != 0 {
            return None;
        }
        bytes.extend((lent as u32 / width as u32).to_le_bytes());
    }
    bytes.extend((call.lent[3].len() as u32).to_le_bytes());
    bytes.extend((call.counts[0].min(64) as u16).to_le_bytes());
    bytes.extend((call.counts[1].min(256) as u16).to_le_bytes());
    bytes.extend((body as u32).to_le_bytes());
    bytes.extend(b"GPH1");
    if trailer_stands(File::Graph, &bytes) {
        Some(bytes)
    } else {
        None
    }
}

/// Lent tables of whole rows are made smaller as the file that they would be, others byte by byte.
fn shrink_tables(call: &mut Call, differ: &mut impl FnMut(&Call) -> bool) {
    let of = call.clone();
    if let Some(file) = joined(&of) {
        let with_file = |smaller: &[u8]| {
            let mut other = of.clone();
            other.lent = laid_of(File::Graph, smaller).tables();
            other.block.truncate((of.block.len() + smaller.len()).saturating_sub(file.len()));
            other
        };
        let mut bytes = file.clone();
        shrink_file(File::Graph, &mut bytes, &mut |b| trailer_stands(File::Graph, b) && differ(&with_file(b)));
        *call = with_file(&bytes);
    } else {
        for at in 0..call.lent.len() {
            shrink_block(call, at, differ, |bytes, differ| shrink_by(bytes, less_bytes, &mut |b| differ(b)));
        }
    }
}

/// Both files without a name, if both are accepted: a mandatory one cannot be left out of the graph alone.
fn without_name(call: &Call, name: u16) -> Option<Call> {
    if second::graph::decode(&call.lent[0]).is_err() || second::schema::decode(&call.lent[1]).is_err() {
        return None;
    }
    let (mut g, mut s) = (graph_of(&call.lent[0]), schema_of(&call.lent[1]));
    g.nodes.iter_mut().for_each(|node| node.properties.retain(|p| p.name != name));
    g.edges.iter_mut().for_each(|edge| edge.properties.retain(|p| p.name != name));
    s.nodes.iter_mut().for_each(|shape| shape.listed.retain(|l| l.name != name));
    s.edges.iter_mut().for_each(|edge| edge.shape.listed.retain(|l| l.name != name));
    Some(with_block(&with_block(call, 0, &lay_graph(&g).bytes), 1, &lay_schema(&s).bytes))
}

fn shrink_names(call: &mut Call, differ: &mut impl FnMut(&Call) -> bool) {
    for name in 0..256 {
        match without_name(call, name) {
            None => return,
            Some(smaller) if smaller.lent != call.lent && differ(&smaller) => *call = smaller,
            Some(_) => {}
        }
    }
}

fn shrink_pair(call: &mut Call, differ: &mut impl FnMut(&Call) -> bool) {
    if call.lent.len() > 1 {
        let without = with_block(call, 1, &[]);
        if differ(&without) {
            *call = without;
        }
        shrink_names(call, differ);
        shrink_block(call, 1, differ, |bytes, differ| shrink_file(File::Schema, bytes, &mut |b| differ(b)));
    }
    shrink_block(call, 0, differ, |bytes, differ| shrink_file(File::Graph, bytes, &mut |b| differ(b)));
}

/// Each of the two files by itself, or the one that is lent twice.
fn shrink_graphs(call: &mut Call, differ: &mut impl FnMut(&Call) -> bool) {
    for at in 0..call.lent.len() {
        shrink_block(call, at, differ, |bytes, differ| shrink_file(File::Graph, bytes, &mut |b| differ(b)));
    }
}

/// An output with its end left out, large pieces first. Of a list whole records are left out.
fn less_end(unit: usize, bytes: &[u8], nth: usize) -> Option<Vec<u8>> {
    let piece = unit * *[65_536, 4_096, 256, 16, 1].get(nth)?;
    Some(bytes[..bytes.len().saturating_sub(piece)].to_vec())
}

fn shrink_end(call: &mut Call, unit: usize, differ: &mut impl FnMut(&Call) -> bool) {
    let of = call.clone();
    shrink_by(&mut call.block, |b, n| less_end(unit, b, n), &mut |b: &[u8]| differ(&Call { block: b.to_vec(), ..of.clone() }));
}

/// A list has room for all violations and one record more, so that all can be seen. Where the programs do not differ then, it has as
/// little as can be.
fn shrink_room(call: &mut Call, differ: &mut impl FnMut(&Call) -> bool) {
    let [.., total] = second::check_all(&call.lent[0], &call.lent[1], &mut []);
    let whole = Call { block: vec![BEFORE; (total as usize + 1) * ANSWER_BYTES], ..call.clone() };
    if differ(&whole) {
        *call = whole;
    } else {
        shrink_end(call, ANSWER_BYTES, differ);
    }
}

/// The smallest call found on which `differ` still holds.
pub fn shrink(mut call: Call, mut differ: impl FnMut(&Call) -> bool) -> Call {
    loop {
        let before = call.clone();
        match call.function {
            Function::Write => shrink_tables(&mut call, &mut differ),
            Function::Check | Function::Find | Function::Again | Function::All => shrink_pair(&mut call, &mut differ),
            Function::Sheet => shrink_block(&mut call, 0, &mut differ, |bytes, differ| shrink_by(bytes, less_sheet, &mut |b| differ(b))),
            Function::Join | Function::Twice => shrink_graphs(&mut call, &mut differ),
        }
        match call.function {
            Function::Write | Function::Again | Function::Sheet | Function::Join | Function::Twice => shrink_end(&mut call, 1, &mut differ),
            Function::All => shrink_room(&mut call, &mut differ),
            Function::Check | Function::Find => {}
        }
        if before.lent == call.lent && before.block == call.block {
            return call;
        }
    }
}
