//! The second program, with the entries that C calls. See include/havirozan.h for what the blocks are.
use std::slice::{from_raw_parts, from_raw_parts_mut};

#[repr(C)]
pub struct Outcome {
    code: u32,
    number: u32,
}

/// The three numbers of `havirozan_listed`.
#[repr(C)]
pub struct Listed {
    code: u32,
    place: u32,
    total: u32,
}

/// The twelve numbers of `havirozan_places`, in their order.
#[repr(C)]
pub struct Places([u32; 12]);

/// The bytes of a block. One of 0 bytes may be null, which no slice may.
unsafe fn read<'a>(block: *const u8, bytes: usize) -> &'a [u8] {
    if bytes == 0 {
        return &[];
    }
    from_raw_parts(block, bytes)
}

unsafe fn written<'a, T>(block: *mut T, size: usize) -> &'a mut [T] {
    if size == 0 {
        return &mut [];
    }
    from_raw_parts_mut(block, size)
}

/// # Safety
/// As for `check`: each pointer points to as many bytes as are said, and the blocks do not overlap.
#[no_mangle]
pub unsafe extern "C" fn second_check(
    graph: *const u8,
    graph_bytes: usize,
    schema: *const u8,
    schema_bytes: usize,
    answer: *mut u8,
    answer_bytes: usize,
) -> u32 {
    let (graph, schema) = (read(graph, graph_bytes), read(schema, schema_bytes));
    second::check(graph, schema, written(answer, answer_bytes))
}

/// # Safety
/// As for `check_all`: each pointer points to as many bytes or records as are said, and the list overlaps none of the files.
#[no_mangle]
pub unsafe extern "C" fn second_check_all(
    graph: *const u8,
    graph_bytes: usize,
    schema: *const u8,
    schema_bytes: usize,
    list: *mut [u32; 5],
    list_records: usize,
) -> Listed {
    let (graph, schema) = (read(graph, graph_bytes), read(schema, schema_bytes));
    let [code, place, total] = second::check_all(graph, schema, written(list, list_records));
    Listed { code, place, total }
}

/// # Safety
/// As for `write_graph`: each pointer points to as many bytes as are said, and the output overlaps none of the tables.
#[no_mangle]
pub unsafe extern "C" fn second_write_graph(
    nodes: *const u8,
    nodes_bytes: usize,
    edges: *const u8,
    edges_bytes: usize,
    rows: *const u8,
    rows_bytes: usize,
    text: *const u8,
    text_bytes: usize,
    labels: u32,
    names: u32,
    out: *mut u8,
    out_bytes: usize,
) -> Outcome {
    let (nodes, edges) = (read(nodes, nodes_bytes), read(edges, edges_bytes));
    let (rows, text) = (read(rows, rows_bytes), read(text, text_bytes));
    let out = written(out, out_bytes);
    let (code, number) = second::write_graph(nodes, edges, rows, text, labels, names, out);
    Outcome { code, number }
}

/// # Safety
/// As for `find_tables`: the pointer points to as many bytes as are said.
#[no_mangle]
pub unsafe extern "C" fn second_find_tables(graph: *const u8, graph_bytes: usize) -> Places {
    Places(second::find_tables(read(graph, graph_bytes)))
}

/// # Safety
/// As for `read_sheet`: each pointer points to as many bytes as are said, and the output does not overlap the sheet.
#[no_mangle]
pub unsafe extern "C" fn second_read_sheet(
    sheet: *const u8,
    sheet_bytes: usize,
    out: *mut u8,
    out_bytes: usize,
) -> Outcome {
    let (code, number) = second::read_sheet(read(sheet, sheet_bytes), written(out, out_bytes));
    Outcome { code, number }
}

/// # Safety
/// As for `join_graphs`: each pointer points to as many bytes as are said, and the output overlaps neither of the two graphs.
#[no_mangle]
pub unsafe extern "C" fn second_join_graphs(
    first: *const u8,
    first_bytes: usize,
    second: *const u8,
    second_bytes: usize,
    out: *mut u8,
    out_bytes: usize,
) -> Outcome {
    let (first, second) = (read(first, first_bytes), read(second, second_bytes));
    let (code, number) = second::join_graphs(first, second, written(out, out_bytes));
    Outcome { code, number }
}
