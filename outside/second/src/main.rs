//! "A small program reads the graph from standard input and the schema from the
//! file `schema.bin`, and prints the four numbers in decimal, one space between,
//! then a newline." Ask 2: "the program prints all its numbers", so five.

use std::fs::File;
use std::io::{self, Read, Write};

/// "The program takes graphs up to 40,000 bytes and schemas up to 16,384".
const GRAPH_LIMIT: usize = 40_000;
const SCHEMA_LIMIT: usize = 16_384;

/// The bytes that can be read, one more than the limit at most. What fails to
/// be read counts as a file that is not there, so as 0 bytes.
fn read_up_to(file: impl Read, limit: usize) -> Vec<u8> {
    let mut bytes = Vec::new();
    match file.take(limit as u64 + 1).read_to_end(&mut bytes) {
        Ok(_) => bytes,
        Err(_) => Vec::new(),
    }
}

fn main() -> io::Result<()> {
    let graph = read_up_to(io::stdin(), GRAPH_LIMIT);
    let schema = match File::open("schema.bin") {
        Ok(file) => read_up_to(file, SCHEMA_LIMIT),
        Err(_) => Vec::new(),
    };
    // "a longer one is answered as length refusal 2 or 9": a schema over its
    // limit is over the checker's own ceiling too, and 9 comes after 2 to 8.
    let [code, place, schema_place, count, property] = if graph.len() > GRAPH_LIMIT {
        [2, 0, 0, 0, 0]
    } else {
        second::answer(&graph, &schema)
    };
    writeln!(
        io::stdout(),
        "{code} {place} {schema_place} {count} {property}"
    )
}
