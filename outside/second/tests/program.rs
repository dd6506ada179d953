//! The small program, run as it stands.
mod common;
use common::*;
use std::fs;
use std::io::Write;
use std::path::PathBuf;
use std::process::{Command, Stdio};

/// What the program prints for this graph and schema, in a directory of its own.
fn prints(directory: &str, graph: &[u8], schema: Option<&[u8]>) -> String {
    let directory = PathBuf::from(env!("CARGO_TARGET_TMPDIR")).join(directory);
    fs::create_dir_all(&directory).unwrap();
    let file = directory.join("schema.bin");
    match schema {
        Some(bytes) => fs::write(&file, bytes).unwrap(),
        None => drop(fs::remove_file(&file)),
    }
    let mut child = Command::new(env!("CARGO_BIN_EXE_second"))
        .current_dir(&directory)
        .stdin(Stdio::piped())
        .stdout(Stdio::piped())
        .spawn()
        .unwrap();
    // The program may stop reading a graph that is too long.
    drop(child.stdin.take().unwrap().write_all(graph));
    let output = child.wait_with_output().unwrap();
    assert!(output.status.success());
    String::from_utf8(output.stdout).unwrap()
}

#[test]
fn one_run_in_full() {
    let graph = [&[0; 16][..], &[1], &[0; 19], &[16, 0, 0, 0], b"GPH1"].concat();
    let schema = [&[0; 16][..], b"SCH1"].concat();
    assert_eq!(prints("full", &graph, Some(&schema)), "21 0 0 0 0\n");
}

#[test]
fn the_bench() {
    let (mut g, s) = (bench_graph(), bench_schema().bytes());
    assert_eq!(prints("bench", &g.bytes(), Some(&s)), "0 0 0 0 0\n");
    g.edges.push(edge(1, 3, AT));
    assert_eq!(prints("bench", &g.bytes(), Some(&s)), "34 3 1 2 0\n");
    g.nodes[3].props.pop();
    assert_eq!(prints("bench", &g.bytes(), Some(&s)), "22 3 2 1 4\n");
    // The largest name that a graph can have.
    g.nodes[3] = angle(1);
    g.nodes[2].props.push((255, V::Bool(true)));
    g.names = 256;
    assert_eq!(prints("bench", &g.bytes(), Some(&s)), "22 2 2 2 255\n");
}

#[test]
fn a_file_that_is_not_there() {
    let g = bench_graph().bytes();
    assert_eq!(prints("missing", &g, None), "9 0 0 0 0\n");
    assert_eq!(prints("missing", &[], None), "2 0 0 0 0\n");
}

#[test]
fn the_limits() {
    let (mut g, mut s) = (G::default(), S::default());
    g.preface = vec![1; 40_000 - 28];
    s.preface = vec![1; 16_384 - 20];
    let (at_g, at_s) = (g.bytes(), s.bytes());
    g.preface.push(1);
    s.preface.push(1);
    let (over_g, over_s) = (g.bytes(), s.bytes());
    assert_eq!(prints("limits", &at_g, Some(&at_s)), "0 0 0 0 0\n");
    assert_eq!(prints("limits", &over_g, Some(&at_s)), "2 0 0 0 0\n");
    assert_eq!(prints("limits", &at_g, Some(&over_s)), "9 0 0 0 0\n");
    assert_eq!(prints("limits", &over_g, Some(&over_s)), "2 0 0 0 0\n");
    g.preface = vec![1; 2_000_000];
    assert_eq!(prints("limits", &g.bytes(), Some(&at_s)), "2 0 0 0 0\n");
    // A graph refusal comes before the schema's length.
    assert_eq!(prints("limits", &[0; 28], Some(&over_s)), "3 0 0 0 0\n");
}
