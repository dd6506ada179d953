//! The program that holds the proved code: it is sent calls, and gives back what they returned and wrote.

use std::io::{self, BufReader, BufWriter, Read, Write};
use std::process::{Child, ChildStdin, ChildStdout, Command, Stdio};

/// What is called. `Again` is the first three, one after the other: a graph file is read, its tables are written again, and what
/// was written is checked. `All` lists all violations. `Join` joins two graph files, `Twice` one with itself: the same block is
/// lent as both.
#[derive(Clone, Copy, PartialEq, Debug)]
pub enum Function {
    Check,
    Write,
    Find,
    Again,
    Sheet,
    All,
    Join,
    Twice,
}

/// How many blocks are lent to be read, at most.
const LENT: usize = 4;
/// How many bytes are sent at a time.
const SENT: usize = 1 << 16;
/// How many numbers an answer has, and a record of a list: code, place, schema place, count, property. Each takes four bytes.
pub const ANSWER: usize = 5;
pub const ANSWER_BYTES: usize = 4 * ANSWER;
/// How many numbers a call returns, at most: all three functions return the twelve places, then the writer's two numbers, then
/// the code of `check` and the five of its answer.
pub const TOLD: usize = 12 + 2 + 1 + ANSWER;
const CODES_OF_ALL: [usize; 3] = [0, 12, 14];

/// One call to be made.
#[derive(Clone)]
pub struct Call {
    pub function: Function,
    /// the blocks that are only read: graph and schema; nodes, edges, property rows and text; a graph, or two; a sheet
    pub lent: Vec<Vec<u8>>,
    /// label count and name count, for the writer
    pub counts: [u32; 2],
    /// the block that is written, as it is before; a list is its records one after the other
    pub block: Vec<u8>,
}

/// What one call gave: the numbers returned, 0 where they are fewer, and the written block after it.
#[derive(Clone, PartialEq, Debug)]
pub struct Given {
    pub numbers: [u32; TOLD],
    pub block: Vec<u8>,
}

impl Given {
    pub fn new(returned: &[u32], block: Vec<u8>) -> Given {
        let mut numbers = [0; TOLD];
        numbers[..returned.len()].copy_from_slice(returned);
        Given { numbers, block }
    }

    /// The answer that stands in the block of `check`, if it is long enough for one.
    pub fn answer(&self) -> Option<Vec<u32>> {
        self.block.get(..ANSWER_BYTES).map(numbers)
    }

    /// The code; of the three calls one after the other the first that is not 0.
    pub fn code(&self, function: Function) -> u32 {
        let codes: &[usize] = if function == Function::Again { &CODES_OF_ALL } else { &[0] };
        codes.iter().map(|&at| self.numbers[at]).find(|&code| code != 0).unwrap_or(0)
    }
}

/// Numbers of four bytes each, low byte first.
fn numbers(bytes: &[u8]) -> Vec<u32> {
    bytes.chunks(4).map(|b| u32::from_le_bytes(b.try_into().expect("four bytes"))).collect()
}

pub struct Border {
    child: Child,
    to: ChildStdin,
    from: BufReader<ChildStdout>,
}

fn send(to: &mut ChildStdin, calls: &[&Call]) -> io::Result<()> {
    let mut to = BufWriter::with_capacity(SENT, to);
    to.write_all(&(calls.len() as u32).to_le_bytes())?;
    for call in calls {
        let lent = |i: usize| call.lent.get(i).map_or(&[][..], |block| block);
        let blocks: Vec<&[u8]> = (0..LENT).map(lent).chain([&call.block[..]]).collect();
        let asked = [call.function as u32, call.counts[0], call.counts[1]];
        for number in asked.into_iter().chain(blocks.iter().map(|b| b.len() as u32)) {
            to.write_all(&number.to_le_bytes())?;
        }
        for block in blocks {
            to.write_all(block)?;
        }
    }
    to.flush()
}

fn receive(from: &mut impl Read, block: usize) -> io::Result<Given> {
    let mut bytes = vec![0; 4 * TOLD + block];
    from.read_exact(&mut bytes)?;
    let block = bytes.split_off(4 * TOLD);
    Ok(Given::new(&numbers(&bytes), block))
}

impl Border {
    pub fn start(command: &[String]) -> Border {
        let mut child = Command::new(&command[0])
            .args(&command[1..])
            .stdin(Stdio::piped())
            .stdout(Stdio::piped())
            .spawn()
            .unwrap_or_else(|e| panic!("{} cannot be started: {e}", command[0]));
        let (to, from) = (child.stdin.take().expect("a pipe"), child.stdout.take().expect("a pipe"));
        Border { child, to, from: BufReader::new(from) }
    }

    /// The two results of each call, in order. Fewer come back if the program ended: then the call after the last result ended it.
    pub fn run(&mut self, calls: &[&Call]) -> Vec<[Given; 2]> {
        let (to, from) = (&mut self.to, &mut self.from);
        let mut all = vec![];
        // sent from a thread of its own, since what comes back may fill the pipe before all is sent
        std::thread::scope(|scope| {
            scope.spawn(|| send(to, calls));
            for call in calls {
                let bytes = call.block.len();
                match (receive(from, bytes), receive(from, bytes)) {
                    (Ok(first), Ok(second)) => all.push([first, second]),
                    _ => break,
                }
            }
        });
        all
    }
}

impl Drop for Border {
    fn drop(&mut self) {
        // a program that waits for calls is of no more use
        let _ = self.child.kill();
        let _ = self.child.wait();
    }
}
