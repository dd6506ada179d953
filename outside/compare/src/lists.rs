//! Lists of all violations: with the two files of a pair `check_all` is called, too, and the list has several rooms.

use crate::border::{Call, Function, Given, ANSWER_BYTES};
use crate::random::Random;
use crate::recipes::Numbers;
use crate::report;
use second::Violations;

/// Files with so many bytes are lent once, and lists so long three times, since there are few.
const LARGE_FILES: usize = 100_000;
const LONG_LIST: usize = 1_000;
/// What a record holds before the call, where that is not random.
pub const BEFORE: u8 = 0x5A;

/// The calls of `check_all` with two files.
pub struct Lists {
    /// one for each room
    pub calls: Vec<Call>,
    /// what the second program finds in the files
    pub found: Violations,
    /// every violation, where that is known
    owed: Option<Vec<Numbers>>,
}

/// A list as the block that is lent, and such a block as a list.
pub fn block_of(list: &[Numbers]) -> Vec<u8> {
    list.iter().flatten().flat_map(|number| number.to_le_bytes()).collect()
}

pub fn list_of(block: &[u8]) -> Vec<Numbers> {
    let number = |bytes: &[u8]| u32::from_le_bytes(bytes.try_into().expect("four bytes"));
    block.chunks(ANSWER_BYTES).map(|record| [0, 4, 8, 12, 16].map(|at| number(&record[at..at + 4]))).collect()
}

fn call(files: &[Vec<u8>], block: Vec<u8>) -> Call {
    Call { function: Function::All, lent: files.to_vec(), counts: [0; 2], block }
}

/// The rooms that are tried with so many violations: one in which all have room and one in which not. Where there are none, the
/// second is left out, and where the files are refused half of the time both.
fn rooms(r: &mut Random, found: &Violations, bytes: usize) -> Vec<usize> {
    let total = match found {
        Err(_) if r.chance(50) => return vec![],
        Err(_) => 0,
        Ok(all) => all.len(),
    };
    let long = [total, total + 1, r.within(total + 2, total + 40)];
    let most = total.saturating_sub(1);
    let short = [0, most.min(1), most, r.within(0, most)];
    match total {
        0 => vec![r.pick(&long)],
        _ if bytes >= LARGE_FILES => vec![r.pick(&long)],
        LONG_LIST.. => {
            let mut all = [&long[..], &short].concat();
            (0..3).map(|_| all.swap_remove(r.below(all.len()))).collect()
        }
        _ => vec![r.pick(&long), r.pick(&short)],
    }
}

/// What a call was answered by `check`, with the same two files. None where it was not asked, or gave nothing but code 1.
fn answer_of(function: Function, given: &Given) -> Option<Numbers> {
    let numbers = &given.numbers;
    match function {
        Function::Check => given.answer()?.try_into().ok(),
        Function::Again if numbers[0] != 0 => Some([numbers[0], numbers[1], 0, 0, 0]),
        Function::Again if numbers[12] == 0 => numbers[15..].try_into().ok(),
        _ => None,
    }
}

impl Lists {
    pub fn new(r: &mut Random, files: &[Vec<u8>], owed: Option<Vec<Numbers>>) -> Lists {
        let found = second::violations(&files[0], &files[1]);
        let rooms = rooms(r, &found, files.iter().map(|file| file.len()).sum());
        let calls = rooms.into_iter().map(|room| call(files, r.bytes(room * ANSWER_BYTES))).collect();
        Lists { calls, found, owed }
    }

    /// The list whose violations are known, with these rooms.
    pub fn with_rooms(files: &[Vec<u8>], owed: Vec<Numbers>, rooms: &[usize]) -> Lists {
        let calls = rooms.iter().map(|room| call(files, vec![BEFORE; room * ANSWER_BYTES])).collect();
        Lists { calls, found: second::violations(&files[0], &files[1]), owed: Some(owed) }
    }

    /// What the second program gives.
    pub fn second_of(&self, call: &Call) -> Given {
        let mut list = list_of(&call.block);
        let listed = second::fill(&mut list, &self.found);
        Given::new(&listed, block_of(&list))
    }

    /// Whether a result is the one that is owed, where every violation is known; and whether it goes with what `check` answered.
    pub fn met(&self, call: &Call, given: &Given, asked: Function, checked: &Given) -> bool {
        let whole = |all: &Vec<Numbers>| {
            let written = block_of(&all[..all.len().min(call.block.len() / ANSWER_BYTES)]);
            *given == Given::new(&[0, 0, all.len() as u32], [&written, &call.block[written.len()..]].concat())
        };
        let beside = |answer: Numbers| match answer {
            [code, place, ..] if code < 21 => *given == Given::new(&[code, place], call.block.clone()),
            _ => given.numbers[..2] == [0, 0] && given.numbers[2] > 0 && list_of(&given.block).first().map_or(true, |first| *first == answer),
        };
        self.owed.as_ref().map_or(true, whole) && answer_of(asked, checked).map_or(true, beside)
    }

    /// What is owed, for a difference.
    pub fn owed(&self, asked: Function, checked: &Given) -> Option<String> {
        let whole = self.owed.as_ref().map(|all| format!("0 0 {}, {}", all.len(), report::told_list(all, &[])));
        whole.or_else(|| Some(format!("beside {} of check", report::joined(&answer_of(asked, checked)?))))
    }
}
