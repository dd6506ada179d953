//! Two graphs of which one or both are refused: each cause of 2 to 8 in the first and in the second, and which refusal comes first.

use super::join_sizes::{sized, NODES};
use super::joins::{lend, COUNT_ABOVE};
use super::writing::{any_output, refused, small_graph, SHORT};
use super::*;

const CODES: std::ops::RangeInclusive<u32> = 2..=8;
/// How often a cause is tried before another is taken.
const TRIES: usize = 40;

/// The causes of one code.
type Causes = Arc<Vec<Change>>;

/// A file that is refused with the code of these causes.
fn bad(r: &mut Random, causes: &Causes) -> Option<Vec<u8>> {
    (0..TRIES).find_map(|_| {
        let mut graph = small_graph(r);
        causes[r.below(causes.len())](r, &mut graph)?;
        Some(graph.bytes)
    })
}

/// A code and which file it is of; nothing is written.
fn refused_which(code: u32, which: usize) -> Owed {
    Owed::Returned(vec![code, which as u32], vec![])
}

/// Each cause in one of the two. Behind a bad first the second is often bad, too.
fn each_cause(recipes: &mut Recipes) {
    for (code, cause, change) in recipes.1.clone() {
        for (which, name) in ["the first", "the second"].into_iter().enumerate() {
            let change = change.clone();
            recipes.push(Function::Join, format!("{code} {cause}, {name}"), false, move |r| {
                let mut files = [small_graph(r), small_graph(r)];
                change(r, &mut files[which])?;
                if which == 0 && r.chance(25) {
                    let at = r.below(files[1].bytes.len());
                    files[1].bytes[at] ^= 1 << r.below(8);
                }
                let output = any_output(r, files.iter().map(|file| file.bytes.len()).sum::<usize>() + 1);
                Some(lend(files.map(|file| file.bytes).to_vec(), output, refused_which(code, which), None))
            });
        }
    }
}

/// Both are refused, with any two codes: the first's is told.
fn both(recipes: &mut Recipes, causes: &[Causes]) {
    for (first, second) in CODES.flat_map(|first| CODES.map(move |second| (first, second))) {
        let [of_first, of_second] = [first, second].map(|code| causes[code as usize].clone());
        recipes.push(Function::Join, format!("{first} the first, and the second is {second}"), false, move |r| {
            let files = vec![bad(r, &of_first)?, bad(r, &of_second)?];
            let output = any_output(r, 200);
            Some(lend(files, output, refused_which(first, 0), None))
        });
    }
}

/// A file that is refused comes before too many nodes, and these before a short output.
fn before_the_counts(recipes: &mut Recipes, causes: &[Causes]) {
    for code in CODES {
        for (which, name) in ["the first", "the second"].into_iter().enumerate() {
            let causes = causes[code as usize].clone();
            recipes.push(Function::Join, format!("{code} {name}, beside the most nodes"), false, move |r| {
                let most = lay_graph(&sized(r, [NODES, 0, 0, 0])).bytes;
                let mut files = vec![most, bad(r, &causes)?];
                files.rotate_left(1 - which);
                let output = any_output(r, 200);
                Some(lend(files, output, refused_which(code, which), None))
            });
        }
        let causes = causes[code as usize].clone();
        recipes.push(Function::Twice, format!("{code}"), false, move |r| {
            let file = bad(r, &causes)?;
            let output = any_output(r, 2 * file.len() + 1);
            Some(lend(vec![file], output, refused_which(code, 0), None))
        });
    }
    for (how, output) in SHORT {
        recipes.push(Function::Join, format!("44 before 42: too many nodes, output {how}"), false, move |r| {
            let first = r.within(1, NODES);
            let files = [first, NODES + 1 - first].map(|nodes| lay_graph(&sized(r, [nodes, 0, 0, 0])).bytes);
            let output = output(r, files[0].len() + files[1].len() - 28);
            Some(lend(files.to_vec(), output, refused(COUNT_ABOVE), None))
        });
    }
}

pub fn add(recipes: &mut Recipes) {
    let of_code = |code: u32| recipes.1.iter().filter(|(of, _, _)| *of == code).map(|(_, _, change)| change.clone()).collect();
    let causes: Vec<Causes> = (0..=*CODES.end()).map(|code| Arc::new(of_code(code))).collect();
    each_cause(recipes);
    both(recipes, &causes);
    before_the_counts(recipes, &causes);
}
