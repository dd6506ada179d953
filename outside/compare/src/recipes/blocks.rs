//! Code 1: an answer block of fewer than 20 bytes, for good pairs and bad ones.

use super::*;

pub fn add(recipes: &mut Recipes) {
    for bytes in 0..ANSWER_BYTES {
        recipes.add(format!("1 answer block of {bytes}"), move |r| {
            let pair = sound(r, &SMALL);
            // the code is returned, and nothing is written
            let mut made = Made::of(&pair, Owed::Returned(vec![1], vec![]));
            if r.chance(50) {
                let graph = &mut made.lent[0];
                graph.truncate(r.below(graph.len()));
            }
            made.block = Some(bytes);
            Some(made)
        });
    }
}
