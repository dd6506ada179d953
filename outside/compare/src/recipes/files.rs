//! Codes 2 to 5 and 9 to 12: length, mark, counts, back.

use super::*;

/// A count's name, its place in the trailer, its bytes and its ceiling.
type Count = (&'static str, usize, usize, u64);

pub fn trailer_counts(file: File) -> &'static [Count] {
    match file {
        File::Graph => &[
            ("nodes", 0, 4, 1_024),
            ("edges", 4, 4, 4_096),
            ("property rows", 8, 4, 16_384),
            ("text bytes", 12, 4, 262_144),
            ("labels", 16, 2, 64),
            ("names", 18, 2, 256),
        ],
        File::Schema => {
            &[("schema nodes", 0, 2, 32), ("schema edges", 2, 2, 64), ("schema properties", 4, 4, 1_024), ("labels", 8, 2, 64), ("names", 10, 2, 256)]
        }
    }
}

fn keep_last(laid: &mut Laid, bytes: usize) {
    laid.bytes.drain(..laid.bytes.len() - bytes);
}

fn lengths(recipes: &mut Recipes, file: File) {
    recipes.add_refusal(file, 2, "no byte at all", |_, laid| {
        laid.bytes.clear();
        Some(0)
    });
    recipes.add_refusal(file, 2, "one byte under the least length", move |_, laid| {
        keep_last(laid, least(file) - 1);
        Some(0)
    });
    recipes.add_refusal(file, 2, "under the least length", move |r, laid| {
        keep_last(laid, r.within(1, least(file) - 1));
        Some(0)
    });
}

fn marks(recipes: &mut Recipes, file: File) {
    for byte in 0..4 {
        recipes.add_refusal(file, 3, &format!("mark, byte {byte}"), move |r, laid| {
            let at = laid.bytes.len() - 4 + byte;
            laid.bytes[at] ^= r.within(1, 255) as u8;
            if r.chance(25) {
                // counts and back are not looked at before the mark
                let at = laid.trailer + r.below(laid.back() - laid.trailer);
                laid.bytes[at] = r.next() as u8;
            }
            Some(0)
        });
    }
}

fn ceilings(recipes: &mut Recipes, file: File) {
    for &(name, at, bytes, ceiling) in trailer_counts(file) {
        let top = if bytes == 2 { 0xFFFF } else { 0xFFFF_FFFF };
        // 2^28 rows of 16 bytes are 2^32 bytes, which is 0 where sums wrap
        let wraps = if bytes == 2 { 0x8000 } else { 0x1000_0000 };
        for (how, value) in [("one above", ceiling + 1), ("wraps", wraps), ("top", top)] {
            recipes.add_refusal(file, 4, &format!("{name}, {how}"), move |r, laid| {
                laid.put(laid.trailer + at, bytes, value);
                if r.chance(25) {
                    let back = laid.back();
                    laid.put(back, 4, r.next());
                }
                Some(0)
            });
        }
    }
}

fn backs(recipes: &mut Recipes, file: File) {
    type Off = fn(u64) -> u64;
    let offs: [(&str, Off); 4] =
        [("one less", |b| b.wrapping_sub(1)), ("one more", |b| b + 1), ("top", |_| 0xFFFF_FFFF), ("2^31 more", |b| b + 0x8000_0000)];
    for (how, off) in offs {
        recipes.add_refusal(file, 5, &format!("back, {how}"), move |_, laid| {
            let at = laid.back();
            laid.put(at, 4, off(laid.get(at, 4)));
            Some(0)
        });
    }
    recipes.add_refusal(file, 5, "back 0", |_, laid| {
        let at = laid.back();
        if laid.get(at, 4) == 0 {
            return None;
        }
        laid.put(at, 4, 0);
        Some(0)
    });
    recipes.add_refusal(file, 5, "back to the preface's first byte", |_, laid| {
        if laid.starts[0] == 0 {
            return None;
        }
        let at = laid.back();
        laid.put(at, 4, laid.trailer as u64);
        Some(0)
    });
    for (how, all) in [("one byte of the body missing", false), ("the body missing", true)] {
        recipes.add_refusal(file, 5, how, move |_, laid| {
            if laid.starts[0] == laid.trailer {
                return None;
            }
            let cut = if all { laid.trailer } else { laid.starts[0] + 1 };
            laid.bytes.drain(..cut);
            Some(0)
        });
    }
    for &(name, at, bytes, ceiling) in &trailer_counts(file)[..if file == File::Graph { 4 } else { 3 }] {
        recipes.add_refusal(file, 5, &format!("{name}, another number than the rows"), move |r, laid| {
            let now = laid.get(laid.trailer + at, bytes);
            let other = r.within(0, ceiling as usize) as u64;
            if other == now {
                return None;
            }
            let at = laid.trailer + at;
            laid.put(at, bytes, other);
            Some(0)
        });
    }
}

pub fn add(recipes: &mut Recipes) {
    for file in FILES {
        lengths(recipes, file);
        marks(recipes, file);
        ceilings(recipes, file);
        backs(recipes, file);
    }
    recipes.add("0 a graph file of the least length", |r| {
        let mut pair = sound(r, &SMALL);
        pair.graph = Graph { labels: pair.graph.labels, names: pair.graph.names, ..Graph::default() };
        Some(Made::of(&pair, Owed::Exactly(CONFORMS)))
    });
    recipes.add("21 a schema file of the least length", |r| {
        let mut pair = sound(r, &SMALL);
        if pair.graph.nodes.is_empty() {
            return None;
        }
        pair.schema = Schema { labels: pair.schema.labels, names: pair.schema.names, ..Schema::default() };
        Some(Made::of(&pair, Owed::Exactly(alone(21, 0))))
    });
}
