//! The recipes: each makes calls of one sub-case, and says what such a call is owed.

mod blocks;
mod damage;
mod faults;
mod faulty;
mod files;
mod join_orders;
mod join_sizes;
mod joins;
mod loosen;
mod miscounts;
mod mistakes;
mod names;
mod places;
mod planned;
mod properties;
mod rows;
mod rules;
mod sheet_damage;
mod sheet_lines;
mod sheets;
mod sizes;
mod writing;

use crate::after::After;
use crate::border::{Function, ANSWER, ANSWER_BYTES};
use crate::model::*;
use crate::random::Random;
use crate::sound::{sound, Sound, SMALL};
use std::sync::Arc;

/// The numbers of an answer: code, place, schema place, count, property.
pub type Numbers = [u32; ANSWER];

/// The answer for a pair that conforms.
pub const CONFORMS: Numbers = [0; ANSWER];

/// An answer of a code and a place, and nothing else.
pub fn alone(code: u32, place: u32) -> Numbers {
    without_property(code, place, 0, 0)
}

/// The answer of a code that tells no property.
pub fn without_property(code: u32, place: u32, schema_place: u32, count: u32) -> Numbers {
    [code, place, schema_place, count, 0]
}

/// What a call is owed, as far as its recipe knows.
pub enum Owed {
    /// of `check`: the answer's numbers; the code is returned, too, and the block's other bytes are kept
    Exactly(Numbers),
    /// the code, lowest and highest
    Code(u32, u32),
    /// the numbers returned, without the zeros behind them, and what the written block starts with; the rest of it is kept
    Returned(Vec<u32>, Vec<u8>),
    Any,
}

/// A call that a recipe made, all but the bytes that the written block has before.
pub struct Made {
    pub function: Function,
    pub lent: Vec<Vec<u8>>,
    pub counts: [u32; 2],
    pub owed: Owed,
    /// the written block's bytes, where they matter
    pub block: Option<usize>,
    /// all violations of the two files, where they are known
    pub all: Option<Vec<Numbers>>,
    /// what is asked of a joined file
    pub after: Option<After>,
}

impl Made {
    pub fn new(graph: Vec<u8>, schema: Vec<u8>, owed: Owed) -> Made {
        Made { function: Function::Check, lent: vec![graph, schema], counts: [0; 2], owed, block: None, all: None, after: None }
    }

    pub fn of(pair: &Sound, owed: Owed) -> Made {
        Made::new(lay_graph(&pair.graph).bytes, lay_schema(&pair.schema).bytes, owed)
    }
}

type Make = Arc<dyn Fn(&mut Random) -> Option<Made> + Send + Sync>;
/// What is changed in a file that is laid; it says the bad row's place.
type Change = Arc<dyn Fn(&mut Random, &mut Laid) -> Option<usize> + Send + Sync>;

pub struct Recipe {
    pub function: Function,
    pub name: String,
    /// large files: made seldom, but often enough to be counted
    pub rare: bool,
    pub make: Make,
}

impl Recipe {
    /// Whether it goes round with those that are made for no answer in particular.
    pub fn open(&self) -> bool {
        self.name.contains("damage") || self.name.contains("changed")
    }
}

/// What refuses a graph file: its code, the cause, the change.
type Refusal = (u32, String, Change);

/// The recipes, and each cause for which a graph file is refused.
pub struct Recipes(Vec<Recipe>, Vec<Refusal>);

impl Recipes {
    fn push(&mut self, function: Function, name: String, rare: bool, make: impl Fn(&mut Random) -> Option<Made> + Send + Sync + 'static) {
        let name = match function {
            Function::Check => name,
            Function::Write => format!("write {name}"),
            Function::Find => format!("find {name}"),
            Function::Again => format!("again {name}"),
            Function::Sheet => format!("sheet {name}"),
            Function::All => format!("all {name}"),
            Function::Join => format!("join {name}"),
            Function::Twice => format!("join twice {name}"),
        };
        self.0.push(Recipe { function, name, rare, make: Arc::new(make) });
    }

    pub fn add(&mut self, name: impl Into<String>, make: impl Fn(&mut Random) -> Option<Made> + Send + Sync + 'static) {
        self.push(Function::Check, name.into(), false, make);
    }

    pub fn add_rare(&mut self, name: impl Into<String>, make: impl Fn(&mut Random) -> Option<Made> + Send + Sync + 'static) {
        self.push(Function::Check, name.into(), true, make);
    }

    /// A refusal: a sound pair in which one file is changed. `change` says the bad row's place. The number is that of the
    /// graph's code; the schema's codes stand seven higher. What refuses a graph file is tried with the other functions, too.
    pub fn add_refusal(
        &mut self,
        file: File,
        code: u32,
        cause: &str,
        change: impl Fn(&mut Random, &mut Laid) -> Option<usize> + Send + Sync + 'static,
    ) {
        let change: Change = Arc::new(change);
        if file == File::Graph {
            writing::add_refused(self, code, cause, &change);
            self.1.push((code, cause.to_string(), change.clone()));
        }
        let code = code + if file == File::Graph { 0 } else { 7 };
        self.add(format!("{code} {cause}"), move |r| {
            let pair = sound(r, &SMALL);
            let (mut graph, mut schema) = (lay_graph(&pair.graph), lay_schema(&pair.schema));
            let place = change(r, if file == File::Graph { &mut graph } else { &mut schema })? as u32;
            if file == File::Graph && r.chance(25) {
                // a bad graph is told before a bad schema
                let at = r.below(schema.bytes.len());
                schema.bytes[at] ^= 1 << r.below(8);
            }
            Some(Made::new(graph.bytes, schema.bytes, Owed::Exactly(alone(code, place))))
        });
    }
}

pub const FILES: [File; 2] = [File::Graph, File::Schema];

/// The sub-cases that every run has to see.
pub fn all() -> Vec<Recipe> {
    let mut recipes = Recipes(vec![], vec![]);
    recipes.add("0 conforms", |r| {
        let pair = sound(r, &SMALL);
        Some(Made::of(&pair, Owed::Exactly(CONFORMS)))
    });
    blocks::add(&mut recipes);
    files::add(&mut recipes);
    rows::add(&mut recipes);
    properties::add(&mut recipes);
    rules::add(&mut recipes);
    names::add(&mut recipes);
    loosen::add(&mut recipes);
    damage::add(&mut recipes);
    sizes::add(&mut recipes);
    writing::add(&mut recipes);
    recipes.0.sort_by_key(|recipe| recipe.function as u32);
    // behind all others, so that the pairs with which a seed starts stay what they were
    properties::add_centuries(&mut recipes);
    sheets::add(&mut recipes);
    sheet_lines::add(&mut recipes);
    sheet_damage::add(&mut recipes);
    places::add(&mut recipes);
    faults::add_all(&mut recipes);
    joins::add(&mut recipes);
    join_orders::add(&mut recipes);
    join_sizes::add(&mut recipes);
    recipes.0
}
