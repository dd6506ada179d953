//! Codes 22 and 24: which property is told. A record and its type are made from names, and for each it is settled what it is to
//! both. So the name that is owed is known before anything is compared. And the other codes, which tell no property.

use super::rules::{ends_told, misfit_ends, other_record, unfit, with_interval, Objects};
use super::*;
use crate::sound::property;
use std::collections::BTreeMap;

/// What a name is to a record and its type.
#[derive(Clone, Copy, PartialEq)]
enum Is {
    /// listed, and present with its type
    Good,
    /// optional, and absent
    Left,
    /// mandatory, and absent: against (b)
    Missing,
    /// present, and not listed: against (c), unless the type is open
    Unlisted,
    /// present, and listed with another type: against (d)
    Mistyped,
}

use Is::*;

impl Is {
    /// The letter that such a name breaks, or 0.
    fn breaks(self, open: bool) -> u32 {
        match self {
            Missing => 1,
            Unlisted if !open => 2,
            Mistyped => 3,
            _ => 0,
        }
    }
}

/// What else is in the pair.
#[derive(Clone, Copy, PartialEq)]
enum Beside {
    Nothing,
    /// a later schema object of equal labels, where a lower name is at fault
    Lower,
    /// the same with a higher name
    Higher,
    /// a later object with a lower name at fault
    Later,
    /// the told name is at or above the name count of the file that does not have it
    Far,
}

/// A sub-case of a letter.
#[derive(Clone, Copy)]
struct Case {
    name: &'static str,
    /// no other name is at fault, by any letter
    lone: bool,
    /// whether the type is open, where it matters
    open: Option<bool>,
    /// what some name below the told one is, and some name above it
    below: Option<Is>,
    above: Option<Is>,
    /// how many names are below, at least
    least: usize,
    /// the told name, where it matters
    told: Option<u16>,
    beside: Beside,
}

const PLAIN: Case = Case { name: "", lone: false, open: None, below: None, above: None, least: 0, told: None, beside: Beside::Nothing };

fn below(name: &'static str, is: Is, open: Option<bool>) -> Case {
    Case { name, below: Some(is), least: 1, open, ..PLAIN }
}

fn beside(name: &'static str, beside: Beside) -> Case {
    Case { name, beside, ..PLAIN }
}

/// The sub-cases of a letter, whose names at fault are `is`.
fn cases(letter: u32, is: Is) -> Vec<Case> {
    let mut all = vec![
        Case { name: "one name at fault", lone: true, ..PLAIN },
        Case { name: "several names at fault", above: Some(is), ..PLAIN },
        Case { name: "name 0 at fault", told: Some(0), ..PLAIN },
        Case { name: "name 255 at fault", told: Some(255), ..PLAIN },
        Case { name: "the ninth name or a later one", least: 8, ..PLAIN },
        below("a good name below", Good, None),
        below("an absent optional name below", Left, None),
        beside("a lower name at fault in another schema row of equal labels", Beside::Lower),
        beside("a higher name at fault in another schema row of equal labels", Beside::Higher),
        beside("a lower name at fault in a later row", Beside::Later),
    ];
    if letter < 2 {
        all.push(below("an unlisted name below", Unlisted, Some(false)));
    }
    if letter < 3 {
        all.push(below("a wrongly typed name below", Mistyped, Some(false)));
        all.push(beside("a name past the other file's name count", Beside::Far));
    }
    if letter != 2 {
        all.push(Case { name: "of an open type, one name at fault", lone: true, open: Some(true), ..PLAIN });
        all.push(below("of an open type, an unlisted name below", Unlisted, Some(true)));
    }
    all
}

/// So many of the names from `from` on and below `to`, or all, if there are fewer.
fn some_names(r: &mut Random, from: u16, to: u16, least: usize, most: usize) -> Vec<u16> {
    let mut names: Vec<u16> = (from..to).collect();
    let keep = r.within(least, most);
    while names.len() > keep {
        names.swap_remove(r.below(names.len()));
    }
    names
}

/// The told name, those below it come from under `below`, and those above it from under `above`.
struct Room {
    told: u16,
    below: u16,
    above: u16,
}

/// Chooses the told name. Both files' name counts are raised for it, or that of the one file that has it.
fn room(r: &mut Random, letter: u32, case: &Case, pair: &mut Sound) -> Option<Room> {
    let old = pair.graph.names;
    if case.beside == Beside::Far {
        let told = r.index_where(256, |name| name >= old as usize)?;
        let has = if letter == 1 { &mut pair.schema.names } else { &mut pair.graph.names };
        *has = r.within(told + 1, 256) as u16;
        return Some(Room { told: told as u16, below: old, above: told as u16 + 1 });
    }
    let count = if case.told == Some(255) { 256 } else { old.max(r.pick(&[12, 16, 40, 256])) };
    (pair.graph.names, pair.schema.names) = (count, count);
    let last = count as usize - 1 - case.above.is_some() as usize;
    let told = case.told.unwrap_or_else(|| r.within(case.least, last) as u16);
    Some(Room { told, below: told, above: count })
}

/// The names that the sub-case wants. One that breaks an earlier letter is nowhere, one that breaks the same letter is above the
/// told one.
fn names(r: &mut Random, letter: u32, is: Is, case: &Case, open: bool, room: &Room) -> BTreeMap<u16, Is> {
    let mut all = BTreeMap::from([(room.told, is)]);
    let low = some_names(r, 0, room.below, case.least, case.least + 4);
    let high = some_names(r, room.told + 1, room.above, case.above.is_some() as usize, 4);
    for (some, needed, above) in [(low, case.below, false), (high, case.above, true)] {
        let may = |is: &Is| match is.breaks(open) {
            0 => true,
            breaks => !case.lone && (breaks > letter || above && breaks == letter),
        };
        let may: Vec<Is> = [Good, Left, Missing, Unlisted, Mistyped].into_iter().filter(may).collect();
        for &name in &some {
            all.insert(name, r.pick(&may));
        }
        if let Some(is) = needed {
            all.insert(r.pick(&some), is);
        }
    }
    all
}

fn other_kind(r: &mut Random, kind: u8) -> u8 {
    1 + (kind - 1 + r.within(1, 4) as u8) % 5
}

/// The listed properties and the record that such names make.
fn listed_and_record(r: &mut Random, names: &BTreeMap<u16, Is>, text: usize) -> (Vec<Listed>, Vec<Property>) {
    let (mut listed, mut record) = (vec![], vec![]);
    for (&name, &is) in names {
        let kind = r.within(1, 5) as u8;
        if is != Unlisted {
            let optional = is == Left || is != Missing && r.chance(40);
            listed.push(Listed { name, kind, optional });
        }
        match is {
            Good | Unlisted => record.push(property(r, name, kind, text)),
            Mistyped => {
                let kind = other_kind(r, kind);
                record.push(property(r, name, kind, text));
            }
            Left | Missing => {}
        }
    }
    (listed, record)
}

/// A shape that lists a record and one name more, which is mandatory.
fn lacking(r: &mut Random, labels: u64, record: &[Property], name: u16) -> Shape {
    let mut listed: Vec<Listed> = record.iter().map(|p| Listed { name: p.name, kind: p.kind, optional: r.chance(40) }).collect();
    listed.push(Listed { name, kind: r.within(1, 5) as u8, optional: false });
    listed.sort_by_key(|l| l.name);
    Shape { labels, open: r.chance(25), listed }
}

/// A name from `from` on and below `to` that the record does not have.
fn absent(r: &mut Random, from: u16, to: u16, record: &[Property]) -> Option<u16> {
    let name = r.index_where(to as usize, |name| name >= from as usize && record.iter().all(|p| p.name as usize != name))?;
    Some(name as u16)
}

/// A label set that no schema object of this kind has.
fn free_labels(r: &mut Random, kind: Objects, s: &Schema) -> Option<u64> {
    let mask = if s.labels == 64 { u64::MAX } else { (1 << s.labels) - 1 };
    let shapes = kind.shapes(s);
    (0..8).map(|_| r.next() & mask).find(|&labels| shapes.iter().all(|shape| shape.labels != labels))
}

/// Puts a schema object in at a place. The schema edges keep their ends, and a new one bounds no number.
fn put_in(r: &mut Random, s: &mut Schema, kind: Objects, at: usize, shape: Shape) {
    if kind == Objects::Nodes {
        s.nodes.insert(at, shape);
        for end in s.edges.iter_mut().flat_map(|edge| &mut edge.ends) {
            *end += (*end as usize >= at) as u32;
        }
    } else {
        let ends = [0; 2].map(|_: u32| r.below(s.nodes.len()) as u32);
        let free = Interval { low: 0, high: ANY };
        s.edges.insert(at, SchemaEdge { shape, ends, source: free, target: free });
    }
}

fn set(g: &mut Graph, kind: Objects, place: usize, labels: u64, record: Vec<Property>) {
    let (old_labels, properties) = kind.object(g, place);
    (*old_labels, *properties) = (labels, record);
}

/// A later object gets a label set and a type of its own, and lacks a name below `to` there.
fn spoil_later(r: &mut Random, pair: &mut Sound, kind: Objects, place: usize, to: u16) -> Option<()> {
    let later = r.index_where(kind.count(&pair.graph), |i| i > place)?;
    let name = absent(r, 0, to, &[])?;
    let labels = free_labels(r, kind, &pair.schema)?;
    let shape = lacking(r, labels, &[], name);
    let last = kind.shapes(&pair.schema).len();
    put_in(r, &mut pair.schema, kind, last, shape);
    set(&mut pair.graph, kind, later, labels, vec![]);
    Some(())
}

fn make(r: &mut Random, kind: Objects, code: u32, (letter, is): (u32, Is), case: &Case) -> Option<Made> {
    let mut pair = sound(r, &SMALL);
    let place = r.index_where(kind.count(&pair.graph), |_| true)?;
    let labels = free_labels(r, kind, &pair.schema)?;
    let room = room(r, letter, case, &mut pair)?;
    let open = case.open.unwrap_or_else(|| letter != 2 && r.chance(25));
    let names = names(r, letter, is, case, open, &room);
    let (listed, record) = listed_and_record(r, &names, pair.graph.text.len());

    let at = r.within(0, kind.shapes(&pair.schema).len());
    put_in(r, &mut pair.schema, kind, at, Shape { labels, open, listed });
    match case.beside {
        Beside::Lower | Beside::Higher => {
            let (from, to) = if case.beside == Beside::Lower { (0, room.told) } else { (room.told + 1, room.above) };
            let name = absent(r, from, to, &record)?;
            let another = lacking(r, labels, &record, name);
            let later = r.within(at + 1, kind.shapes(&pair.schema).len());
            put_in(r, &mut pair.schema, kind, later, another);
        }
        Beside::Later => spoil_later(r, &mut pair, kind, place, room.told)?,
        Beside::Nothing | Beside::Far => {}
    }
    let told = (at as u32, letter, room.told as u32);
    assert_eq!(unfit(labels, &record, &kind.shapes(&pair.schema)), Some(told), "the account differs from what the names were made for");
    set(&mut pair.graph, kind, place, labels, record);
    Some(Made::of(&pair, Owed::Exactly([code, place as u32, told.0, told.1, told.2])))
}

/// A schema object in front, of an object's labels, that its record misfits: a name above 0 is at fault there.
fn misfit_in_front(r: &mut Random, pair: &mut Sound, kind: Objects, place: usize) -> Option<()> {
    let (&mut labels, record) = kind.object(&mut pair.graph, place);
    let name = absent(r, 1, pair.schema.names, record)?;
    let shape = lacking(r, labels, record, name);
    put_in(r, &mut pair.schema, kind, 0, shape);
    Some(())
}

/// Codes that tell no property, though a name is at fault on the way to them, or in a later object.
fn no_property(recipes: &mut Recipes) {
    for (kind, what, code) in [(Objects::Nodes, "node", 21), (Objects::Edges, "edge", 23)] {
        recipes.add(format!("0 {what} misfits an earlier schema {what} of equal labels"), move |r| {
            let mut pair = sound(r, &SMALL);
            let place = r.index_where(kind.count(&pair.graph), |_| true)?;
            misfit_in_front(r, &mut pair, kind, place)?;
            Some(Made::of(&pair, Owed::Exactly(CONFORMS)))
        });
        recipes.add(format!("{code} a name at fault in a later row"), move |r| {
            let mut pair = sound(r, &SMALL);
            let place = r.index_where(kind.count(&pair.graph), |_| true)?;
            let names = pair.schema.names;
            spoil_later(r, &mut pair, kind, place, names)?;
            *kind.object(&mut pair.graph, place).0 = free_labels(r, kind, &pair.schema)?;
            Some(Made::of(&pair, Owed::Exactly(alone(code, place as u32))))
        });
    }
    recipes.add("25 edge misfits an earlier schema edge of equal labels", |r| {
        let mut pair = sound(r, &SMALL);
        let place = r.index_where(pair.graph.edges.len(), |_| true)?;
        let nodes = pair.graph.nodes.len();
        pair.graph.edges[place].ends = [0; 2].map(|_: u32| r.below(nodes) as u32);
        misfit_in_front(r, &mut pair, Objects::Edges, place)?;
        let (at, misfits, _) = misfit_ends(&pair.graph, &pair.schema, &pair.graph.edges[place])?;
        Some(Made::of(&pair, Owed::Exactly(ends_told(place, at, misfits))))
    });
    for (code, way, many) in [(31, 0, false), (32, 0, true), (33, 1, false), (34, 1, true)] {
        recipes.add(format!("{code} node misfits an earlier schema node of equal labels"), move |r| {
            let (mut pair, told) = with_interval(r, way, |_, low, high| {
                Some(if many { Interval { low: 0, high: high.checked_sub(1)? } } else { Interval { low: low + 1, high: ANY } })
            })?;
            misfit_in_front(r, &mut pair, Objects::Nodes, told[1] as usize)?;
            Some(Made::of(&pair, Owed::Exactly(told)))
        });
    }
}

/// The first violation of rule 1 or 2, where every label set stands in the schema.
fn first_misfit(g: &Graph, s: &Schema) -> Option<Numbers> {
    let told = |kind: Objects, code: u32, place: usize, labels: u64, record: &[Property]| {
        let (at, letter, name) = unfit(labels, record, &kind.shapes(s))?;
        Some([code, place as u32, at, letter, name])
    };
    let ends = |place: usize, edge: &Edge| {
        let (at, misfits, _) = misfit_ends(g, s, edge)?;
        Some(ends_told(place, at, misfits))
    };
    let node = g.nodes.iter().enumerate().find_map(|(i, n)| told(Objects::Nodes, 22, i, n.labels, &n.properties));
    let edge = |(i, e): (usize, &Edge)| told(Objects::Edges, 24, i, e.labels, &e.properties).or_else(|| ends(i, e));
    node.or_else(|| g.edges.iter().enumerate().find_map(edge))
}

/// Records of nodes and edges with several changes each, for no answer in particular.
fn records(recipes: &mut Recipes) {
    recipes.add("changed: records of a pair that conforms", |r| {
        let mut pair = sound(r, &SMALL);
        let (names, text) = (pair.graph.names, pair.graph.text.len());
        for _ in 0..r.within(1, 4) {
            let kind = if r.chance(40) { Objects::Nodes } else { Objects::Edges };
            if let Some(place) = r.index_where(kind.count(&pair.graph), |_| true) {
                other_record(r, kind.object(&mut pair.graph, place).1, names, text);
            }
        }
        // what breaks no record may still break a number
        let owed = first_misfit(&pair.graph, &pair.schema).map_or(Owed::Any, Owed::Exactly);
        Some(Made::of(&pair, owed))
    });
}

pub fn add(recipes: &mut Recipes) {
    for (kind, code) in [(Objects::Nodes, 22), (Objects::Edges, 24)] {
        for (letter, sign, is) in [(1, "b", Missing), (2, "c", Unlisted), (3, "d", Mistyped)] {
            for case in cases(letter, is) {
                recipes.add(format!("{code} ({sign}), {}", case.name), move |r| make(r, kind, code, (letter, is), &case));
            }
        }
    }
    no_property(recipes);
    records(recipes);
}
