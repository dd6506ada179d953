//! Rules 2 to 4 by the places of edges, which are the schema edges that place them: an edge of several places is counted at each of
//! them, and nowhere else. Each pair is made so that a certain way to miscount would give another answer.

use super::miscounts::Miscount;
use super::planned::*;
use super::*;
use crate::plan::*;

/// How many plans are tried before another pair has its turn, and how many wrong numbers of each.
const PLANS: usize = 300;
const NUMBERS: usize = 5;
const CODES: [u32; 5] = [0, 31, 32, 33, 34];
const BROKEN: [u32; 4] = [31, 32, 33, 34];

fn some(r: &mut Random, from: Vec<usize>, count: usize) -> Vec<usize> {
    let mut all = from;
    while all.len() > count {
        all.remove(r.below(all.len()));
    }
    all
}

/// Two or more of a few schema edges.
pub fn few(r: &mut Random) -> (usize, Vec<usize>) {
    let types = r.within(3, 7);
    let count = r.within(2, types);
    (types, some(r, (0..types).collect(), count))
}

/// The last of 64 is none of them.
fn not_the_last(r: &mut Random) -> (usize, Vec<usize>) {
    let count = r.within(2, 8);
    (TYPES, some(r, (0..TYPES - 1).collect(), count))
}

pub fn half_of_64(r: &mut Random) -> (usize, Vec<usize>) {
    (TYPES, some(r, (0..TYPES).collect(), TYPES / 2))
}

const AMONG: [(&str, Among); 17] = [
    ("the first two", |r| (r.within(3, 8), vec![0, 1])),
    ("the last two", |r| {
        let types = r.within(3, 8);
        (types, vec![types - 2, types - 1])
    }),
    ("the first and the last", |r| {
        let types = r.within(3, 8);
        (types, vec![0, types - 1])
    }),
    ("two neighbours", |r| {
        let (types, at) = (r.within(5, 9), r.within(1, 2));
        (types, vec![at, at + 1])
    }),
    ("two apart", |r| {
        let types = r.within(6, 12);
        let at = r.within(1, types - 4);
        (types, vec![at, r.within(at + 2, types - 2)])
    }),
    ("three", |r| {
        let types = r.within(4, 9);
        (types, some(r, (0..types).collect(), 3))
    }),
    ("four or more", |r| {
        let types = r.within(5, 12);
        let count = r.within(4, types - 1);
        (types, some(r, (0..types).collect(), count))
    }),
    ("all of 2 to 8", |r| {
        let types = r.within(2, 8);
        (types, (0..types).collect())
    }),
    ("0 and 1 of 64", |_| (TYPES, vec![0, 1])),
    ("31 and 32 of 64", |_| (TYPES, vec![31, 32])),
    ("62 and 63 of 64", |_| (TYPES, vec![62, 63])),
    ("0 and 63 of 64", |_| (TYPES, vec![0, 63])),
    ("0, 63 and one between", |r| (TYPES, vec![0, r.within(1, 62), 63])),
    ("half of 64", half_of_64),
    ("1 to 63 of 64", |_| (TYPES, (1..TYPES).collect())),
    ("0 to 62 of 64", |_| (TYPES, (0..TYPES - 1).collect())),
    ("all 64", |_| (TYPES, (0..TYPES).collect())),
];

const DIFFER: [(&str, Differ); 8] = [
    ("that are equal", NOTHING),
    ("of other bounds", Differ { bounds: true, ..NOTHING }),
    ("of other records", Differ { records: true, ..NOTHING }),
    ("of other sources", Differ { ends: [true, false], ..NOTHING }),
    ("of other targets", Differ { ends: [false, true], ..NOTHING }),
    ("of other ends and bounds", Differ { records: false, ..ALL }),
    ("of other records and bounds", Differ { ends: [false, false], ..ALL }),
    ("of other records, ends and bounds", ALL),
];

/// A sub-case.
#[derive(Clone, Copy)]
struct Case {
    code: u32,
    wish: Wish,
    /// at which of the schema edges that place the same edges the number is wrong, and at which node; at any, it may be another
    at: Which,
    node: Which,
    shows: Miscount,
}

const ANY_PLAN: Wish = Wish { among: few, differ: ALL, only: None, lone: None };
const PLAIN: Case = Case { code: 0, wish: ANY_PLAN, at: Any, node: Any, shows: Miscount::Nowhere };

/// The way of a code of rule 3 or 4, and whether it tells that there are too many.
fn way_of(code: u32) -> (usize, bool) {
    ((code - 31) as usize / 2, code % 2 == 0)
}

/// At which schema edge, which way and with which interval a number is wrong as the sub-case wants it.
fn wrong(r: &mut Random, case: &Case, Planned { plan, over }: &Planned) -> Option<(usize, usize, Interval)> {
    let (way, many) = way_of(case.code);
    let s = match case.wish.lone {
        Some(lone) => lone,
        None if case.at == Any && r.chance(30) => r.below(plan.types.len()),
        None => over[case.at.of(r, over.len())?],
    };
    let node = case.node.of(r, plan.nodes.len())?;
    Some((s, way, broken(r, &plan.numbers(s, way), node, many)?))
}

/// The plan of a sub-case, with its bounds.
fn bounded(r: &mut Random, case: &Case) -> Option<Planned> {
    let mut planned = planned(r, &case.wish)?;
    let wrong = if case.code == 0 { None } else { Some((0..NUMBERS).find_map(|_| wrong(r, case, &planned))?) };
    lay_bounds(r, &mut planned, case.wish.differ.bounds);
    if let Some((s, way, interval)) = wrong {
        let those = if case.wish.differ.bounds || !planned.over.contains(&s) { vec![s] } else { planned.over.clone() };
        those.iter().for_each(|&s| planned.plan.types[s].bounds[way] = interval);
    }
    Some(planned)
}

fn make(r: &mut Random, case: &Case) -> Option<Made> {
    let as_wanted = |planned: &Planned| {
        let told = planned.plan.told_numbers().unwrap_or(CONFORMS);
        told[0] == case.code && told != case.shows.told(&planned.plan)
    };
    let Planned { plan, over } = (0..PLANS).find_map(|_| bounded(r, case).filter(as_wanted))?;
    let equal = if case.wish.differ.records { vec![] } else { over };
    let spelling = spelled(r, &plan, &equal);
    Some(made(r, &plan, &spelling))
}

fn add_case(recipes: &mut Recipes, name: String, case: Case) {
    recipes.add(format!("{} {name}", case.code), move |r| make(r, &case));
}

/// By the number and the places of the schema edges, by what they differ in, by the one at which a number is wrong, and its node.
fn overlapping(recipes: &mut Recipes) {
    for (name, among) in AMONG {
        for code in CODES {
            add_case(recipes, format!("placed by {name}"), Case { code, wish: Wish { among, ..ANY_PLAN }, ..PLAIN });
        }
    }
    for (name, differ) in DIFFER {
        for code in CODES {
            add_case(recipes, format!("placed by schema edges {name}"), Case { code, wish: Wish { differ, ..ANY_PLAN }, ..PLAIN });
        }
    }
    for (at, shows) in [(First, Miscount::LastPlace), (Middle, Miscount::FirstAndLast), (Last, Miscount::FirstPlace)] {
        for (node, code) in [First, Last].into_iter().flat_map(|node| BROKEN.map(|code| (node, code))) {
            let name = format!("at the {} of the edge's places, {} node", at.word(), node.word());
            add_case(recipes, name, Case { code, at, node, shows, ..PLAIN });
        }
    }
}

/// By the edge: which one alone has several places, and edges whose one place is the first schema edge or the last.
fn by_edge(recipes: &mut Recipes) {
    for (which, shows) in [(First, Miscount::NoFirstEdge), (Middle, Miscount::Nowhere), (Last, Miscount::NoLastEdge)] {
        for code in CODES {
            add_case(
                recipes,
                format!("the {} edge alone has several places", which.word()),
                Case { code, wish: Wish { only: Some(which), ..ANY_PLAN }, shows, ..PLAIN },
            );
        }
    }
    let places: [(&str, Among, usize); 3] = [("0", few, 0), ("0 of 64", half_of_64, 0), ("63 of 64", half_of_64, TYPES - 1)];
    for (name, among, place) in places {
        for code in CODES {
            add_case(
                recipes,
                format!("edges whose one place is {name}"),
                Case { code, wish: Wish { among, lone: Some(place), ..ANY_PLAN }, shows: Miscount::WithoutPlace(place), ..PLAIN },
            );
        }
    }
}

/// By what would be miscounted.
fn miscounted(recipes: &mut Recipes) {
    use Miscount::*;
    let all: [(&str, Miscount, Among, &[u32]); 20] = [
        ("several places counted at the first alone", FirstPlace, few, &CODES),
        ("several places counted at the last alone", LastPlace, few, &CODES),
        ("several places counted at the first two alone", FirstTwo, few, &CODES),
        ("several places counted at the first and the last alone", FirstAndLast, few, &CODES),
        ("several places counted twice", Twice, few, &CODES),
        ("several places counted by labels alone", ByLabels, few, &CODES),
        ("several places counted whatever the record", ByEnds, few, &CODES),
        ("several places counted whatever the ends", ByFit, few, &CODES),
        ("several places counted at 63 of 64, too", AtTheLast, not_the_last, &CODES),
        ("one place counted one before", PlaceBefore, few, &CODES),
        ("one place counted one behind", PlaceBehind, few, &CODES),
        ("one place counted by five bits of it", FiveBits, half_of_64, &CODES),
        ("counters kept from one schema edge to the next", KeptCounters, few, &CODES),
        ("counters kept from rule 3", KeptFromRule3, few, &[0, 33, 34]),
        ("counters kept where the near end misfits", KeptUnowed, few, &CODES),
        ("edge 0 passed over", NoFirstEdge, few, &CODES),
        ("the last edge passed over", NoLastEdge, few, &CODES),
        ("node 0 passed over", NoFirstNode, few, &BROKEN),
        ("the last node passed over", NoLastNode, few, &BROKEN),
        ("schema edge 0 passed over", NoFirstType, few, &BROKEN),
    ];
    for (name, shows, among, codes) in all {
        for &code in codes {
            let lone = if shows == AtTheLast { Some(TYPES - 1) } else { None };
            add_case(recipes, format!("shows {name}"), Case { code, wish: Wish { among, lone, ..ANY_PLAN }, shows, ..PLAIN });
        }
    }
    for (name, among) in [("the last schema edge", few as Among), ("63 of 64", half_of_64)] {
        for code in BROKEN {
            add_case(
                recipes,
                format!("shows {name} passed over"),
                Case { code, wish: Wish { among, ..ANY_PLAN }, at: Last, shows: NoLastType, ..PLAIN },
            );
        }
    }
}

/// Any plan, with bounds that numbers keep or break anywhere.
fn at_random(recipes: &mut Recipes) {
    for (name, among) in [("few schema edges", few as Among), ("half of 64", half_of_64)] {
        recipes.add(format!("0 or 31 to 34 places at random, {name}"), move |r| {
            let mut planned = planned(r, &Wish { among, ..ANY_PLAN })?;
            lay_bounds(r, &mut planned, true);
            let Planned { plan, .. } = &mut planned;
            for _ in 0..r.within(0, 4) {
                let (s, way) = (r.below(plan.types.len()), r.below(2));
                let low = r.below(3) as u32;
                plan.types[s].bounds[way] = Interval { low, high: if r.chance(40) { ANY } else { low + r.below(3) as u32 } };
            }
            let spelling = spelled(r, plan, &[]);
            Some(made(r, plan, &spelling))
        });
    }
}

/// An edge that has no place.
#[derive(Clone, Copy)]
enum Stray {
    Labels,
    /// by the letter
    Record(u32),
    /// its source misfits, or its target alone
    Ends(u32),
}

impl Stray {
    fn name(self) -> &'static str {
        match self {
            Stray::Labels => "23 by labels",
            Stray::Record(1) => "24 by (b)",
            Stray::Record(2) => "24 by (c)",
            Stray::Record(_) => "24 by (d)",
            Stray::Ends(1) => "25 by its source",
            Stray::Ends(_) => "25 by its target",
        }
    }
}

/// Puts an edge without a place among the others, told at schema edge `lone`, which then has labels of its own, or at any.
fn strayed(r: &mut Random, stray: Stray, among: Among, which: Which, lone: Option<usize>) -> Option<Made> {
    let Planned { mut plan, .. } = planned(r, &Wish { among, ..ANY_PLAN })?;
    let labels = match (stray, lone) {
        (Stray::Labels, _) => NO_LABELS,
        (_, None) => LABELS,
        (_, Some(s)) => {
            plan.types[s].labels = NO_LABELS;
            NO_LABELS
        }
    };
    let record = if let Stray::Record(_) = stray { 0 } else { u64::MAX };
    let ends = [0; 2].map(|_: usize| r.below(plan.nodes.len()));
    let place = which.of(r, plan.edges.len() + 1)?;
    plan.edges.insert(place, PlanEdge { labels, ends, record });
    let mut spelling = spelled(r, &plan, &[]);
    if let Stray::Record(letter) = stray {
        let told = plan.types.iter().position(|of| of.labels == labels)?;
        (spelling.types[told].letter, spelling.types[told].closed) = (letter, letter == 2);
    }
    let [code, at, s, count, _] = plan.told(&spelling);
    let as_wanted = match stray {
        Stray::Labels => code == 23,
        Stray::Record(letter) => code == 24 && count == letter,
        Stray::Ends(end) => code == 25 && count == end,
    };
    let as_wanted = as_wanted && at as usize == place && lone.map_or(true, |lone| s as usize == lone);
    as_wanted.then(|| made(r, &plan, &spelling))
}

/// Edges without a place, while others have several.
fn strays(recipes: &mut Recipes) {
    let strays = [Stray::Labels, Stray::Record(1), Stray::Record(2), Stray::Record(3), Stray::Ends(1), Stray::Ends(2)];
    for stray in strays {
        for which in [First, Middle, Last] {
            let name = format!("{}, the {} edge, others have several places", stray.name(), which.word());
            recipes.add(name, move |r| strayed(r, stray, few, which, None));
        }
    }
    for stray in &strays[1..] {
        for place in [0, TYPES - 1] {
            let stray = *stray;
            recipes.add(format!("{} at {place} of 64", stray.name()), move |r| strayed(r, stray, half_of_64, Any, Some(place)));
        }
    }
}

/// Very many nodes or edges.
#[derive(Clone, Copy)]
struct Large {
    name: &'static str,
    codes: &'static [u32],
    nodes: usize,
    edges: usize,
    /// which edge has both schema edges as its places, or each; the others have the first alone
    several: Which,
    /// at which node the number is wrong; at any, it is one of that edge's ends
    node: Which,
}

const MANY_EDGES: Large = Large { name: "", codes: &[32, 34], nodes: 3, edges: 4_096, several: Any, node: Any };

const LARGE: [Large; 4] = [
    Large { name: "edge 0 alone of 4,096 has several places", several: First, ..MANY_EDGES },
    Large { name: "edge 4,095 alone of 4,096 has several places", several: Last, ..MANY_EDGES },
    Large { name: "all 4,096 edges have several places", codes: &[0, 32, 34], ..MANY_EDGES },
    Large { name: "the last of 1,024 nodes has edges of several places", codes: &BROKEN, nodes: 1_024, edges: 40, node: Last, ..MANY_EDGES },
];

/// Nodes that owe numbers are few: the first two and the last.
fn large(r: &mut Random, of: &Large, code: u32) -> Option<Plan> {
    let last = of.nodes - 1;
    let nodes = (0..of.nodes).map(|v| if v < 2 || v == last { 0b01 } else { 0b10 }).collect();
    let types = vec![PlanType { labels: LABELS, ends: [0, 0], bounds: [FREE; 2] }; 2];
    let several = of.several.of(r, of.edges)?;
    let mut edges = vec![];
    for e in 0..of.edges {
        let record = if of.several == Any || e == several { 0b11 } else { 0b01 };
        edges.push(PlanEdge { labels: LABELS, ends: [0; 2].map(|_: usize| r.pick(&[0, 1, last])), record });
    }
    let mut planned = Planned { plan: Plan { schema_nodes: 2, nodes, strange: vec![], types, edges }, over: vec![0, 1] };
    lay_bounds(r, &mut planned, true);
    let mut plan = planned.plan;
    if code != 0 {
        let (way, many) = way_of(code);
        let node = if of.node == Last { last } else { plan.edges[several].ends[way] };
        plan.types[1].bounds[way] = broken(r, &plan.numbers(1, way), node, many)?;
    }
    let told = plan.told_numbers().map_or(0, |told| told[0]);
    (told == code).then(|| plan)
}

fn very_many(recipes: &mut Recipes) {
    for of in LARGE {
        for &code in of.codes {
            recipes.add_rare(format!("{code} {}", of.name), move |r| {
                let plan = large(r, &of, code)?;
                let spelling = spelled(r, &plan, &[]);
                Some(made(r, &plan, &spelling))
            });
        }
    }
}

pub fn add(recipes: &mut Recipes) {
    overlapping(recipes);
    by_edge(recipes);
    miscounted(recipes);
    at_random(recipes);
    strays(recipes);
    very_many(recipes);
}
