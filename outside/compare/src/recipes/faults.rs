//! All the faults at once: pairs with many violations, of one rule or of several, and what is told of every one of them.

use super::faulty::*;
use super::mistakes::Mistake;
use super::places::{few, half_of_64};
use super::planned::*;
use super::*;
use crate::list_cases::{rule, CODES};
use crate::plan::*;
use crate::sound::Size;
use crate::told::violations;

/// How many plans are tried before another pair has its turn.
const PLANS: usize = 100;
const EVERY: [bool; 4] = [true; 4];

/// A plan with its list.
struct Case<'a> {
    plan: &'a Plan,
    spelling: &'a Spelling,
    all: Vec<Numbers>,
}

impl Case<'_> {
    fn count(&self, wanted: impl Fn(&Numbers) -> bool) -> usize {
        self.all.iter().filter(|told| wanted(told)).count()
    }

    fn of_rule(&self, number: u32) -> usize {
        self.count(|told| rule(told[0]) == number)
    }

    /// Whether a rule tells of an object, for rules 3 and 4 of a node at a schema edge.
    fn tells(&self, number: u32, place: usize, schema_edge: usize) -> bool {
        self.count(|told| rule(told[0]) == number && told[1] == place as u32 && (number < 3 || told[2] == schema_edge as u32)) > 0
    }
}

/// A sub-case: in which some rules are broken, and the list is as wanted.
fn add(recipes: &mut Recipes, name: String, among: Among, rules: [bool; 4], wanted: impl Fn(&Case) -> bool + Send + Sync + 'static) {
    recipes.push(Function::All, name, false, move |r| {
        (0..PLANS).find_map(|_| {
            let plan = faulty(r, among, rules)?;
            let spelling = spelled(r, &plan, &[]);
            let all = plan.all(&spelling);
            wanted(&Case { plan: &plan, spelling: &spelling, all }).then(|| listed(r, &plan, &spelling))
        })
    });
}

fn words(numbers: &[u32]) -> String {
    let words: Vec<String> = numbers.iter().map(|n| n.to_string()).collect();
    match words.split_last() {
        Some((last, before)) if !before.is_empty() => format!("rules {} and {last}", before.join(", ")),
        _ => format!("rule {}", words.concat()),
    }
}

/// By the rules that are broken, each at least twice, and by code.
fn by_rule(recipes: &mut Recipes) {
    for bits in 1..16 {
        let rules = [0, 1, 2, 3].map(|at| bits >> at & 1 == 1);
        let numbers: Vec<u32> = (1..=4).filter(|&number| rules[number as usize - 1]).collect();
        let name = format!("several faults of {}", words(&numbers));
        add(recipes, name, few, rules, move |case| (1..=4).all(|of| (case.of_rule(of) > 1) == numbers.contains(&of)));
    }
    for code in CODES {
        add(recipes, format!("{code} three times or more"), few, EVERY, move |case| case.count(|told| told[0] == code) > 2);
        let alone = [1, 2, 3, 4].map(|number| number == rule(code));
        add(recipes, format!("{code} several times, and nothing else"), few, alone, move |case| {
            case.all.len() > 1 && case.count(|told| told[0] == code) == case.all.len()
        });
    }
    for (name, among) in [("few schema edges", few as Among), ("64 schema edges", half_of_64)] {
        add(recipes, format!("every code at once, {name}"), among, EVERY, |case| CODES.iter().all(|code| case.count(|told| told[0] == *code) > 0));
    }
}

/// By the last code of a rule and the first of a later one, with nothing between.
fn behind_rules(recipes: &mut Recipes) {
    for (before, behind) in CODES.into_iter().flat_map(|before| CODES.map(|behind| (before, behind))) {
        if rule(before) < rule(behind) {
            let rules = [1, 2, 3, 4].map(|number| number == rule(before) || number == rule(behind));
            let follows = move |two: &[Numbers]| two[0][0] == before && two[1][0] == behind;
            add(recipes, format!("{behind} behind {before}"), few, rules, move |case| case.all.windows(2).any(follows));
        }
    }
}

/// At the first and the last of the rows.
fn at_the_ends(recipes: &mut Recipes) {
    add(recipes, "the first node and the last against rule 1".into(), few, EVERY, |case| {
        case.tells(1, 0, 0) && case.tells(1, case.plan.nodes.len() - 1, 0)
    });
    add(recipes, "the first edge and the last against rule 2".into(), few, EVERY, |case| {
        case.tells(2, 0, 0) && case.tells(2, case.plan.edges.len() - 1, 0)
    });
    for number in [3, 4] {
        let rules = [false, false, number == 3, number == 4];
        let first_and_last = move |case: &Case, s: usize| case.tells(number, 0, s) && case.tells(number, case.plan.nodes.len() - 1, s);
        let last = |case: &Case| case.plan.types.len() - 1;
        add(recipes, format!("the first node and the last at the first schema edge, rule {number}"), few, rules, move |case| first_and_last(case, 0));
        add(recipes, format!("the first node and the last at the last schema edge, rule {number}"), few, rules, move |case| {
            first_and_last(case, last(case))
        });
        add(recipes, format!("the last node at a schema edge and the first at the next, rule {number}"), few, rules, move |case| {
            let nodes = case.plan.nodes.len();
            (0..last(case)).any(|s| case.tells(number, nodes - 1, s) && case.tells(number, 0, s + 1))
        });
        add(recipes, format!("0 and 63 of 64, rule {number}"), half_of_64, rules, move |case| {
            [0, 63].iter().all(|s| case.count(|told| rule(told[0]) == number && told[2] == *s) > 0)
        });
    }
    add(recipes, "the last node at the last schema edge by rule 3, the first at the first by rule 4".into(), few, EVERY, |case| {
        case.tells(3, case.plan.nodes.len() - 1, case.plan.types.len() - 1) && case.tells(4, 0, 0)
    });
}

/// Nodes that fit several schema nodes, and meet the rules of all.
fn several_fits(recipes: &mut Recipes) {
    for (name, numbers) in [("rule 3", vec![3]), ("rule 4", vec![4]), ("rules 3 and 4", vec![3, 4])] {
        add(recipes, format!("a node told for several schema nodes, {name}"), few, EVERY, move |case| {
            let told_for = |number: u32, node: usize| {
                let of_node =
                    |at: usize| (0..case.plan.types.len()).any(|s| case.plan.types[s].ends[number as usize - 3] == at && case.tells(number, node, s));
                (0..case.plan.schema_nodes).filter(|&at| of_node(at)).count()
            };
            (0..case.plan.nodes.len()).any(|node| numbers.iter().all(|&number| told_for(number, node) > 1))
        });
    }
}

/// By what would be told instead.
fn mistaken(recipes: &mut Recipes) {
    use Mistake::*;
    let all = [
        ("an edge without a place counted where it fits", StrayCounted),
        ("an edge without a place counted as the one before", StrayAsBefore),
        ("edges behind one without a place counted nowhere", NowhereBehind),
        ("edges of several places behind one without a place counted nowhere", SeveralBehind),
        ("edges of several places behind one without a place counted once", FirstPlaceBehind),
        ("a node that fits nothing taken for the one before", FitsOfBefore),
        ("a schema edge counted again behind a wrong number", CountedAgain),
        ("counters lost behind a wrong number", LostBehind),
        ("counters kept behind a wrong number", KeptBehind),
        ("the next schema edge asked from the last wrong number on", FromBehind),
        ("the node behind a wrong number passed over", NodeBehind),
        ("the nodes behind a wrong number passed over", NodesBehind),
        ("the schema edge behind a wrong number passed over", TypeBehind),
        ("the rest of a rule behind a wrong number passed over", RuleBehind),
        ("rule 4 passed over behind the last schema edge", NoRule4Behind),
        ("a node told by rule 3 alone", NodeOnce),
    ];
    for (name, mistake) in all {
        let shows = move |case: &Case| mistake.told(case.plan, case.spelling) != case.all;
        add(recipes, format!("shows {name}"), few, EVERY, shows);
        // those that look at many places
        if matches!(mistake, NowhereBehind | SeveralBehind | KeptBehind | TypeBehind) {
            add(recipes, format!("shows {name}, 64 schema edges"), half_of_64, EVERY, shows);
        }
    }
}

/// How large a plan is.
#[derive(Clone, Copy)]
struct Large {
    name: &'static str,
    rare: bool,
    nodes: [usize; 2],
    edges: usize,
    types: [usize; 2],
    /// which share of the nodes fits nothing, and of the edges has no place, in percent
    misfits: [usize; 2],
    /// how many violations it has, at least
    least: usize,
}

const LARGE: [Large; 6] = [
    Large { name: "100 violations or more, numbers alone", rare: false, nodes: [14, 30], edges: 40, types: [6, 12], misfits: [0, 0], least: 100 },
    Large { name: "100 violations or more, of every rule", rare: false, nodes: [20, 40], edges: 40, types: [6, 12], misfits: [15, 50], least: 100 },
    Large {
        name: "10,000 violations or more, numbers alone",
        rare: true,
        nodes: [200, 250],
        edges: 100,
        types: [64, 64],
        misfits: [0, 0],
        least: 10_000,
    },
    Large {
        name: "10,000 violations or more, of every rule",
        rare: true,
        nodes: [240, 280],
        edges: 100,
        types: [64, 64],
        misfits: [15, 50],
        least: 10_000,
    },
    Large {
        name: "10,000 violations or more, at 1,024 nodes",
        rare: true,
        nodes: [1_024, 1_024],
        edges: 300,
        types: [14, 16],
        misfits: [5, 30],
        least: 10_000,
    },
    Large {
        name: "every node and every edge at the ceilings",
        rare: true,
        nodes: [1_024, 1_024],
        edges: 4_096,
        types: [3, 3],
        misfits: [100, 100],
        least: 5_120,
    },
];

/// Any nodes and edges of such a plan, and bounds that many numbers break.
fn any_plan(r: &mut Random, of: &Large) -> Option<Plan> {
    let schema_nodes = 3;
    let (nodes, types) = (r.within(of.nodes[0], of.nodes[1]), r.within(of.types[0], of.types[1]));
    let nodes: Vec<u32> = (0..nodes).map(|_| if r.chance(of.misfits[0]) { 0 } else { r.within(1, 7) as u32 }).collect();
    let strange = (0..nodes.len()).filter(|&v| nodes[v] == 0 && r.chance(50)).collect();
    let end = |r: &mut Random| r.below(schema_nodes);
    let types = (0..types).map(|_| PlanType { labels: r.below(NO_LABELS), ends: [end(r), end(r)], bounds: [FREE; 2] }).collect();
    let mut plan = Plan { schema_nodes, nodes, strange, types, edges: vec![] };
    for _ in 0..of.edges {
        let edge = if r.chance(of.misfits[1]) { stray(r, &plan) } else { placed(r, &plan)? };
        plan.edges.push(edge);
    }
    (0..2).for_each(|way| break_numbers(r, &mut plan, way, 95));
    Some(plan)
}

fn long_lists(recipes: &mut Recipes) {
    for of in LARGE {
        recipes.push(Function::All, of.name.to_string(), of.rare, move |r| {
            let plan = any_plan(r, &of)?;
            let spelling = spelled(r, &plan, &[]);
            (plan.all(&spelling).len() >= of.least).then(|| listed(r, &plan, &spelling))
        });
    }
}

/// Pairs changed for no list in particular.
fn changed(recipes: &mut Recipes) {
    const LARGER: Size = Size { nodes: 14, edges: 24, schema_nodes: 6, schema_edges: 8 };
    for most in [12, 40] {
        recipes.push(Function::All, format!("changed: up to {most} changes of a larger pair"), false, move |r| {
            let mut pair = sound(r, &LARGER);
            (0..r.within(3, most)).for_each(|_| damage::change(r, &mut pair));
            let all = violations(&pair.graph, &pair.schema);
            Some(of_list(&pair, all))
        });
    }
}

pub fn add_all(recipes: &mut Recipes) {
    by_rule(recipes);
    behind_rules(recipes);
    at_the_ends(recipes);
    several_fits(recipes);
    mistaken(recipes);
    long_lists(recipes);
    changed(recipes);
}
