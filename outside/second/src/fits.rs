//! "An object fits a schema object if the label sets are equal and the record
//! fits." Ask 2: "The record test should name the property as well".

use crate::graph::{Graph, Object};
use crate::schema::{ObjectType, Schema};

/// "(b) every mandatory name is present": the names that are missing.
fn missing(object: &Object, ty: &ObjectType) -> Vec<u64> {
    let mandatory = ty.listed.iter().filter(|listed| !listed.optional);
    let names = mandatory.map(|listed| listed.name);
    let absent = names.filter(|name| {
        let mut present = object.properties.iter();
        present.all(|(present, _)| present != name)
    });
    absent.collect()
}

/// "(c) every present name is listed, unless the type is open": the names that
/// are not listed.
fn unlisted(object: &Object, ty: &ObjectType) -> Vec<u64> {
    let names = object.properties.iter().map(|(name, _)| *name);
    let unlisted = names.filter(|name| {
        let mut listed = ty.listed.iter();
        !ty.open && listed.all(|listed| listed.name != *name)
    });
    unlisted.collect()
}

/// "(d) every present listed name has the listed type": the names that are
/// listed with another type.
fn wrongly_typed(object: &Object, ty: &ObjectType) -> Vec<u64> {
    let properties = object.properties.iter();
    let wrong = properties.filter(|(name, value)| {
        let mut listed = ty.listed.iter();
        listed.any(|listed| listed.name == *name && listed.kind != value.kind())
    });
    wrong.map(|(name, _)| *name).collect()
}

/// The names at fault by a letter; there are none if the letter is kept.
type Letter = fn(&Object, &ObjectType) -> Vec<u64>;

/// "1 (b), 2 (c), 3 (d)".
const LETTERS: [(u32, Letter); 3] = [(1, missing), (2, unlisted), (3, wrongly_typed)];

/// "the first of 1 (b), 2 (c), 3 (d) broken there" and, Ask 2: "the lowest
/// missing mandatory, unlisted or wrongly typed name, by the letter that is
/// answered now". Nothing if the record fits.
pub fn first_broken(object: &Object, ty: &ObjectType) -> Option<(u32, u32)> {
    LETTERS.iter().find_map(|(letter, at_fault)| {
        let lowest = at_fault(object, ty).into_iter().min();
        lowest.map(|name| (*letter, name as u32))
    })
}

/// Whether the object fits the schema object.
pub fn fits(object: &Object, ty: &ObjectType) -> bool {
    object.labels == ty.labels && first_broken(object, ty).is_none()
}

/// Which node fits which schema node, which edge which schema edge: "Nodes are
/// compared with schema nodes only, edges with schema edges only."
pub struct Tables {
    /// `node[n][s]`: node n fits schema node s.
    pub node: Vec<Vec<bool>>,
    /// `edge[e][s]`: edge e's labels and record fit schema edge s.
    pub edge: Vec<Vec<bool>>,
}

impl Tables {
    pub fn new(graph: &Graph, schema: &Schema) -> Tables {
        let node_line = |object: &Object| {
            let types = schema.nodes.iter();
            types.map(|ty| fits(object, ty)).collect()
        };
        let edge_line = |object: &Object| {
            let types = schema.edges.iter();
            types.map(|ty| fits(object, &ty.object)).collect()
        };
        let edges = graph.edges.iter().map(|edge| &edge.object);
        Tables {
            node: graph.nodes.iter().map(node_line).collect(),
            edge: edges.map(edge_line).collect(),
        }
    }
}
