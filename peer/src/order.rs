//! The order of units: assignments and state statements outside, and blocks.

use crate::faults::Fault;
use crate::limits::MAX_STATEMENTS;
use crate::model::{Model, Sort, Unit, UNSORTABLE};
use crate::names::slot;

/// The words of a set.
const WORDS: usize = MAX_STATEMENTS.div_ceil(64);

/// A set of units, by their indexes: 64 to a word, the least lowest.
pub type Set = [u64; WORDS];

/// Takes the least member out of a set.
fn take_least(set: &mut Set) -> Option<usize> {
    for (i, word) in set.iter_mut().enumerate() {
        if *word != 0 {
            let bit = word.trailing_zeros() as usize;
            *word &= *word - 1;
            return Some(i * 64 + bit);
        }
    }
    None
}

/// Adds a member to a set.
fn add(set: &mut Set, member: usize) {
    set[member / 64 % WORDS] |= 1 << (member % 64);
}

/// No unit, or no edge.
const NONE: u16 = u16::MAX;

/// A unit while it is not yet in its place.
#[derive(Clone, Copy)]
struct Node {
    /// The last edge to a unit that uses it.
    users: u16,
    /// How many uses of units that are not yet in their places it has.
    waiting: u16,
}

/// A use: the unit that uses, and the edge to one more that uses the same.
struct Edge {
    user: u16,
    next: u16,
}

/// All units and their uses.
struct Graph {
    nodes: Vec<Node>,
    edges: Vec<Edge>,
}

/// Gives the units in the order that the paper asks for, or the faults 24.
/// Names are resolved, and there are at most as many units as statements.
///
/// The least unit all of whose used ones stand already comes next; what is
/// never ready reaches a loop, and so is just what is unsortable.
pub fn order(model: &Model, units: &[Unit]) -> Result<Vec<Unit>, Vec<Fault>> {
    order_by(model, units, take_least)
}

/// Gives the units in a good order, each after all it uses, or the faults 24.
/// Of the units that are ready the one comes next that is taken out of their
/// set; as long as there is any, one must be.
pub fn order_by(
    model: &Model,
    units: &[Unit],
    mut take: impl FnMut(&mut Set) -> Option<usize>,
) -> Result<Vec<Unit>, Vec<Fault>> {
    let Graph { mut nodes, edges } = Graph::new(model, units);
    let mut ready: Set = [0; WORDS];
    for (index, node) in nodes.iter().enumerate() {
        if node.waiting == 0 {
            add(&mut ready, index);
        }
    }
    let mut order = Vec::with_capacity(units.len());
    while let Some(next) = take(&mut ready) {
        order.push(units[next]);
        let mut at = nodes[next].users;
        while let Some(edge) = edges.get(at as usize) {
            let waiting = &mut nodes[edge.user as usize].waiting;
            *waiting -= 1;
            if *waiting == 0 {
                add(&mut ready, edge.user as usize);
            }
            at = edge.next;
        }
    }
    if order.len() == units.len() {
        Ok(order)
    } else {
        Err(unsortable(units, &nodes))
    }
}

/// All pairs of a unit and one that it uses, by their indexes.
pub fn uses(model: &Model, units: &[Unit]) -> Vec<(usize, usize)> {
    let Graph { nodes, edges } = Graph::new(model, units);
    let mut pairs = Vec::with_capacity(edges.len());
    for (used, node) in nodes.iter().enumerate() {
        let mut at = node.users;
        while let Some(edge) = edges.get(at as usize) {
            pairs.push((edge.user as usize, used));
            at = edge.next;
        }
    }
    pairs.sort_unstable_by_key(|&(user, used)| (used, user));
    pairs.dedup();
    pairs
}

impl Graph {
    /// The units before any is in its place.
    #[inline(always)]
    fn new(model: &Model, units: &[Unit]) -> Self {
        let givers = givers(model, units);
        let empty = Node {
            users: NONE,
            waiting: 0,
        };
        let mut graph = Graph {
            nodes: vec![empty; units.len()],
            edges: Vec::with_capacity(model.uses.len() + model.header_known.len()),
        };
        for (user, unit) in units.iter().enumerate() {
            match unit.inputs {
                Some(inputs) => {
                    for &input in model.header_known(inputs) {
                        graph.enter(user, givers[slot(input) as usize]);
                    }
                }
                None => {
                    let equation = &model.equations[unit.equations.0 as usize];
                    for slot in model.slots_of(equation) {
                        graph.enter(user, givers[slot as usize]);
                    }
                }
            }
        }
        graph
    }

    /// Enters a use, unless it is of no unit.
    #[inline(always)]
    fn enter(&mut self, user: usize, used: u16) {
        if let Some(node) = self.nodes.get_mut(used as usize) {
            let edge = Edge {
                user: user as u16,
                next: node.users,
            };
            node.users = self.edges.len() as u16;
            self.edges.push(edge);
            self.nodes[user].waiting += 1;
        }
    }
}

/// For each slot the unit that assigns it.
fn givers(model: &Model, units: &[Unit]) -> Vec<u16> {
    let mut givers = vec![NONE; model.definitions.len() + 1];
    for (index, unit) in units.iter().enumerate() {
        for equation in model.equations_of(unit) {
            let definition = &model.definitions[equation.definition as usize];
            if definition.sort == Sort::Assigned {
                givers[slot(definition.known) as usize] = index as u16;
            }
        }
    }
    givers
}

/// The faults of all units that still wait.
fn unsortable(units: &[Unit], nodes: &[Node]) -> Vec<Fault> {
    let stuck = units.iter().zip(nodes).filter(|(_, node)| node.waiting > 0);
    stuck
        .map(|(unit, _)| Fault::at_first(unit.line, UNSORTABLE))
        .collect()
}
