//! The assignment of Majorana modes to the leaves of a given tree, round by round.

use crate::merging::ABSENT;
use crate::refusal::{check_modes, check_rooms, demand, Refusal};
use crate::terms::{each_once, read_terms, reduce_hamiltonian, weigh, work_room};
use crate::terms::{Row, Rule, WorkRow};
use crate::tree::{read_tree, Child, Tree};
use std::cmp::Reverse;

/// The heuristics "as listed above": `min_weight`, `x_first`, `z_first`.
const X_FIRST: usize = 1;
const Z_FIRST: usize = 2;

/// Assigns, writes the table and returns "the sum of chosen weights". The order of refusals is
/// 1, 20, 13, 14, 15, 16 and then "17, 2, 3, 4, 5".
pub fn assign(
    modes: usize,
    rule: usize,
    tree: &[u16],
    heuristic: usize,
    terms: &[u16],
    work: &mut [u16],
    table: &mut [u16],
) -> Result<u64, Refusal> {
    check_modes(modes)?;
    let rule = Rule::read(rule)?;
    let given = read_tree(modes, tree)?;
    demand(heuristic <= Z_FIRST, 17, 0)?;
    let rows = read_terms(modes, terms)?;
    // "Room: ... assignment tables 3n", and of 02 work.
    check_rooms(&[(work.len(), work_room(terms)), (table.len(), 3 * modes)])?;

    let mut rounds = Rounds::new(modes, rule, &given, rows);
    let mut weight = 0;
    // "The end is when no mode is unassigned."
    while !rounds.unassigned.is_empty() {
        weight += rounds.round(heuristic);
    }
    work[..work_room(terms)].fill(0);
    table[..3 * modes].copy_from_slice(&rounds.codes());
    Ok(weight)
}

/// "Slots begin as child, even leaf, odd leaf or empty"; a leaf that has its number is fixed.
#[derive(Clone, Copy, Debug, PartialEq, Eq)]
enum Slot {
    Child(usize),
    EvenLeaf,
    OddLeaf,
    Empty,
    Fixed(u16),
}

/// One way to fill the three slots of a node, and its weight.
struct Choice {
    node: usize,
    triple: [u16; 3],
    weight: u64,
}

/// What the rounds know and change.
struct Rounds {
    modes: usize,
    rule: Rule,
    rows: Vec<WorkRow>,
    /// The slots of each node: X, Y, Z.
    slots: Vec<[Slot; 3]>,
    /// For each node whose Z child is a leaf of the given tree: the node and edge of its partner.
    partners: Vec<Option<(usize, usize)>>,
    /// Steps from the root, for each node.
    distances: Vec<usize>,
    /// The round list: nodes that have not left, ascending.
    remaining: Vec<usize>,
    unassigned: Vec<usize>,
}

impl Rounds {
    fn new(modes: usize, rule: Rule, tree: &Tree, rows: Vec<Row>) -> Self {
        let slots_of = |node| [0, 1, 2].map(|edge| first_slot(tree.child(node, edge)));
        Rounds {
            modes,
            rule,
            rows: each_once(rows),
            slots: (0..modes).map(slots_of).collect(),
            partners: partners(modes, tree),
            distances: distances(modes, tree),
            remaining: (0..modes).collect(),
            unassigned: (0..modes).collect(),
        }
    }

    /// One round; returns the chosen weight.
    fn round(&mut self, heuristic: usize) -> u64 {
        let best = self.choose(&self.candidates(heuristic));
        self.fix(&best);
        self.remaining.retain(|&node| node != best.node);
        // "The rows are reduced to 2n+1+node."
        let rows = std::mem::take(&mut self.rows);
        let parent = self.number_of(best.node);
        self.rows = reduce_hamiltonian(rows, self.rule, parent, best.triple).0;
        // "Then nodes whose every slot is a fixed leaf, a child or (Z) empty leave the round list
        // without a reduction."
        let slots = &self.slots;
        self.remaining.retain(|&node| !is_complete(slots[node]));
        best.weight
    }

    /// "the remaining nodes farthest from the root; `x_first` keeps the lowest number, `z_first`
    /// the highest; `min_weight` keeps all but drops a node whose three slots equal an earlier one's".
    fn candidates(&self, heuristic: usize) -> Vec<usize> {
        let distance = |node: &usize| self.distances[*node];
        let farthest = self.remaining.iter().map(distance).max();
        let mut nodes = self.remaining.clone();
        nodes.retain(|node| Some(distance(node)) == farthest);
        match heuristic {
            X_FIRST => nodes.truncate(1),
            Z_FIRST => nodes = nodes.split_off(nodes.len() - 1),
            _ => {
                let all = nodes.clone();
                let is_like = |node: usize, other: usize| self.slots[node] == self.slots[other];
                let goes = |node| {
                    all.iter()
                        .any(|&other| other < node && is_like(node, other))
                };
                nodes.retain(|&node| !goes(node));
            }
        }
        nodes
    }

    /// "Least weight, then largest z, y, x, then lowest node."
    fn choose(&self, candidates: &[usize]) -> Choice {
        let mut choices = Vec::new();
        for &node in candidates {
            for triple in self.triples(node) {
                let weight = weigh(&self.rows, triple);
                choices.push(Choice {
                    node,
                    triple,
                    weight,
                });
            }
        }
        let rank = |choice: &Choice| {
            let [x, y, z] = choice.triple;
            (choice.weight, Reverse([z, y, x]), choice.node)
        };
        let best = choices.into_iter().min_by_key(rank);
        best.expect("a node remains while a mode is unassigned")
    }

    /// Every filling of a node's slots: "an X and Y leaf pair takes 2v and 2v+1 of an unassigned
    /// mode v; a Z leaf takes its parity of an unassigned mode, not the pair's".
    fn triples(&self, node: usize) -> Vec<[u16; 3]> {
        let [x, y, z] = self.slots[node];
        let mut triples = Vec::new();
        if (x, y) == (Slot::EvenLeaf, Slot::OddLeaf) {
            for &mode in &self.unassigned {
                let even = 2 * mode as u16;
                let z_numbers = self.z_numbers(z, Some(mode));
                triples.extend(z_numbers.map(|number| [even, even + 1, number]));
            }
        } else {
            let (x, y) = (self.standing(x), self.standing(y));
            triples.extend(self.z_numbers(z, None).map(|number| [x, y, number]));
        }
        triples
    }

    /// Every number that a Z slot may take beside the pair's mode, if there is a pair.
    fn z_numbers(&self, z: Slot, pair: Option<usize>) -> impl Iterator<Item = u16> {
        let free = self.unassigned.iter().filter(|&&mode| Some(mode) != pair);
        let even = free.map(|&mode| 2 * mode as u16);
        let numbers: Vec<u16> = match z {
            Slot::EvenLeaf => even.collect(),
            Slot::OddLeaf => even.map(|number| number + 1).collect(),
            _ => vec![self.standing(z)],
        };
        numbers.into_iter()
    }

    /// "a child stands as 2n+1+child; empty as 2n; a fixed leaf as itself".
    fn standing(&self, slot: Slot) -> u16 {
        match slot {
            Slot::Child(child) => self.number_of(child),
            Slot::Empty => 2 * self.modes as u16,
            Slot::Fixed(leaf) => leaf,
            // A single X or Y leaf has its partner at the end of the other child's z-chain. That
            // end is farther from the root, so it was fixed earlier and fixed this one with it.
            Slot::EvenLeaf | Slot::OddLeaf => unreachable!("a single leaf is fixed by its partner"),
        }
    }

    fn number_of(&self, node: usize) -> u16 {
        (2 * self.modes + 1 + node) as u16
    }

    /// Fixes the chosen leaves, and "A Z leaf fixes its partner's slot too."
    fn fix(&mut self, best: &Choice) {
        for (edge, &number) in best.triple.iter().enumerate() {
            if usize::from(number) < 2 * self.modes {
                self.slots[best.node][edge] = Slot::Fixed(number);
                let mode = usize::from(number) / 2;
                self.unassigned.retain(|&other| other != mode);
            }
        }
        if let Some((node, edge)) = self.partners[best.node] {
            let z = best.triple[2];
            let partner = if z.is_multiple_of(2) { z + 1 } else { z - 1 };
            self.slots[node][edge] = Slot::Fixed(partner);
        }
    }

    /// The answer's table, three codes a node.
    fn codes(&self) -> Vec<u16> {
        let code = |slot: &Slot| match *slot {
            Slot::Child(child) => child as u16,
            Slot::Fixed(leaf) => leaf + self.modes as u16,
            Slot::Empty => ABSENT,
            Slot::EvenLeaf | Slot::OddLeaf => unreachable!("each leaf has a mode of its own"),
        };
        self.slots.iter().flatten().map(code).collect()
    }
}

fn first_slot(child: Child) -> Slot {
    match child {
        Child::Node(node) => Slot::Child(node),
        Child::Leaf(leaf) if leaf % 2 == 0 => Slot::EvenLeaf,
        Child::Leaf(_) => Slot::OddLeaf,
        Child::Absent => Slot::Empty,
    }
}

/// "every slot is a fixed leaf, a child or (Z) empty". The empty slot of an accepted tree is
/// always a Z.
fn is_complete(slots: [Slot; 3]) -> bool {
    let open = [Slot::EvenLeaf, Slot::OddLeaf];
    !slots.iter().any(|slot| open.contains(slot))
}

fn partners(modes: usize, tree: &Tree) -> Vec<Option<(usize, usize)>> {
    let places = (0..modes).flat_map(|node| [0, 1, 2].map(|edge| (node, edge)));
    let places: Vec<(usize, usize)> = places.collect();
    let partner_of = |node| match tree.child(node, 2) {
        Child::Leaf(leaf) => {
            let partner = if leaf % 2 == 0 { leaf + 1 } else { leaf - 1 };
            let holds =
                |place: &&(usize, usize)| tree.child(place.0, place.1) == Child::Leaf(partner);
            places.iter().find(holds).copied()
        }
        _ => None,
    };
    (0..modes).map(partner_of).collect()
}

fn distances(modes: usize, tree: &Tree) -> Vec<usize> {
    let mut distances = vec![0; modes];
    // Each node comes before those below it, so its own distance is known when theirs are set.
    for node in tree.nodes_under(Child::Node(tree.root())) {
        for edge in 0..3 {
            if let Child::Node(below) = tree.child(node, edge) {
                distances[below] = distances[node] + 1;
            }
        }
    }
    distances
}
