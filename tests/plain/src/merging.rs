//! Merging: the lawful pairs of a state, the choice of a step, the merge itself, and the rows of the finished tree.

use crate::terms::{each_once, reduce_hamiltonian, weigh, Row, Rule, WorkRow};
use std::collections::VecDeque;

/// "65535 for the one absent child".
pub const ABSENT: u16 = 65535;

/// One step of a run: its triple (x, y, z) and the weight it had.
#[derive(Clone, Copy, Debug, PartialEq, Eq)]
pub struct Merge {
    pub triple: [u16; 3],
    pub weight: u64,
}

/// The state of a run after some merges.
pub struct Merging {
    modes: usize,
    rule: Rule,
    rows: Vec<WorkRow>,
    /// The open entities, ascending.
    open: Vec<u16>,
    /// The z-end of every entity made so far, by its number.
    z_ends: Vec<u16>,
    merges: Vec<Merge>,
    drops: Vec<u16>,
}

impl Merging {
    /// "Open entities start as all leaves." "a leaf's [z-end] is itself".
    pub fn new(modes: usize, rule: Rule, rows: Vec<Row>) -> Self {
        let leaves: Vec<u16> = (0..=2 * modes as u16).collect();
        Merging {
            modes,
            rule,
            rows: each_once(rows),
            open: leaves.clone(),
            z_ends: leaves,
            merges: Vec::new(),
            drops: Vec::new(),
        }
    }

    pub fn merges(&self) -> &[Merge] {
        &self.merges
    }

    /// 02: "for each step, the sum of the counts of the rows dropped there".
    pub fn drops(&self) -> &[u16] {
        &self.drops
    }

    pub fn is_finished(&self) -> bool {
        self.merges.len() == self.modes
    }

    /// "Greedy weight is the sum of step weights."
    pub fn greedy_weight(&self) -> u64 {
        self.merges.iter().map(|merge| merge.weight).sum()
    }

    pub fn is_open(&self, entity: u16) -> bool {
        self.open.binary_search(&entity).is_ok()
    }

    /// "three different open entities where x's z-end is an even 2k below 2n and y's is 2k+1".
    pub fn is_lawful(&self, triple: [u16; 3]) -> bool {
        let [x, y, z] = triple;
        if !triple.iter().all(|&entity| self.is_open(entity)) || x == y || y == z || x == z {
            return false;
        }
        let x_end = self.z_end(x);
        x_end.is_multiple_of(2) && usize::from(x_end) < 2 * self.modes && self.z_end(y) == x_end + 1
    }

    pub fn weigh(&self, triple: [u16; 3]) -> u64 {
        weigh(&self.rows, triple)
    }

    fn z_end(&self, entity: u16) -> u16 {
        self.z_ends[usize::from(entity)]
    }

    /// The triples that the lawful ordered pairs (a, z) name, one for each pair, "in ascending a, then z".
    pub fn lawful_pairs(&self) -> Vec<[u16; 3]> {
        let mut named = Vec::new();
        for &a in &self.open {
            let Some(x_and_y) = self.anchored(a) else {
                continue;
            };
            let others = self.open.iter().filter(|z| !x_and_y.contains(z));
            named.extend(others.map(|&z| [x_and_y[0], x_and_y[1], z]));
        }
        named
    }

    /// The x and y of every triple that has `a` as its x or its y: "A lawful ordered pair (a, z)
    /// names it when a is its x or its y." None where a ends in leaf 2n, which has no partner.
    fn anchored(&self, a: u16) -> Option<[u16; 2]> {
        let end = self.z_end(a);
        if usize::from(end) == 2 * self.modes {
            return None;
        }
        let partner_end = if end.is_multiple_of(2) {
            end + 1
        } else {
            end - 1
        };
        let ends_there = |entity: &&u16| self.z_end(**entity) == partner_end;
        let partner = *self.open.iter().find(ends_there)?;
        Some(if end.is_multiple_of(2) {
            [a, partner]
        } else {
            [partner, a]
        })
    }

    /// "Step i takes the least; on a tie, the triple named first". Makes the step and returns its
    /// trials: "Trials of a step are its lawful ordered pairs."
    pub fn step(&mut self) -> u64 {
        let named = self.lawful_pairs();
        let weighed = named.iter().map(|&triple| Merge {
            triple,
            weight: self.weigh(triple),
        });
        // `min_by_key` returns the first of several least elements, which is the tie rule.
        let least = weighed.min_by_key(|merge| merge.weight);
        self.merge(least.expect("an unfinished state has a lawful pair"));
        named.len() as u64
    }

    /// "Its parent is 2n+1+i"; "a parent's [z-end] is that of its Z child".
    pub fn merge(&mut self, merge: Merge) {
        let parent = self.z_ends.len() as u16;
        self.z_ends.push(self.z_end(merge.triple[2]));
        self.open.retain(|entity| !merge.triple.contains(entity));
        self.open.push(parent);
        let rows = std::mem::take(&mut self.rows);
        let (left, dropped) = reduce_hamiltonian(rows, self.rule, parent, merge.triple);
        self.rows = left;
        self.drops.push(dropped);
        self.merges.push(merge);
    }

    /// "Rows are (label, X, Y, Z), label = step, breadth first from the root, children queued X, Y, Z."
    pub fn flatpack(&self) -> Vec<[u16; 4]> {
        let mut flatpack = Vec::new();
        // "After n steps the last parent is the root."
        let mut queue = VecDeque::from([self.modes - 1]);
        while let Some(label) = queue.pop_front() {
            let [x, y, z] = self.merges[label].triple.map(|child| self.code(child));
            flatpack.push([label as u16, x, y, z]);
            let children = [x, y, z].map(usize::from);
            queue.extend(children.iter().filter(|&&child| child < self.modes));
        }
        flatpack
    }

    /// "A child code is 0..n-1 for a node, n..3n-1 for leaf code minus n, or 65535 for the one absent child."
    ///
    /// "The absent child replaces the end of [the root's] z-chain." That end is leaf 2n in every
    /// run: an x or a y never ends there, so leaf 2n always goes on under a Z.
    fn code(&self, entity: u16) -> u16 {
        let modes = self.modes as u16;
        if entity < 2 * modes {
            entity + modes
        } else if entity == 2 * modes {
            ABSENT
        } else {
            entity - (2 * modes + 1)
        }
    }
}
