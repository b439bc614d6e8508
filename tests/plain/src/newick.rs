//! Newick texts (docs/02, W-201): an accepted tree written as one, and a text read back a byte at a time.

use crate::merging::ABSENT;
use crate::refusal::{check_rooms, Refusal, MOST_MODES};
use crate::tree::{check_tree, read_tree, Child, Tree};

/// "writing gives 1, 13 to 16, then 5 where the text's exact length doesn't fit". How many bytes were written.
pub fn write_newick(modes: usize, tree: &[u16], text: &mut [u8]) -> Result<usize, Refusal> {
    let tree = read_tree(modes, tree)?;
    let written = newick_of(&tree);
    check_rooms(&[(text.len(), written.len())])?;
    text[..written.len()].copy_from_slice(&written);
    Ok(written.len())
}

/// "reading gives 19 ..., or 1 ...; then 15, ..., 16, and 5 where the table is below 3n". How many modes were read.
pub fn read_newick(text: &[u8], table: &mut [u16]) -> Result<usize, Refusal> {
    let closed = read_nodes(text)?;
    let modes = closed.len();
    let tree = laid_out(&closed).ok_or(Refusal {
        number: 15,
        place: 0,
    })?;
    check_tree(modes, &tree)?;
    check_rooms(&[(table.len(), tree.len())])?;
    table[..tree.len()].copy_from_slice(&tree);
    Ok(modes)
}

fn newick_of(tree: &Tree) -> Vec<u8> {
    let mut text = Vec::new();
    write_child(tree, Child::Node(tree.root()), &mut text);
    text.push(b';');
    text
}

/// "a node writes its three children in parentheses, a child writes a leaf or goes on to its node".
fn write_child(tree: &Tree, child: Child, text: &mut Vec<u8>) {
    match child {
        Child::Absent => text.push(b'e'),
        Child::Leaf(leaf) => text.extend(format!("m{leaf}").bytes()),
        Child::Node(node) => {
            for (edge, mark) in [b'(', b',', b','].into_iter().enumerate() {
                text.push(mark);
                write_child(tree, tree.child(node, edge), text);
            }
            text.extend(format!(")n{node}").bytes());
        }
    }
}

/// A child as its text names it, of whatever number.
#[derive(Clone, Copy)]
enum Named {
    Node(u16),
    Leaf(u16),
    Absent,
}

/// A node whose name was read.
struct Closed {
    label: u16,
    children: Vec<Named>,
}

/// What the next byte may be.
#[derive(Clone, Copy)]
enum Next {
    /// The first byte of a child; of the whole text's node where none is open.
    Child,
    /// A digit of a leaf's number or of a node's, behind a number so far or behind none.
    Digit { of_leaf: bool, so_far: Option<u16> },
    /// What stands behind a child: `,` or `)`, and `;` behind the root.
    Mark,
    /// The `n` behind a `)`.
    Name,
    /// Nothing: the text was whole with the byte before.
    Nothing,
}

/// How far a text was read.
struct Reader {
    next: Next,
    /// How many `(` were read.
    opened: usize,
    /// The children so far of each node that isn't closed, outermost first.
    open: Vec<Vec<Named>>,
    closed: Vec<Closed>,
}

/// The nodes of a text; "19 at the first byte that no such text can go on with, or at its end if it stops short, ..., or 1
/// at a 257th `(` if that stands first".
fn read_nodes(text: &[u8]) -> Result<Vec<Closed>, Refusal> {
    let mut reader = Reader {
        next: Next::Child,
        opened: 0,
        open: Vec::new(),
        closed: Vec::new(),
    };
    for (place, &byte) in text.iter().enumerate() {
        let taken = reader.take(byte);
        taken.map_err(|number| Refusal { number, place })?;
    }
    match reader.next {
        Next::Nothing => Ok(reader.closed),
        _ => Err(Refusal {
            number: 19,
            place: text.len(),
        }),
    }
}

impl Reader {
    /// Goes on by one byte, or says by which number it is refused.
    fn take(&mut self, byte: u8) -> Result<(), u16> {
        if let Next::Digit { of_leaf, so_far } = self.next {
            let longer = one_digit_more(so_far, byte);
            if longer.is_some() {
                self.next = Next::Digit {
                    of_leaf,
                    so_far: longer,
                };
                return Ok(());
            }
            self.end_number(of_leaf, so_far.ok_or(19u16)?);
        }
        let children = self.open.last().map(Vec::len);
        self.next = match (self.next, byte, children) {
            (Next::Child, b'(', _) => self.open_node()?,
            (Next::Child, b'm', Some(_)) => digits(true),
            (Next::Child, b'e', Some(_)) => self.end_child(Named::Absent),
            (Next::Mark, b',', Some(1 | 2)) => Next::Child,
            (Next::Mark, b')', Some(3)) => Next::Name,
            (Next::Mark, b';', None) => Next::Nothing,
            (Next::Name, b'n', _) => digits(false),
            _ => return Err(19),
        };
        Ok(())
    }

    fn open_node(&mut self) -> Result<Next, u16> {
        if self.opened == MOST_MODES {
            return Err(1);
        }
        self.opened += 1;
        self.open.push(Vec::new());
        Ok(Next::Child)
    }

    /// A number is whole: a leaf's, or the name that closes the innermost node.
    fn end_number(&mut self, of_leaf: bool, number: u16) {
        self.next = if of_leaf {
            self.end_child(Named::Leaf(number))
        } else {
            let children = self.open.pop().expect("a name stands behind a `)`");
            let label = number;
            self.closed.push(Closed { label, children });
            self.end_child(Named::Node(label))
        };
    }

    /// A child is whole; the root is no node's child.
    fn end_child(&mut self, child: Named) -> Next {
        if let Some(children) = self.open.last_mut() {
            children.push(child);
        }
        Next::Mark
    }
}

fn digits(of_leaf: bool) -> Next {
    let so_far = None;
    Next::Digit { of_leaf, so_far }
}

/// "numbers as in the journal": "at most 65535, no leading zero except 0 itself". Nothing where the byte can't follow.
fn one_digit_more(so_far: Option<u16>, byte: u8) -> Option<u16> {
    let digit = u16::from(byte.is_ascii_digit().then(|| byte - b'0')?);
    match so_far {
        None => Some(digit),
        Some(0) => None,
        Some(number) => number.checked_mul(10)?.checked_add(digit),
    }
}

/// The nodes by label; nothing "where a node or leaf number is out of range" or a label stands twice.
fn laid_out(closed: &[Closed]) -> Option<Vec<u16>> {
    let modes = closed.len();
    let mut by_label: Vec<Option<Vec<u16>>> = vec![None; modes];
    for node in closed {
        let codes = node.children.iter().map(|&child| code(modes, child));
        let codes: Option<Vec<u16>> = codes.collect();
        let place = by_label.get_mut(usize::from(node.label))?;
        if place.replace(codes?).is_some() {
            return None;
        }
    }
    let rows: Option<Vec<Vec<u16>>> = by_label.into_iter().collect();
    Some(rows?.concat())
}

/// "A child code is 0..n-1 for a node, n..3n-1 for leaf code minus n, or 65535 for the one absent child."
fn code(modes: usize, child: Named) -> Option<u16> {
    let within = |number: u16, limit: usize| usize::from(number) < limit;
    match child {
        Named::Node(label) => within(label, modes).then_some(label),
        Named::Leaf(leaf) => within(leaf, 2 * modes).then(|| modes as u16 + leaf),
        Named::Absent => Some(ABSENT),
    }
}
