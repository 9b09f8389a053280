//! Damage by meaning: a count, a type, a number, a pointer, a key or a successor of a tree
//! is made wrong, in such a way as an attacker or a faulty program would.

use model::index::tree::{Node, Pointer, Tree};
use model::random::Random;

/// A damage and its name.
pub type Damage = (&'static str, fn(&mut Tree, &mut Random));

/// All of them.
pub const ALL: [Damage; 19] = [
    ("count of a node", |tree, random| {
        let (at, most) = (node(tree, random), 2 * tree.ordn);
        let node = record(&mut tree.nodes, at);
        node.ock = wrong_count(node.ock, most, random);
    }),
    ("count of a leaf", |tree, random| {
        let (at, most) = (leaf(tree, random), 2 * tree.ordf);
        let leaf = record(&mut tree.leaves, at);
        leaf.ock = wrong_count(leaf.ock, most, random);
    }),
    ("type of a node", |tree, random| {
        let at = node(tree, random);
        record(&mut tree.nodes, at).it = wrong_type(tree.idtype, random);
    }),
    ("type of a leaf", |tree, random| {
        let at = leaf(tree, random);
        record(&mut tree.leaves, at).it = wrong_type(tree.idtype, random);
    }),
    ("number of a node", |tree, random| {
        let at = node(tree, random);
        record(&mut tree.nodes, at).pos = wrong_number(at, random);
    }),
    ("number of a leaf", |tree, random| {
        let at = leaf(tree, random);
        record(&mut tree.leaves, at).pos = wrong_number(at, random);
    }),
    ("pointer", pointer),
    ("pointer and its key", shared),
    ("key of a pointer", pointer_key),
    ("entries of a node", |tree, random| {
        let at = node(tree, random);
        mix(&mut record(&mut tree.nodes, at).entries, random, |a, b| {
            std::mem::swap(&mut a.key, &mut b.key);
        });
    }),
    ("entries of a leaf", |tree, random| {
        let at = leaf(tree, random);
        mix(&mut record(&mut tree.leaves, at).entries, random, |a, b| {
            std::mem::swap(&mut a.key, &mut b.key);
        });
    }),
    ("equal keys", |tree, random| {
        let at = leaf(tree, random);
        mix(&mut record(&mut tree.leaves, at).entries, random, |a, b| {
            a.key.clone_from(&b.key);
        });
    }),
    ("key of a leaf", leaf_key),
    ("last key of a leaf", last_key),
    ("successor", successor),
    ("control", control),
    ("depth", depth),
    ("entry left out", left_out),
    ("record not there", |tree, random| {
        let (n, l) = (node(tree, random), leaf(tree, random));
        match random.below(4) {
            0 => tree.nodes.truncate(n as usize - 1),
            1 => tree.leaves.truncate(l as usize - 1),
            2 => tree.nodes[n as usize - 1] = None,
            _ => tree.leaves[l as usize - 1] = None,
        }
    }),
];

/// The number of a node that the tree uses.
fn node(tree: &Tree, random: &mut Random) -> i32 {
    used(&tree.nodes, random)
}

/// The number of a leaf that the tree uses.
fn leaf(tree: &Tree, random: &mut Random) -> i32 {
    used(&tree.leaves, random)
}

fn used<T>(records: &[Option<T>], random: &mut Random) -> i32 {
    let is_used = |at: &usize| records[*at].is_some();
    let used: Vec<usize> = (0..records.len()).filter(is_used).collect();
    random.pick(&used) as i32 + 1
}

fn record<T>(records: &mut [Option<T>], number: i32) -> &mut T {
    let record = &mut records[number as usize - 1];
    record.as_mut().expect("a number that is used")
}

fn wrong_count(ock: u16, most: u16, random: &mut Random) -> u16 {
    let (less, more) = (ock.wrapping_sub(1), ock.wrapping_add(1));
    random.pick(&[0, less, more, most, most + 1, ock | 0x100, 0xFFFF])
}

fn wrong_type(own: u16, random: &mut Random) -> u16 {
    let any = random.next() as u16;
    random.pick(&[0, own ^ 3, own | 0x100, any])
}

fn wrong_number(number: i32, random: &mut Random) -> i32 {
    random.pick(&[
        0,
        number + 1,
        number - 1,
        -number,
        number | 1 << 16,
        i32::MIN,
    ])
}

/// A pointer of a node, by the node's number and the entry's index.
fn entry(tree: &Tree, random: &mut Random) -> (i32, usize) {
    let number = node(tree, random);
    let entries = tree.nodes[number as usize - 1]
        .as_ref()
        .map_or(0, |n| n.entries.len());
    (number, random.below(entries))
}

/// To nothing, too far, in a circle, or to something else that is there.
fn pointer(tree: &mut Tree, random: &mut Random) {
    let (number, at) = entry(tree, random);
    let (past_nodes, past_leaves) = (tree.nodes.len() as i32 + 1, tree.leaves.len() as i32 + 1);
    let (other_node, other_leaf) = (node(tree, random), leaf(tree, random));
    let root = tree.posrx;
    let punt = &mut record(&mut tree.nodes, number).entries[at].punt;
    let far = random.pick(&[past_nodes, -past_leaves, i32::MAX, i32::MIN, i32::MIN + 1]);
    let back = punt.wrapping_neg();
    *punt = random.pick(&[0, far, number, root, back, other_node, -other_leaf]);
}

/// To another record that is there, with its first key: only what lies between is wrong.
fn shared(tree: &mut Tree, random: &mut Random) {
    let (number, at) = entry(tree, random);
    let (other_node, other_leaf) = (node(tree, random), leaf(tree, random));
    let first_of_node = record(&mut tree.nodes, other_node).entries[0].key.clone();
    let first_of_leaf = record(&mut tree.leaves, other_leaf).entries[0].key.clone();
    let pointer = &mut record(&mut tree.nodes, number).entries[at];
    (pointer.key, pointer.punt) = match random.below(2) {
        0 => (first_of_node, other_node),
        _ => (first_of_leaf, -other_leaf),
    };
}

/// Another key than the target's first, mostly one that lies near; or no letters at all in
/// the first key, as an indexing program writes it.
fn pointer_key(tree: &mut Tree, random: &mut Random) {
    let (number, at) = match random.below(3) {
        0 if root(tree).is_some() => (tree.posrx, 0),
        _ => entry(tree, random),
    };
    let key = &mut record(&mut tree.nodes, number).entries[at].key;
    match random.below(3) {
        0 => key.clear(),
        _ => step(key, random),
    }
}

/// One byte up or down, cut, or longer where there is room.
fn step(key: &mut Vec<u8>, random: &mut Random) {
    let Some(last) = key.len().checked_sub(1) else {
        return;
    };
    let width = if key.len() > 10 { 30 } else { 10 };
    match random.below(4) {
        0 => key[last] = key[last].wrapping_add(1),
        1 => key[last] = key[last].wrapping_sub(1),
        2 if last > 0 => key.truncate(last),
        _ if key.len() < width => key.push(random.pick(&[0, b'!', b'A', 0xFF])),
        _ => key[0] = key[0].wrapping_add(1),
    }
}

/// Two entries change places, or something happens between them.
fn mix<T>(entries: &mut [T], random: &mut Random, between: fn(&mut T, &mut T)) {
    let len = entries.len();
    let [low, high] = {
        let (a, b) = (random.below(len), random.below(len));
        [a.min(b), a.max(b)]
    };
    if low == high {
        return;
    }
    let (before, from_high) = entries.split_at_mut(high);
    match random.below(2) {
        0 => std::mem::swap(&mut before[low], &mut from_high[0]),
        _ => between(&mut before[low], &mut from_high[0]),
    }
}

/// The first key, so that pointers miss it; the last, so that it may pass the next leaf's.
fn leaf_key(tree: &mut Tree, random: &mut Random) {
    let at = leaf(tree, random);
    let entries = &mut record(&mut tree.leaves, at).entries;
    let last = entries.len() - 1;
    let any = random.below(last + 1);
    let at = random.pick(&[0, last, any]);
    step(&mut entries[at].key, random);
}

/// The last key is the next leaf's first, or near it: all else that is said of the two stays
/// right.
fn last_key(tree: &mut Tree, random: &mut Random) {
    let at = leaf(tree, random);
    let next = record(&mut tree.leaves, at).ps;
    let Some(next) = at_number(&tree.leaves, next).map(|leaf| leaf.entries[0].key.clone()) else {
        return;
    };
    let Some(last) = record(&mut tree.leaves, at).entries.last_mut() else {
        return;
    };
    last.key = next;
    if random.one_in(2) {
        step(&mut last.key, random);
    }
}

fn successor(tree: &mut Tree, random: &mut Random) {
    let (at, other) = (leaf(tree, random), leaf(tree, random));
    let (past, root) = (tree.leaves.len() as i32 + 1, tree.posrx);
    let ps = &mut record(&mut tree.leaves, at).ps;
    let (back, more) = (ps.wrapping_neg(), ps.wrapping_add(1));
    *ps = random.pick(&[0, at, other, back, more, past, root, *ps | 1 << 24]);
}

/// What CNT says of the tree. Another order lays the files out anew.
fn control(tree: &mut Tree, random: &mut Random) {
    let other = node(tree, random);
    let past = tree.nodes.len() as i32 + 1;
    let order = random.pick(&[0, 1, 15, 16, 17, 18]);
    match random.below(4) {
        0 => tree.idtype = wrong_type(tree.idtype, random),
        1 => tree.ordn = order,
        2 => tree.ordf = order,
        _ => tree.posrx = random.pick(&[0, -1, other, past, i32::MAX, i32::MIN]),
    }
}

/// The root, if it is there.
fn root(tree: &Tree) -> Option<&Node> {
    at_number(&tree.nodes, tree.posrx)
}

fn at_number<T>(records: &[Option<T>], number: i32) -> Option<&T> {
    let at = usize::try_from(i64::from(number) - 1).ok()?;
    records.get(at)?.as_ref()
}

/// More nodes above the root, until a way has 16 of them, 17 or more.
fn depth(tree: &mut Tree, random: &mut Random) {
    let wanted = random.pick(&[16, 17, 17, 18, 40]);
    for _ in way(tree, tree.posrx, 0)..wanted {
        let Some(root) = root(tree) else {
            return;
        };
        let (key, punt) = (root.entries[0].key.clone(), tree.posrx);
        tree.posrx = tree.nodes.len() as i32 + 1;
        let pointer = vec![Pointer { key, punt }];
        tree.nodes
            .push(Some(Node::of(tree.posrx, tree.idtype, pointer)));
    }
}

/// How many nodes stand on the way down by the first pointers; a circle stops at 40.
fn way(tree: &Tree, number: i32, above: usize) -> usize {
    let Some(node) = at_number(&tree.nodes, number).filter(|_| above < 40) else {
        return 0;
    };
    1 + way(tree, node.entries[0].punt, above + 1)
}

/// A pointer is dropped; half of the time the leaf before gets the right
/// successor, so that only the terms behind the pointer are gone.
fn left_out(tree: &mut Tree, random: &mut Random) {
    let (number, at) = entry(tree, random);
    let node = record(&mut tree.nodes, number);
    if node.entries.len() == 1 {
        return;
    }
    let pointer = node.entries.remove(at);
    node.ock = node.ock.wrapping_sub(1);
    let gone = pointer.punt.wrapping_neg();
    if let Some(next) = at_number(&tree.leaves, gone).map(|leaf| leaf.ps)
        && random.one_in(2)
    {
        for leaf in tree
            .leaves
            .iter_mut()
            .flatten()
            .filter(|leaf| leaf.ps == gone)
        {
            leaf.ps = next;
        }
    }
}
