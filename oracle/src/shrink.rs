//! The smallest tree that still shows a difference.

use crate::tree::{ABSENT, Tree, kind};

/// Makes a tree smaller, step by step, as long as it is checked and `differs` holds.
pub fn shrink(tree: &Tree, differs: &dyn Fn(&Tree) -> bool) -> Tree {
    let mut smallest = compact(tree);
    if !differs(&smallest) {
        return tree.clone();
    }
    while let Some(smaller) = candidates(&smallest).into_iter().find(|next| next.is_checked() && differs(next)) {
        smallest = smaller;
    }
    smallest
}

/// Only what the root reaches, in the same order, list parts in the order of their nodes.
fn compact(tree: &Tree) -> Tree {
    let mut reached = vec![false; tree.nodes.len()];
    reached[tree.root as usize] = true;
    for place in (0..tree.nodes.len()).rev().filter(|&place| place <= tree.root as usize) {
        if reached[place] {
            let children = tree.children(&tree.nodes[place]);
            children
                .iter()
                .filter(|(child, _)| *child != ABSENT)
                .for_each(|(child, _)| reached[*child as usize] = true);
        }
    }
    let mut small = Tree { mode: tree.mode, names: tree.names.clone(), ..Tree::default() };
    let mut moved = vec![ABSENT; tree.nodes.len()];
    for place in (0..tree.nodes.len()).filter(|&place| reached[place]) {
        let to = |child: u32| if child == ABSENT { ABSENT } else { moved[child as usize] };
        let mut node = tree.nodes[place];
        let first = small.list.len() as u32;
        small.list.extend(tree.part(&node).unwrap().iter().map(|&child| to(child)));
        match node[0] {
            kind::BINARY => (node[2], node[3]) = (to(node[2]), to(node[3])),
            kind::UNARY => node[2] = to(node[2]),
            kind::NOT | kind::PROPERTY | kind::BLOCK => node[1] = to(node[1]),
            kind::AND | kind::OR => (node[1], node[2]) = (to(node[1]), to(node[2])),
            kind::IF => (node[1], node[2], node[3]) = (to(node[1]), to(node[2]), to(node[3])),
            kind::CALL => (node[1], node[2]) = (to(node[1]), first),
            kind::MAP => node[1] = first,
            _ => {}
        }
        moved[place] = small.nodes.len() as u32;
        small.nodes.push(node);
    }
    small.root = moved[tree.root as usize];
    small
}

/// Trees with one thing less.
fn candidates(tree: &Tree) -> Vec<Tree> {
    let mut next = vec![];
    for root in 0..tree.root {
        next.push(compact(&Tree { root, ..tree.clone() }));
    }
    let mut edit = |change: &dyn Fn(&mut Tree)| {
        let mut copy = tree.clone();
        change(&mut copy);
        if copy.is_checked() {
            next.push(compact(&copy));
        }
    };
    for place in (0..tree.nodes.len()).rev() {
        let [kind, _, _, _, start, end] = tree.nodes[place];
        if kind != kind::NIL && kind != kind::NAME {
            for leaf in tree.names.first().map(|&name| [kind::NAME, name]).into_iter().chain([[kind::NIL, 0]]) {
                edit(&|copy| copy.nodes[place] = [leaf[0], leaf[1], 0, 0, start, end]);
            }
        }
        match kind {
            kind::CALL => edit(&|copy| copy.nodes[place][3] = copy.nodes[place][3].wrapping_sub(1)),
            kind::MAP => edit(&|copy| copy.nodes[place][2] = copy.nodes[place][2].wrapping_sub(1)),
            _ => {}
        }
        for (child, _) in tree.children(&tree.nodes[place]).into_iter().filter(|(child, _)| *child != ABSENT) {
            // The parent's place taken by a child.
            if place as u32 != tree.root {
                edit(&|copy| copy.nodes[place] = copy.nodes[child as usize]);
            }
        }
    }
    if !tree.names.is_empty() {
        edit(&|copy| copy.names.truncate(copy.names.len() - 1));
    }
    next
}
