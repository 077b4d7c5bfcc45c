//! Trees to compare on. Everything follows from a seed.

use crate::tree::{ABSENT, Input, MOST_LIST_WORDS, MOST_NODES, Node, Tree, kind, operator};

/// splitmix64.
pub struct Random(u64);

impl Random {
    pub fn new(seed: u64) -> Random {
        Random(seed)
    }

    pub fn draw(&mut self) -> u64 {
        self.0 = self.0.wrapping_add(0x9E37_79B9_7F4A_7C15);
        let mut mixed = self.0;
        mixed = (mixed ^ (mixed >> 30)).wrapping_mul(0xBF58_476D_1CE4_E5B9);
        mixed = (mixed ^ (mixed >> 27)).wrapping_mul(0x94D0_49BB_1331_11EB);
        mixed ^ (mixed >> 31)
    }

    pub fn below(&mut self, bound: usize) -> usize {
        (self.draw() % bound.max(1) as u64) as usize
    }

    pub fn percent(&mut self, chance: usize) -> bool {
        self.below(100) < chance
    }

    pub fn pick<T: Copy>(&mut self, from: &[T]) -> T {
        from[self.below(from.len())]
    }
}

/// The span words of a node's place: no two alike, and start, end and place apart.
fn with_span([kind, a, b, c]: [u32; 4], place: usize) -> Node {
    [kind, a, b, c, 1_000_000 + 3 * place as u32, 2_000_000_000 + 7 * place as u32]
}

pub fn number_words(value: f64) -> [u32; 4] {
    [kind::NUMBER, value.to_bits() as u32, (value.to_bits() >> 32) as u32, 0]
}

/// What exhaustive trees are made of.
pub struct Alphabet {
    pub leaves: Vec<[u32; 4]>,
    pub operators: Vec<u32>,
    pub most_arguments: usize,
    pub most_entries: usize,
}

/// Symbols 0 and 1 are parameters in most lists of names, 2 in none.
impl Alphabet {
    pub fn large() -> Alphabet {
        Alphabet {
            leaves: vec![
                number_words(1.0),
                number_words(2.0),
                [kind::STRING, 0, 0, 0],
                [kind::BOOLEAN, 1, 0, 0],
                [kind::NIL, 0, 0, 0],
                [kind::NAME, 0, 0, 0],
                [kind::NAME, 1, 0, 0],
                [kind::NAME, 2, 0, 0],
            ],
            operators: (0..=operator::LESS_EQUAL).collect(),
            most_arguments: 2,
            most_entries: 2,
        }
    }

    pub fn small() -> Alphabet {
        Alphabet {
            leaves: vec![number_words(1.0), [kind::NAME, 0, 0, 0], [kind::NAME, 1, 0, 0]],
            operators: vec![operator::ADD, operator::SUBTRACT, operator::GREATER],
            most_arguments: 2,
            most_entries: 1,
        }
    }

    /// Every node over `below` lower nodes; list words beside it, their first place still 0.
    fn forms(&self, below: u32) -> Vec<([u32; 4], Vec<u32>)> {
        let nodes: Vec<u32> = (0..below).collect();
        let optional: Vec<u32> = nodes.iter().copied().chain([ABSENT]).collect();
        let mut forms: Vec<([u32; 4], Vec<u32>)> = self.leaves.iter().map(|&leaf| (leaf, vec![])).collect();
        let mut add = |words: [u32; 4]| forms.push((words, vec![]));
        for &tail in &optional {
            add([kind::BLOCK, tail, 0, 0]);
        }
        for &a in &nodes {
            add([kind::UNARY, 0, a, 0]);
            add([kind::UNARY, 1, a, 0]);
            add([kind::NOT, a, 0, 0]);
            add([kind::PROPERTY, a, 0, 0]);
            for &b in &nodes {
                add([kind::AND, a, b, 0]);
                add([kind::OR, a, b, 0]);
                self.operators.iter().for_each(|&operator| add([kind::BINARY, operator, a, b]));
                optional.iter().for_each(|&c| add([kind::IF, a, b, c]));
            }
        }
        for count in 0..=self.most_arguments {
            for arguments in tuples(&nodes, count) {
                nodes.iter().for_each(|&callee| {
                    forms.push(([kind::CALL, callee, 0, count as u32], arguments.clone()));
                });
            }
        }
        let entries: Vec<[u32; 2]> = nodes.iter().flat_map(|&k| optional.iter().map(move |&v| [k, v])).collect();
        for count in 0..=self.most_entries {
            for part in tuples(&entries, count) {
                forms.push(([kind::MAP, 0, count as u32, 0], part.concat()));
            }
        }
        forms
    }
}

fn tuples<T: Copy>(from: &[T], length: usize) -> Vec<Vec<T>> {
    let mut all = vec![vec![]];
    for _ in 0..length {
        all = all.iter().flat_map(|start| from.iter().map(move |&item| [&start[..], &[item]].concat())).collect();
    }
    all
}

/// Every tree of `size` nodes over the alphabet whose last node is the root and reaches all others.
pub fn exhaustive(size: usize, alphabet: &Alphabet, visit: &mut dyn FnMut(&Tree)) {
    let forms: Vec<_> = (0..size).map(|below| alphabet.forms(below as u32)).collect();
    let mut tree = Tree { root: size as u32 - 1, ..Tree::default() };
    extend(&forms, &mut tree, visit);
}

fn extend(forms: &[Vec<([u32; 4], Vec<u32>)>], tree: &mut Tree, visit: &mut dyn FnMut(&Tree)) {
    let place = tree.nodes.len();
    if place == forms.len() {
        if reaches_all(tree) {
            visit(tree);
        }
        return;
    }
    for (words, part) in &forms[place] {
        let first = tree.list.len();
        tree.nodes.push(with_span(with_first(*words, first as u32), place));
        tree.list.extend_from_slice(part);
        extend(forms, tree, visit);
        tree.nodes.pop();
        tree.list.truncate(first);
    }
}

fn with_first([kind, a, b, c]: [u32; 4], first: u32) -> [u32; 4] {
    match kind {
        kind::CALL => [kind, a, first, c],
        kind::MAP => [kind, first, b, c],
        _ => [kind, a, b, c],
    }
}

fn reaches_all(tree: &Tree) -> bool {
    let mut reached = vec![false; tree.nodes.len()];
    reached[tree.root as usize] = true;
    for place in (0..tree.nodes.len()).rev() {
        if !reached[place] {
            return false;
        }
        for (child, _) in tree.children(&tree.nodes[place]) {
            if child != ABSENT {
                reached[child as usize] = true;
            }
        }
    }
    true
}

/// What random trees are like.
#[derive(Clone, Debug)]
pub struct Profile {
    /// How often each kind comes, from number to map.
    pub weights: [usize; 15],
    /// Percent of operands that are any lower node instead of one not used yet.
    pub shared: usize,
    pub parameters: usize,
    /// Different symbols: fewer than parameters make repeated names.
    pub symbols: usize,
    pub undeclared: usize,
    /// Different literals of each kind.
    pub literals: usize,
    pub most_arguments: usize,
    pub most_entries: usize,
    /// Percent of ifs without else, and of keys without value.
    pub absent: usize,
}

impl Profile {
    pub fn random(random: &mut Random) -> Profile {
        let leaves = [4, 2, 2, 1, 12];
        let inner = match random.below(6) {
            // Everything.
            0 | 1 => [8, 2, 2, 2, 2, 3, 3, 2, 2, 1],
            // No calls and no maps: what the running law speaks of.
            2 => [10, 3, 3, 4, 4, 6, 3, 0, 3, 0],
            // Nothing that leaves registers held: large trees get through.
            3 => [10, 3, 3, 4, 4, 0, 3, 0, 3, 0],
            // Calls.
            4 => [8, 2, 4, 1, 1, 1, 2, 8, 1, 0],
            // Conditions and maps.
            _ => [6, 1, 2, 2, 2, 8, 2, 0, 1, 5],
        };
        let mut weights = [0; 15];
        weights[..5].copy_from_slice(&leaves);
        weights[5..].copy_from_slice(&inner);
        if random.percent(20) {
            weights.iter_mut().for_each(|weight| *weight = random.below(*weight * 2 + 1));
            weights[kind::NAME as usize] += 1;
        }
        let parameters = match random.below(10) {
            0 => 0,
            1 => 1,
            2 => 240 + random.below(17),
            _ => 1 + random.below(12),
        };
        if parameters == 0 {
            weights[kind::NAME as usize] = 0;
            weights[kind::NIL as usize] += 1;
        }
        Profile {
            weights,
            shared: random.pick(&[0, 0, 2, 10, 40]),
            parameters,
            symbols: if random.percent(30) { 1 + parameters / 2 } else { parameters.max(1) },
            undeclared: random.pick(&[0, 0, 0, 1, 5]),
            literals: random.pick(&[1, 2, 5, 1000]),
            most_arguments: random.pick(&[1, 2, 3, 6, 20]),
            most_entries: random.pick(&[1, 2, 4, 12]),
            absent: random.pick(&[0, 0, 1, 10]),
        }
    }
}

/// A size from 1 to 4,096, small ones more often.
pub fn random_size(random: &mut Random) -> usize {
    match random.below(100) {
        0..60 => 1 + random.below(12),
        60..85 => 1 + random.below(60),
        85..97 => 1 + random.below(400),
        97 => MOST_NODES,
        _ => 1 + random.below(MOST_NODES),
    }
}

pub fn random_tree(random: &mut Random, size: usize, profile: &Profile) -> Tree {
    let mut maker = Maker { random, profile, tree: Tree::default(), unused: vec![] };
    for place in 0..size {
        let words = maker.node(size - place);
        maker.tree.nodes.push(with_span(words, place));
        maker.unused.push(place as u32);
    }
    let mut tree = maker.tree;
    // Every symbol is declared, in any order, and some again.
    tree.names = (0..profile.parameters).map(|place| (place % profile.symbols) as u32).collect();
    for place in 1..tree.names.len() {
        tree.names.swap(place, random.below(place + 1));
    }
    tree.mode = random.pick(&[0, 0, 1, 2]);
    tree.root = if random.percent(95) { size as u32 - 1 } else { random.below(size) as u32 };
    tree
}

struct Maker<'a> {
    random: &'a mut Random,
    profile: &'a Profile,
    tree: Tree,
    /// Nodes that no node names yet.
    unused: Vec<u32>,
}

impl Maker<'_> {
    fn node(&mut self, left: usize) -> [u32; 4] {
        let mut kind = self.kind(15);
        if self.unused.len() < 1 + self.random.below(6) && self.random.percent(80) {
            // Few nodes to use: without a leaf here, nodes are shared more than the profile says.
            kind = self.kind(5);
        }
        if self.unused.len() >= left && !self.unused.is_empty() {
            return self.join();
        }
        if self.tree.nodes.is_empty() && kind >= kind::BINARY {
            kind = kind::NIL;
        }
        let literals = self.profile.literals;
        match kind {
            kind::NUMBER => {
                let value = self.random.below(literals) as f64 * 0.5 - 3.0;
                number_words(if self.random.percent(2) { f64::INFINITY } else { value })
            }
            kind::STRING => [kind, self.random.below(literals) as u32, 0, 0],
            kind::BOOLEAN => [kind, self.random.below(2) as u32, 0, 0],
            kind::NIL => [kind, 0, 0, 0],
            kind::NAME if self.random.percent(self.profile.undeclared) => [kind, u32::MAX, 0, 0],
            kind::NAME => [kind, self.random.below(self.profile.symbols) as u32, 0, 0],
            kind::BINARY => [kind, self.random.below(11) as u32, self.operand(), self.operand()],
            kind::UNARY => [kind, self.random.below(2) as u32, self.operand(), 0],
            kind::NOT => [kind, self.operand(), 0, 0],
            kind::AND | kind::OR => [kind, self.operand(), self.operand(), 0],
            kind::IF => [kind, self.condition(), self.operand(), self.optional(self.profile.absent)],
            kind::BLOCK => [kind, self.optional(10), 0, 0],
            kind::CALL => self.call(),
            kind::PROPERTY => [kind, self.operand(), self.random.below(5) as u32, 0],
            _ => self.map(),
        }
    }

    /// One of the first kinds, by weight.
    fn kind(&mut self, kinds: usize) -> u32 {
        let weights = &self.profile.weights[..kinds];
        let mut at = self.random.below(weights.iter().sum());
        let mut kind = 0;
        while at >= weights[kind] {
            at -= weights[kind];
            kind += 1;
        }
        kind as u32
    }

    fn operand(&mut self) -> u32 {
        if self.unused.is_empty() || self.random.percent(self.profile.shared) {
            return self.random.below(self.tree.nodes.len()) as u32;
        }
        // Near the end for depth, anywhere for breadth.
        let most = self.unused.len();
        let back = if self.random.percent(70) { self.random.below(most.min(3)) } else { self.random.below(most) };
        self.unused.remove(most - 1 - back)
    }

    /// Two nodes that are not used yet under one, so that the root reaches most of the tree.
    fn join(&mut self) -> [u32; 4] {
        if self.unused.len() == 1 {
            let only = self.operand();
            return self.random.pick(&[[kind::NOT, only, 0, 0], [kind::BLOCK, only, 0, 0], [kind::AND, only, only, 0]]);
        }
        let at = self.random.below(self.unused.len() - 1);
        let (left, right) = (self.unused.remove(at), self.unused.remove(at));
        let operator = self.random.below(11) as u32;
        self.random.pick(&[
            [kind::BINARY, operator, left, right],
            [kind::AND, left, right, 0],
            [kind::OR, left, right, 0],
            [kind::IF, left, right, right],
        ])
    }

    /// A comparison that is not used yet, if one is near: its jump is fused.
    fn condition(&mut self) -> u32 {
        let nodes = &self.tree.nodes;
        let near = self.unused.iter().rev().take(8);
        let found = near.copied().find(|&place| {
            let [kind, operator, ..] = nodes[place as usize];
            kind == kind::BINARY && operator >= operator::EQUAL
        });
        match found {
            Some(place) if self.random.percent(70) => {
                self.unused.retain(|&other| other != place);
                place
            }
            _ => self.operand(),
        }
    }

    fn optional(&mut self, absent: usize) -> u32 {
        if self.random.percent(absent) { ABSENT } else { self.operand() }
    }

    fn call(&mut self) -> [u32; 4] {
        let room = MOST_LIST_WORDS - self.tree.list.len();
        let count = self.random.below(self.profile.most_arguments + 1).min(room);
        let part: Vec<u32> = (0..count).map(|_| self.operand()).collect();
        let callee = self.operand();
        [kind::CALL, callee, self.part(&part), count as u32]
    }

    fn map(&mut self) -> [u32; 4] {
        let room = (MOST_LIST_WORDS - self.tree.list.len()) / 2;
        let count = self.random.below(self.profile.most_entries + 1).min(room);
        let part: Vec<u32> = (0..count).flat_map(|_| [self.operand(), self.optional(self.profile.absent)]).collect();
        [kind::MAP, self.part(&part), count as u32, 0]
    }

    fn part(&mut self, part: &[u32]) -> u32 {
        self.tree.list.extend_from_slice(part);
        (self.tree.list.len() - part.len()) as u32
    }
}

/// Shapes of chains: which operand of each level is the level below.
pub const CHAINS: [&str; 26] = [
    "block",
    "not",
    "negate",
    "deref",
    "and left",
    "and right",
    "or left",
    "or right",
    "binary left, number right",
    "binary right, number left",
    "binary left, name right",
    "binary right, name left",
    "if condition",
    "if condition, compared",
    "if condition, compared right",
    "if then",
    "if else",
    "if then and else",
    "callee",
    "only argument",
    "last argument",
    "first argument",
    "property",
    "map key",
    "map value",
    "map value of a name",
];

/// Chains that go on without taking a register a level, so that nodes and list alone end them.
pub const LEVELS: [&str; 13] = [
    "block",
    "and left",
    "and right",
    "or left",
    "or right",
    "if condition",
    "if condition, compared",
    "if condition, compared right",
    "if then",
    "if else",
    "only argument",
    "last argument",
    "first argument",
];

/// Three leaves (the number 1, the first parameter, the second), then `depth` levels over `leaf`, or as
/// many as nodes and list hold.
pub fn chain(shape: &str, depth: usize, leaf: u32, names: &[u32]) -> Tree {
    levels(&mut std::iter::repeat_n(shape, depth), leaf, names)
}

/// The given levels in turn, as many as nodes and list hold, over the first of two parameters.
pub fn alternating(shapes: &[&str]) -> Tree {
    levels(&mut shapes.iter().copied().cycle(), 1, &[0, 1])
}

fn levels(shapes: &mut dyn Iterator<Item = &str>, leaf: u32, names: &[u32]) -> Tree {
    let mut tree = Tree { names: names.to_vec(), root: leaf, ..Tree::default() };
    for words in [number_words(1.0), [kind::NAME, 0, 0, 0], [kind::NAME, 1, 0, 0]] {
        push(&mut tree, words);
    }
    for shape in shapes {
        let (nodes, part) = level(shape, tree.root, tree.list.len() as u32, tree.nodes.len() as u32);
        if tree.nodes.len() + nodes.len() > MOST_NODES || tree.list.len() + part.len() > MOST_LIST_WORDS {
            break;
        }
        tree.list.extend(part);
        nodes.into_iter().for_each(|words| push(&mut tree, words));
        tree.root = tree.nodes.len() as u32 - 1;
    }
    tree
}

/// One level over the node `below`: its nodes, the last on top, and its part of the list.
fn level(shape: &str, below: u32, first: u32, next: u32) -> (Vec<[u32; 4]>, Vec<u32>) {
    let (number, x, y) = (0, 1, 2);
    let one = |words: [u32; 4]| (vec![words], vec![]);
    let over = |words: [u32; 4], part: &[u32]| (vec![words], part.to_vec());
    match shape {
        "block" => one([kind::BLOCK, below, 0, 0]),
        "not" => one([kind::NOT, below, 0, 0]),
        "negate" => one([kind::UNARY, 0, below, 0]),
        "deref" => one([kind::UNARY, 1, below, 0]),
        "and left" => one([kind::AND, below, x, 0]),
        "and right" => one([kind::AND, x, below, 0]),
        "or left" => one([kind::OR, below, number, 0]),
        "or right" => one([kind::OR, number, below, 0]),
        "binary left, number right" => one([kind::BINARY, operator::SUBTRACT, below, number]),
        "binary right, number left" => one([kind::BINARY, operator::SUBTRACT, number, below]),
        "binary left, name right" => one([kind::BINARY, operator::GREATER, below, x]),
        "binary right, name left" => one([kind::BINARY, operator::MULTIPLY, x, below]),
        "if condition" => one([kind::IF, below, x, number]),
        "if condition, compared" => {
            (vec![[kind::BINARY, operator::LESS, below, x], [kind::IF, next, x, number]], vec![])
        }
        "if condition, compared right" => {
            (vec![[kind::BINARY, operator::EQUAL, x, below], [kind::IF, next, x, number]], vec![])
        }
        "if then" => one([kind::IF, x, below, number]),
        "if else" => one([kind::IF, x, x, below]),
        "if then and else" => one([kind::IF, x, below, below]),
        "callee" => over([kind::CALL, below, first, 1], &[number]),
        "only argument" => over([kind::CALL, x, first, 1], &[below]),
        "last argument" => over([kind::CALL, x, first, 3], &[number, y, below]),
        "first argument" => over([kind::CALL, y, first, 2], &[below, number]),
        "property" => one([kind::PROPERTY, below, 5, 0]),
        "map key" => over([kind::MAP, first, 1, 0], &[below, x]),
        "map value" => over([kind::MAP, first, 1, 0], &[number, below]),
        "map value of a name" => over([kind::MAP, first, 1, 0], &[y, below]),
        other => panic!("no chain {other}"),
    }
}

fn push(tree: &mut Tree, words: [u32; 4]) {
    let place = tree.nodes.len();
    tree.nodes.push(with_span(words, place));
}

/// A call of the first parameter with many arguments, each one of the given leaf forms in turn.
pub fn wide_call(arguments: usize, forms: &[[u32; 4]], parameters: usize) -> Tree {
    let mut tree = Tree { names: (0..parameters as u32).collect(), ..Tree::default() };
    push(&mut tree, [kind::NAME, 0, 0, 0]);
    for index in 0..arguments {
        push(&mut tree, forms[index % forms.len()]);
        tree.list.push(tree.nodes.len() as u32 - 1);
    }
    push(&mut tree, [kind::CALL, 0, 0, arguments as u32]);
    tree.root = tree.nodes.len() as u32 - 1;
    tree
}

/// Calls of as many arguments, each in the last argument of the next.
pub fn nested_wide_calls(levels: usize, arguments: usize) -> Tree {
    let mut tree = Tree { names: vec![0], ..Tree::default() };
    push(&mut tree, [kind::NAME, 0, 0, 0]);
    push(&mut tree, [kind::NIL, 0, 0, 0]);
    for _ in 0..levels {
        let first = tree.list.len() as u32;
        tree.list.extend(vec![1; arguments - 1]);
        tree.list.push(tree.nodes.len() as u32 - 1);
        push(&mut tree, [kind::CALL, 0, first, arguments as u32]);
    }
    tree.root = tree.nodes.len() as u32 - 1;
    tree
}

/// Leaf forms for wide calls: what writes one instruction or none.
pub fn argument_forms(random: &mut Random) -> Vec<[u32; 4]> {
    let mut forms = vec![[kind::NIL, 0, 0, 0]];
    for _ in 0..random.below(4) {
        let symbol = random.below(3) as u32;
        forms.push(random.pick(&[[kind::NAME, symbol, 0, 0], number_words(symbol as f64), [kind::NOT, 0, 0, 0]]));
    }
    forms
}

/// A map of many entries. Entries whose key or value is lowered to a temporary hold its register.
pub fn large_map(random: &mut Random, entries: usize, temporaries: usize) -> Tree {
    let mut tree = Tree { names: vec![0, 1], ..Tree::default() };
    push(&mut tree, [kind::NAME, 0, 0, 0]);
    push(&mut tree, [kind::NAME, 1, 0, 0]);
    push(&mut tree, [kind::NOT, 0, 0, 0]);
    let literals = 1 + random.below(600);
    for index in 0..literals {
        let symbol = random.below(300) as u32;
        push(
            &mut tree,
            random.pick(&[number_words(index as f64), [kind::STRING, symbol, 0, 0], [kind::NAME, symbol, 0, 0]]),
        );
    }
    let mut left = temporaries;
    for _ in 0..entries {
        let mut node = |random: &mut Random| {
            if left > 0 && random.percent(10) {
                left -= 1;
                2
            } else {
                random.below(2 + literals + 1) as u32
            }
        };
        let key = node(random);
        // A literal may not stand as a value if it is an undeclared name: take the first names instead.
        let mut value = node(random);
        if tree.nodes[value as usize][0] == kind::NAME {
            value = random.below(2) as u32;
        }
        tree.list.extend([key, value]);
    }
    push(&mut tree, [kind::MAP, 0, entries as u32, 0]);
    tree.root = tree.nodes.len() as u32 - 1;
    tree
}

/// Maps of as many entries as can be, all over one list: as many words to look at as a tree can name.
pub fn overlapping_maps(maps: usize) -> Tree {
    let mut tree = Tree { list: vec![0; MOST_LIST_WORDS], ..Tree::default() };
    push(&mut tree, [kind::NIL, 0, 0, 0]);
    (0..maps).for_each(|_| push(&mut tree, [kind::MAP, 0, MOST_LIST_WORDS as u32 / 2, 0]));
    tree.root = maps as u32;
    tree
}

/// Levels that each use the level below twice: 2^(levels + 1) instructions in mode 0.
pub fn doubling(levels: usize) -> Tree {
    let mut tree = Tree { names: vec![0], ..Tree::default() };
    push(&mut tree, [kind::NAME, 0, 0, 0]);
    for level in 0..levels as u32 {
        push(&mut tree, [kind::AND, level, level, 0]);
    }
    tree.root = levels as u32;
    tree
}

/// A copy with one thing wrong, most of the time.
pub fn damaged(random: &mut Random, good: &Input) -> Input {
    let mut input = good.clone();
    match random.below(13) {
        0 => input.mode = random.pick(&[0, 1, 2, 3, 4, u32::MAX]),
        1 => input.root = random.pick(&[0, (input.nodes.len() / 24) as u32, u32::MAX, input.root.wrapping_add(1)]),
        2 => cut(random, &mut input.nodes),
        3 => cut(random, &mut input.list),
        4 => cut(random, &mut input.names),
        5 => damage_word(random, &mut input.list),
        6 => input.names.resize(4 * (250 + random.below(12)), 0),
        7 => {
            let node = input.nodes[..input.nodes.len().min(24)].to_vec();
            let count = MOST_NODES - 1 + random.below(3);
            input.nodes = node.repeat(count);
            input.root %= count as u32;
        }
        8 => input.list.resize(4 * (MOST_LIST_WORDS - 1 + random.below(3)), 0),
        9 => damage_number(random, &mut input.nodes),
        _ => damage_word(random, &mut input.nodes),
    }
    input
}

fn cut(random: &mut Random, slice: &mut Vec<u8>) {
    let length = slice.len();
    let by = random.pick(&[1, 2, 3, 4, 8, 23, 24]);
    if random.percent(50) {
        slice.truncate(length.saturating_sub(by));
    } else {
        slice.resize(length + by, 0);
    }
}

/// Bits around NaN, infinity and minus zero into a node that becomes a number.
fn damage_number(random: &mut Random, nodes: &mut [u8]) {
    if nodes.len() < 24 {
        return;
    }
    let at = 24 * random.below(nodes.len() / 24);
    let low = random.pick(&[0, 0, 1, 0x8000_0000]);
    let high = random.pick(&[0x7FF0_0000, 0xFFF0_0000, 0x7FF8_0000, 0x8000_0000, 0x7FEF_FFFF, 0x7FF0_0001, 0]);
    let words = [kind::NUMBER, low, high, 0];
    words.iter().enumerate().for_each(|(index, word)| {
        nodes[at + 4 * index..at + 4 * index + 4].copy_from_slice(&word.to_le_bytes());
    });
}

fn damage_word(random: &mut Random, slice: &mut [u8]) {
    if slice.len() < 4 {
        return;
    }
    let at = 4 * random.below(slice.len() / 4);
    let old = u32::from_le_bytes(slice[at..at + 4].try_into().unwrap());
    let count = (slice.len() / 4) as u32;
    let any = random.draw() as u32;
    let new = random.pick(&[
        0,
        1,
        2,
        10,
        11,
        12,
        14,
        15,
        255,
        256,
        count,
        old.wrapping_add(1),
        old.wrapping_sub(1),
        0x7FF0_0000,
        0x7FF8_0000,
        0x8000_0000,
        0xFFF0_0001,
        ABSENT,
        ABSENT - 1,
        any,
        any % 16,
    ]);
    slice[at..at + 4].copy_from_slice(&new.to_le_bytes());
}
