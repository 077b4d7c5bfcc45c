//! Document 01's records: a tree as words, and a call of the lowering as bytes.

pub const ABSENT: u32 = u32::MAX;

pub const MOST_NODES: usize = 4096;
pub const MOST_LIST_WORDS: usize = 8192;
pub const MOST_PARAMETERS: usize = 256;
pub const MOST_ARGUMENTS: u32 = 255;
pub const MOST_INSTRUCTIONS: usize = 1_048_576;

/// Words of one record.
pub const NODE_WORDS: usize = 6;
pub const INSTRUCTION_WORDS: usize = 4;
pub const CONSTANT_WORDS: usize = 3;
pub const MARK_WORDS: usize = 1;

/// Node kinds.
pub mod kind {
    pub const NUMBER: u32 = 0;
    pub const STRING: u32 = 1;
    pub const BOOLEAN: u32 = 2;
    pub const NIL: u32 = 3;
    pub const NAME: u32 = 4;
    pub const BINARY: u32 = 5;
    pub const UNARY: u32 = 6;
    pub const NOT: u32 = 7;
    pub const AND: u32 = 8;
    pub const OR: u32 = 9;
    pub const IF: u32 = 10;
    pub const BLOCK: u32 = 11;
    pub const CALL: u32 = 12;
    pub const PROPERTY: u32 = 13;
    pub const MAP: u32 = 14;
}

/// Operators in the order of `BinaryOp`.
pub mod operator {
    pub const ADD: u32 = 0;
    pub const SUBTRACT: u32 = 1;
    pub const MULTIPLY: u32 = 2;
    pub const EQUAL: u32 = 5;
    pub const NOT_EQUAL: u32 = 6;
    pub const GREATER: u32 = 7;
    pub const GREATER_EQUAL: u32 = 8;
    pub const LESS: u32 = 9;
    pub const LESS_EQUAL: u32 = 10;
}

/// Kind, a, b, c, span start, span end.
pub type Node = [u32; NODE_WORDS];

#[derive(Clone, Debug, Default, PartialEq, Eq)]
pub struct Tree {
    pub mode: u32,
    pub root: u32,
    pub nodes: Vec<Node>,
    pub list: Vec<u32>,
    pub names: Vec<u32>,
}

/// A call of the lowering: its input, and the three buffers as they stand before.
#[derive(Clone, Debug, PartialEq, Eq)]
pub struct Input {
    pub mode: u32,
    pub root: u32,
    pub nodes: Vec<u8>,
    pub list: Vec<u8>,
    pub names: Vec<u8>,
    pub code: Vec<u8>,
    pub constants: Vec<u8>,
    pub marks: Vec<u8>,
}

/// The eight numbers, and the three buffers as they stand after.
#[derive(Clone, Debug, PartialEq, Eq)]
pub struct Answer {
    pub result: [u32; 8],
    pub code: Vec<u8>,
    pub constants: Vec<u8>,
    pub marks: Vec<u8>,
}

/// Lengths of the three buffers in bytes.
#[derive(Clone, Copy, Debug, PartialEq, Eq)]
pub struct Room {
    pub code: usize,
    pub constants: usize,
    pub marks: usize,
}

impl Room {
    pub fn records(code: usize, constants: usize, marks: usize) -> Room {
        Room {
            code: code * INSTRUCTION_WORDS * 4,
            constants: constants * CONSTANT_WORDS * 4,
            marks: marks * MARK_WORDS * 4,
        }
    }
}

pub fn bytes(words: &[u32]) -> Vec<u8> {
    words.iter().flat_map(|word| word.to_le_bytes()).collect()
}

/// The whole words of a slice.
pub fn words(bytes: &[u8]) -> Vec<u32> {
    bytes.chunks_exact(4).map(|word| u32::from_le_bytes(word.try_into().unwrap())).collect()
}

/// What fills a buffer before a call, so that a word written past the counts shows.
fn filled(length: usize) -> Vec<u8> {
    (0..length).map(|index| (index * 7 + 0xA5) as u8).collect()
}

impl Tree {
    pub fn input(&self, room: Room) -> Input {
        Input {
            mode: self.mode,
            root: self.root,
            nodes: self.nodes.iter().flat_map(|node| bytes(node)).collect(),
            list: bytes(&self.list),
            names: bytes(&self.names),
            code: filled(room.code),
            constants: filled(room.constants),
            marks: filled(room.marks),
        }
    }

    /// The tree of a call, when its slices are whole records.
    pub fn of(input: &Input) -> Option<Tree> {
        let whole = |slice: &[u8], words: usize| slice.len().is_multiple_of(4 * words);
        (whole(&input.nodes, NODE_WORDS) && whole(&input.list, 1) && whole(&input.names, 1)).then(|| Tree {
            mode: input.mode,
            root: input.root,
            nodes: words(&input.nodes).chunks_exact(NODE_WORDS).map(|node| node.try_into().unwrap()).collect(),
            list: words(&input.list),
            names: words(&input.names),
        })
    }

    /// List words of a call or a map, if they lie inside the list.
    pub fn part(&self, node: &Node) -> Option<&[u32]> {
        let (first, length) = match node[0] {
            kind::CALL => (node[2] as usize, node[3] as usize),
            kind::MAP => (node[1] as usize, 2 * node[2] as usize),
            _ => return Some(&[]),
        };
        self.list.get(first..first + length)
    }

    /// Nodes that a node names, in the order of its words; each with whether it may be absent.
    pub fn children(&self, node: &Node) -> Vec<(u32, bool)> {
        let [kind, a, b, c, ..] = *node;
        let part = self.part(node).unwrap_or(&[]);
        match kind {
            kind::BINARY => vec![(b, false), (c, false)],
            kind::UNARY => vec![(b, false)],
            kind::NOT | kind::PROPERTY => vec![(a, false)],
            kind::AND | kind::OR => vec![(a, false), (b, false)],
            kind::IF => vec![(a, false), (b, false), (c, true)],
            kind::BLOCK => vec![(a, true)],
            kind::CALL => part.iter().map(|&n| (n, false)).chain([(a, false)]).collect(),
            kind::MAP => part.iter().enumerate().map(|(i, &n)| (n, i % 2 == 1)).collect(),
            _ => vec![],
        }
    }

    /// Whether kaori can be asked: no question before the walk is answered no. Written apart from the model, as
    /// one yes or no, so that the two can be held against each other.
    pub fn is_checked(&self) -> bool {
        (1..=MOST_NODES).contains(&self.nodes.len())
            && self.list.len() <= MOST_LIST_WORDS
            && self.names.len() <= MOST_PARAMETERS
            && self.mode <= 2
            && (self.root as usize) < self.nodes.len()
            && self.nodes.iter().enumerate().all(|(index, node)| self.is_checked_node(index as u32, node))
    }

    fn is_checked_node(&self, index: u32, node: &Node) -> bool {
        let [kind, a, b, c, ..] = *node;
        let own = match kind {
            kind::NUMBER => {
                let value = f64::from_bits((b as u64) << 32 | a as u64);
                c == 0 && !value.is_nan() && !(value == 0.0 && value.is_sign_negative())
            }
            kind::STRING | kind::NAME | kind::NOT | kind::BLOCK => b == 0 && c == 0,
            kind::BOOLEAN => a < 2 && b == 0 && c == 0,
            kind::NIL => a == 0 && b == 0 && c == 0,
            kind::BINARY => a < 11,
            kind::UNARY => a < 2 && c == 0,
            kind::AND | kind::OR | kind::PROPERTY | kind::MAP => c == 0,
            kind::IF => true,
            kind::CALL => c <= MOST_ARGUMENTS,
            _ => false,
        };
        own && self.part(node).is_some()
            && self.children(node).iter().all(|&(child, may_miss)| child < index || may_miss && child == ABSENT)
    }

    /// How many nodes a walk from the root meets at most, a shared node each time it is met. Checked trees only.
    pub fn walk_size(&self) -> u64 {
        let mut sizes: Vec<u64> = Vec::with_capacity(self.nodes.len());
        for node in &self.nodes {
            let below = self.children(node).into_iter().filter(|&(child, _)| child != ABSENT);
            let size = below.fold(1, |sum: u64, (child, _)| sum.saturating_add(sizes[child as usize]));
            sizes.push(size);
        }
        sizes[self.root as usize]
    }
}
