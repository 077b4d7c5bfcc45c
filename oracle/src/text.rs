//! The text of `lowerlist`: numbers right-justified in columns of 11, one record a line.

use crate::tree::{Answer, CONSTANT_WORDS, INSTRUCTION_WORDS, Input, NODE_WORDS, Room, Tree, words};

const COLUMN: usize = 11;
const HEADER_WORDS: usize = 5;
const MOST_TEXT_NODES: usize = 512;
const MOST_TEXT_LIST_WORDS: usize = 512;
const MOST_TEXT_PARAMETERS: usize = 256;

/// The buffers of `lowerlist`.
pub fn lowerlist_room() -> Room {
    Room::records(2048, 512, 512)
}

/// What `lowerlist` prints over the given lowering.
pub fn lowerlist(text: &[u8], lower: impl FnOnce(&Input) -> Answer) -> String {
    match read(text) {
        Some(tree) => listing(&lower(&tree.input(lowerlist_room()))),
        None => line(&[1, 0, 0, 0, 0, 0, 0, 0]),
    }
}

/// The tree of a text; none if it is laid out otherwise or past the program's bounds.
pub fn read(text: &[u8]) -> Option<Tree> {
    let mut reader = Reader { rest: text };
    let header = reader.line(HEADER_WORDS)?;
    let [nodes, list, names] = [header[2], header[3], header[4]].map(|count| count as usize);
    if nodes > MOST_TEXT_NODES || list > MOST_TEXT_LIST_WORDS || names > MOST_TEXT_PARAMETERS {
        return None;
    }
    let nodes = (0..nodes).map(|_| Some(reader.line(NODE_WORDS)?.try_into().unwrap())).collect::<Option<_>>()?;
    let list = (0..list).map(|_| Some(reader.line(1)?[0])).collect::<Option<_>>()?;
    let names = (0..names).map(|_| Some(reader.line(1)?[0])).collect::<Option<_>>()?;
    reader.rest.is_empty().then_some(Tree { mode: header[0], root: header[1], nodes, list, names })
}

struct Reader<'a> {
    rest: &'a [u8],
}

impl Reader<'_> {
    fn line(&mut self, columns: usize) -> Option<Vec<u32>> {
        let (line, rest) = self.rest.split_at_checked(COLUMN * columns + 1)?;
        self.rest = rest;
        let (end, line) = line.split_last()?;
        (*end == b'\n').then_some(())?;
        line.chunks(COLUMN).map(number).collect()
    }
}

/// Spaces, then a number without leading zeros, up to the column's end.
fn number(column: &[u8]) -> Option<u32> {
    let start = column.iter().position(|&byte| byte != b' ')?;
    let digits = &column[start..];
    let plain = digits.iter().all(u8::is_ascii_digit) && (digits.len() == 1 || digits[0] != b'0');
    plain.then_some(())?;
    std::str::from_utf8(digits).ok()?.parse().ok()
}

pub fn line(words: &[u32]) -> String {
    words.iter().map(|word| format!("{word:>COLUMN$}")).collect::<String>() + "\n"
}

pub fn write(tree: &Tree) -> String {
    let counts = [tree.nodes.len(), tree.list.len(), tree.names.len()].map(|count| count as u32);
    let mut text = line(&[tree.mode, tree.root, counts[0], counts[1], counts[2]]);
    tree.nodes.iter().for_each(|node| text += &line(node));
    tree.list.iter().chain(&tree.names).for_each(|&word| text += &line(&[word]));
    text
}

/// The eight numbers, then the instructions and constants that they count.
pub fn listing(answer: &Answer) -> String {
    let counted = |bytes: &[u8], width: usize, count: u32| -> String {
        words(bytes).chunks_exact(width).take(count as usize).map(line).collect()
    };
    line(&answer.result)
        + &counted(&answer.code, INSTRUCTION_WORDS, answer.result[4])
        + &counted(&answer.constants, CONSTANT_WORDS, answer.result[5])
}
