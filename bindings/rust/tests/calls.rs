//! The functions on slices: what comes back, in the right places, and what a caller may get wrong.

use sewurogi::{Buffers, Numbers, Refusal, Refused, STACK_BYTES, Tree, ffi, lower, mode, patch_jump};
use std::{ptr, thread};

fn bytes(words: &[u32]) -> Vec<u8> {
    words.iter().flat_map(|word| word.to_le_bytes()).collect()
}

fn words(bytes: &[u8]) -> Vec<u32> {
    bytes.chunks_exact(4).map(|word| u32::from_le_bytes(word.try_into().unwrap())).collect()
}

/// A rule in bytes.
#[derive(Clone)]
struct Rule {
    nodes: Vec<u8>,
    root: u32,
    list: Vec<u8>,
    names: Vec<u8>,
}

impl Rule {
    /// The root is the last node.
    fn new(nodes: &[[u32; 6]], list: &[u32], names: &[u32]) -> Rule {
        let root = nodes.len() as u32 - 1;
        Rule { nodes: bytes(nodes.as_flattened()), root, list: bytes(list), names: bytes(names) }
    }

    fn tree(&self) -> Tree<'_> {
        Tree { nodes: &self.nodes, root: self.root, list: &self.list, names: &self.names }
    }
}

/// Three buffers of so many bytes, each full of a byte of its own.
struct Room {
    code: Vec<u8>,
    constants: Vec<u8>,
    marks: Vec<u8>,
}

impl Room {
    fn new(code: usize, constants: usize, marks: usize) -> Room {
        Room { code: vec![0xA1; code], constants: vec![0xA2; constants], marks: vec![0xA3; marks] }
    }

    fn lower(&mut self, rule: &Rule, mode: u32) -> Result<Numbers, Refused> {
        let Room { code, constants, marks } = self;
        lower(rule.tree(), mode, Buffers { code, constants, marks })
    }

    /// Whether each buffer begins with these words, and is as it was past them.
    fn holds(&self, code: &[u32], constants: &[u32], marks: &[u32]) {
        let all = [(&self.code, code, 0xA1), (&self.constants, constants, 0xA2), (&self.marks, marks, 0xA3)];
        for (buffer, made, byte) in all {
            let (begin, rest) = buffer.split_at(4 * made.len());
            assert_eq!(words(begin), made);
            assert!(rest.iter().all(|&other| other == byte));
        }
    }
}

const ONE: u32 = 1072693248;

/// `x(y) < 1`, x = symbol 7, y = symbol 8.
fn condition() -> Rule {
    let nodes = [[4, 7, 0, 0, 0, 1], [4, 8, 0, 0, 2, 3], [12, 0, 0, 1, 0, 4], [0, 0, ONE, 0, 7, 8], [5, 9, 2, 3, 0, 8]];
    Rule::new(&nodes, &[1], &[7, 8])
}

/// `if x 1`, x = symbol 7.
fn without_else() -> Rule {
    Rule::new(&[[4, 7, 0, 0, 0, 0], [0, 0, ONE, 0, 0, 0], [10, 0, 1, u32::MAX, 11, 12]], &[], &[7])
}

#[test]
fn accepted() {
    let mut room = Room::new(64, 24, 8);
    let numbers = room.lower(&condition(), mode::JUMP_IF_FALSE).unwrap();
    let wanted =
        Numbers { number: 0, place: 2, start: 0, end: 0, instructions: 3, constants: 1, frame_size: 3, arity: 2 };
    assert_eq!(numbers, wanted);
    room.holds(&[25, 3, 1, 0, 39, 2, 0, 1, 49, 2, 0, 0], &[2, 0, ONE], &[0]);
    assert_eq!(room.lower(&condition(), mode::JUMP_IF_TRUE).unwrap().words(), [0, 2, 0, 0, 3, 1, 3, 2]);
    assert_eq!(words(&room.code)[8..12], [45, 2, 0, 0]);
    assert_eq!(room.lower(&condition(), mode::VALUE).unwrap().words(), [0, 0, 0, 0, 4, 1, 4, 2]);
}

#[test]
fn refused() {
    let mut room = Room::new(64, 24, 8);
    let numbers =
        Numbers { number: 11, place: 2, start: 11, end: 12, instructions: 3, constants: 1, frame_size: 0, arity: 0 };
    let refused = room.lower(&without_else(), mode::VALUE).unwrap_err();
    assert_eq!(refused, Refused { refusal: Refusal::Else, numbers });
    assert_eq!(refused.to_string(), "refused (11): an if has no else; place 2, span 11 to 12");
    room.holds(&[42, 0, 3, 0, 26, 1, 0, 0, 41, 0, 0, 0], &[2, 0, ONE], &[]);
    assert_eq!(Numbers::from_words(numbers.words()), numbers);
}

#[test]
fn patched() {
    let code = bytes(&[25, 3, 1, 0, 39, 2, 0, 1, 49, 2, 0, 0]);
    let mut patched = code.clone();
    assert_eq!(patch_jump(&mut patched, 3, 2, -2), Ok(()));
    assert_eq!(words(&patched), [25, 3, 1, 0, 39, 2, 0, 1, 49, 2, 0, u32::MAX - 1]);
    for (count, index, length) in [(2, 2, 48), (3, 1, 48), (4, 2, 48), (3, 2, 47), (0, 0, 0), (u32::MAX, 2, 48)] {
        let mut same = code[..length].to_vec();
        assert_eq!(patch_jump(&mut same, count, index, 5), Err(Refusal::Jump));
        assert_eq!(same, code[..length]);
    }
}

#[test]
fn empty_slices() {
    let none = Rule { nodes: vec![], root: 0, list: vec![], names: vec![] };
    let refusal = |rule: &Rule, room: &mut Room| room.lower(rule, mode::VALUE).map_err(|refused| refused.refusal);
    let mut nothing = Room::new(0, 0, 0);
    assert_eq!(refusal(&none, &mut nothing), Err(Refusal::Size));
    let nil = Rule::new(&[[3, 0, 0, 0, 0, 0]], &[], &[]);
    assert_eq!(refusal(&nil, &mut nothing), Err(Refusal::Constants));
    assert_eq!(refusal(&nil, &mut Room::new(0, 12, 0)), Err(Refusal::Code));
    assert_eq!(refusal(&nil, &mut Room::new(32, 12, 0)).unwrap().words(), [0, 0, 0, 0, 2, 1, 1, 0]);
    assert_eq!(refusal(&condition(), &mut Room::new(64, 24, 0)), Err(Refusal::Marks));
    assert_eq!(refusal(&Rule { list: vec![], ..condition() }, &mut nothing), Err(Refusal::List));
    assert_eq!(refusal(&Rule { names: vec![], ..condition() }, &mut nothing), Err(Refusal::Undeclared));
}

#[test]
fn odd_lengths_and_numbers() {
    let mut room = Room::new(64, 24, 8);
    for extra in 1..4 {
        let longer = |slice: Vec<u8>| [slice, vec![0; extra]].concat();
        let rules = [
            Rule { nodes: longer(condition().nodes), ..condition() },
            Rule { list: longer(condition().list), ..condition() },
            Rule { names: longer(condition().names), ..condition() },
        ];
        for rule in rules {
            assert_eq!(room.lower(&rule, mode::VALUE).unwrap_err().refusal, Refusal::Size);
        }
    }
    for (root, mode) in [(5, 0), (u32::MAX, 0), (4, 3), (4, u32::MAX)] {
        assert_eq!(room.lower(&Rule { root, ..condition() }, mode).unwrap_err().refusal, Refusal::Root);
    }
    room.holds(&[], &[], &[]);
}

/// A result of any length gets the words that fit whole, and no byte past them changes.
#[test]
fn short_result_place() {
    let (rule, wanted) = (without_else(), bytes(&[11, 2, 11, 12, 3, 1, 0, 0]));
    for length in 0..=64 {
        let (mut room, mut result) = (Room::new(64, 24, 8), [0xA4; 80]);
        // SAFETY: lengths are those of the slices, and `result` has more than `length` bytes.
        unsafe { raw(&rule, &mut room, result[8..].as_mut_ptr(), length) };
        let end = 8 + (length / 4 * 4).min(32);
        assert_eq!(result[8..end], wanted[..end - 8]);
        assert!(result[..8].iter().chain(&result[end..]).all(|&byte| byte == 0xA4));
    }
}

/// # Safety
///
/// `result` is to `length` bytes, or null with 0.
unsafe fn raw(rule: &Rule, room: &mut Room, result: *mut u8, length: usize) {
    // An empty slice goes as a null pointer.
    let read = |slice: &[u8]| if slice.is_empty() { ptr::null() } else { slice.as_ptr() };
    let written = |slice: &mut [u8]| if slice.is_empty() { ptr::null_mut() } else { slice.as_mut_ptr() };
    let Rule { nodes, root, list, names } = rule;
    let Room { code, constants, marks } = room;
    unsafe {
        ffi::sewurogi_lower(
            read(nodes),
            nodes.len(),
            *root,
            mode::VALUE,
            read(list),
            list.len(),
            read(names),
            names.len(),
            written(code),
            code.len(),
            written(constants),
            constants.len(),
            written(marks),
            marks.len(),
            result,
            length,
        );
    }
}

/// Each of the eight pointers is null with length 0, alone and with the others: what comes back is what an empty slice gives.
#[test]
fn null_pointers() {
    for empty in 0..128 {
        let is_empty = |slice: usize| empty >> slice & 1 == 1;
        let part = |slice: usize, bytes: Vec<u8>| if is_empty(slice) { vec![] } else { bytes };
        let whole = condition();
        let rule =
            Rule { nodes: part(0, whole.nodes), list: part(1, whole.list), names: part(2, whole.names), root: 4 };
        let room = || Room::new(size(is_empty(3), 64), size(is_empty(4), 24), size(is_empty(5), 8));
        let mut result = [0; 32];
        let length = size(is_empty(6), 32);
        let place = if length == 0 { ptr::null_mut() } else { result.as_mut_ptr() };
        let (mut called, mut wanted) = (room(), room());
        // SAFETY: lengths are those of the slices; the result's is 32, or 0 with a null pointer.
        unsafe { raw(&rule, &mut called, place, length) };
        let numbers = wanted.lower(&rule, mode::VALUE).unwrap_or_else(|refused| refused.numbers);
        assert_eq!(words(&result), if length == 0 { [0; 8] } else { numbers.words() });
        assert_eq!([called.code, called.constants, called.marks], [wanted.code, wanted.constants, wanted.marks]);
    }
    // SAFETY: no bytes.
    assert_eq!(unsafe { ffi::sewurogi_patch_jump(ptr::null_mut(), 0, 1, 0, 5) }, Refusal::Jump.number());
}

fn size(is_empty: bool, bytes: usize) -> usize {
    if is_empty { 0 } else { bytes }
}

/// As deep as a rule can be, on a thread with the stack that holds every rule. (The oracle measures each shape.)
#[test]
fn the_deepest_rule() {
    let run = || {
        let mut nodes = vec![[4, 7, 0, 0, 0, 0]];
        nodes.extend((0..4095).map(|below| [8, below, 0, 0, 0, 0]));
        let mut room = Room::new(16 * 3 * 4096, 0, 0);
        room.lower(&Rule::new(&nodes, &[], &[7]), mode::VALUE).unwrap().instructions
    };
    let made = thread::Builder::new().stack_size(STACK_BYTES).spawn(run).unwrap().join().unwrap();
    assert_eq!(made, 2 * 4095 + 2);
}
