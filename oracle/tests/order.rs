//! The order of the parameters that C hands over, which no proof covers. Every parameter has a value that tells it from
//! the others of its type: the answer is kaori's, and it is another one as soon as any two are exchanged.

use oracle::{
    expression::{X, Y},
    model,
    reference::{reference_answer, reference_patch},
    tree::{Input, Room, Tree, bytes, kind, operator, words},
};
use sewurogi::ffi::{sewurogi_lower, sewurogi_patch_jump};
use std::array;

/// The slices of `sewurogi_lower`, in their order.
const SLICES: [&str; 7] = ["nodes", "list", "names", "code", "constants", "marks", "result"];
const CODE: usize = 3;
const CONSTANTS: usize = 4;
const MARKS: usize = 5;
const RESULT: usize = 6;

/// Each slice is the start of a buffer of so many bytes, so that any pointer may go with any length.
const BUFFER: usize = 192;

type Buffers = [[u8; BUFFER]; SLICES.len()];

/// The parameters of `sewurogi_lower`.
#[derive(Clone)]
struct Call {
    buffers: Buffers,
    lengths: [usize; SLICES.len()],
    root: u32,
    mode: u32,
}

impl Call {
    fn new(input: &Input) -> Call {
        let result = vec![0xEE; 32];
        let slices = [&input.nodes, &input.list, &input.names, &input.code, &input.constants, &input.marks, &result];
        let buffers = array::from_fn(|slice| {
            // What stands past a slice differs from buffer to buffer.
            let mut buffer = [0x40 + slice as u8; BUFFER];
            buffer[..slices[slice].len()].copy_from_slice(slices[slice]);
            buffer
        });
        Call { buffers, lengths: slices.map(|slice| slice.len()), root: input.root, mode: input.mode }
    }

    fn slice(&self, slice: usize) -> Vec<u8> {
        self.buffers[slice][..self.lengths[slice]].to_vec()
    }

    /// The buffers after the call, by the model. A result slice that is too short gets the numbers that fit.
    fn by_model(&self) -> Buffers {
        let [nodes, list, names, code, constants, marks, mut result] = array::from_fn(|slice| self.slice(slice));
        let answer =
            model::lower(&Input { mode: self.mode, root: self.root, nodes, list, names, code, constants, marks });
        for (word, number) in result.chunks_exact_mut(4).zip(answer.result) {
            word.copy_from_slice(&number.to_le_bytes());
        }
        let mut after = self.buffers;
        let written = [(CODE, answer.code), (CONSTANTS, answer.constants), (MARKS, answer.marks), (RESULT, result)];
        for (slice, bytes) in written {
            after[slice][..bytes.len()].copy_from_slice(&bytes);
        }
        after
    }

    fn by_port(&self) -> Buffers {
        let mut after = self.buffers;
        let pointers = after.each_mut().map(|buffer| buffer.as_mut_ptr());
        let [nodes, list, names, code, constants, marks, result] = array::from_fn(|i| (pointers[i], self.lengths[i]));
        // SAFETY: the buffers lie apart and are borrowed alone, and no length is above BUFFER.
        unsafe {
            sewurogi_lower(
                nodes.0,
                nodes.1,
                self.root,
                self.mode,
                list.0,
                list.1,
                names.0,
                names.1,
                code.0,
                code.1,
                constants.0,
                constants.1,
                marks.0,
                marks.1,
                result.0,
                result.1,
            );
        }
        after
    }
}

/// Two slices whose pointers, lengths or both a caller exchanges.
#[derive(Clone, Copy)]
struct Exchange {
    pointers: bool,
    lengths: bool,
    slices: [usize; 2],
}

impl Exchange {
    fn all() -> Vec<Exchange> {
        let pairs = (0..SLICES.len()).flat_map(|second| (0..second).map(move |first| [first, second]));
        let parts = [(true, false), (false, true), (true, true)];
        pairs.flat_map(|slices| parts.map(|(pointers, lengths)| Exchange { pointers, lengths, slices })).collect()
    }

    fn of(self, call: &Call) -> Call {
        let mut call = call.clone();
        let [first, second] = self.slices;
        if self.pointers {
            call.buffers.swap(first, second);
        }
        if self.lengths {
            call.lengths.swap(first, second);
        }
        call
    }

    /// The buffers after such a call, each under the caller's own name for it.
    fn seen(self, mut after: Buffers) -> Buffers {
        if self.pointers {
            after.swap(self.slices[0], self.slices[1]);
        }
        after
    }

    fn name(self) -> String {
        let what = match (self.pointers, self.lengths) {
            (true, true) => "slices",
            (true, false) => "pointers",
            _ => "lengths",
        };
        format!("{what} of {} and {}", SLICES[self.slices[0]], SLICES[self.slices[1]])
    }
}

/// (x(y) + x(y)) * 2 < 3 in mode 1, with one call node used twice: two marks for one list word. No two slices have the
/// same length; the list's is the smallest, and the answer is another with so few bytes of any other slice.
fn input() -> Input {
    let tree = Tree {
        mode: 1,
        root: 7,
        nodes: vec![
            [kind::NAME, X, 0, 0, 0, 0],
            [kind::NAME, Y, 0, 0, 0, 0],
            [kind::CALL, 0, 0, 1, 0, 0],
            [kind::BINARY, operator::ADD, 2, 2, 0, 0],
            [kind::NUMBER, 0, 0x4000_0000, 0, 0, 0],
            [kind::BINARY, operator::MULTIPLY, 3, 4, 0, 0],
            [kind::NUMBER, 0, 0x4008_0000, 0, 0, 0],
            [kind::BINARY, operator::LESS, 5, 6, 0, 0],
        ],
        list: vec![1],
        names: vec![X, Y],
    };
    tree.input(Room::records(8, 2, 3))
}

#[test]
fn lowering() {
    let input = input();
    let call = Call::new(&input);
    let right = call.by_model();
    let kaori = reference_answer(&input).expect("a checked tree").0;
    assert_eq!(words(&right[RESULT])[..8], kaori.result);
    assert_eq!((kaori.result[0], kaori.result[1]), (0, 6), "accepted, the jump last");
    for (slice, bytes) in [(CODE, &kaori.code), (CONSTANTS, &kaori.constants), (MARKS, &kaori.marks)] {
        assert_eq!(right[slice][..bytes.len()], bytes[..], "{}", SLICES[slice]);
    }
    assert!(call.by_port() == right);
    for exchange in Exchange::all() {
        let exchanged = exchange.of(&call);
        let after = exchanged.by_model();
        assert!(exchange.seen(after) != right, "{}: the values do not tell them apart", exchange.name());
        assert!(exchanged.by_port() == after, "{}", exchange.name());
    }
    let exchanged = Call { root: call.mode, mode: call.root, ..call };
    assert!(exchanged.by_model() != right, "root and mode: the values do not tell them apart");
    assert!(exchanged.by_port() == exchanged.by_model(), "root and mode");
}

#[test]
fn patching() {
    let code = [[41, 5, 0, 0]; 3];
    let by_port = |count, index, offset| {
        let mut after = bytes(code.as_flattened());
        // SAFETY: pointer and length are those of a vector that is borrowed alone.
        let number = unsafe { sewurogi_patch_jump(after.as_mut_ptr(), after.len(), count, index, offset) };
        (number, after)
    };
    let by_model = |count, index, offset| {
        let mut after = bytes(code.as_flattened());
        (model::patch(&mut after, count, index, offset), after)
    };
    let right = by_model(3, 1, 2);
    let (number, after) = reference_patch(&code, 1, 2).expect("instructions of kaori's");
    assert_eq!((number, bytes(after.as_flattened())), right);
    assert_eq!(by_port(3, 1, 2), right);
    for [count, index, offset] in [[1, 3, 2], [2, 1, 3], [3, 2, 1]] {
        assert_ne!(by_model(count, index, offset), right, "the values do not tell them apart");
        assert_eq!(by_port(count, index, offset), by_model(count, index, offset));
    }
}
