//! Feeder rules lowered to register code, by the proved functions of Sewurogi.
//!
//! [`lower`] turns a rule into instructions and constants, or refuses it and says why. [`patch_jump`] sets where a jump
//! goes. Both work on byte slices of little-endian words, 32 bits each; `include/sewurogi.h` has the records and what
//! each number in them means. Any bytes, any numbers and any lengths are answered, and none makes a call panic.
//!
//! `lower` takes more stack the deeper a rule is nested. A thread with [`STACK_BYTES`] holds every rule; a thread of
//! [`std::thread::spawn`] has a quarter of that unless it is asked for more.
//!
//! ```
//! use sewurogi::{Buffers, Refusal, Tree, lower, mode};
//!
//! let bytes = |words: &[u32]| -> Vec<u8> { words.iter().flat_map(|word| word.to_le_bytes()).collect() };
//! // `x`, the parameter of symbol 7: one node, of kind 4.
//! let (nodes, names) = (bytes(&[4, 7, 0, 0, 0, 1]), bytes(&[7]));
//! let (mut code, mut constants, mut marks) = ([0; 64], [0; 24], [0; 16]);
//! let mut buffers = Buffers { code: &mut code, constants: &mut constants, marks: &mut marks };
//! let tree = Tree { nodes: &nodes, root: 0, list: &[], names: &names };
//! let numbers = lower(tree, mode::VALUE, buffers.reborrow())?;
//! assert_eq!((numbers.instructions, numbers.frame_size, numbers.arity), (1, 1, 1));
//! // The same without the parameter.
//! let refused = lower(Tree { names: &[], ..tree }, mode::VALUE, buffers.reborrow()).unwrap_err();
//! assert_eq!(refused.refusal, Refusal::Undeclared);
//! // Return, of register 0.
//! assert_eq!(code[..16], bytes(&[40, 0, 0, 0]));
//! # Ok::<(), sewurogi::Refused>(())
//! ```

mod refusal;

pub mod ffi;

pub use refusal::Refusal;

use std::{error, fmt};

/// The stack that holds every rule, whatever its shape.
pub const STACK_BYTES: usize = 8 << 20;

/// The bytes of one record.
pub const NODE_BYTES: usize = 24;
pub const INSTRUCTION_BYTES: usize = 16;
pub const CONSTANT_BYTES: usize = 12;
/// Of a list word, a parameter or a mark.
pub const WORD_BYTES: usize = 4;

/// What the code is to do with the root's value.
pub mod mode {
    /// Return it.
    pub const VALUE: u32 = 0;
    /// Jump where it is false, else go on past the code.
    pub const JUMP_IF_FALSE: u32 = 1;
    /// Jump where it is true, else go on past the code.
    pub const JUMP_IF_TRUE: u32 = 2;
}

/// A rule: its nodes, which of them to lower, the words of its lists, and the symbols of its parameters.
#[derive(Clone, Copy, Debug)]
pub struct Tree<'a> {
    pub nodes: &'a [u8],
    pub root: u32,
    pub list: &'a [u8],
    pub names: &'a [u8],
}

/// Where the code, its constants and the marks go. They need not be cleared: bytes past what is made stay as they were.
#[derive(Debug)]
pub struct Buffers<'a> {
    pub code: &'a mut [u8],
    pub constants: &'a mut [u8],
    /// The function's own notes, one for each argument of a call.
    pub marks: &'a mut [u8],
}

/// The eight numbers that come back.
#[derive(Clone, Copy, Debug, PartialEq, Eq, Hash)]
pub struct Numbers {
    /// 0 if the rule is accepted, else that of the [`Refusal`].
    pub number: u32,
    /// Accepted in mode 1 or 2: the index of the jump that is left to patch. Refused: what the [`Refusal`] names.
    pub place: u32,
    /// The span of the node at `place`, where the [`Refusal`] names it.
    pub start: u32,
    pub end: u32,
    /// How many instructions and constants were made, refused or not.
    pub instructions: u32,
    pub constants: u32,
    /// 0 if the rule is refused.
    pub frame_size: u32,
    /// How many parameters there are; 0 if the rule is refused.
    pub arity: u32,
}

/// A rule that is not accepted: why, and the eight numbers.
#[derive(Clone, Copy, Debug, PartialEq, Eq, Hash)]
pub struct Refused {
    pub refusal: Refusal,
    pub numbers: Numbers,
}

impl Buffers<'_> {
    /// The same buffers, lent for one call.
    pub fn reborrow(&mut self) -> Buffers<'_> {
        Buffers { code: self.code, constants: self.constants, marks: self.marks }
    }
}

impl Numbers {
    /// The numbers in the order in which they come back.
    pub fn words(self) -> [u32; 8] {
        let Numbers { number, place, start, end, instructions, constants, frame_size, arity } = self;
        [number, place, start, end, instructions, constants, frame_size, arity]
    }

    /// And from that order.
    pub fn from_words(words: [u32; 8]) -> Numbers {
        let [number, place, start, end, instructions, constants, frame_size, arity] = words;
        Numbers { number, place, start, end, instructions, constants, frame_size, arity }
    }
}

impl fmt::Display for Refused {
    fn fmt(&self, f: &mut fmt::Formatter<'_>) -> fmt::Result {
        let Numbers { number, place, start, end, .. } = self.numbers;
        write!(f, "refused ({number}): {}; place {place}, span {start} to {end}", self.refusal)
    }
}

impl error::Error for Refused {}

/// Lowers a rule in a mode of [`mode`] (any other is refused). The buffers then hold as many instructions and constants
/// as the numbers say; if the rule is refused, those made before.
pub fn lower(tree: Tree<'_>, mode: u32, buffers: Buffers<'_>) -> Result<Numbers, Refused> {
    let Tree { nodes, root, list, names } = tree;
    let Buffers { code, constants, marks } = buffers;
    let mut result = [0; 8 * WORD_BYTES];
    // SAFETY: each pointer and length are those of a slice, and the four that are written are borrowed alone.
    unsafe {
        ffi::sewurogi_lower(
            nodes.as_ptr(),
            nodes.len(),
            root,
            mode,
            list.as_ptr(),
            list.len(),
            names.as_ptr(),
            names.len(),
            code.as_mut_ptr(),
            code.len(),
            constants.as_mut_ptr(),
            constants.len(),
            marks.as_mut_ptr(),
            marks.len(),
            result.as_mut_ptr(),
            result.len(),
        );
    }
    let (words, _) = result.as_chunks::<WORD_BYTES>();
    let numbers = Numbers::from_words(std::array::from_fn(|index| u32::from_le_bytes(words[index])));
    match numbers.number {
        0 => Ok(numbers),
        number => {
            let refusal = Refusal::from_number(number).expect("1 to 18: it is proved that no other comes back");
            Err(Refused { refusal, numbers })
        }
    }
}

/// Sets the offset of the jump at `index`, among the first `count` instructions: from there the jump goes `offset`
/// instructions on, or back. Refused with [`Refusal::Jump`], and nothing changed, if there is no such jump.
pub fn patch_jump(code: &mut [u8], count: u32, index: u32, offset: i32) -> Result<(), Refusal> {
    // SAFETY: pointer and length are those of a slice that is borrowed alone.
    let number = unsafe { ffi::sewurogi_patch_jump(code.as_mut_ptr(), code.len(), count, index, offset as u32) };
    match number {
        0 => Ok(()),
        _ => Err(Refusal::Jump),
    }
}
