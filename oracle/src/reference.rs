//! kaori's answer to a tree, in document 01's numbers.

use crate::tree::{Answer, CONSTANT_WORDS, INSTRUCTION_WORDS, Input, MARK_WORDS, MOST_INSTRUCTIONS, Tree};
use crate::{bounded, plain};
use std::{
    any::Any,
    cell::Cell,
    panic::{AssertUnwindSafe, catch_unwind},
    sync::Once,
};

/// Instructions, constants and marks that there is room for.
#[derive(Clone, Copy, Debug)]
pub struct Limits {
    pub instructions: usize,
    pub constants: usize,
    pub marks: usize,
}

/// The spans that kaori's nodes get: their own, or the node's place, by which an error names its node.
#[derive(Clone, Copy)]
pub enum Spans {
    Own,
    Places,
}

/// How kaori ended.
#[derive(Clone, Debug, PartialEq, Eq)]
pub enum Ending {
    Accepted {
        place: u32,
    },
    Error {
        message: String,
        span: (u32, u32),
    },
    /// A panic by its text.
    Panicked(String),
    /// A bounded vector was full: document 01's number.
    Full(u32),
    /// `patch_arguments` cut the sum at this instruction to a byte (seen by the harness, not by kaori).
    Cut {
        place: u32,
    },
}

impl Ending {
    pub fn of_panic(panic: &(dyn Any + Send)) -> Ending {
        let text = panic.downcast_ref::<String>().cloned();
        let text = text.or_else(|| panic.downcast_ref::<&str>().map(|text| text.to_string()));
        Ending::Panicked(text.unwrap_or_default())
    }
}

/// What kaori made and how it ended.
#[derive(Clone, Debug)]
pub struct Run {
    pub ending: Ending,
    pub frame_size: u32,
    pub code: Vec<[u32; INSTRUCTION_WORDS]>,
    pub constants: Vec<[u32; CONSTANT_WORDS]>,
    pub marks: Vec<u32>,
}

/// How the number of a refusal came about.
#[derive(Clone, Copy, Debug, PartialEq, Eq)]
pub enum Source {
    /// Accepted, or kaori's `Error`.
    Kaori,
    /// kaori panicked.
    Panic,
    /// kaori would have gone on: a bound of document 01's stopped it.
    Bound,
}

#[derive(Clone, Debug)]
pub struct Reference {
    pub result: [u32; 8],
    pub source: Source,
    pub code: Vec<[u32; INSTRUCTION_WORDS]>,
    pub constants: Vec<[u32; CONSTANT_WORDS]>,
    pub marks: Vec<u32>,
}

thread_local! {
    static EXPECTED: Cell<bool> = const { Cell::new(false) };
}

/// Runs kaori, panics among its answers; those print nothing.
pub fn caught<T>(run: impl FnOnce() -> T) -> Result<T, Box<dyn Any + Send>> {
    static HOOK: Once = Once::new();
    HOOK.call_once(|| {
        let usual = std::panic::take_hook();
        std::panic::set_hook(Box::new(move |info| {
            if !EXPECTED.get() {
                usual(info)
            }
        }));
    });
    EXPECTED.set(true);
    let answer = catch_unwind(AssertUnwindSafe(run));
    EXPECTED.set(false);
    answer
}

type Lowering = fn(&Tree, Spans, Limits) -> Run;
type MarkingCall = fn(&Tree, Limits) -> Option<u32>;

/// kaori's answer to a checked tree. Mind `Tree::walk_size`: shared nodes make walks without end.
pub fn reference(tree: &Tree) -> Reference {
    let limits = Limits { instructions: usize::MAX, constants: usize::MAX, marks: usize::MAX };
    answer(tree, limits, plain::drive::lower, plain::drive::marking_call)
}

/// The same under limits, among them document 01's own of 1,048,576 instructions.
pub fn bounded_reference(tree: &Tree, limits: Limits) -> Reference {
    let limits = Limits { instructions: limits.instructions.min(MOST_INSTRUCTIONS), ..limits };
    answer(tree, limits, bounded::drive::lower, bounded::drive::marking_call)
}

fn answer(tree: &Tree, limits: Limits, lower: Lowering, marking_call: MarkingCall) -> Reference {
    let run = lower(tree, Spans::Own, limits);
    let (number, place, span, source) = match &run.ending {
        Ending::Accepted { place } => (0, *place, (0, 0), Source::Kaori),
        Ending::Error { message, span } => {
            let place = error_place(tree, limits, lower, message, *span);
            (error_number(message), place, *span, Source::Kaori)
        }
        Ending::Panicked(text) => {
            let (number, place) = panic_number(text);
            let call = (number == 15).then(|| marking_call(tree, limits).expect("a call is under way"));
            let span = call.map(|call| tree.nodes[call as usize]).map_or((0, 0), |node| (node[4], node[5]));
            (number, call.unwrap_or(place), span, Source::Panic)
        }
        Ending::Full(number) => (*number, 0, (0, 0), Source::Bound),
        Ending::Cut { place } => (18, *place, (0, 0), Source::Bound),
    };
    let (frame_size, arity) = if number == 0 { (run.frame_size, tree.names.len() as u32) } else { (0, 0) };
    let counts = [run.code.len() as u32, run.constants.len() as u32];
    Reference {
        result: [number, place, span.0, span.1, counts[0], counts[1], frame_size, arity],
        source,
        code: run.code,
        constants: run.constants,
        marks: run.marks,
    }
}

fn error_number(message: &str) -> u32 {
    let numbers = [("undeclared", 9), ("must have `else`", 11), ("can omit value", 12)];
    let found = numbers.iter().find(|(part, _)| message.contains(part));
    found.unwrap_or_else(|| panic!("an error without a number: {message}")).1
}

/// The node of an error: kaori gives its span alone, so it is run again on spans that are places.
fn error_place(tree: &Tree, limits: Limits, lower: Lowering, message: &str, span: (u32, u32)) -> u32 {
    match lower(tree, Spans::Places, limits).ending {
        Ending::Error { message: again, span: (place, _) } if again == message => {
            let node = tree.nodes[place as usize];
            assert!((node[4], node[5]) == span, "kaori's span is the node's");
            place
        }
        other => panic!("kaori answers {other:?} to other spans"),
    }
}

/// Number and instruction of a panic.
fn panic_number(text: &str) -> (u32, u32) {
    if text.contains("exceeded register limit") {
        (10, 0)
    } else if text.contains("subtract with overflow") {
        (15, 0)
    } else if let Some((_, rest)) = text.split_once("instruction at index ") {
        (17, rest.split(' ').next().unwrap().parse().unwrap())
    } else {
        panic!("a panic without a number: {text}")
    }
}

/// kaori's answer to a call, or none where it has none: an input that is refused before the walk.
pub fn reference_answer(input: &Input) -> Option<(Answer, Source)> {
    let tree = Tree::of(input).filter(Tree::is_checked)?;
    let limits = Limits {
        instructions: input.code.len() / (4 * INSTRUCTION_WORDS),
        constants: input.constants.len() / (4 * CONSTANT_WORDS),
        marks: input.marks.len() / (4 * MARK_WORDS),
    };
    let reference = bounded_reference(&tree, limits);
    Some((reference.answer(input), reference.source))
}

impl Reference {
    /// The buffers of a call with what was made put over their start.
    pub fn answer(&self, input: &Input) -> Answer {
        Answer {
            result: self.result,
            code: put_over(&input.code, self.code.as_flattened()),
            constants: put_over(&input.constants, self.constants.as_flattened()),
            marks: put_over(&input.marks, &self.marks),
        }
    }
}

fn put_over(before: &[u8], words: &[u32]) -> Vec<u8> {
    let mut after = before.to_vec();
    after[..4 * words.len()].copy_from_slice(&crate::tree::bytes(words));
    after
}

/// kaori's `patch_jump`: 0 and the code, or 19. None where no code of kaori's has such records.
pub fn reference_patch(code: &[[u32; 4]], index: u32, offset: u32) -> Option<(u32, Vec<[u32; 4]>)> {
    let mut after = code.to_vec();
    let taken = plain::patch_jump(&mut after, index as usize, offset as i32)?;
    Some((if taken { 0 } else { 19 }, after))
}

/// Names of kaori's instruction and its fields, for reading a difference.
pub fn instruction_names() -> &'static [(&'static str, &'static [&'static str])] {
    &kaori::records::NAMES
}
