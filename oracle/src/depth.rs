//! How much stack the port takes on trees that go as deep as a tree can. Proofs do not cover the stack.

use crate::{
    generate::{self, CHAINS, LEVELS, Random},
    port::{Asked, Port},
    tree::{MOST_NODES, Room, Tree},
};
use std::thread;

/// The stack of a normal thread.
pub const THREAD_STACK: usize = 8 << 20;

/// What the port may take of it: the rest is the caller's.
pub const MOST_TAKEN: usize = 6_800_000;

/// Stack that is painted before a call, and stack beside it for what stands around the call.
const PAINTED: usize = 32 << 20;
const BESIDE: usize = 1 << 20;

/// Bytes below the caller's frame that are not painted, so that painting does not paint its own frame.
const NEAR: usize = 4096;

const PAINT: u8 = 0xA5;

/// Code and marks for the longest walk here: the deepest ifs make three instructions a level.
const ROOM: (usize, usize, usize) = (1 << 16, MOST_NODES, 1 << 14);

/// Trees of one shape that differ in their mode or in the order of their levels.
pub struct Shape {
    pub name: String,
    pub trees: Vec<Tree>,
}

/// What a shape takes at most.
pub struct Used {
    pub bytes: usize,
    pub number: u32,
    pub nodes: usize,
}

impl Shape {
    fn new(name: &str, trees: impl IntoIterator<Item = Tree>) -> Shape {
        Shape { name: name.to_string(), trees: trees.into_iter().collect() }
    }

    pub fn used(&self, port: Port) -> Used {
        let used = self.trees.iter().map(|tree| {
            let (number, bytes) = stack_used(port, tree);
            Used { bytes, number, nodes: tree.nodes.len() }
        });
        used.max_by_key(|used| used.bytes).expect("a tree")
    }

    /// Lowers each on a normal thread. A stack too small ends the process.
    pub fn runs(&self, port: Port) {
        self.trees.iter().for_each(|tree| {
            runs_on(port, THREAD_STACK, tree);
        });
    }
}

/// Every chain, every two levels in turn, as deep as nodes and list go; wide calls inside each other; large maps.
pub fn shapes() -> Vec<Shape> {
    let modes = |tree: Tree| (0..=2).map(move |mode| Tree { mode, ..tree.clone() });
    let chain = |shape| Shape::new(shape, modes(generate::chain(shape, MOST_NODES, 1, &[0, 1])));
    let in_turn = |first| {
        let others = LEVELS.iter().filter(move |other| **other != first);
        Shape::new(
            &format!("{first}, in turn with another"),
            others.map(|other| generate::alternating(&[first, other])),
        )
    };
    let mut shapes: Vec<Shape> = CHAINS.into_iter().map(chain).collect();
    shapes.extend(LEVELS.into_iter().map(in_turn));
    shapes.extend([
        Shape::new("32 calls of 255 arguments", modes(generate::nested_wide_calls(32, 255))),
        Shape::new("4,094 calls of 2 arguments", modes(generate::nested_wide_calls(MOST_NODES - 2, 2))),
        Shape::new("a map of 4,096 entries", modes(generate::large_map(&mut Random::new(1), MOST_NODES, 100))),
        Shape::new("4,095 maps over one list", modes(generate::overlapping_maps(MOST_NODES - 1))),
    ]);
    shapes
}

/// The number that the port answers, and the bytes of stack below its caller's frame that it wrote to.
pub fn stack_used(port: Port, tree: &Tree) -> (u32, usize) {
    on_thread(port, PAINTED + BESIDE, tree, |call| {
        let here = 0u8;
        let top = (&raw const here).wrapping_sub(NEAR).cast_mut();
        // SAFETY: these bytes lie below every live frame, inside this thread's own stack.
        unsafe { paint(top) };
        let number = call();
        // SAFETY: the same bytes.
        (number, NEAR + unsafe { painted_over(top) })
    })
}

/// The same call on a thread of the given stack. A stack too small ends the process.
pub fn runs_on(port: Port, stack: usize, tree: &Tree) -> u32 {
    on_thread(port, stack, tree, |call| call())
}

/// Buffers and slices are made outside of the thread: it has the call alone.
fn on_thread<T: Send>(
    port: Port,
    stack: usize,
    tree: &Tree,
    run: impl FnOnce(&mut dyn FnMut() -> u32) -> T + Send,
) -> T {
    let mut input = tree.input(Room::records(ROOM.0, ROOM.1, ROOM.2));
    thread::scope(|scope| {
        let input = &mut input;
        let spawned = thread::Builder::new().stack_size(stack).spawn_scoped(scope, move || {
            let asked = Asked {
                nodes: &input.nodes,
                root: input.root,
                mode: input.mode,
                list: &input.list,
                names: &input.names,
            };
            run(&mut || port.lower_into(asked, &mut input.code, &mut input.constants, &mut input.marks)[0])
        });
        spawned.expect("a thread").join().expect("no panic")
    })
}

#[inline(never)]
unsafe fn paint(top: *mut u8) {
    for below in 0..PAINTED {
        unsafe { top.sub(below).write_volatile(PAINT) };
    }
}

/// Bytes from the lowest one that has another colour up to the top.
#[inline(never)]
unsafe fn painted_over(top: *mut u8) -> usize {
    let mut below = PAINTED;
    while below > 0 && unsafe { top.sub(below - 1).read_volatile() } == PAINT {
        below -= 1;
    }
    below
}
