//! The clock: the same trees lowered by the port and by kaori, from one driver.

use crate::{
    generate::number_words,
    plain::Prepared,
    port::{Asked, Port},
    reference::reference,
    tree::{ABSENT, Answer, Input, Room, Tree, kind, operator},
};
use std::{
    fmt,
    hint::black_box,
    time::{Duration, Instant},
};

/// Sizes in nodes.
pub const SIZES: [usize; 3] = [16, 256, 4096];

/// How long one batch of lowerings takes at least, and how many batches there are by default; the fastest counts.
const BATCH: Duration = Duration::from_millis(1);
pub const ROUNDS: usize = 100;

/// What the port may take in a cell, over kaori's time, for `clock --check`.
pub const MOST_RATIO: f64 = 1.3;

/// Different literals and property names where there are few.
const FEW: usize = 4;

/// Parameters of a tree; and of a tree of many names.
const PARAMETERS: u32 = 8;
const MANY_PARAMETERS: u32 = 200;

/// From one name to the next, in parameters. It shares no factor with 8 or 200, so every parameter is met.
const STEP: usize = 73;

#[derive(Clone, Copy, Debug, PartialEq, Eq)]
pub enum Form {
    Deep,
    Bushy,
    Calls,
    Maps,
    Properties,
    Names,
}

#[derive(Clone, Copy, Debug, PartialEq, Eq)]
pub enum Constants {
    Few,
    Many,
}

/// One tree that is timed.
#[derive(Clone, Copy, Debug, PartialEq, Eq)]
pub struct Row {
    pub nodes: usize,
    pub form: Form,
    pub constants: Constants,
}

impl fmt::Display for Row {
    fn fmt(&self, f: &mut fmt::Formatter) -> fmt::Result {
        let [form, constants] = [format!("{:?}", self.form), format!("{:?}", self.constants)];
        write!(f, "{:>5}  {:<10}  {:<4}", self.nodes, form.to_lowercase(), constants.to_lowercase())
    }
}

/// The cells that `clock --check` looks at: every size, deep and bushy, few constants and many.
pub fn cells() -> Vec<Row> {
    let forms = [Form::Deep, Form::Bushy];
    let cells = SIZES.into_iter().flat_map(|nodes| forms.map(|form| (nodes, form)));
    cells
        .flat_map(|(nodes, form)| [Constants::Few, Constants::Many].map(|constants| Row { nodes, form, constants }))
        .collect()
}

/// The cells; then the kinds that they do not have, and names among many parameters, with few constants.
pub fn rows() -> Vec<Row> {
    let forms = [Form::Calls, Form::Maps, Form::Properties, Form::Names];
    let others = forms.into_iter().flat_map(|form| SIZES.map(|nodes| Row { nodes, form, constants: Constants::Few }));
    cells().into_iter().chain(others).collect()
}

pub struct Timing {
    /// What was made.
    pub instructions: u32,
    pub pooled: u32,
    /// Nanoseconds a node: kaori over vectors that keep their room, kaori over new ones, and each port.
    pub kaori_kept: f64,
    pub kaori_new: f64,
    pub ports: Vec<f64>,
}

impl Timing {
    /// Below 1 the port is the faster. kaori at its best: its vectors have room from the lowering before.
    pub fn ratios(&self) -> Vec<f64> {
        let kaori = self.kaori_kept.min(self.kaori_new);
        self.ports.iter().map(|port| port / kaori).collect()
    }
}

/// Who lowers.
#[derive(Clone, Copy)]
enum Side {
    KaoriKept,
    KaoriNew,
    Port(Port),
}

/// How many lowerings a batch of it has, and nanoseconds a lowering in the fastest.
struct Timed {
    side: Side,
    times: u32,
    fastest: f64,
}

/// A call with just the room that it needs, and kaori's answer to it.
fn asked(tree: &Tree) -> (Input, Answer) {
    let wanted = reference(tree);
    let input = tree.input(Room::records(wanted.code.len(), wanted.constants.len(), wanted.marks.len()));
    let answer = wanted.answer(&input);
    (input, answer)
}

impl Row {
    /// Whether the port gives kaori's answer, all of it.
    pub fn is_answered_by(self, port: Port) -> bool {
        let (mut input, answer) = asked(&self.tree());
        let result = lower(port, &mut input);
        let Input { code, constants, marks, .. } = input;
        Answer { result, code, constants, marks } == answer
    }

    /// A batch of each side in turn, for `rounds` rounds. What is slow for a while is slow for all.
    pub fn timing(self, ports: &[Port], rounds: usize) -> Timing {
        let tree = self.tree();
        let (mut input, answer) = asked(&tree);
        let [number, .., instructions, pooled, _, _] = answer.result;
        let mut prepared = Prepared::new(&tree);
        let mut run = |side| match side {
            Side::KaoriKept => prepared.lower_kept(),
            Side::KaoriNew => prepared.lower_new(),
            Side::Port(port) => lower(port, &mut input)[4] as usize,
        };
        let sides = [Side::KaoriKept, Side::KaoriNew].into_iter().chain(ports.iter().copied().map(Side::Port));
        let mut all: Vec<Timed> = sides
            .map(|side| {
                assert_eq!((number, run(side)), (0, instructions as usize), "the same work, all of it");
                Timed { side, times: times_for(BATCH, &mut || run(side)), fastest: f64::INFINITY }
            })
            .collect();
        for _ in 0..rounds {
            for timed in &mut all {
                timed.fastest = timed.fastest.min(batch(timed.times, &mut || run(timed.side)));
            }
        }
        let mut a_node: Vec<f64> = all.iter().map(|timed| timed.fastest / self.nodes as f64).collect();
        let ports = a_node.split_off(2);
        Timing { instructions, pooled, kaori_kept: a_node[0], kaori_new: a_node[1], ports }
    }
}

fn lower(port: Port, input: &mut Input) -> [u32; 8] {
    let asked =
        Asked { nodes: &input.nodes, root: input.root, mode: input.mode, list: &input.list, names: &input.names };
    port.lower_into(black_box(asked), &mut input.code, &mut input.constants, &mut input.marks)
}

/// How often to run for a batch of the given time.
fn times_for(time: Duration, run: &mut dyn FnMut() -> usize) -> u32 {
    let mut times = 1;
    loop {
        let taken = batch(times, run) * times as f64;
        if taken >= time.as_nanos() as f64 {
            return times;
        }
        times *= 2;
    }
}

/// Nanoseconds a run.
fn batch(times: u32, run: &mut dyn FnMut() -> usize) -> f64 {
    let started = Instant::now();
    for _ in 0..times {
        black_box(run());
    }
    started.elapsed().as_nanos() as f64 / times as f64
}

impl Row {
    /// A tree that is accepted, with few or many literals among its leaves.
    pub fn tree(self) -> Tree {
        let parameters = if self.form == Form::Names { MANY_PARAMETERS } else { PARAMETERS };
        let mut maker = Maker {
            tree: Tree { names: (0..parameters).collect(), ..Tree::default() },
            literals: if self.constants == Constants::Few { FEW } else { usize::MAX },
            leaves: 0,
            inner: 0,
        };
        let root = match self.form {
            Form::Deep => maker.deep(self.nodes),
            Form::Bushy => maker.bushy(self.nodes),
            Form::Calls => maker.ands(self.nodes, Maker::call),
            Form::Maps => maker.ands(self.nodes, Maker::map),
            Form::Properties => maker.ands(self.nodes, Maker::properties),
            Form::Names => maker.ands(self.nodes, Maker::names),
        };
        maker.tree.root = root;
        assert!(maker.tree.is_checked() && maker.tree.nodes.len() == self.nodes, "a tree of {} nodes", self.nodes);
        maker.tree
    }
}

struct Maker {
    tree: Tree,
    literals: usize,
    leaves: usize,
    inner: usize,
}

impl Maker {
    fn push(&mut self, [kind, a, b, c]: [u32; 4]) -> u32 {
        let place = self.tree.nodes.len() as u32;
        self.tree.nodes.push([kind, a, b, c, 10 * place, 10 * place + 7]);
        place
    }

    fn name(&mut self) -> u32 {
        self.leaves += 1;
        let parameter = self.leaves * STEP % self.tree.names.len();
        self.push([kind::NAME, parameter as u32, 0, 0])
    }

    /// Numbers for the most part, and strings.
    fn literal(&mut self) -> u32 {
        self.leaves += 1;
        let literal = self.leaves % self.literals;
        match literal % 4 {
            3 => self.push([kind::STRING, literal as u32, 0, 0]),
            _ => self.push(number_words(literal as f64 * 0.25)),
        }
    }

    fn leaf(&mut self) -> u32 {
        if self.leaves.is_multiple_of(2) { self.name() } else { self.literal() }
    }

    fn operator(&mut self) -> u32 {
        self.inner += 1;
        self.inner as u32 % 11
    }

    /// Three nodes: an operator over a name and a literal.
    fn operation(&mut self, operator: u32) -> u32 {
        let (left, right) = (self.name(), self.literal());
        self.push([kind::BINARY, operator, left, right])
    }

    /// Levels over each other, each with an operation of its own beside the level below.
    fn deep(&mut self, nodes: usize) -> u32 {
        let mut below = self.name();
        for level in 0.. {
            let left = nodes - self.tree.nodes.len();
            if left < 6 {
                (0..left).for_each(|_| below = self.push([kind::BLOCK, below, 0, 0]));
                break;
            }
            below = match level % 5 {
                0 => {
                    let operator = self.operator();
                    let beside = self.operation(operator);
                    self.push([kind::AND, beside, below, 0])
                }
                1 => {
                    let operator = self.operator();
                    let beside = self.operation(operator);
                    self.push([kind::OR, below, beside, 0])
                }
                2 => {
                    let (condition, then) = (self.operation(operator::LESS), self.literal());
                    self.push([kind::IF, condition, then, below])
                }
                3 => self.push([kind::BLOCK, below, 0, 0]),
                _ => {
                    let (condition, otherwise) = (self.name(), self.literal());
                    self.push([kind::IF, condition, below, otherwise])
                }
            };
        }
        below
    }

    /// Ands over each other, each with a part of its own on the right. The parts with their ands have 15 nodes in a
    /// cycle of each form, so that 16, 256 and 4,096 nodes are a name and whole cycles.
    fn ands(&mut self, nodes: usize, part: fn(&mut Maker, usize) -> u32) -> u32 {
        let mut below = self.name();
        for place in 0.. {
            if self.tree.nodes.len() >= nodes {
                break;
            }
            let beside = part(self, place);
            below = self.push([kind::AND, below, beside, 0]);
        }
        below
    }

    /// Seven nodes, a call of a name with two literals and an operation; then six, with one literal.
    fn call(&mut self, place: usize) -> u32 {
        let callee = self.name();
        let mut arguments: Vec<u32> = (0..2 - place % 2).map(|_| self.literal()).collect();
        let operator = self.operator();
        arguments.push(self.operation(operator));
        let first = self.list(&arguments);
        self.push([kind::CALL, callee, first, arguments.len() as u32])
    }

    /// Five nodes, a map from a name to a literal and from a literal to a name, twice; then two, with a name alone.
    fn map(&mut self, place: usize) -> u32 {
        let entries = match place % 3 {
            2 => vec![self.name(), ABSENT],
            _ => vec![self.name(), self.literal(), self.literal(), self.name()],
        };
        let first = self.list(&entries);
        self.push([kind::MAP, first, entries.len() as u32 / 2, 0])
    }

    /// Three nodes, a property of a property of a name, three times; then two, a property of a name.
    fn properties(&mut self, place: usize) -> u32 {
        let mut object = self.name();
        for _ in 0..if place % 4 == 3 { 1 } else { 2 } {
            self.leaves += 1;
            object = self.push([kind::PROPERTY, object, (self.leaves % self.literals) as u32, 0]);
        }
        object
    }

    /// Three nodes, an operator over two names, three times; then two, the negation of a name.
    fn names(&mut self, place: usize) -> u32 {
        let left = self.name();
        if place % 4 == 3 {
            return self.push([kind::NOT, left, 0, 0]);
        }
        let (right, operator) = (self.name(), self.operator());
        self.push([kind::BINARY, operator, left, right])
    }

    /// Words put at the list's end: the place of the first.
    fn list(&mut self, words: &[u32]) -> u32 {
        let first = self.tree.list.len() as u32;
        self.tree.list.extend(words);
        first
    }

    /// Operators over two halves.
    fn bushy(&mut self, nodes: usize) -> u32 {
        match nodes {
            1 => self.leaf(),
            2 => {
                let below = self.leaf();
                self.push([kind::NOT, below, 0, 0])
            }
            _ => {
                let left = self.bushy((nodes - 1) / 2);
                let right = self.bushy(nodes - 1 - (nodes - 1) / 2);
                self.inner += 1;
                match self.inner % 8 {
                    0 => self.push([kind::AND, left, right, 0]),
                    1 => self.push([kind::OR, left, right, 0]),
                    _ => {
                        let operator = self.operator();
                        self.push([kind::BINARY, operator, left, right])
                    }
                }
            }
        }
    }
}
