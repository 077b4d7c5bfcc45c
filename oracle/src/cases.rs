//! Trees written by hand, with what is known of their answers: document 01's own cases, the readings of its open
//! points, and every kind, operator, refusal and trap.

use crate::{
    expression::{Expression as E, P, X, Y, Z, and, binary, block, call, deref, empty_block, if_alone, if_else, map},
    expression::{negate, not, number, or, property, tree, x, y, z},
    generate,
    tree::{ABSENT, CONSTANT_WORDS, INSTRUCTION_WORDS, MOST_NODES, Node, Tree, kind, operator},
};

pub struct Case {
    pub name: String,
    pub tree: Tree,
    pub known: Known,
}

/// What a case's answer is known to hold; what is not known stands open.
#[derive(Clone, Debug, Default)]
pub struct Known {
    pub number: Option<u32>,
    pub place: Option<u32>,
    pub frame_size: Option<u32>,
    pub arity: Option<u32>,
    /// The first instructions.
    pub code: Vec<[u32; INSTRUCTION_WORDS]>,
    /// How many there are.
    pub instructions: Option<u32>,
    /// The first constants.
    pub constants: Vec<[u32; CONSTANT_WORDS]>,
    pub marks: Option<Vec<u32>>,
}

impl Known {
    /// Whether all the code is known.
    pub fn is_exact(&self) -> bool {
        self.instructions == Some(self.code.len() as u32)
    }
}

impl Case {
    fn new(name: &str, names: &[u32], expression: E) -> Case {
        Case { name: name.to_string(), tree: tree(0, names, &expression), known: Known::default() }
    }

    fn of(name: &str, tree: Tree) -> Case {
        Case { name: name.to_string(), tree, known: Known::default() }
    }

    fn mode(mut self, mode: u32) -> Case {
        self.tree.mode = mode;
        self
    }

    /// All instructions; unused words may be left out.
    fn code(mut self, code: &[&[u32]]) -> Case {
        self.known.code = code.iter().map(|record| filled(record)).collect();
        self.known.instructions = Some(code.len() as u32);
        self
    }

    fn starts(mut self, code: &[&[u32]]) -> Case {
        self.known.code = code.iter().map(|record| filled(record)).collect();
        self
    }

    fn instructions(mut self, count: u32) -> Case {
        self.known.instructions = Some(count);
        self
    }

    fn constants(mut self, constants: &[[u32; CONSTANT_WORDS]]) -> Case {
        self.known.constants = constants.to_vec();
        self
    }

    fn marks(mut self, marks: &[u32]) -> Case {
        self.known.marks = Some(marks.to_vec());
        self
    }

    fn accepted(self) -> Case {
        self.number(0)
    }

    fn number(mut self, number: u32) -> Case {
        self.known.number = Some(number);
        self
    }

    fn place(mut self, place: u32) -> Case {
        self.known.place = Some(place);
        self
    }

    fn frame(mut self, frame_size: u32) -> Case {
        self.known.frame_size = Some(frame_size);
        self
    }

    fn arity(mut self, arity: u32) -> Case {
        self.known.arity = Some(arity);
        self
    }
}

fn filled(record: &[u32]) -> [u32; INSTRUCTION_WORDS] {
    let mut words = [0; INSTRUCTION_WORDS];
    words[..record.len()].copy_from_slice(record);
    words
}

fn constant(value: f64) -> [u32; CONSTANT_WORDS] {
    [2, value.to_bits() as u32, (value.to_bits() >> 32) as u32]
}

const XY: &[u32] = &[X, Y];
const ONLY_X: &[u32] = &[X];

pub fn all() -> Vec<Case> {
    let mut cases = chosen();
    cases.extend(contexts());
    cases
}

/// All but the contexts.
pub fn chosen() -> Vec<Case> {
    [document(), readings(), operators(), kinds(), traps(), refusals(), malformed()].into_iter().flatten().collect()
}

/// Document 01's page, on its own words: no spans.
pub fn worked_page() -> Tree {
    let flow = 7;
    let words = binary(operator::LESS, E::Name(flow), number(3.0));
    let mut page = tree(0, &[flow], &if_else(words, number(1.0), number(2.0)));
    page.nodes.iter_mut().for_each(|node| (node[4], node[5]) = (0, 0));
    page
}

fn nils(count: usize) -> Vec<E> {
    vec![E::Nil; count]
}

fn symbols(count: u32) -> Vec<u32> {
    (0..count).collect()
}

/// "The program and its worked page".
fn document() -> Vec<Case> {
    let many = |count| tree(0, &symbols(count), &E::Nil);
    vec![
        Case::of("the worked page", worked_page())
            .accepted()
            .code(&[&[49, 0, 0, 3], &[26, 1, 1], &[41, 2], &[26, 1, 2], &[40, 1]])
            .constants(&[constant(3.0), constant(1.0), constant(2.0)])
            .frame(2)
            .arity(1)
            .place(0),
        Case::new("name x", ONLY_X, x()).accepted().code(&[&[40, 0]]).frame(1),
        Case::new("nil, no parameters", &[], E::Nil).accepted().code(&[&[26, 0, 0], &[40, 0]]),
        Case::new("1 + 2, none", &[], binary(operator::ADD, number(1.0), number(2.0)))
            .accepted()
            .code(&[&[26, 1, 0], &[26, 2, 1], &[0, 0, 1, 2], &[40, 0]])
            .frame(3),
        Case::new("2 - x", ONLY_X, binary(operator::SUBTRACT, number(2.0), x())).accepted().starts(&[&[4, 1, 0, 0]]),
        Case::new("2 + x", ONLY_X, binary(operator::ADD, number(2.0), x())).accepted().starts(&[&[1, 1, 0, 0]]),
        Case::new("x and y", XY, and(x(), y())).accepted().code(&[&[25, 2, 0], &[42, 2, 2], &[25, 2, 1], &[40, 2]]),
        Case::new("if x 1, no else", ONLY_X, if_alone(x(), number(1.0))).number(11).place(2).code(&[
            &[42, 0, 3],
            &[26, 1, 0],
            &[41, 0],
        ]),
        Case::new("z undeclared", XY, z()).number(9).place(0).code(&[]),
        Case::new("x(y)", XY, call(x(), [y()])).accepted().code(&[&[25, 3, 1], &[39, 2, 0, 1], &[40, 2]]),
        Case::new("y(x)", XY, call(y(), [x()])).number(15).place(2).code(&[]),
        Case::new("x(y.p)", XY, call(x(), [property(y(), P)])).number(17).place(0).instructions(3),
        Case::new("256 parameters, the first name", &symbols(256), E::Name(0)).accepted().code(&[&[40, 0]]).frame(256),
        Case::of("256 parameters, nil", many(256)).number(10).code(&[]),
        Case::of("257 parameters", many(257)).number(8).instructions(0),
        Case::of("4,096 nodes", blocks(MOST_NODES)).accepted().instructions(2),
        Case::of("4,097 nodes", blocks(MOST_NODES + 1)).number(1).instructions(0),
        Case::new("254 nil arguments to x", ONLY_X, call(x(), nils(254))).accepted().instructions(256),
        Case::new("255 nil arguments to x", ONLY_X, call(x(), nils(255))).number(18).place(254).instructions(257),
        Case::new(
            "2 - (x + 3)",
            ONLY_X,
            binary(operator::SUBTRACT, number(2.0), binary(operator::ADD, x(), number(3.0))),
        )
        .accepted()
        .constants(&[constant(3.0), constant(2.0)]),
    ]
}

/// Blocks around nil.
fn blocks(nodes: usize) -> Tree {
    let mut tree = Tree { root: nodes as u32 - 1, ..Tree::default() };
    tree.nodes.push([kind::NIL, 0, 0, 0, 0, 0]);
    (1..nodes as u32).for_each(|place| tree.nodes.push([kind::BLOCK, place - 1, 0, 0, 0, 0]));
    tree
}

/// Examples of how the open points of document 01 are read (docs/DECISIONS.md). The examples of one point have one number
/// before their names, which the recorded answers keep.
fn readings() -> Vec<Case> {
    let not_y_plus_x_of_x = binary(operator::ADD, not(y()), call(x(), [x()]));
    vec![
        Case::new("4: mode 1, x(1)", ONLY_X, call(x(), [number(1.0)]))
            .mode(1)
            .accepted()
            .code(&[&[26, 2, 0], &[39, 1, 0, 1], &[42, 1, 0]])
            .place(2)
            .frame(2)
            .arity(1),
        Case::new("4: mode 1, x(y.p)", XY, call(x(), [property(y(), P)])).mode(1).number(17).place(0).instructions(3),
        Case::new(
            "5: the first of two marks moved, the second refused",
            &symbols(128),
            call(E::Name(1), [number(1.0), E::Name(1)]),
        )
        .number(18)
        .place(0)
        .code(&[&[26, 129, 0], &[39, 128, 1, 2], &[40, 128]])
        .marks(&[0, 0]),
        Case::new("13: arity counts repeats", &[X, X, Y], x()).accepted().code(&[&[40, 1]]).arity(3),
        Case::new("14: (not y) + x(x)", XY, not_y_plus_x_of_x)
            .accepted()
            .code(&[&[23, 8, 1], &[39, 4, 0, 1], &[0, 2, 3, 4], &[40, 2]])
            .frame(5),
        Case::new("14: y(x) in an argument", XY, call(x(), [call(y(), [x()])])).number(15).place(3).code(&[]),
        Case::new("15: y(1, y)", XY, call(y(), [number(1.0), y()]))
            .accepted()
            .code(&[&[26, 6, 0], &[39, 2, 1, 2], &[40, 2]])
            .frame(3)
            .marks(&[0, 0]),
        Case::new("17: and refused on the right", ONLY_X, and(x(), z())).number(9).code(&[&[25, 1, 0], &[42, 1, 0]]),
        Case::new("17: if refused in its then", ONLY_X, if_else(x(), z(), x())).number(9).code(&[&[42, 0, 0]]),
        Case::new("17: if refused in its else", ONLY_X, if_else(x(), x(), z())).number(9).code(&[
            &[42, 0, 3],
            &[25, 1, 0],
            &[41, 0],
        ]),
        Case::new("18: {(not z)}", XY, map([(not(z()), None)])).number(12).place(1),
        Case::new("18: {z}", XY, map([(z(), None)])).number(9).place(0).code(&[&[27, 2]]),
        Case::new("18: {z: 1}", XY, map([(z(), Some(number(1.0)))])).accepted().code(&[
            &[27, 2],
            &[31, 2, 0, 1],
            &[40, 2],
        ]),
        Case::new("19: block of a name", ONLY_X, block(x())).accepted().code(&[&[25, 1, 0], &[40, 1]]),
        Case::of("19: a node used twice", twice()).accepted().code(&[
            &[23, 2, 0],
            &[23, 3, 0],
            &[0, 1, 2, 3],
            &[40, 1],
        ]),
        Case::new("20: x(1, y(2))", XY, call(x(), [number(1.0), call(y(), [number(2.0)])])).accepted().code(&[
            &[26, 3, 0],
            &[26, 3, 1],
            &[39, 4, 1, 1],
            &[39, 2, 0, 2],
            &[40, 2],
        ]),
        Case::new("21: x(if y 1 else 2)", XY, call(x(), [if_else(y(), number(1.0), number(2.0))]))
            .accepted()
            .starts(&[&[42, 1, 3], &[26, 0, 0], &[41, 2], &[26, 3, 1]]),
        Case::new("23: x(x and x)", XY, call(x(), [and(x(), x())])).number(17),
        Case::new("23: x(if y 1 else x)", XY, call(x(), [if_else(y(), number(1.0), x())])).number(17),
        Case::new("23: x({x})", XY, call(x(), [map([(x(), None)])])).number(17),
        Case::of("25: if x x else ..., as deep as can be", deep_else()).accepted().instructions(12_287).frame(2),
        Case::of("26: 4,095 blocks over nil", blocks(MOST_NODES)).accepted().instructions(2),
        Case::new("27: 1 + 1", &[], binary(operator::ADD, number(1.0), number(1.0)))
            .accepted()
            .constants(&[constant(1.0)]),
    ]
}

fn twice() -> Tree {
    let mut tree = tree(0, ONLY_X, &not(x()));
    tree.nodes.push([kind::BINARY, operator::ADD, 1, 1, 0, 0]);
    tree.root = 2;
    tree
}

fn deep_else() -> Tree {
    let mut tree = tree(0, ONLY_X, &x());
    for place in 1..MOST_NODES as u32 {
        tree.nodes.push([kind::IF, 0, 0, place - 1, 0, 0]);
    }
    tree.root = MOST_NODES as u32 - 1;
    tree
}

/// Every operator over every shape of operands, in every mode.
fn operators() -> Vec<Case> {
    let shapes: [(&str, E, E); 6] = [
        ("x, y", x(), y()),
        ("x, 3", x(), number(3.0)),
        ("3, x", number(3.0), x()),
        ("3, 4", number(3.0), number(4.0)),
        ("not x, not y", not(x()), not(y())),
        ("\"p\", not x", E::String(P), not(x())),
    ];
    let mut cases = vec![];
    for operation in 0..=operator::LESS_EQUAL {
        for (shape, left, right) in &shapes {
            for mode in 0..=2 {
                let name = format!("operator {operation} of {shape}, mode {mode}");
                cases.push(Case::new(&name, XY, binary(operation, left.clone(), right.clone())).mode(mode).accepted());
            }
        }
    }
    cases
}

/// One expression of each kind, and of each form that is lowered otherwise.
fn one_of_each() -> Vec<(&'static str, E)> {
    vec![
        ("number", number(1.5)),
        ("infinity", number(f64::INFINITY)),
        ("zero", number(0.0)),
        ("string", E::String(P)),
        ("true", E::Boolean(true)),
        ("false", E::Boolean(false)),
        ("nil", E::Nil),
        ("name", y()),
        ("binary", binary(operator::SUBTRACT, x(), y())),
        ("comparison", binary(operator::LESS_EQUAL, x(), number(2.0))),
        ("negate", negate(y())),
        ("deref", deref(y())),
        ("not", not(y())),
        ("and", and(x(), y())),
        ("or", or(x(), y())),
        ("if", if_else(binary(operator::GREATER, x(), y()), number(1.0), number(2.0))),
        ("block", block(x())),
        ("empty block", empty_block()),
        ("call", call(x(), [y()])),
        ("call without arguments", call(y(), [])),
        ("property", property(y(), P)),
        ("map", map([(x(), Some(y())), (E::String(P), Some(number(1.0)))])),
        ("empty map", map([])),
    ]
}

/// Every kind as the root, in every mode.
fn kinds() -> Vec<Case> {
    let mut cases = vec![];
    for (name, kind) in one_of_each() {
        for mode in 0..=2 {
            cases.push(Case::new(&format!("{name}, mode {mode}"), XY, kind.clone()).mode(mode).accepted());
        }
    }
    cases
}

/// Every kind in every place of every other.
pub fn contexts() -> Vec<Case> {
    let mut cases = vec![];
    for (name, kind) in one_of_each() {
        let inside = [
            ("not", not(kind.clone())),
            ("left of add", binary(operator::ADD, kind.clone(), y())),
            ("right of subtract", binary(operator::SUBTRACT, y(), kind.clone())),
            ("left of and", and(kind.clone(), y())),
            ("right of or", or(y(), kind.clone())),
            ("condition", if_else(kind.clone(), x(), y())),
            ("then", if_else(x(), kind.clone(), y())),
            ("else", if_else(x(), y(), kind.clone())),
            ("block", block(kind.clone())),
            ("callee", call(kind.clone(), [])),
            ("argument, after another", call(x(), [number(9.0), kind.clone()])),
            ("object", property(kind.clone(), P)),
            ("key", map([(kind.clone(), Some(y()))])),
            ("value of a name", map([(z(), Some(kind.clone()))])),
            ("value of a literal", map([(E::Nil, Some(kind.clone()))])),
        ];
        for (outside, expression) in inside {
            cases.push(Case::new(&format!("{name} in {outside}"), XY, expression));
        }
    }
    cases
}

/// Document 01's traps, and orders that a slip would change.
fn traps() -> Vec<Case> {
    let sum = |left: E, right: E| binary(operator::ADD, left, right);
    let compare = |left: E, right: E| binary(operator::LESS, left, right);
    let on_compared = |left: E, right: E| if_else(compare(left, right), x(), y());
    vec![
        Case::new("KR jump: 3 < x in a condition", XY, on_compared(number(3.0), x())).accepted(),
        Case::new("KR jump: x < 3 in a condition", XY, on_compared(x(), number(3.0))).accepted(),
        Case::new("a condition's registers stay held", XY, sum(on_compared(sum(x(), y()), sum(y(), x())), not(x())))
            .accepted(),
        Case::new("an if's condition stays held", XY, and(if_else(not(x()), x(), y()), not(y()))).accepted(),
        Case::new("destination before operands", XY, sum(sum(x(), y()), sum(y(), x()))).accepted(),
        Case::new("a binary's operands are given back", XY, sum(sum(not(x()), not(y())), sum(not(y()), not(x()))))
            .accepted(),
        Case::new(
            "map entries stay held",
            XY,
            sum(map([(not(x()), Some(not(y()))), (z(), Some(negate(x())))]), not(x())),
        )
        .accepted(),
        Case::new("a call's callee is given back", XY, sum(call(not(x()), []), not(y()))).accepted(),
        Case::new("a property's object is given back", XY, sum(property(not(x()), P), not(y()))).accepted(),
        Case::new("a name's key is pooled after its value", XY, map([(x(), Some(sum(y(), number(8.0))))])).accepted(),
        Case::new(
            "other keys are lowered before the value",
            XY,
            map([(sum(x(), number(1.0)), Some(sum(y(), number(2.0))))]),
        )
        .accepted(),
        Case::new("key pooled before value", XY, map([(number(1.0), Some(number(2.0))), (z(), Some(number(3.0)))]))
            .accepted(),
        Case::new("a literal key with a register", XY, map([(number(1.0), Some(sum(x(), number(2.0))))])).accepted(),
        Case::new("equal literals pooled once", XY, sum(sum(number(1.0), number(1.0)), sum(x(), number(1.0))))
            .accepted(),
        Case::new("string and key of one symbol", XY, sum(property(x(), P), E::String(P))).accepted(),
        Case::new("true is not 1", XY, map([(E::Boolean(true), Some(number(1.0))), (E::Boolean(false), Some(E::Nil))]))
            .accepted(),
        Case::new("the last parameter of a name wins", &[X, Y, X], sum(x(), y())).accepted(),
        Case::new("two literals compared in a condition", XY, on_compared(number(1.0), number(2.0))).accepted(),
        Case::new("greater swaps operands only", XY, binary(operator::GREATER, not(x()), not(y()))).accepted(),
        Case::new("an argument aimed at its own register", XY, call(x(), [number(1.0), y()])).accepted(),
        Case::new("a mark on another subtree", XY, sum(not(y()), call(x(), [x()]))).accepted(),
        Case::new("calls in calls", XY, call(x(), [call(y(), [number(1.0)]), call(y(), [number(2.0)])])).accepted(),
        Case::new("a key without value is looked up first", XY, map([(y(), None), (x(), None)])).accepted(),
        Case::new("nil of an empty block pooled before the code", XY, sum(empty_block(), E::Nil)).accepted(),
        Case::new("if as a condition", XY, if_else(if_else(x(), y(), x()), y(), x())).accepted(),
        Case::new("comparison of comparisons as a condition", XY, on_compared(compare(x(), y()), compare(y(), x())))
            .accepted(),
        Case::new("and as a condition", XY, if_else(and(x(), y()), y(), x())).accepted(),
        Case::new("no if without else inside a call", XY, call(x(), [if_alone(x(), y())])).number(11),
    ]
}

/// Every refusal on the walk.
fn refusals() -> Vec<Case> {
    let sum = |left: E, right: E| binary(operator::ADD, left, right);
    let mut cases = vec![
        Case::new("9 after code", XY, sum(not(x()), z())).number(9).instructions(1),
        Case::new("9 as a callee, after the argument", XY, call(z(), [number(1.0)])).number(9).marks(&[0]),
        Case::new("9 in a condition", XY, if_else(binary(operator::LESS, x(), z()), x(), y()))
            .number(9)
            .instructions(0),
        Case::new("11 in a map's value", XY, map([(z(), Some(if_alone(x(), y())))])).number(11),
        Case::new("11 of the inner if", XY, if_alone(x(), if_alone(x(), y()))).number(11),
        Case::new("11 in mode 1", XY, if_alone(x(), y())).mode(1).number(11),
        Case::new("12 after an entry", XY, map([(x(), None), (E::String(P), None)])).number(12),
        Case::new("12 of a number", XY, map([(number(1.0), None)])).number(12).place(0),
        Case::new("15 in mode 2", XY, call(y(), [x()])).mode(2).number(15).place(2),
        Case::new("15 of a call as an argument's argument", XY, call(y(), [call(x(), [x(), y()])])).number(15),
        Case::new("17 at a later place", XY, call(x(), [number(1.0), property(y(), P)])).number(17).place(1),
        Case::new("17 of a jump at the end of an if", XY, call(x(), [number(7.0), if_else(y(), x(), y())])).number(17),
    ];
    for parameters in [252, 253, 254, 255, 256] {
        let last = E::Name(parameters - 1);
        let name = format!("{parameters} parameters: ");
        let names = symbols(parameters);
        let case = |what: &str, expression: E| Case::new(&(name.clone() + what), &names, expression);
        cases.push(case("nil", E::Nil));
        cases.push(case("1 + 2", sum(number(1.0), number(2.0))));
        cases.push(case("name + (name + 1)", sum(last.clone(), sum(last.clone(), number(1.0)))));
        cases.push(case(
            "if name < name",
            if_else(binary(operator::LESS, last.clone(), E::Name(0)), last.clone(), E::Nil),
        ));
        cases.push(case("a call", call(last.clone(), [number(1.0)])));
        cases.push(case(
            "a map of two values",
            map([(E::Nil, Some(not(last.clone()))), (E::Nil, Some(not(last.clone())))]),
        ));
    }
    for (arguments, parameters) in [(127, 127), (128, 127), (128, 128), (129, 126), (100, 155), (101, 155)] {
        let name = format!("{arguments} nil arguments, {parameters} parameters");
        cases.push(Case::new(&name, &symbols(parameters), call(E::Name(0), nils(arguments))));
    }
    for shape in ["binary right, number left", "not", "if condition", "map value"] {
        for depth in [253, 254, 255] {
            let tree = generate::chain(shape, depth, 1, &[0, 1]);
            cases.push(Case::of(&format!("{shape}, {depth} deep"), tree));
        }
    }
    cases.push(Case::of("past 2,048 instructions", generate::doubling(11)));
    cases.push(Case::of("2,048 instructions", generate::doubling(10)));
    cases.push(Case::of("513 marks", many_marks(513)));
    cases.push(Case::of("512 marks", many_marks(512)));
    cases
}

/// Calls joined by or, with as many arguments in all.
fn many_marks(marks: u32) -> Tree {
    let mut tree = tree(0, ONLY_X, &x());
    tree.nodes.push([kind::NIL, 0, 0, 0, 0, 0]);
    tree.list = vec![1; 200];
    let mut left = marks;
    let mut joined = 0;
    while left > 0 {
        let count = left.min(200);
        tree.nodes.push([kind::CALL, 0, 0, count, 0, 0]);
        let call = tree.nodes.len() as u32 - 1;
        tree.nodes.push([kind::OR, joined, call, 0, 0, 0]);
        joined = call + 1;
        left -= count;
    }
    tree.root = joined;
    tree
}

/// Questions 1 to 8.
fn malformed() -> Vec<Case> {
    let good = || tree(0, XY, &binary(operator::ADD, x(), number(1.0)));
    let with = |nodes: &[Node], list: &[u32]| {
        let mut tree = Tree { names: XY.to_vec(), list: list.to_vec(), ..Tree::default() };
        tree.nodes.push([kind::NAME, X, 0, 0, 5, 6]);
        tree.nodes.extend_from_slice(nodes);
        tree.root = nodes.len() as u32;
        tree
    };
    let one = |kind: u32, a: u32, b: u32, c: u32| with(&[[kind, a, b, c, 7, 8]], &[]);
    let listed = |kind: u32, a: u32, b: u32, c: u32, list: &[u32]| with(&[[kind, a, b, c, 7, 8]], list);
    let number_of = |value: u64| one(kind::NUMBER, value as u32, (value >> 32) as u32, 0);
    let mut cases = vec![
        Case::of("1: no nodes", Tree::default()).number(1),
        Case::of("2: mode 3", Tree { mode: 3, ..good() }).number(2),
        Case::of("2: root past the nodes", Tree { root: 3, ..good() }).number(2),
        Case::of("2: root absent", Tree { root: ABSENT, ..good() }).number(2),
        Case::of("2 before 3", Tree { mode: 9, ..one(15, 0, 0, 0) }).number(2),
        Case::of("3: kind 15", one(15, 0, 0, 0)).number(3).place(1),
        Case::of("3: kind absent", one(ABSENT, 0, 0, 0)).number(3).place(1),
        Case::of("3: the lowest node first", with(&[[15, 0, 0, 0, 0, 0], [99, 0, 0, 0, 0, 0]], &[])).number(3).place(1),
        Case::of("4: boolean 2", one(kind::BOOLEAN, 2, 0, 0)).number(4).place(1),
        Case::of("4: operator 11", one(kind::BINARY, 11, 0, 0)).number(4).place(1),
        Case::of("4: unary 2", one(kind::UNARY, 2, 0, 0)).number(4).place(1),
        Case::of("4 before 7", one(kind::BINARY, 11, 9, 9)).number(4).place(1),
        Case::of("5: NaN", number_of(f64::NAN.to_bits())).number(5).place(1),
        Case::of("5: NaN in the low word alone", number_of(0x7FF0_0000_0000_0001)).number(5).place(1),
        Case::of("5: negative NaN", number_of(0xFFF0_0000_0000_0001)).number(5).place(1),
        Case::of("5: minus zero", number_of(0x8000_0000_0000_0000)).number(5).place(1),
        Case::of("minus the smallest number", number_of(0x8000_0000_0000_0001)).accepted(),
        Case::of("minus infinity", number_of(0xFFF0_0000_0000_0000)).accepted(),
        Case::of("4 before 5", one(kind::NUMBER, 1, 0x7FF0_0000, 1)).number(4).place(1),
        Case::of("6: call past the list", listed(kind::CALL, 0, 1, 1, &[0])).number(6).place(1),
        Case::of("6: no arguments, first place past the list", listed(kind::CALL, 0, 2, 0, &[0])).number(6).place(1),
        Case::of("no arguments, first place at the list's end", listed(kind::CALL, 0, 1, 0, &[0])).accepted(),
        Case::of("6: first place and count pass 32 bits", listed(kind::CALL, 0, ABSENT, 2, &[0])).number(6).place(1),
        Case::of("6: 256 arguments", listed(kind::CALL, 0, 0, 256, &[0; 256])).number(6).place(1),
        Case::of("255 arguments", listed(kind::CALL, 0, 0, 255, &[0; 255])),
        Case::of("6: map past the list", listed(kind::MAP, 0, 1, 0, &[0])).number(6).place(1),
        Case::of("6: a map's count doubles to 0", listed(kind::MAP, 0, 0x8000_0000, 0, &[0, 0])).number(6).place(1),
        Case::of("6: no entries, first place past the list", listed(kind::MAP, 1, 0, 0, &[])).number(6).place(1),
        Case::of("no entries, first place at the list's end", listed(kind::MAP, 2, 0, 0, &[0, 0])).accepted(),
        Case::of("6 before 7", listed(kind::CALL, 9, 0, 1, &[])).number(6).place(1),
        Case::of("7: itself", one(kind::NOT, 1, 0, 0)).number(7).place(1),
        Case::of("7: left absent", one(kind::BINARY, 0, ABSENT, 0)).number(7).place(1),
        Case::of("7: right absent", one(kind::BINARY, 0, 0, ABSENT)).number(7).place(1),
        Case::of("7: unary of itself", one(kind::UNARY, 0, 1, 0)).number(7).place(1),
        Case::of("7: and, left", one(kind::AND, 1, 0, 0)).number(7).place(1),
        Case::of("7: or, right", one(kind::OR, 0, 1, 0)).number(7).place(1),
        Case::of("7: condition absent", one(kind::IF, ABSENT, 0, 0)).number(7).place(1),
        Case::of("7: then absent", one(kind::IF, 0, ABSENT, 0)).number(7).place(1),
        Case::of("7: else itself", one(kind::IF, 0, 0, 1)).number(7).place(1),
        Case::of("7: tail itself", one(kind::BLOCK, 1, 0, 0)).number(7).place(1),
        Case::of("7: callee absent", one(kind::CALL, ABSENT, 0, 0)).number(7).place(1),
        Case::of("7: argument absent", listed(kind::CALL, 0, 0, 1, &[ABSENT])).number(7).place(1),
        Case::of("7: object itself", one(kind::PROPERTY, 1, P, 0)).number(7).place(1),
        Case::of("7: key absent", listed(kind::MAP, 0, 1, 0, &[ABSENT, 0])).number(7).place(1),
        Case::of("7: value itself", listed(kind::MAP, 0, 1, 0, &[0, 1])).number(7).place(1),
        Case::of("7 of an unreachable node", Tree { root: 0, ..one(kind::NOT, 1, 0, 0) }).number(7).place(1),
        Case::of("list words of no node", listed(kind::NOT, 0, 0, 0, &[ABSENT, 77])).accepted(),
        Case::of("overlapping list parts", overlapping()).accepted(),
        Case::of("7 before 8", Tree { names: symbols(257), ..one(kind::NOT, 1, 0, 0) }).number(7).place(1),
        Case::of("8 before 9", Tree { names: symbols(257), ..one(kind::NAME, Z + 1000, 0, 0) }).number(8).place(0),
    ];
    // Each unused word, one at a time.
    let unused: [(u32, &[usize]); 11] = [
        (kind::NUMBER, &[3]),
        (kind::STRING, &[2, 3]),
        (kind::BOOLEAN, &[2, 3]),
        (kind::NIL, &[1, 2, 3]),
        (kind::NAME, &[2, 3]),
        (kind::UNARY, &[3]),
        (kind::NOT, &[2, 3]),
        (kind::AND, &[3]),
        (kind::BLOCK, &[2, 3]),
        (kind::PROPERTY, &[3]),
        (kind::MAP, &[3]),
    ];
    for (kind, places) in unused {
        for &place in places {
            let mut tree = one(kind, 0, 0, 0);
            tree.nodes[1][place] = 1;
            cases.push(Case::of(&format!("4: kind {kind}, unused word {place}"), tree).number(4).place(1));
        }
    }
    cases
}

fn overlapping() -> Tree {
    let mut tree = tree(0, XY, &x());
    tree.list = vec![0, 0, 0];
    tree.nodes.push([kind::MAP, 0, 1, 0, 0, 0]);
    tree.nodes.push([kind::MAP, 1, 1, 0, 0, 0]);
    tree.nodes.push([kind::AND, 1, 2, 0, 0, 0]);
    tree.root = 3;
    tree
}
