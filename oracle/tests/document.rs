//! Document 01's cases and the readings of its open points, on kaori, on the model and on the port.

use oracle::{
    cases::{self, Case, Known},
    compare::Patch,
    expression::{self, Expression, X, Y, and, binary, call, if_else, map, not, number, property, x, y, z},
    generate, model, port,
    reference::{instruction_names, reference, reference_answer, reference_patch},
    text,
    tree::{Answer, MOST_INSTRUCTIONS, MOST_NODES, Room, Tree, bytes, kind, operator, words},
};
use std::thread;

/// Trees of 4,096 levels need more than a test's own stack.
fn deep(test: fn()) {
    thread::Builder::new().stack_size(1 << 30).spawn(test).unwrap().join().unwrap()
}

fn records<const W: usize>(bytes: &[u8], count: usize) -> Vec<[u32; W]> {
    words(bytes).chunks_exact(W).take(count).map(|record| record.try_into().unwrap()).collect()
}

fn ample() -> Room {
    Room::records(20_000, 2_000, 2_000)
}

fn check(case: &Case, by: &str, answer: &Answer) {
    let Known { number, place, frame_size, arity, code, instructions, constants, marks } = &case.known;
    let [result_number, result_place, _, _, made, pooled, frame, parameters] = answer.result;
    let name = format!("{} by {by}: {:?}", case.name, answer.result);
    let same = |known: &Option<u32>, given: u32, what: &str| {
        if let Some(known) = known {
            assert_eq!(*known, given, "{what} of {name}");
        }
    };
    same(number, result_number, "number");
    same(place, result_place, "place");
    same(frame_size, frame, "frame size");
    same(arity, parameters, "arity");
    same(instructions, made, "instructions");
    assert!(made as usize >= code.len() && pooled as usize >= constants.len(), "counts of {name}");
    assert_eq!(records::<4>(&answer.code, code.len()), *code, "code of {name}");
    assert_eq!(records::<3>(&answer.constants, constants.len()), *constants, "constants of {name}");
    if let Some(marks) = marks {
        assert_eq!(words(&answer.marks)[..marks.len()], marks[..], "marks of {name}");
    }
}

#[test]
fn every_case_by_kaori_the_model_and_the_port() {
    deep(|| {
        for case in cases::all() {
            let input = case.tree.input(ample());
            let modelled = model::lower(&input);
            check(&case, "the model", &modelled);
            let ported = port::lower(&input);
            check(&case, "the port", &ported);
            assert_eq!(ported, modelled, "{}", case.name);
            match case.tree.is_checked() {
                true => {
                    let plain = reference(&case.tree).answer(&input);
                    check(&case, "kaori", &plain);
                    assert_eq!(plain, modelled, "{}", case.name);
                    assert_eq!(reference_answer(&input).unwrap().0, modelled, "{}, bounded", case.name);
                }
                false => assert!((1..=8).contains(&modelled.result[0]), "{}", case.name),
            }
        }
    });
}

const PAGE: &str = "          0          5          6          0          1
          4          7          0          0          0          0
          0          0 1074266112          0          0          0
          5          9          0          1          0          0
          0          0 1072693248          0          0          0
          0          0 1073741824          0          0          0
         10          2          3          4          0          0
          7
";

const PRINTED: &str = "          0          0          0          0          5          3          2          1
         49          0          0          3
         26          1          1          0
         41          2          0          0
         26          1          2          0
         40          1          0          0
          2          0 1074266112
          2          0 1072693248
          2          0 1073741824
";

#[test]
fn the_worked_page() {
    assert_eq!(text::write(&cases::worked_page()), PAGE);
    assert_eq!(text::read(PAGE.as_bytes()), Some(cases::worked_page()));
    assert_eq!(text::lowerlist(PAGE.as_bytes(), model::lower), PRINTED);
    assert_eq!(text::lowerlist(PAGE.as_bytes(), port::lower), PRINTED);
    assert_eq!(text::lowerlist(PAGE.as_bytes(), |input| reference_answer(input).unwrap().0), PRINTED);
}

#[test]
fn every_number_has_a_case() {
    deep(|| {
        let numbers: Vec<u32> = cases::all()
            .iter()
            .flat_map(|case| {
                [ample(), text::lowerlist_room(), Room::records(9, 0, 9)].map(|room| (case.tree.clone(), room))
            })
            .map(|(tree, room)| model::lower(&tree.input(room)).result[0])
            .collect();
        (0..=18).for_each(|number| assert!(numbers.contains(&number), "number {number}"));
    });
}

/// kaori over bounded buffers, the model and the port, which must agree.
fn agreed(tree: &Tree, room: Room) -> Answer {
    let input = tree.input(room);
    let modelled = model::lower(&input);
    assert_eq!(reference_answer(&input).expect("a checked tree").0, modelled);
    assert_eq!(port::lower(&input), modelled);
    modelled
}

fn lowered(names: &[u32], expression: Expression, room: Room) -> Answer {
    agreed(&expression::tree(0, names, &expression), room)
}

/// A text is past the bounds by nodes, list words and parameters; the buffers refuse on their own.
#[test]
fn bounds_of_the_program() {
    deep(|| {
        let zeros = text::line(&[1, 0, 0, 0, 0, 0, 0, 0]);
        let with = |nodes: usize, list: usize, names: usize| {
            let nodes = vec![[kind::NAME, 0, 0, 0, 0, 0]; nodes];
            let tree = Tree { nodes, list: vec![0; list], names: vec![0; names], ..Tree::default() };
            text::lowerlist(text::write(&tree).as_bytes(), model::lower)
        };
        assert!(with(512, 512, 256).starts_with("          0"));
        [(513, 0, 1), (1, 513, 1), (1, 0, 257)].iter().for_each(|&(n, l, p)| assert_eq!(with(n, l, p), zeros));
        let long = text::lowerlist(text::write(&generate::doubling(11)).as_bytes(), model::lower);
        assert!(
            long.starts_with(
                "         13          0          0          0       2048          0          0          0"
            )
        );
        assert_eq!(long.lines().count(), 1 + 2048);
    });
}

/// Exactly 1,048,576 instructions may be made, whatever the room.
#[test]
fn most_instructions() {
    deep(|| {
        let made = |tree: &Tree| agreed(tree, Room::records(MOST_INSTRUCTIONS + 9, 1, 1)).result;
        // A level is two of the level below and a jump: with Return, 20 levels of code from the name up are 2^20.
        let mut tree = generate::doubling(19);
        assert_eq!(made(&tree), [0, 0, 0, 0, MOST_INSTRUCTIONS as u32, 0, 2, 1]);
        tree.nodes.push([kind::NOT, tree.root, 0, 0, 0, 0]);
        tree.root += 1;
        assert_eq!(made(&tree), [13, 0, 0, 0, MOST_INSTRUCTIONS as u32, 0, 0, 0]);
    });
}

/// Capacity is whole records, and bytes past them stay.
#[test]
fn whole_records() {
    let sum = || binary(operator::ADD, x(), number(1.0));
    let room = |code, constants, marks| Room { code, constants, marks };
    assert_eq!(lowered(&[X], sum(), room(2 * 16, 12, 0)).result[0], 0);
    let short = lowered(&[X], sum(), room(2 * 16 - 1, 12, 0));
    assert_eq!(short.result, [13, 0, 0, 0, 1, 1, 0, 0]);
    assert_eq!(lowered(&[X], sum(), room(2 * 16, 11, 0)).result, [14, 0, 0, 0, 0, 0, 0, 0]);
    let tree = expression::tree(0, &[X], &sum());
    for slice in 0..3 {
        let mut input = tree.input(ample());
        [&mut input.nodes, &mut input.list, &mut input.names][slice].push(0);
        assert_eq!(model::lower(&input).result, [1, 0, 0, 0, 0, 0, 0, 0]);
        assert!(reference_answer(&input).is_none());
    }
}

/// Patching, by the model and by the port.
const PATCHES: [&Patch; 2] = [&model::patch, &port::patch];

/// Which kinds are jumps, and which word holds the offset, for all 55.
#[test]
fn patching() {
    assert_eq!(instruction_names().len(), 55);
    for (kind, (name, fields)) in instruction_names().iter().enumerate() {
        let mut record = [kind as u32, 0, 0, 0];
        (1..=fields.len()).for_each(|word| record[word] = word as u32);
        let (number, after) = reference_patch(&[record], 0, 0xFFFF_FFFE).expect("an instruction of kaori's");
        for patch in PATCHES {
            let mut code = bytes(&record);
            assert_eq!(patch(&mut code, 1, 0, 0xFFFF_FFFE), number, "{name}");
            assert_eq!(code, bytes(&after[0]), "{name}");
        }
        assert_eq!(number == 0, (41..=53).contains(&kind), "{name}");
        let offset = fields.iter().position(|field| *field == "offset").map(|place| place + 1);
        let expected = match kind {
            41 => Some(1),
            42 | 43 => Some(2),
            44..=53 => Some(3),
            _ => None,
        };
        assert_eq!(offset, expected, "{name}");
    }
    let jump = bytes(&[41, 0, 0, 0]);
    for patch in PATCHES {
        let patch = |length: usize, count, index| patch(&mut jump.repeat(3)[..length], count, index, 5);
        assert_eq!(
            [patch(48, 3, 2), patch(48, 3, 3), patch(48, 4, 1), patch(47, 3, 1), patch(47, 2, 1)],
            [0, 19, 19, 19, 0]
        );
        assert_eq!([patch(48, 0, 0), patch(48, u32::MAX, 1), patch(48, 3, u32::MAX)], [19, 19, 19]);
    }
}

/// A list part at the list's end, and counts that pass 32 bits.
#[test]
fn list_parts() {
    for case in cases::all().iter().filter(|case| case.name.contains("list's end") || case.name.starts_with("6")) {
        let number = model::lower(&case.tree.input(ample())).result[0];
        assert_eq!(number, case.known.number.unwrap(), "{}", case.name);
    }
}

/// 15 is asked before 16.
#[test]
fn nothing_to_mark_before_no_room() {
    assert_eq!(lowered(&[X, Y], call(y(), [x()]), Room::records(9, 9, 0)).result[0], 15);
    assert_eq!(lowered(&[X, Y], call(x(), [y()]), Room::records(9, 9, 0)).result[0], 16);
}

/// Register (10), then pool (14), then code (13); and what takes its destination when.
#[test]
fn order_of_refusals() {
    let names: Vec<u32> = (0..256).collect();
    let none = Room::records(0, 0, 0);
    let name = || Expression::Name(0);
    let first = |names: &[u32], expression: Expression, room: Room| lowered(names, expression, room).result[0];
    let arms = [
        (Expression::Nil, 14),
        (binary(operator::ADD, name(), name()), 13),
        (binary(operator::ADD, name(), Expression::Nil), 14),
        (not(name()), 13),
        (and(name(), name()), 13),
        (expression::empty_block(), 14),
        (expression::block(name()), 13),
        (property(name(), 5), 14),
        (map([]), 13),
        (call(name(), []), 13),
        (if_else(name(), name(), name()), 13),
    ];
    for (expression, number) in arms {
        let shown = format!("{expression:?}");
        assert_eq!(first(&[0], expression.clone(), none), number, "{shown}");
        // With no register left the destination is refused first; an if asks for the condition's jump before.
        let full = if matches!(expression, Expression::If(..)) { 13 } else { 10 };
        assert_eq!(first(&names, expression, none), full, "{shown}");
    }
    let undeclared = || Expression::Name(999);
    // Taken before anything else: 10 and not 9. A call takes it after its arguments, an if after its condition.
    assert_eq!(first(&names, not(undeclared()), none), 10);
    assert_eq!(first(&names, call(undeclared(), []), none), 10);
    assert_eq!(first(&names, call(name(), [undeclared()]), none), 9);
    assert_eq!(first(&names, if_else(undeclared(), name(), name()), none), 9);
}

/// The key of a property is pooled after its object is lowered.
#[test]
fn keys_are_pooled_late() {
    let answer = lowered(&[X], property(binary(operator::ADD, x(), number(1.0)), 5), ample());
    assert_eq!(records::<3>(&answer.constants, 2)[1], [3, 5, 0]);
    assert_eq!(lowered(&[X], map([(x(), Some(z()))]), ample()).result[5], 0);
}

/// Chains as deep as can be.
#[test]
fn deep_chains() {
    deep(|| {
        for shape in generate::CHAINS {
            let tree = generate::chain(shape, MOST_NODES, 1, &[0, 1]);
            if tree.walk_size() < 1_000_000 {
                agreed(&tree, ample());
            }
        }
    });
}

#[test]
fn a_pooled_constant_needs_no_room() {
    let sum = binary(operator::ADD, number(1.0), number(1.0));
    assert_eq!(lowered(&[], sum, Room::records(4, 1, 0)).result, [0, 0, 0, 0, 4, 1, 3, 0]);
}
