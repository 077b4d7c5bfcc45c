//! Recorded answers: files that a program can replay as tables of bytes.

use crate::{
    cases::{self, Case},
    model, port,
    reference::{Source, instruction_names, reference, reference_answer, reference_patch},
    text,
    tree::{Answer, Input, Room, Tree, bytes, words},
};

/// How every file is laid out; each has its own lines on texts and answers before.
const LAYOUT: &str = "\
#
# Lines that begin with '#' stand only here, before the rest. Then, every line ended by a line feed and every number
# right-justified in a column of 11:
#   one line: the number of cases.
# And for each case:
#   one line: the case's place from 0, its source, the bytes of its text, the bytes of its answer, a space, a name;
#   the text;
#   the answer.
# Nothing follows the last answer.
#
# Source: 0 kaori's own answer; 1 kaori panics there, and document 01 gives the panic its number; 2 document 01's
# answer, kaori has none (refused before the walk, a bound, or a text laid out otherwise).
";

const LISTINGS: &str = "\
# Recorded answers for `lowerlist`: the text it reads, and what it must print.
";

const CALLS: &str = "\
# Recorded calls of the lowering.
#
# Text: one line of mode, root and the bytes of nodes, list, names, code, constants and marks; then the whole words of
# nodes, list and names, one to a line. Bytes of these past their whole words are 0. Before the call, byte i of code, of
# constants and of marks is (7 i + 165) mod 256.
# Answer: one line of the eight numbers; then the whole words of code, constants and marks after the call, one to a
# line. Bytes past them stay.
";

const PATCHES: &str = "\
# Recorded calls of patching.
#
# Text: one line of the bytes of code, count, index and offset; then the whole words of code, one to a line. Bytes past
# them are 0.
# Answer: the number; then the whole words of code after the call, one to a line.
";

/// Sources, as the layout says.
pub const KAORI: u32 = 0;
pub const PANIC: u32 = 1;
pub const DOCUMENT: u32 = 2;

pub struct Recorded {
    pub name: String,
    pub source: u32,
    pub text: Vec<u8>,
    pub answer: String,
}

pub struct File {
    pub name: &'static str,
    pub about: &'static str,
    pub cases: Vec<Recorded>,
}

/// Most bytes of text and listing in the first file.
const SHORT: usize = 6000;

/// Listings that are short, longer ones and contexts, calls with buffers of every size, patches.
pub fn files() -> [File; 4] {
    let mut chosen: Vec<Recorded> = cases::chosen().iter().filter_map(record_case).collect();
    chosen.extend(odd_texts().into_iter().map(|(name, text)| record(format!("text: {name}"), text)));
    let (short, mut rest): (Vec<_>, Vec<_>) =
        chosen.into_iter().partition(|case| case.text.len() + case.answer.len() <= SHORT);
    rest.extend(cases::contexts().iter().filter_map(record_case));
    [
        File { name: "answers.txt", about: LISTINGS, cases: short },
        File { name: "more.txt", about: LISTINGS, cases: rest },
        File { name: "calls.txt", about: CALLS, cases: calls() },
        File { name: "patches.txt", about: PATCHES, cases: patches() },
    ]
}

/// None for a tree that no text can hold.
fn record_case(case: &Case) -> Option<Recorded> {
    let text = text::write(&case.tree).into_bytes();
    text::read(&text).is_some().then(|| record(case.name.clone(), text))
}

fn record(name: String, text: Vec<u8>) -> Recorded {
    let mut source = DOCUMENT;
    let answer = text::lowerlist(&text, |input| {
        let (answer, from) = agreed_answer(&name, input);
        source = from;
        answer
    });
    Recorded { name, source, text, answer }
}

/// The answer to record, with its source.
fn agreed_answer(name: &str, input: &Input) -> (Answer, u32) {
    let (answer, source) = kaori_or_model(input);
    assert!(answer == model::lower(input), "kaori and the model differ on {name}");
    assert!(answer == port::lower(input), "the port differs on {name}");
    let source = match source {
        Some(Source::Kaori) => KAORI,
        Some(Source::Panic) => PANIC,
        Some(Source::Bound) | None => DOCUMENT,
    };
    (answer, source)
}

/// kaori's answer and how it came about, or the model's where kaori has none.
pub fn kaori_or_model(input: &Input) -> (Answer, Option<Source>) {
    match reference_answer(input) {
        Some((answer, source)) => (answer, Some(source)),
        None => (model::lower(input), None),
    }
}

/// Texts laid out otherwise or past the bounds, and some at them.
fn odd_texts() -> Vec<(&'static str, Vec<u8>)> {
    let page = text::write(&cases::worked_page());
    let many = |nodes: usize, list: usize, names: usize| {
        let mut tree = Tree { list: vec![0; list], names: vec![0; names], ..Tree::default() };
        tree.nodes = vec![[4, 0, 0, 0, 0, 0]; nodes];
        text::write(&tree).into_bytes()
    };
    let edited = |from: &str, to: &str| page.replacen(from, to, 1).into_bytes();
    vec![
        ("empty", vec![]),
        ("without its last line feed", page.trim_end().as_bytes().to_vec()),
        ("with a line after the last", (page.clone() + "\n").into_bytes()),
        ("with a byte after the last line", (page.clone() + " ").into_bytes()),
        ("a line missing", edited("          7\n", "")),
        ("a leading zero", edited("          7\n", "         07\n")),
        ("a number to the left", edited("          7\n", "         7 \n")),
        ("a plus sign", edited("          7\n", "         +7\n")),
        ("a column of ten", edited("          7\n", "         7\n")),
        ("an empty column", edited("          7\n", "           \n")),
        ("a tab", edited("          7\n", "\t         7\n")),
        ("carriage returns", page.replace('\n', "\r\n").into_bytes()),
        ("4294967296", edited("          7\n", " 4294967296\n")),
        ("4294967295", edited("          7\n", " 4294967295\n")),
        ("eleven digits", edited("          7\n", "10000000000\n")),
        ("512 nodes", many(512, 0, 1)),
        ("513 nodes", many(513, 0, 1)),
        ("512 list words", many(1, 512, 1)),
        ("513 list words", many(1, 513, 1)),
        ("256 parameters", many(1, 0, 256)),
        ("257 parameters", many(1, 0, 257)),
        ("no parameters", many(1, 0, 0)),
        ("no nodes", many(0, 0, 0)),
    ]
}

/// Most nodes of a tree whose buffers are cut short.
const SMALL: usize = 7;

/// Small cases with each buffer empty, one record short, some bytes short and just large enough; odd slices.
fn calls() -> Vec<Recorded> {
    let mut calls = vec![];
    let trees = cases::chosen().into_iter().filter(|case| case.tree.is_checked() && case.tree.nodes.len() <= SMALL);
    for case in trees.filter(|case| case.known.is_exact()) {
        let made = reference(&case.tree);
        let enough = Room::records(made.code.len(), made.constants.len(), made.marks.len());
        let mut add = |what: &str, room: Room| {
            calls.push(record_call(format!("{}: {what}", case.name), &case.tree.input(room)));
        };
        add("just enough", enough);
        let more = Room { code: enough.code + 15, constants: enough.constants + 11, marks: enough.marks + 3 };
        add("bytes past the records", more);
        add("nothing", Room::records(0, 0, 0));
        for (what, less) in [("a byte short", 1), ("two records short", 2 * 16)] {
            add(&format!("code {what}"), Room { code: enough.code.saturating_sub(less), ..enough });
        }
        if enough.constants > 0 {
            add("constants a byte short", Room { constants: enough.constants - 1, ..enough });
            add("no constants", Room { constants: 0, ..enough });
        }
        if enough.marks > 0 {
            add("marks a byte short", Room { marks: enough.marks - 1, ..enough });
            add("no marks", Room { marks: 0, ..enough });
        }
    }
    let page = || cases::worked_page().input(Room::records(6, 4, 1));
    for more in 1..4 {
        let longer = |slice: &[u8]| [slice, &[0; 3][..more]].concat();
        let odd = [
            ("nodes", Input { nodes: longer(&page().nodes), ..page() }),
            ("list", Input { list: longer(&page().list), ..page() }),
            ("names", Input { names: longer(&page().names), ..page() }),
        ];
        calls.extend(odd.map(|(slice, input)| record_call(format!("{more} bytes more of {slice}"), &input)));
    }
    calls
}

fn record_call(name: String, input: &Input) -> Recorded {
    let (answer, source) = agreed_answer(&name, input);
    let lengths = [&input.nodes, &input.list, &input.names, &input.code, &input.constants, &input.marks];
    let mut numbers = vec![input.mode, input.root];
    numbers.extend(lengths.map(|slice| slice.len() as u32));
    let text = text::line(&numbers) + &word_lines(&[&input.nodes, &input.list, &input.names]);
    let answer = text::line(&answer.result) + &word_lines(&[&answer.code, &answer.constants, &answer.marks]);
    Recorded { name, source, text: text.into_bytes(), answer }
}

fn word_lines(slices: &[&[u8]]) -> String {
    slices.iter().flat_map(|slice| words(slice)).map(|word| text::line(&[word])).collect()
}

/// Every kind, and every bound.
fn patches() -> Vec<Recorded> {
    let mut patches = vec![];
    for (kind, (name, fields)) in instruction_names().iter().enumerate() {
        let mut record = [kind as u32, 0, 0, 0];
        (1..=fields.len()).for_each(|word| record[word] = 10 + word as u32);
        for offset in [7, u32::MAX] {
            let (number, after) = reference_patch(&[record], 0, offset).expect("an instruction of kaori's");
            let mut modelled = bytes(&record);
            let same = model::patch(&mut modelled, 1, 0, offset) == number && modelled == bytes(&after[0]);
            assert!(same, "kaori and the model differ on patching {name}");
            let source = if number == 0 { KAORI } else { PANIC };
            patches.push(recorded_patch(format!("{name} by {offset}"), source, &bytes(&record), [1, 0, offset]));
        }
    }
    let jumps = bytes(&[41, 1, 0, 0, 42, 3, 1, 0, 44, 1, 2, 3]);
    for (length, count, index) in [(48, 3, 2), (48, 3, 3), (48, 2, 2), (48, 4, 1), (47, 3, 1), (47, 2, 1), (48, 0, 0)] {
        let name = format!("{length} bytes, count {count}, index {index}");
        patches.push(recorded_patch(name, DOCUMENT, &jumps[..length], [count, index, 9]));
    }
    for (count, index) in [(u32::MAX, 0), (3, u32::MAX), (u32::MAX, u32::MAX - 1), (0x1000_0001, 0)] {
        patches.push(recorded_patch(format!("count {count}, index {index}"), DOCUMENT, &jumps, [count, index, 9]));
    }
    for kind in [55, 256, u32::MAX] {
        let code = bytes(&[kind, 1, 2, 3]);
        patches.push(recorded_patch(format!("kind {kind}"), DOCUMENT, &code, [1, 0, 9]));
    }
    patches
}

fn recorded_patch(name: String, source: u32, code: &[u8], [count, index, offset]: [u32; 3]) -> Recorded {
    let mut after = code.to_vec();
    let number = model::patch(&mut after, count, index, offset);
    let mut ported = code.to_vec();
    let same = port::patch(&mut ported, count, index, offset) == number && ported == after;
    assert!(same, "the port differs on patching: {name}");
    let text = text::line(&[code.len() as u32, count, index, offset]) + &word_lines(&[code]);
    Recorded { name, source, text: text.into_bytes(), answer: text::line(&[number]) + &word_lines(&[&after]) }
}

impl File {
    pub fn bytes(&self) -> Vec<u8> {
        let mut file = [self.about, LAYOUT].concat().into_bytes();
        file.extend(text::line(&[self.cases.len() as u32]).into_bytes());
        for (place, case) in self.cases.iter().enumerate() {
            let numbers = [place as u32, case.source, case.text.len() as u32, case.answer.len() as u32];
            file.extend(format!("{} {}\n", text::line(&numbers).trim_end_matches('\n'), case.name).into_bytes());
            file.extend(&case.text);
            file.extend(case.answer.as_bytes());
        }
        file
    }
}
