//! kaori against a lowering that is to do the same.

use crate::{
    cases,
    expression::show,
    generate::{self, Alphabet, CHAINS, Profile, Random},
    model, port,
    reference::{reference, reference_answer, reference_patch},
    shrink::shrink,
    text,
    tree::{Answer, INSTRUCTION_WORDS, Input, MOST_INSTRUCTIONS, MOST_NODES, Room, Tree, bytes, words},
};
use std::{
    panic::{AssertUnwindSafe, catch_unwind, resume_unwind},
    time::{Duration, Instant},
};

/// Code, count, index, offset: 0 and the code changed, or 19.
pub type Patch = dyn Fn(&mut [u8], u32, u32, u32) -> u32;

/// What is compared with kaori: the port and the model.
pub struct Subject {
    pub name: &'static str,
    pub lower: Box<dyn Fn(&Input) -> Answer>,
    pub patch: Box<Patch>,
}

pub fn model_subject() -> Subject {
    Subject { name: "model", lower: Box::new(model::lower), patch: Box::new(model::patch) }
}

pub fn port_subject() -> Subject {
    Subject { name: "port", lower: Box::new(port::lower), patch: Box::new(port::patch) }
}

impl Subject {
    /// The subject's answer. A panic of its own ends the comparison: the input is printed before.
    fn answer(&self, input: &Input) -> Answer {
        catch_unwind(AssertUnwindSafe(|| (self.lower)(input))).unwrap_or_else(|panic| {
            println!("the {} panicked on:", self.name);
            match Tree::of(input) {
                Some(tree) => print!("{}", shortened(&text::write(&tree))),
                None => print!("{input:?}"),
            }
            println!();
            resume_unwind(panic)
        })
    }
}

/// Longest walk that kaori is run on without a limit.
const MOST_WALKED: u64 = 400_000;

/// Code room for a tree that walks longer.
const SHORT_CODE: usize = 3000;

/// Differences printed before the comparison gives up.
const MOST_DIFFERENCES: u64 = 5;

/// Lines of a listing that are printed.
const MOST_LINES: usize = 40;

pub struct Comparison {
    subjects: Vec<Subject>,
    pub random: Random,
    /// Calls compared, by kaori's number; those that kaori has no answer to stand under 1 to 8.
    pub numbers: [u64; 19],
    /// Calls compared with kaori as it is, with kaori over bounded vectors, and without kaori; and patches.
    pub plain: u64,
    pub bounded: u64,
    pub refused_before: u64,
    pub patches: u64,
    pub differences: u64,
    phase: &'static str,
    started: Instant,
    shown: Instant,
}

/// A part of the comparison, by the number of random trees.
type Phase = fn(&mut Comparison, u64);

/// What was wanted, by whom, and what was given.
struct Difference {
    by: &'static str,
    wanted: Answer,
    given: Answer,
}

impl Comparison {
    pub fn new(subjects: Vec<Subject>, seed: u64) -> Comparison {
        let now = Instant::now();
        Comparison {
            subjects,
            random: Random::new(seed),
            numbers: [0; 19],
            plain: 0,
            bounded: 0,
            refused_before: 0,
            patches: 0,
            differences: 0,
            phase: "",
            started: now,
            shown: now,
        }
    }

    pub fn calls(&self) -> u64 {
        self.plain + self.bounded + self.refused_before + self.patches
    }

    /// All phases. Trees: how many random ones; the others follow from it.
    pub fn run(&mut self, trees: u64) {
        let phases: [(&'static str, Phase); 9] = [
            ("cases", Comparison::cases),
            ("exhaustive", Comparison::exhaustive),
            ("random", Comparison::random_trees),
            ("chains", Comparison::chains),
            ("wide", Comparison::wide),
            ("registers", Comparison::registers),
            ("capacities", Comparison::capacities),
            ("damaged", Comparison::damaged),
            ("patching", Comparison::patching),
        ];
        for (name, phase) in phases {
            self.phase = name;
            let (before, started) = (self.calls(), Instant::now());
            phase(self, trees);
            let seconds = started.elapsed().as_secs_f32();
            eprintln!("{name:>12}: {} calls, {seconds:.1} s", self.calls() - before);
            if self.differences >= MOST_DIFFERENCES {
                return;
            }
        }
    }

    fn show_progress(&mut self) {
        if self.shown.elapsed() > Duration::from_secs(5) {
            self.shown = Instant::now();
            let seconds = self.started.elapsed().as_secs();
            eprintln!(
                "  {seconds:>4} s, {}: {} calls so far, {} differences",
                self.phase,
                self.calls(),
                self.differences
            );
        }
    }

    fn gave_up(&self) -> bool {
        self.differences >= MOST_DIFFERENCES
    }

    /// A checked tree with room for all: kaori as it is. A walk too long for that: kaori over a short code buffer.
    pub fn tree(&mut self, tree: &Tree) {
        if self.gave_up() {
            return;
        }
        if tree.walk_size() > MOST_WALKED {
            return self.call(&tree.input(Room::records(SHORT_CODE, MOST_NODES, SHORT_CODE)));
        }
        self.show_progress();
        let wanted = wanted_of_tree(tree);
        self.numbers[wanted.number() as usize] += 1;
        self.plain += 1;
        for subject in 0..self.subjects.len() {
            let with = &self.subjects[subject];
            if wanted.difference(with).is_none() {
                continue;
            }
            let differs =
                |tree: &Tree| tree.walk_size() <= MOST_WALKED && wanted_of_tree(tree).difference(with).is_some();
            let smallest = shrink(tree, &differs);
            let difference = wanted_of_tree(&smallest).difference(with).expect("it differed before");
            self.report(subject, Some(&smallest), "", difference);
        }
    }

    /// Any call: kaori over bounded vectors, or no answer of kaori's.
    pub fn call(&mut self, input: &Input) {
        if self.gave_up() {
            return;
        }
        self.show_progress();
        let wanted = wanted_of_call(input);
        let number = wanted.number();
        self.numbers[number as usize] += 1;
        *(if (1..=8).contains(&number) { &mut self.refused_before } else { &mut self.bounded }) += 1;
        for subject in 0..self.subjects.len() {
            self.call_by(subject, &wanted);
        }
    }

    fn call_by(&mut self, subject: usize, wanted: &Wanted) {
        let with = &self.subjects[subject];
        let Some(difference) = wanted.difference(with) else { return };
        let input = &wanted.input;
        let rooms = format!("buffers of {}, {}, {} bytes", input.code.len(), input.constants.len(), input.marks.len());
        let Some(tree) = Tree::of(input).filter(Tree::is_checked) else {
            return self.report(subject, Tree::of(input).as_ref(), &rooms, difference);
        };
        let call = |tree: &Tree| {
            let buffers = [&input.code, &input.constants, &input.marks].map(|buffer| buffer.clone());
            let [code, constants, marks] = buffers;
            wanted_of_call(&Input { code, constants, marks, ..tree.input(Room::records(0, 0, 0)) })
        };
        let smallest = shrink(&tree, &|tree| call(tree).difference(with).is_some());
        let difference = call(&smallest).difference(with).expect("it differed before");
        self.report(subject, Some(&smallest), &rooms, difference);
    }

    fn report(&mut self, subject: usize, tree: Option<&Tree>, rooms: &str, difference: Difference) {
        self.differences += 1;
        println!("difference {} ({}): {rooms}", self.differences, self.phase);
        if let Some(tree) = tree {
            if tree.is_checked() {
                println!("{}", show(tree));
            }
            if tree.nodes.len() <= 64 {
                print!("{}", text::write(tree));
            }
        }
        print_two(self.subjects[subject].name, &difference);
    }
}

/// A call and the answer wanted.
struct Wanted {
    input: Input,
    by: &'static str,
    answer: Answer,
    /// Whether the answer can be right: where kaori has none, the model must refuse.
    sound: bool,
}

impl Wanted {
    fn number(&self) -> u32 {
        self.answer.result[0]
    }

    fn difference(&self, subject: &Subject) -> Option<Difference> {
        let given = subject.answer(&self.input);
        let differs = self.answer != given || !self.sound;
        differs.then(|| Difference { by: self.by, wanted: self.answer.clone(), given })
    }
}

/// A checked tree with room for all that kaori makes and some bytes more.
fn wanted_of_tree(tree: &Tree) -> Wanted {
    let reference = reference(tree);
    let mut room = Room::records(reference.code.len() + 2, reference.constants.len() + 1, reference.marks.len() + 2);
    (room.code, room.constants, room.marks) = (room.code + 15, room.constants + 5, room.marks + 3);
    let input = tree.input(room);
    let answer = reference.answer(&input);
    Wanted { input, by: "kaori", answer, sound: true }
}

/// Any call. Where kaori has no answer, the model's is wanted.
fn wanted_of_call(input: &Input) -> Wanted {
    let (by, answer, sound) = match reference_answer(input) {
        Some((answer, _)) => ("kaori", answer, true),
        None => {
            let answer = model::lower(input);
            let sound = is_refused_before_the_walk(input, &answer);
            ("the model", answer, sound)
        }
    };
    Wanted { input: input.clone(), by, answer, sound }
}

fn is_refused_before_the_walk(input: &Input, answer: &Answer) -> bool {
    (1..=8).contains(&answer.result[0])
        && answer.result[2..] == [0; 6]
        && (&answer.code, &answer.constants, &answer.marks) == (&input.code, &input.constants, &input.marks)
}

fn print_two(name: &str, Difference { by, wanted, given }: &Difference) {
    println!("wanted, by {by}:\n{}", shortened(&text::listing(wanted)));
    println!("given, by {name}:\n{}", shortened(&text::listing(given)));
    let buffers = [
        ("code", &wanted.code, &given.code),
        ("constant", &wanted.constants, &given.constants),
        ("mark", &wanted.marks, &given.marks),
    ];
    for (buffer, wanted, given) in buffers {
        let mut pairs = words(wanted).into_iter().zip(words(given)).enumerate();
        if let Some((word, (wanted, given))) = pairs.find(|(_, (wanted, given))| wanted != given) {
            println!("first other {buffer} word: {word}, wanted {wanted}, given {given}");
        }
    }
}

fn shortened(listing: &str) -> String {
    let lines: Vec<&str> = listing.lines().take(MOST_LINES + 1).collect();
    let rest = if lines.len() > MOST_LINES { "\n        ..." } else { "" };
    lines[..lines.len().min(MOST_LINES)].join("\n") + rest
}

/// Lists of parameters for exhaustive trees: symbol 2 is never declared.
const NAMES: [&[u32]; 6] = [&[0, 1], &[], &[0], &[1, 0], &[0, 0], &[0, 1, 0]];

/// The phases.
impl Comparison {
    fn cases(&mut self, _: u64) {
        for case in cases::all() {
            for mode in 0..=2 {
                let tree = Tree { mode, ..case.tree.clone() };
                if tree.is_checked() {
                    self.tree(&tree);
                    self.call(&tree.input(text::lowerlist_room()));
                } else {
                    self.call(&tree.input(Room::records(8, 8, 8)));
                }
            }
        }
    }

    fn exhaustive(&mut self, trees: u64) {
        for size in 1..=3 {
            let lists = if size < 3 { &NAMES[..] } else { &NAMES[..1] };
            self.every_tree(size, &Alphabet::large(), lists);
        }
        if trees >= 50_000 {
            self.every_tree(4, &Alphabet::small(), &NAMES[..1]);
        }
    }

    fn every_tree(&mut self, size: usize, alphabet: &Alphabet, lists: &[&[u32]]) {
        generate::exhaustive(size, alphabet, &mut |tree| {
            for names in lists {
                for mode in 0..=2 {
                    self.tree(&Tree { mode, names: names.to_vec(), ..tree.clone() });
                }
            }
        });
    }

    fn random_tree(&mut self, size: usize) -> Tree {
        let profile = Profile::random(&mut self.random);
        generate::random_tree(&mut self.random, size, &profile)
    }

    fn random_trees(&mut self, trees: u64) {
        for index in 0..trees {
            let size = generate::random_size(&mut self.random);
            let tree = self.random_tree(size);
            self.tree(&tree);
            if index % 8 == 0 {
                // The bounded build too, where no bound is met.
                self.call(&tree.input(Room::records(SHORT_CODE, SHORT_CODE, SHORT_CODE)));
            }
        }
    }

    fn chains(&mut self, _: u64) {
        let depths = [1, 2, 3, 30, 126, 127, 128, 250, 251, 252, 253, 254, 255, 256, 257, 600, 1364, 2000, 4093];
        for shape in CHAINS {
            for depth in depths {
                for (leaf, names) in [(0, &[0, 1][..]), (1, &[0, 1]), (2, &[0, 1]), (1, &[0]), (1, &[1, 0, 1])] {
                    let mode = (depth as u32 + leaf) % 3;
                    self.tree(&Tree { mode, ..generate::chain(shape, depth, leaf, names) });
                }
            }
        }
        for levels in [1, 5, 10, 14, 17] {
            self.tree(&generate::doubling(levels));
        }
        // 2^(levels + 1) instructions: 19 levels make just as many as may be made.
        for levels in [18, 19, 20] {
            let room = Room::records(MOST_INSTRUCTIONS + 1, 4, 4);
            self.call(&generate::doubling(levels).input(room));
        }
        self.call(&generate::doubling(MOST_NODES - 1).input(Room::records(MOST_INSTRUCTIONS, 4, 4)));
    }

    fn wide(&mut self, trees: u64) {
        for arguments in (0..6).chain(120..136).chain(250..=255) {
            for parameters in [1, 2, 3, 128, 255, 256] {
                let forms = generate::argument_forms(&mut self.random);
                for mode in 0..=2 {
                    self.tree(&Tree { mode, ..generate::wide_call(arguments, &forms, parameters) });
                }
            }
        }
        for (levels, arguments) in [(32, 255), (32, 254), (40, 200), (64, 128), (4000, 2), (4000, 1)] {
            self.tree(&generate::nested_wide_calls(levels, arguments));
        }
        self.tree(&generate::overlapping_maps(MOST_NODES - 1));
        for _ in 0..(trees / 500).min(400) {
            let entries = self.random.pick(&[1, 10, 100, 255, 256, 1000, MOST_NODES]);
            let temporaries = self.random.pick(&[0, 10, 250, 251, 252, 253, 254, 255, 300]);
            let tree = generate::large_map(&mut self.random, entries, temporaries);
            self.tree(&tree);
        }
    }

    /// Few registers left: the order of taking them shows.
    fn registers(&mut self, trees: u64) {
        for _ in 0..trees / 4 {
            let mut profile = Profile::random(&mut self.random);
            profile.parameters = 248 + self.random.below(9);
            profile.symbols = profile.parameters;
            let size = 1 + self.random.below(40);
            let tree = generate::random_tree(&mut self.random, size, &profile);
            self.tree(&tree);
        }
    }

    /// Every capacity of each buffer up to one more than needed: of the cases, of trees of two nodes, of random ones.
    fn capacities(&mut self, trees: u64) {
        for case in cases::all() {
            if case.tree.is_checked() && case.tree.walk_size() < 40 {
                self.every_capacity(&case.tree);
            }
        }
        for size in 1..=2 {
            generate::exhaustive(size, &Alphabet::large(), &mut |tree| {
                for mode in 0..=2 {
                    self.every_capacity(&Tree { mode, names: vec![0, 1], ..tree.clone() });
                }
            });
        }
        for _ in 0..trees / 100 {
            let size = 1 + self.random.below(30);
            let tree = self.random_tree(size);
            if tree.walk_size() > 2000 {
                continue;
            }
            self.every_capacity(&tree);
        }
    }

    fn every_capacity(&mut self, tree: &Tree) {
        let made = reference(tree);
        let [code, constants, marks] = [made.code.len(), made.constants.len(), made.marks.len()];
        for short in 0..=code + 1 {
            self.call(&self.short_input(tree, short, constants, marks));
        }
        for short in 0..=constants + 1 {
            self.call(&self.short_input(tree, code, short, marks));
        }
        for short in 0..=marks + 1 {
            self.call(&self.short_input(tree, code, constants, short));
        }
        for _ in 0..10 {
            let short = [code, constants, marks].map(|count| self.random.below(count + 2));
            self.call(&self.short_input(tree, short[0], short[1], short[2]));
        }
    }

    /// Buffers of whole records and some bytes.
    fn short_input(&self, tree: &Tree, code: usize, constants: usize, marks: usize) -> Input {
        let mut room = Room::records(code, constants, marks);
        room.code += (7 * code + constants) % (4 * INSTRUCTION_WORDS);
        room.constants += (5 * constants + marks) % 12;
        room.marks += (marks + code) % 4;
        tree.input(room)
    }

    fn damaged(&mut self, trees: u64) {
        for index in 0..trees / 2 {
            let size = if index % 1000 == 0 { MOST_NODES } else { 1 + self.random.below(40) };
            let tree = self.random_tree(size);
            if tree.walk_size() > MOST_WALKED {
                continue;
            }
            let mut input = tree.input(Room::records(200, 60, 60));
            for _ in 0..1 + self.random.below(2) {
                input = generate::damaged(&mut self.random, &input);
            }
            self.call(&input);
        }
    }

    /// Every kind at every place, and codes of random trees.
    fn patching(&mut self, trees: u64) {
        for kind in 0..60 {
            for offset in [0, 1, 2, u32::MAX, 0x8000_0000] {
                self.patch(&[[kind, 1, 2, 3], [kind, 1, 0, 0], [kind, 1, 2, 0], [kind, 0, 0, 0]], 4, offset);
            }
        }
        for _ in 0..trees / 20 {
            let size = 1 + self.random.below(20);
            let tree = self.random_tree(size);
            if tree.walk_size() < 1000 {
                let code = reference(&tree).code;
                let offset = self.random.draw() as u32;
                let count = self.random.below(code.len() + 2);
                self.patch(&code, count, offset);
            }
        }
    }

    fn patch(&mut self, records: &[[u32; INSTRUCTION_WORDS]], count: usize, offset: u32) {
        for index in [0, 1, 2, 3, count.wrapping_sub(1), count, count + 1] {
            // Bytes past the records must stay.
            let code = [bytes(records.as_flattened()), vec![9; 7]].concat();
            let (index, count) = (index as u32, count as u32);
            let wanted = patch_wanted(&code, records, count, index, offset);
            self.patches += 1;
            for subject in &self.subjects {
                let mut given = code.clone();
                let number = (subject.patch)(&mut given, count, index, offset);
                if (number, given) != wanted {
                    self.differences += 1;
                    println!("difference in patching, by the {}:", subject.name);
                    println!("count {count}, index {index}, offset {offset}, of {records:?}");
                }
            }
            if self.gave_up() {
                return;
            }
        }
    }
}

/// The number and the code after, by kaori; by the model where kaori has no such records or buffer.
fn patch_wanted(code: &[u8], records: &[[u32; 4]], count: u32, index: u32, offset: u32) -> (u32, Vec<u8>) {
    let mut after = code.to_vec();
    let by_kaori = (count as usize <= records.len()).then(|| patched_by_kaori(records, count, index, offset)).flatten();
    match by_kaori {
        Some((number, patched)) => {
            let patched = bytes(patched.as_flattened());
            after[..patched.len()].copy_from_slice(&patched);
            (number, after)
        }
        None => (model::patch(&mut after, count, index, offset), after),
    }
}

/// kaori's `patch_jump` on the first `count` records; the others stay. Where kaori cannot hold them all, on the one.
fn patched_by_kaori(records: &[[u32; 4]], count: u32, index: u32, offset: u32) -> Option<(u32, Vec<[u32; 4]>)> {
    let (count, index) = (count as usize, index as usize);
    let mut after = records.to_vec();
    if let Some((number, patched)) = reference_patch(&records[..count], index as u32, offset) {
        after[..count].copy_from_slice(&patched);
        return Some((number, after));
    }
    if index >= count {
        return Some((19, after));
    }
    let (number, patched) = reference_patch(&records[index..=index], 0, offset)?;
    after[index] = patched[0];
    Some((number, after))
}
