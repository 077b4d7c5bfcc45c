//! The comparison finds what it is made to find.

use oracle::{
    compare::{Comparison, Subject, model_subject, port_subject},
    generate::{Profile, Random, random_tree},
    model, port, record,
    reference::instruction_names,
    shrink::shrink,
    text,
    tree::{Answer, Input, Tree, bytes, kind, words},
};
use std::thread;

fn differences(lower: impl Fn(&Input) -> Answer + Send + 'static) -> u64 {
    compared(move || vec![Subject { lower: Box::new(lower), ..model_subject() }])
}

fn compared(subjects: impl FnOnce() -> Vec<Subject> + Send + 'static) -> u64 {
    let run = move || {
        let mut comparison = Comparison::new(subjects(), 3);
        comparison.run(300);
        comparison.differences
    };
    thread::Builder::new().stack_size(1 << 30).spawn(run).unwrap().join().unwrap()
}

#[test]
fn the_port_and_the_model_pass() {
    assert_eq!(compared(|| vec![port_subject(), model_subject()]), 0);
}

/// A fault of the second subject is found beside a first that has none.
#[test]
fn each_subject_is_compared() {
    let never = |_: &mut [u8], _, _, _| 19;
    assert!(compared(move || vec![port_subject(), Subject { patch: Box::new(never), ..model_subject() }]) > 0);
}

#[test]
fn a_wrong_frame_size_is_found() {
    assert!(differences(|input| with(input, |answer| answer.result[6] += (answer.result[6] == 9) as u32)) > 0);
}

#[test]
fn a_word_past_the_counts_is_found() {
    let write_past = |input: &Input| {
        with(input, |answer| {
            let end = 16 * answer.result[4] as usize;
            if answer.code.len() > end {
                answer.code[end] ^= 1;
            }
        })
    };
    assert!(differences(write_past) > 0);
}

#[test]
fn right_counts_over_untouched_buffers_are_found() {
    assert!(differences(|input| with(input, |answer| answer.code = input.code.clone())) > 0);
}

#[test]
fn a_refusal_without_cause_is_found() {
    assert!(differences(|input| with(input, |answer| answer.result = [1, 0, 0, 0, 0, 0, 0, 0])) > 0);
}

/// The input is printed and the panic goes on: no silent pass.
#[test]
#[should_panic]
fn a_panic_of_the_subject_ends_the_comparison() {
    differences(|input| if input.names.len() == 8 { panic!("a fault of the subject") } else { model::lower(input) });
}

fn with(input: &Input, change: impl Fn(&mut Answer)) -> Answer {
    let mut answer = model::lower(input);
    change(&mut answer);
    answer
}

#[test]
fn shrinking_reaches_the_smallest_tree() {
    let mut random = Random::new(5);
    let profile = Profile::random(&mut random);
    let has_call = |tree: &Tree| tree.nodes.iter().any(|node| node[0] == kind::CALL);
    let mut tree = random_tree(&mut random, 200, &Profile { shared: 0, ..profile });
    let at = tree.nodes.len() as u32;
    let first = tree.list.len() as u32;
    tree.nodes.push([kind::NAME, 0, 0, 0, 0, 0]);
    tree.nodes.push([kind::NAME, 1, 0, 0, 0, 0]);
    tree.nodes.push([kind::CALL, at, first, 1, 0, 0]);
    tree.list.push(at + 1);
    tree.nodes.push([kind::AND, tree.root, at + 2, 0, 0, 0]);
    tree.root = at + 3;
    let smallest = shrink(&tree, &has_call);
    assert_eq!((smallest.nodes.len(), smallest.list.len(), smallest.names.len()), (2, 0, 0));
}

#[test]
fn texts_are_read_as_written() {
    let mut random = Random::new(7);
    for _ in 0..200 {
        let profile = Profile::random(&mut random);
        let size = 1 + random.below(100);
        let tree = random_tree(&mut random, size, &profile);
        let text = text::write(&tree);
        let fits = tree.list.len() <= 512;
        assert_eq!(text::read(text.as_bytes()), fits.then_some(tree));
        assert_eq!(text::read((text.clone() + "\n").as_bytes()), None);
        assert_eq!(text::read(&text.as_bytes()[..text.len() - 1]), None);
    }
}

/// The port replays recorded answers from the files alone, as their headers say.
#[test]
fn recorded_answers_replay() {
    for file in record::files() {
        let again: fn(&[u8]) -> String = match file.name {
            "calls.txt" => call_again,
            "patches.txt" => patch_again,
            _ => |text| text::lowerlist(text, port::lower),
        };
        replay(&file.bytes(), again);
    }
}

fn number(column: &[u8]) -> u32 {
    std::str::from_utf8(column).unwrap().trim().parse().unwrap()
}

fn replay(file: &[u8], again: fn(&[u8]) -> String) {
    let mut rest = file;
    let mut take = |length: Option<u32>| {
        let line = || rest.iter().position(|&byte| byte == b'\n').unwrap() + 1;
        let (taken, after) = rest.split_at(length.map_or_else(line, |length| length as usize));
        rest = after;
        taken
    };
    let mut first = take(None);
    while first[0] == b'#' {
        first = take(None);
    }
    for place in 0..number(first.trim_ascii_end()) {
        let heading = take(None);
        let numbers: Vec<u32> = heading[..44].chunks(11).map(number).collect();
        assert_eq!(numbers[0], place);
        let text = take(Some(numbers[2]));
        let answer = take(Some(numbers[3]));
        assert_eq!(again(text).as_bytes(), answer, "{}", String::from_utf8_lossy(heading));
    }
    assert!(rest.is_empty());
}

/// All numbers of a text, whatever their lines.
fn numbers(text: &[u8]) -> Vec<u32> {
    text.split(|&byte| byte == b'\n').flat_map(|line| line.chunks(11)).map(number).collect()
}

/// The next words as a slice of so many bytes, zeros past the whole words.
fn slice(words: &mut &[u32], length: u32) -> Vec<u8> {
    let (own, rest) = words.split_at(length as usize / 4);
    *words = rest;
    let mut slice = bytes(own);
    slice.resize(length as usize, 0);
    slice
}

fn lines(slices: &[&[u8]]) -> String {
    slices.iter().flat_map(|slice| words(slice)).map(|word| text::line(&[word])).collect()
}

fn call_again(text: &[u8]) -> String {
    let numbers = numbers(text);
    let (head, mut rest) = numbers.split_at(8);
    let filled = |length: u32| (0..length).map(|index| ((7 * index + 165) % 256) as u8).collect();
    let input = Input {
        mode: head[0],
        root: head[1],
        nodes: slice(&mut rest, head[2]),
        list: slice(&mut rest, head[3]),
        names: slice(&mut rest, head[4]),
        code: filled(head[5]),
        constants: filled(head[6]),
        marks: filled(head[7]),
    };
    let answer = port::lower(&input);
    text::line(&answer.result) + &lines(&[&answer.code, &answer.constants, &answer.marks])
}

fn patch_again(text: &[u8]) -> String {
    let numbers = numbers(text);
    let (head, mut rest) = numbers.split_at(4);
    let mut code = slice(&mut rest, head[0]);
    let number = port::patch(&mut code, head[1], head[2], head[3]);
    text::line(&[number]) + &lines(&[&code])
}

/// The record of an instruction has its fields in declared order: kaori's own `Debug` prints them so.
#[test]
fn records_follow_the_declaration() {
    for (place, (name, fields)) in instruction_names().iter().enumerate() {
        let mut record = [place as u32, 0, 0, 0];
        (1..=fields.len()).for_each(|word| record[word] = 10 * word as u32);
        let instruction = kaori::records::instruction(record).unwrap();
        assert_eq!(instruction.discriminant(), place);
        assert_eq!(kaori::records::words(&instruction), record);
        let shown = format!("{instruction:?}");
        assert!(shown.starts_with(&format!("{name} {{")), "{shown}");
        let (_, shown_fields) = shown.split_once('{').unwrap();
        let digits = shown_fields.split(|c: char| !c.is_ascii_digit()).filter_map(|part| part.parse::<u32>().ok());
        // Field names such as src1 hold digits of their own: only the values here are tens.
        let values: Vec<u32> = digits.filter(|value| value % 10 == 0).collect();
        assert_eq!(values, record[1..=fields.len()], "{shown}");
    }
}
