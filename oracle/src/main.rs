//! oracle compare [--seed N] [--trees N] | depth | clock | answer | record DIR; `USAGE` has the options.

use oracle::{
    clock::{self, MOST_RATIO, Row},
    compare::{Comparison, model_subject, port_subject},
    depth, model,
    port::Port,
    record,
    reference::{Source, caught},
    text,
};
use std::{
    env, fs,
    hint::black_box,
    io::{self, Read},
    path::Path,
    process::ExitCode,
    thread,
};

/// kaori and the model recurse with the tree: 4,096 levels of up to three functions.
const STACK: usize = 1 << 30;

const DEFAULT_TREES: u64 = 300_000;

const USAGE: &str = "\
oracle compare [--seed N] [--trees N]
oracle depth [--beside A.so ..]
oracle clock [--check] [--rounds N] [--only 16|256|4096] [--beside A.so ..]
oracle answer < TEXT
oracle record DIR";

fn main() -> ExitCode {
    thread::Builder::new().stack_size(STACK).spawn(run).unwrap().join().unwrap_or(ExitCode::FAILURE)
}

fn run() -> ExitCode {
    let arguments: Vec<String> = env::args().skip(1).collect();
    let arguments: Vec<&str> = arguments.iter().map(String::as_str).collect();
    match arguments[..] {
        ["compare", ref options @ ..] => match compare_options(options) {
            Some((seed, trees)) => compare(seed, trees),
            None => usage(),
        },
        ["answer"] => answer(),
        ["clock", ref options @ ..] => match ClockOptions::read(options) {
            Some(options) => loaded(&options.beside, |ports| clock(&options, ports)),
            None => usage(),
        },
        ["depth"] => depth(&[Port::LINKED]),
        ["depth", "--beside", ref objects @ ..] => loaded(objects, depth),
        ["record", folder] => record_into(Path::new(folder)),
        _ => usage(),
    }
}

fn usage() -> ExitCode {
    eprintln!("{USAGE}");
    ExitCode::from(2)
}

fn compare_options(options: &[&str]) -> Option<(u64, u64)> {
    let (mut seed, mut trees) = (1, DEFAULT_TREES);
    for option in options.chunks(2) {
        match *option {
            ["--seed", value] => seed = value.parse().ok()?,
            ["--trees", value] => trees = value.parse().ok()?,
            _ => return None,
        }
    }
    Some((seed, trees))
}

fn compare(seed: u64, trees: u64) -> ExitCode {
    println!("seed {seed}, {trees} random trees");
    let mut comparison = Comparison::new(vec![port_subject(), model_subject()], seed);
    comparison.run(trees);
    println!("lowerings by number:");
    for (number, count) in comparison.numbers.iter().enumerate() {
        println!("{number:>6}: {count}");
    }
    println!("{} trees against kaori as it is", comparison.plain);
    println!("{} calls against kaori over bounded buffers", comparison.bounded);
    println!(
        "{} inputs refused before the walk: kaori has no answer, only the refusal is checked",
        comparison.refused_before
    );
    println!("{} patches", comparison.patches);
    println!("{} differences", comparison.differences);
    if comparison.differences == 0 { ExitCode::SUCCESS } else { ExitCode::FAILURE }
}

fn answer() -> ExitCode {
    let mut input = vec![];
    if let Err(error) = io::stdin().read_to_end(&mut input) {
        eprintln!("standard input: {error}");
        return ExitCode::FAILURE;
    }
    if text::read(&input).is_none() {
        eprintln!("laid out otherwise, or past the bounds of a text");
    }
    let listing = text::lowerlist(&input, |input| {
        let (answer, source) = record::kaori_or_model(input);
        let number = answer.result[0];
        match source {
            Some(Source::Kaori) => {}
            Some(Source::Panic) => eprintln!("kaori panicked; number {number} is document 01's for it"),
            Some(Source::Bound) => eprintln!("kaori goes on here; number {number} is a bound of document 01's"),
            None => eprintln!("refused before the walk; kaori has no answer"),
        }
        if answer != model::lower(input) {
            eprintln!("the model of document 01 answers otherwise");
        }
        answer
    });
    print!("{listing}");
    ExitCode::SUCCESS
}

/// Runs on the port that is linked, and on the port in other shapes: shared objects, beside it and numbered from 1.
fn loaded(objects: &[&str], run: impl FnOnce(&[Port]) -> ExitCode) -> ExitCode {
    let mut ports = vec![Port::LINKED];
    for (object, number) in objects.iter().zip(1..) {
        match Port::load(Path::new(object)) {
            Ok(port) => ports.push(port),
            Err(error) => {
                eprintln!("{error}");
                return ExitCode::FAILURE;
            }
        }
        println!("{}: {object}", port_name(number));
    }
    run(&ports)
}

fn port_name(place: usize) -> String {
    if place == 0 { "port".to_string() } else { format!("port {place}") }
}

struct ClockOptions<'a> {
    check: bool,
    rounds: usize,
    rows: Vec<Row>,
    beside: Vec<&'a str>,
}

impl<'a> ClockOptions<'a> {
    fn read(options: &[&'a str]) -> Option<ClockOptions<'a>> {
        let (mut check, mut rounds, mut only, mut beside) = (false, clock::ROUNDS, None, vec![]);
        let mut options = options.iter().copied().peekable();
        while let Some(option) = options.next() {
            match option {
                "--check" => check = true,
                "--rounds" => rounds = options.next()?.parse().ok().filter(|&rounds| rounds > 0)?,
                "--only" => only = Some(options.next()?.parse().ok().filter(|nodes| clock::SIZES.contains(nodes))?),
                "--beside" => {
                    while let Some(object) = options.next_if(|next| !next.starts_with("--")) {
                        beside.push(object);
                    }
                }
                _ => return None,
            }
        }
        let mut rows = if check { clock::cells() } else { clock::rows() };
        rows.retain(|row| only.is_none_or(|nodes| row.nodes == nodes));
        Some(ClockOptions { check, rounds, rows, beside })
    }
}

/// Each port against kaori at its best, row by row.
fn clock(options: &ClockOptions, ports: &[Port]) -> ExitCode {
    if caught(|| black_box(u8::MAX) + black_box(1)).is_err() {
        eprintln!("built with overflow checks: the clock is for `cargo run --profile clock`");
        if options.check {
            return ExitCode::FAILURE;
        }
    }
    for row in &options.rows {
        if let Some(place) = ports.iter().position(|&port| !row.is_answered_by(port)) {
            eprintln!("{} answers otherwise than kaori: {row}", port_name(place));
            return ExitCode::FAILURE;
        }
    }
    print!("nodes  form        constants   made (pooled)   kaori ns/node (new vectors)");
    for place in 0..ports.len() {
        let name = port_name(place);
        print!("   {:>14}   {:>12}", format!("{name} ns/node"), format!("{name}/kaori"));
    }
    println!();
    let mut all = vec![];
    for &row in &options.rows {
        let timing = row.timing(ports, options.rounds);
        let (pooled, kaori_new) = (format!("({})", timing.pooled), format!("({:.1})", timing.kaori_new));
        print!("{row}       {:>6} {pooled:>8}   {:>13.1} {kaori_new:>13}", timing.instructions, timing.kaori_kept);
        let ratios = timing.ratios();
        for (time, ratio) in timing.ports.iter().zip(&ratios) {
            print!("   {time:>14.1}   {ratio:>12.2}");
        }
        println!();
        all.push((row, ratios));
    }
    if !options.check {
        return ExitCode::SUCCESS;
    }
    let mut above = 0;
    for (row, ratios) in &all {
        for (place, ratio) in ratios.iter().enumerate().filter(|(_, ratio)| **ratio > MOST_RATIO) {
            println!("above {MOST_RATIO}: {row}  {ratio:.3}  {}", port_name(place));
            above += 1;
        }
    }
    println!("{above} of {} cells above {MOST_RATIO}", all.len() * ports.len());
    if above == 0 { ExitCode::SUCCESS } else { ExitCode::FAILURE }
}

/// Every shape's stack; then each on a normal thread.
fn depth(ports: &[Port]) -> ExitCode {
    let shapes = depth::shapes();
    let mut most = vec![0; ports.len()];
    for shape in &shapes {
        let used: Vec<depth::Used> = ports.iter().map(|&port| shape.used(port)).collect();
        for (most, used) in most.iter_mut().zip(&used) {
            print!("{:>9} ", used.bytes);
            *most = used.bytes.max(*most);
        }
        println!("bytes, {} nodes, number {:>2}: {}", used[0].nodes, used[0].number, shape.name);
    }
    for (place, most) in most.iter().enumerate() {
        println!("{}: {most} bytes at most, of {} that a normal thread has", port_name(place), depth::THREAD_STACK);
    }
    if most.iter().any(|&most| most > depth::MOST_TAKEN) {
        println!("more than {} bytes, which leaves the caller too little", depth::MOST_TAKEN);
        return ExitCode::FAILURE;
    }
    shapes.iter().for_each(|shape| ports.iter().for_each(|&port| shape.runs(port)));
    println!("each runs on a normal thread");
    ExitCode::SUCCESS
}

fn record_into(folder: &Path) -> ExitCode {
    for file in record::files() {
        let path = folder.join(file.name);
        let bytes = file.bytes();
        if let Err(error) = fs::create_dir_all(folder).and_then(|()| fs::write(&path, &bytes)) {
            eprintln!("{}: {error}", path.display());
            return ExitCode::FAILURE;
        }
        let of = |source: u32| file.cases.iter().filter(|case| case.source == source).count();
        let [kaori, panics, document] = [record::KAORI, record::PANIC, record::DOCUMENT].map(of);
        let counts = format!("{kaori} of kaori's, {panics} of its panics, {document} of document 01's");
        println!("{}: {} cases ({counts}), {} bytes", file.name, file.cases.len(), bytes.len());
    }
    ExitCode::SUCCESS
}
