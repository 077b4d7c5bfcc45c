//! The header and the example, built with a C compiler alone; and the numbers that header, crates and this one share.

use sewurogi::Refusal;
use std::{
    fs,
    path::{Path, PathBuf},
    process::Command,
};

const ARCHIVE: &str = env!("SEWUROGI_ARCHIVE");

const STRICT: [&str; 4] = ["-Wall", "-Wextra", "-Wpedantic", "-Werror"];

fn repository() -> PathBuf {
    Path::new(env!("CARGO_MANIFEST_DIR")).join("../..")
}

fn read(path: &str) -> String {
    fs::read_to_string(repository().join(path)).unwrap_or_else(|error| panic!("{path}: {error}"))
}

/// Builds a program over the header and the archive, runs it, and gives what it prints.
fn run(compiler: &str, language: &str, standard: &str, source: &str) -> String {
    let name = format!("{}_{language}", Path::new(source).file_stem().unwrap().display());
    let program = Path::new(env!("CARGO_TARGET_TMPDIR")).join(name);
    let mut build = Command::new(compiler);
    build.args(STRICT).args(["-O2", standard, "-I"]).arg(repository().join("include"));
    build.args(["-x", language]).arg(repository().join(source)).args(["-x", "none", ARCHIVE, "-o"]).arg(&program);
    assert!(build.status().expect(compiler).success(), "{source} is not built");
    let ran = Command::new(&program).output().unwrap();
    assert!(ran.status.success(), "{source}: {}", String::from_utf8_lossy(&ran.stderr));
    String::from_utf8(ran.stdout).unwrap()
}

#[test]
fn prototypes_in_c() {
    assert_eq!(run("cc", "c", "-std=c99", "bindings/rust/tests/header.c"), "");
}

#[test]
fn prototypes_in_cpp() {
    assert_eq!(run("c++", "c++", "-std=c++11", "bindings/rust/tests/header.c"), "");
}

#[test]
fn the_example() {
    assert_eq!(run("cc", "c", "-std=c99", "examples/lower.c"), read("examples/lower.stdout"));
}

/// The constants of one of the header's enums without their prefix, in order. Each has the next value, from `first` on.
fn constants(prefix: &str, first: usize) -> Vec<String> {
    let header = read("include/sewurogi.h");
    let lines = header.lines().filter_map(|line| line.trim().strip_prefix(prefix)?.split_once(" = "));
    let mut names = vec![];
    for (name, rest) in lines {
        let value = rest.split([',', ' ']).next().unwrap();
        assert_eq!(value, (first + names.len()).to_string(), "{prefix}{name}");
        names.push(name.to_string());
    }
    names
}

/// `LessEqualKR` as a constant: `LESS_EQUAL_KR`.
fn constant(name: &str) -> String {
    let mut constant = String::new();
    let mut before = 'A';
    for letter in name.chars() {
        if letter.is_uppercase() && before.is_lowercase() {
            constant.push('_');
        }
        constant.extend(letter.to_uppercase());
        before = letter;
    }
    constant
}

/// The variants of an enum of the crates, as constants.
fn variants(source: &str, name: &str) -> Vec<String> {
    let text = read(source);
    let start = text.find(&format!("pub enum {name} {{")).unwrap_or_else(|| panic!("{source} has {name}"));
    let (body, _) = text[start..].split_once("\n}").unwrap();
    let own = body.lines().skip(1).filter_map(|line| line.strip_prefix("    "));
    own.filter(|line| line.starts_with(char::is_uppercase))
        .map(|line| constant(line.split(|letter: char| !letter.is_alphanumeric()).next().unwrap()))
        .collect()
}

#[test]
fn refusals_are_those_of_the_crates() {
    let own: Vec<String> = Refusal::ALL.iter().map(|refusal| constant(&format!("{refusal:?}"))).collect();
    assert_eq!(own, variants("crates/diagnostics/src/lib.rt", "Refusal"));
    assert_eq!(own, constants("SEWUROGI_REFUSED_", 1));
    let numbers = read("crates/diagnostics/src/lib.rt");
    for (refusal, number) in Refusal::ALL.iter().zip(1..) {
        assert_eq!((refusal.number(), Refusal::from_number(number)), (number, Some(*refusal)));
        assert!(numbers.contains(&format!("    {refusal:?} = {number},")), "{refusal:?}");
    }
    assert_eq!([0, 20, u32::MAX].map(Refusal::from_number), [None; 3]);
}

/// The instructions of the crates, each with its fields.
fn instructions() -> Vec<(String, Vec<String>)> {
    let text = read("crates/runtime/src/instruction.rt");
    let (_, rest) = text.split_once("pub enum Instruction {").unwrap();
    let (body, _) = rest.split_once("\n}").unwrap();
    let fields =
        |part: &str| part.lines().filter_map(|line| Some(line.trim().split_once(": ")?.0.to_string())).collect();
    let variants = body.split('}').filter_map(|part| part.split_once('{'));
    variants.map(|(name, part)| (name.trim_matches([',', '\n', ' ']).to_string(), fields(part))).collect()
}

#[test]
fn instructions_are_those_of_the_crates() {
    let (header, example) = (read("include/sewurogi.h"), read("examples/lower.c"));
    let names: Vec<String> = instructions().iter().map(|(name, _)| constant(name)).collect();
    assert_eq!(constants("SEWUROGI_INSTRUCTION_", 0), names);
    for (name, fields) in instructions() {
        // The header has the fields in a comment, each perhaps with what it is; the example, how many there are.
        let constant = format!("SEWUROGI_INSTRUCTION_{}", constant(&name));
        let line = header.lines().find(|line| line.trim().starts_with(&format!("{constant} = "))).unwrap();
        let (_, comment) = line.split_once("/* ").unwrap();
        let told: Vec<&str> = comment.split(": ").next().unwrap().split(", ").collect();
        let told: Vec<&str> = told.iter().map(|field| field.split(' ').next().unwrap()).collect();
        assert_eq!(told, fields, "{constant}");
        assert!(example.contains(&format!("[{constant}] = {{\"{name}\", {}}},", fields.len())), "{constant}");
    }
}

#[test]
fn nodes_are_those_of_the_crates() {
    assert_eq!(constants("SEWUROGI_BINARY_", 0), variants("crates/syntax/src/ops.rt", "BinaryOp"));
    assert_eq!(constants("SEWUROGI_UNARY_", 0), variants("crates/syntax/src/ops.rt", "UnaryOp"));
    assert_eq!(constants("SEWUROGI_NODE_", 0), variants("crates/syntax/src/ast.rt", "Node"));
}

/// A function of the crate `exports`: its parameters, each with its type, and the type that it returns.
struct Exported {
    name: String,
    parameters: Vec<(String, String)>,
    returned: Option<String>,
}

fn exported() -> Vec<Exported> {
    let text = read("crates/exports/src/lib.rt");
    let functions = text.split("pub extern \"C\" fn ").skip(1).map(|function| {
        let (name, rest) = function.split_once('(').unwrap();
        let (parameters, rest) = rest.split_once(')').unwrap();
        let parameters = parameters.split(',').filter_map(|parameter| parameter.trim().split_once(": "));
        // A parameter cannot be called `result` in Rattle, where that is what a function returns.
        let parameters = parameters.map(|(name, kind)| (if name == "res" { "result" } else { name }, kind));
        let parameters = parameters.map(|(name, kind)| (name.to_string(), kind.to_string())).collect();
        let returned = rest.trim_start().strip_prefix("-> ").map(|kind| kind.split_whitespace().next().unwrap().into());
        Exported { name: name.to_string(), parameters, returned }
    });
    functions.collect()
}

/// A text with single spaces, none inside brackets at their ends.
fn spaced(text: &str) -> String {
    text.split_whitespace().collect::<Vec<_>>().join(" ").replace("( ", "(").replace(", )", ")")
}

#[test]
fn prototypes_are_those_of_the_crate() {
    let (header, ffi) = (spaced(&read("include/sewurogi.h")), spaced(&read("bindings/rust/src/ffi.rs")));
    for Exported { name, parameters, returned } in exported() {
        let joined = |of: fn(&str, &str) -> String| {
            parameters.iter().map(|(name, kind)| of(name, kind)).collect::<Vec<_>>().join(", ")
        };
        let c = joined(|name, kind| match kind {
            "&[u8]" => format!("const uint8_t *{name}, size_t {name}_length"),
            "&mut [u8]" => format!("uint8_t *{name}, size_t {name}_length"),
            "u32" => format!("uint32_t {name}"),
            other => panic!("{name}: {other}"),
        });
        let rust = joined(|name, kind| match kind {
            "&[u8]" => format!("{name}: *const u8, {name}_length: usize"),
            "&mut [u8]" => format!("{name}: *mut u8, {name}_length: usize"),
            other => format!("{name}: {other}"),
        });
        let (c_returned, rust_returned) = match returned.as_deref() {
            None => ("void", ""),
            Some("u32") => ("uint32_t", " -> u32"),
            Some(other) => panic!("{name}: {other}"),
        };
        assert!(header.contains(&format!("{c_returned} {name}({c});")), "{name}: {c}");
        assert!(ffi.contains(&format!("pub fn {name}({rust}){rust_returned};")), "{name}: {rust}");
    }
    assert_eq!(header.matches(");").count(), exported().len());
    assert_eq!(ffi.matches("pub fn ").count(), exported().len());
}
