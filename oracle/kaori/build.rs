//! Finds kaori's files and writes, outside the sources, a crate root that includes them as they are, and the
//! conversion between kaori's instructions and records of four words, read off the declaration.
//!
//! KAORI_SRC names kaori's `src` folder (a relative path is taken from the oracle's folder).

use std::{
    env, fs,
    path::{Path, PathBuf},
};

const DEFAULT: &str = "../../shared/docs/src/src";

/// Module folders and the files built from each; the empty folder is the crate root.
const MODULES: &[(&str, &[&str])] = &[
    ("codegen", &["environment", "lower_ast", "lower_expression", "operand"]),
    ("diagnostics", &["error"]),
    ("runtime", &["function", "instruction", "operands", "value"]),
    ("syntax", &["ast", "ops", "token"]),
    ("util", &["string_interner"]),
    ("", &["compiler"]),
];

/// Modules that kaori has and document 01 leaves out: one stub file a folder, beside this script.
const STUBBED: &[&str] = &["codegen", "runtime", "syntax"];

/// Files whose vectors are the three buffers of document 01.
const BUFFERS: &[&str] = &["function", "lower_ast"];

fn main() {
    println!("cargo::rerun-if-env-changed=KAORI_SRC");
    let package = PathBuf::from(env::var("CARGO_MANIFEST_DIR").unwrap());
    let oracle = package.parent().unwrap();
    let given = env::var("KAORI_SRC").unwrap_or_else(|_| DEFAULT.to_string());
    let Ok(kaori) = fs::canonicalize(oracle.join(&given)) else {
        println!("cargo::error=there is no folder {given}: name kaori's `src` folder in KAORI_SRC");
        return;
    };
    if let Some(missing) = files().map(|file| kaori.join(file)).find(|file| !file.exists()) {
        println!("cargo::error=there is no {}: name kaori's `src` folder in KAORI_SRC", missing.display());
        return;
    }
    let out = PathBuf::from(env::var("OUT_DIR").unwrap());
    let bounded = env::var("CARGO_FEATURE_BOUNDED").is_ok();

    fs::write(out.join("root.rs"), root(&kaori, &oracle.join("kaori/stubs"), bounded)).unwrap();
    let declaration = kaori.join("runtime/instruction.rs");
    let text = fs::read_to_string(declaration).expect("runtime/instruction.rs");
    fs::write(out.join("records.rs"), records(&variants(&text))).unwrap();
}

/// All of kaori's files, below its folder.
fn files() -> impl Iterator<Item = PathBuf> {
    let below = |(folder, files): &'static (&str, &[&str])| files.iter().map(|file| file_of(folder, file));
    MODULES.iter().flat_map(below)
}

fn file_of(folder: &str, file: &str) -> PathBuf {
    Path::new(folder).join(format!("{file}.rs"))
}

fn root(kaori: &Path, stubs: &Path, bounded: bool) -> String {
    let mut text = String::new();
    for (folder, files) in MODULES {
        if !folder.is_empty() {
            text += &format!("pub mod {folder} {{\n");
        }
        for file in *files {
            let path = kaori.join(file_of(folder, file));
            println!("cargo::rerun-if-changed={}", path.display());
            let vector = if bounded && BUFFERS.contains(file) { "use crate::bounded::Vec; " } else { "" };
            text += &format!("pub mod {file} {{ {vector}include!({path:?}); }}\n");
        }
        if STUBBED.contains(folder) {
            text += &format!("include!({:?});\n", stubs.join(format!("{folder}.rs")));
        }
        if !folder.is_empty() {
            text += "}\n";
        }
    }
    text
}

struct Variant {
    name: String,
    fields: Vec<(String, String)>,
}

/// The variants of `Instruction` with their fields, in declared order.
fn variants(text: &str) -> Vec<Variant> {
    let start = text.find("pub enum Instruction {").expect("the instruction enum") + "pub enum Instruction {".len();
    let end = start + text[start..].find("\n}").expect("its end");
    let body: String = text[start..end].lines().map(|l| l.split("//").next().unwrap()).collect::<Vec<_>>().join(" ");
    body.split('}')
        .filter_map(|part| part.split_once('{'))
        .map(|(name, fields)| Variant {
            name: name.trim().trim_start_matches(',').trim().to_string(),
            fields: fields
                .split(',')
                .filter_map(|field| field.split_once(':'))
                .map(|(name, kind)| (name.trim().to_string(), kind.trim().to_string()))
                .collect(),
        })
        .collect()
}

fn records(variants: &[Variant]) -> String {
    let mut words = String::new();
    let mut instruction = String::new();
    let mut names = String::new();
    for (place, Variant { name, fields }) in variants.iter().enumerate() {
        let bound: Vec<_> = fields.iter().map(|(field, _)| field.clone()).collect();
        let mut values = vec![format!("{place}")];
        let mut parts = vec![];
        for (index, (field, kind)) in fields.iter().enumerate() {
            let word = format!("words[{}]", index + 1);
            let (value, part) = match kind.as_str() {
                "Reg" => (format!("{field}.0 as u32"), format!("Reg(u8::try_from({word}).ok()?)")),
                "Const" => (format!("{field}.0 as u32"), format!("Const(u16::try_from({word}).ok()?)")),
                "u8" => (format!("{field} as u32"), format!("u8::try_from({word}).ok()?")),
                "u32" | "i32" => (format!("{field} as u32"), format!("{word} as {kind}")),
                other => panic!("field of an unknown type {other}"),
            };
            values.push(value);
            parts.push(format!("{field}: {part}"));
        }
        values.resize(4, "0".to_string());
        let unused: Vec<_> = (fields.len() + 1..4).map(|i| format!("words[{i}] == 0")).collect();
        let guard = if unused.is_empty() { String::new() } else { format!("if {} ", unused.join(" && ")) };
        words += &format!("Instruction::{name} {{ {} }} => [{}],\n", bound.join(", "), values.join(", "));
        instruction += &format!("{place} {guard}=> Instruction::{name} {{ {} }},\n", parts.join(", "));
        names += &format!("({name:?}, &{bound:?}),\n");
    }
    format!(
        "pub const NAMES: [(&str, &[&str]); {}] = [\n{names}];\n\
         pub fn words(instruction: &Instruction) -> [u32; 4] {{\nmatch *instruction {{\n{words}}}\n}}\n\
         pub fn instruction(words: [u32; 4]) -> Option<Instruction> {{\n\
         Some(match words[0] {{\n{instruction}_ => return None,\n}})\n}}\n",
        variants.len()
    )
}
