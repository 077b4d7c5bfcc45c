//! Runs kaori on one tree. The file is a module twice: over kaori as it is and over kaori with bounded vectors;
//! `super` names which, and sets the limits.

use super::kaori::{
    codegen::{environment::Environment, lower_ast::Lower},
    compiler::{Compiler, INTERNER},
    diagnostics::error::Error,
    records,
    runtime::{function::Function, instruction::Instruction, value::Value},
    syntax::{
        ast::{Ast, Node as AstNode, NodeId, Spanned},
        ops::{BinaryOp, UnaryOp},
        token::Span,
    },
    util::string_interner::Symbol,
};
use super::{limit_function, limit_marks, refusal_of};
use crate::{
    reference::{Ending, Limits, Run, Spans, caught},
    tree::{ABSENT, Node, Tree, kind},
};
use std::collections::HashMap;

const OPERATORS: [BinaryOp; 11] = [
    BinaryOp::Add,
    BinaryOp::Subtract,
    BinaryOp::Multiply,
    BinaryOp::Divide,
    BinaryOp::Modulo,
    BinaryOp::Equal,
    BinaryOp::NotEqual,
    BinaryOp::Greater,
    BinaryOp::GreaterEqual,
    BinaryOp::Less,
    BinaryOp::LessEqual,
];

/// Lowers a checked tree as document 01's modes say.
pub fn lower(tree: &Tree, spans: Spans, limits: Limits) -> Run {
    let (ast, ids) = ast(tree, spans);
    lower_ast(&ast, ids[tree.root as usize], tree, limits)
}

/// The call whose argument is marked while there is no code (15): kaori's panic does not name it. Calls under way
/// at that moment are those whose first argument, put out for an undeclared name, gives an error instead; they lie
/// inside each other, and the innermost is the lowest node.
pub fn marking_call(tree: &Tree, limits: Limits) -> Option<u32> {
    let unused = (0..).find(|symbol| !tree.names.contains(symbol)).unwrap();
    let (mut ast, ids) = ast(tree, Spans::Own);
    let undeclared = ast.identifier(spanned(unused, Span::default()));
    let root = ids[tree.root as usize];
    (0..tree.nodes.len()).find_map(|index| {
        let first = swap_first_argument(&mut ast, ids[index], undeclared)?;
        let run = lower_ast(&ast, root, tree, limits);
        swap_first_argument(&mut ast, ids[index], first);
        matches!(run.ending, Ending::Error { .. }).then_some(index as u32)
    })
}

fn swap_first_argument(ast: &mut Ast, call: NodeId, with: NodeId) -> Option<NodeId> {
    match ast.node_mut(call) {
        AstNode::FunctionCall { arguments, .. } if !arguments.is_empty() => {
            Some(std::mem::replace(&mut arguments[0], with))
        }
        _ => None,
    }
}

fn spanned(symbol: u32, span: Span) -> Spanned<Symbol> {
    Spanned::new(Symbol(symbol), span)
}

/// The tree as kaori's arena, and kaori's id of each node. A node used twice is one id used twice.
pub fn ast(tree: &Tree, spans: Spans) -> (Ast, Vec<NodeId>) {
    let mut ast = Ast::default();
    let mut ids = Vec::with_capacity(tree.nodes.len());
    for (index, node) in tree.nodes.iter().enumerate() {
        let span = match spans {
            Spans::Own => Span { start: node[4], end: node[5] },
            Spans::Places => Span { start: index as u32, end: index as u32 },
        };
        let id = insert(&mut ast, tree, node, span, &ids);
        ids.push(id);
    }
    (ast, ids)
}

fn insert(ast: &mut Ast, tree: &Tree, node: &Node, span: Span, ids: &[NodeId]) -> NodeId {
    let [kind, a, b, c, ..] = *node;
    let id = |child: u32| ids[child as usize];
    let optional = |child: u32| (child != ABSENT).then(|| id(child));
    let part = tree.part(node).expect("a checked tree");
    match kind {
        kind::NUMBER => ast.number(f64::from_bits((b as u64) << 32 | a as u64), span),
        kind::STRING => ast.string(Symbol(a), span),
        kind::BOOLEAN => ast.boolean(a == 1, span),
        kind::NIL => ast.nil(span),
        kind::NAME => ast.identifier(spanned(a, span)),
        kind::BINARY => ast.binary(OPERATORS[a as usize], id(b), id(c), span),
        kind::UNARY => ast.unary([UnaryOp::Negate, UnaryOp::Deref][a as usize], id(b), span),
        kind::NOT => ast.logical_not(id(a), span),
        kind::AND => ast.logical_and(id(a), id(b), span),
        kind::OR => ast.logical_or(id(a), id(b), span),
        kind::IF => ast.if_(id(a), id(b), optional(c), span),
        kind::BLOCK => ast.block(vec![], optional(a), span),
        kind::CALL => ast.function_call(id(a), part.iter().map(|&argument| id(argument)).collect(), span),
        // The property's own span is not a word of the record; an odd one would show if it were used.
        kind::PROPERTY => ast.property_access(id(a), spanned(b, Span { start: 77_777_777, end: 1 }), span),
        kind::MAP => ast.map(part.chunks(2).map(|entry| (id(entry[0]), optional(entry[1]))).collect(), span),
        _ => unreachable!("a checked tree"),
    }
}

fn lower_ast(ast: &Ast, root: NodeId, tree: &Tree, limits: Limits) -> Run {
    let mut compiler = Compiler::default();
    let mut free_variables = HashMap::new();
    let mut env = Environment::new();
    let mut function = Function::default();
    limit_function(&mut function, limits);
    let mut lower = Lower::new(ast, &mut compiler, &mut free_variables, &mut env, &mut function);
    limit_marks(&mut lower, limits);

    let mut ending = match caught(|| walk(&mut lower, tree, root)) {
        Ok(Ok(place)) => Ending::Accepted { place },
        Ok(Err(error)) => error_of(&error),
        Err(panic) => refusal_of(&*panic).map(Ending::Full).unwrap_or_else(|| Ending::of_panic(&*panic)),
    };
    let marks = lower.unpatched_arguments.iter().map(|&mark| mark as u32).collect();
    if let Ending::Accepted { .. } = ending
        && let Some(end) = patch_arguments(&mut lower)
    {
        ending = end;
    }
    Run {
        ending,
        frame_size: lower.env.frame_size as u32,
        code: function.instructions.iter().map(records::words).collect(),
        constants: function.constants.iter().map(constant).collect(),
        marks,
    }
}

/// Up to `patch_arguments`. The place is the jump's in modes 1 and 2, else 0.
pub fn walk(lower: &mut Lower, tree: &Tree, root: NodeId) -> Result<u32, Error> {
    for &name in &tree.names {
        let register = lower.env.allocate_local();
        lower.env.declare_local(Symbol(name), register);
    }
    Ok(match tree.mode {
        0 => {
            let src = lower.lower_materializing(root, None)?;
            lower.function.emit_instruction(Instruction::Return { src: src.into() });
            0
        }
        1 => lower.lower_jump_if_false(root)? as u32,
        _ => lower.lower_jump_if_true(root)? as u32,
    })
}

/// `patch_arguments`, mark by mark: the Rust cuts a sum to a byte without a word, and document 01 refuses it (18).
fn patch_arguments(lower: &mut Lower) -> Option<Ending> {
    let marks = lower.unpatched_arguments.to_vec();
    if marks.is_empty() {
        return None;
    }
    let before = lower.function.instructions.to_vec();
    let frame_size = lower.env.frame_size as u32;
    for &mark in &marks {
        let instruction = lower.function.instructions[mark];
        lower.unpatched_arguments.clear();
        lower.unpatched_arguments.push(mark);
        if let Err(panic) = caught(|| lower.patch_arguments()) {
            let end = Ending::of_panic(&*panic);
            check_whole_patch(lower, &before, &marks);
            return Some(end);
        }
        let [_, dest, ..] = records::words(&instruction);
        if dest + frame_size > u8::MAX as u32 {
            lower.function.instructions[mark] = instruction;
            return Some(Ending::Cut { place: mark as u32 });
        }
    }
    check_whole_patch(lower, &before, &marks);
    None
}

/// kaori's one loop over all marks leaves the same code as the mark by mark loop above.
fn check_whole_patch(lower: &mut Lower, before: &[Instruction], marks: &[usize]) {
    let words = |lower: &Lower| -> Vec<_> { lower.function.instructions.iter().map(records::words).collect() };
    let one_by_one = words(lower);
    lower.function.instructions.copy_from_slice(before);
    lower.unpatched_arguments.clear();
    marks.iter().for_each(|&mark| lower.unpatched_arguments.push(mark));
    let _ = caught(|| lower.patch_arguments());
    assert!(words(lower) == one_by_one, "patch_arguments at once and mark by mark differ");
}

fn constant(value: &Value) -> [u32; 3] {
    if value.is_number() {
        let bits = value.as_number().to_bits();
        [2, bits as u32, (bits >> 32) as u32]
    } else if value.is_nil() {
        [0, 0, 0]
    } else if value.is_bool() {
        [1, value.index(), 0]
    } else {
        assert!(value.is_string(), "a constant of another kind");
        [3, value.as_string().0, 0]
    }
}

/// Span and message, by way of the report: `Error` keeps them to itself.
fn error_of(error: &Error) -> Ending {
    // The report looks up its file's name: give the first symbol one.
    INTERNER.lock().unwrap().get_or_intern("");
    error.report();
    let (span, message) = ariadne::last_report().expect("a report");
    Ending::Error { message, span: (span.start as u32, span.end as u32) }
}
