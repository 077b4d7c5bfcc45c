//! kaori as it is.

use crate::{
    reference::{Limits, Spans, caught},
    tree::Tree,
};
pub use ::kaori;
use kaori::{
    codegen::{environment::Environment, lower_ast::Lower},
    compiler::Compiler,
    records,
    runtime::function::Function,
    syntax::ast::{Ast, NodeId},
};
use std::{any::Any, collections::HashMap};

#[path = "drive.rs"]
pub mod drive;

/// A tree in kaori's arena, and what its lowering needs, for the clock.
pub struct Prepared {
    ast: Ast,
    root: NodeId,
    tree: Tree,
    compiler: Compiler,
    function: Function,
}

impl Prepared {
    pub fn new(tree: &Tree) -> Prepared {
        let (ast, ids) = drive::ast(tree, Spans::Own);
        let root = ids[tree.root as usize];
        Prepared { ast, root, tree: tree.clone(), compiler: Compiler::default(), function: Function::default() }
    }

    /// One lowering over a function whose vectors have room from the one before: how many instructions it made.
    pub fn lower_kept(&mut self) -> usize {
        let mut function = std::mem::take(&mut self.function);
        function.instructions.clear();
        function.constants.clear();
        self.function = self.lower_into(function);
        self.function.instructions.len()
    }

    /// One lowering over a new function, as kaori has it.
    pub fn lower_new(&mut self) -> usize {
        self.lower_into(Function::default()).instructions.len()
    }

    fn lower_into(&mut self, mut function: Function) -> Function {
        let mut free_variables = HashMap::new();
        let mut env = Environment::new();
        let mut lower = Lower::new(&self.ast, &mut self.compiler, &mut free_variables, &mut env, &mut function);
        let walked = drive::walk(&mut lower, &self.tree, self.root);
        assert!(walked.is_ok(), "an accepted tree");
        lower.patch_arguments();
        function.frame_size = env.frame_size;
        function.arity = self.tree.names.len();
        function
    }
}

fn limit_function(_: &mut Function, _: Limits) {}

fn limit_marks(_: &mut Lower, _: Limits) {}

fn refusal_of(_: &(dyn Any + Send)) -> Option<u32> {
    None
}

/// `patch_jump` on given records: true if it took the offset. None if kaori has no such instruction.
pub fn patch_jump(code: &mut [[u32; 4]], index: usize, offset: i32) -> Option<bool> {
    let ast = Ast::default();
    let mut compiler = Compiler::default();
    let mut free_variables = HashMap::new();
    let mut env = Environment::new();
    let mut function = Function::default();
    for &record in code.iter() {
        function.emit_instruction(records::instruction(record)?);
    }
    let mut lower = Lower::new(&ast, &mut compiler, &mut free_variables, &mut env, &mut function);
    let taken = caught(|| lower.patch_jump(index, offset)).is_ok();
    for (record, instruction) in code.iter_mut().zip(function.instructions.iter()) {
        *record = records::words(instruction);
    }
    Some(taken)
}
