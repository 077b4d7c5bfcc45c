//! The same files over vectors that are full at a limit: kaori's answer where document 01 asks 13, 14 and 16.

use crate::{model::number, reference::Limits};
pub use ::kaori_bounded as kaori;
use kaori::{bounded::Full, codegen::lower_ast::Lower, runtime::function::Function};
use std::any::Any;

// The same driver over the other build of kaori: `plain` has it too.
#[allow(clippy::duplicate_mod)]
#[path = "drive.rs"]
pub mod drive;

fn limit_function(function: &mut Function, limits: Limits) {
    function.instructions.limit(limits.instructions, number::CODE_FULL);
    function.constants.limit(limits.constants, number::CONSTANTS_FULL);
}

fn limit_marks(lower: &mut Lower, limits: Limits) {
    lower.unpatched_arguments.limit(limits.marks, number::MARKS_FULL);
}

fn refusal_of(panic: &(dyn Any + Send)) -> Option<u32> {
    panic.downcast_ref::<Full>().map(|full| full.0)
}
