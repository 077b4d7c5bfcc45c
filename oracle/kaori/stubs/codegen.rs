/// Statements and lambdas stay out: no tree of document 01 holds one.
pub mod lower_statement {
    use crate::{
        codegen::lower_ast::Lower,
        diagnostics::error::Error,
        syntax::ast::{NodeId, Spanned},
        util::string_interner::Symbol,
    };

    impl<'a> Lower<'a> {
        pub fn lower_statement(&mut self, _: NodeId) -> Result<(), Error> {
            unreachable!("statements stay out")
        }

        pub fn analyze_function(&mut self, _: NodeId) -> Vec<Spanned<Symbol>> {
            unreachable!("lambdas stay out")
        }
    }
}
