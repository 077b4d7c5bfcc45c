/// The parser stays out: trees are built from records.
pub mod parser {
    use crate::{
        compiler::Compiler,
        diagnostics::error::Error,
        syntax::{
            ast::Ast,
            token::{Span, Token},
        },
    };

    pub struct Parser;

    impl Parser {
        pub fn new(_: &str, _: Vec<(Token, Span)>, _: &mut Compiler) -> Self {
            unreachable!("no source text is read here")
        }

        pub fn parse(self) -> Result<Ast, Error> {
            unreachable!("no source text is read here")
        }
    }
}
