//! Stands for the lexer crate, so that kaori's files build. Trees come from records, never from source text.

use std::{marker::PhantomData, ops::Range};

pub use logos_derive::Logos;

pub trait Logos: Sized {
    fn lexer(_: &str) -> Lexer<Self> {
        unreachable!("no source text is read here")
    }
}

impl<T> Logos for T {}

pub struct Lexer<T>(PhantomData<T>);

impl<T> Lexer<T> {
    pub fn spanned(self) -> Spanned<T> {
        Spanned(self.0)
    }
}

pub struct Spanned<T>(PhantomData<T>);

impl<T> Iterator for Spanned<T> {
    type Item = (Result<T, ()>, Range<usize>);

    fn next(&mut self) -> Option<Self::Item> {
        None
    }
}
