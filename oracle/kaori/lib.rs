//! kaori's lowering, from its own files (see build.rs), with stubs for what they name and these papers leave out.

// The files are built as they are: their unused parts are no concern here.
#![allow(warnings)]

include!(concat!(env!("OUT_DIR"), "/root.rs"));

/// kaori's own library of native functions; it stays out.
pub mod std {
    pub mod math {
        use crate::runtime::native_function::NativeFunction;

        pub const MATH_FUNCTIONS: &[(&str, NativeFunction)] = &[];
    }
}

/// Instructions as document 01's records, and back.
pub mod records {
    use crate::runtime::{
        instruction::Instruction,
        operands::{Const, Reg},
    };

    include!(concat!(env!("OUT_DIR"), "/records.rs"));
}

/// A vector that refuses to grow past a limit: what a buffer of document 01 is to kaori.
#[cfg(feature = "bounded")]
pub mod bounded {
    use ::std::{
        ops::{Deref, DerefMut},
        panic::resume_unwind,
        vec,
    };

    /// What is unwound with: the number of document 01's refusal.
    pub struct Full(pub u32);

    #[derive(Debug)]
    pub struct Vec<T> {
        items: vec::Vec<T>,
        limit: usize,
        refusal: u32,
    }

    impl<T> Vec<T> {
        pub fn new() -> Self {
            Vec { items: vec::Vec::new(), limit: usize::MAX, refusal: 0 }
        }

        pub fn limit(&mut self, limit: usize, refusal: u32) {
            self.limit = limit;
            self.refusal = refusal;
        }

        pub fn push(&mut self, item: T) {
            if self.items.len() >= self.limit {
                // Not `panic!`: no message is to be printed.
                resume_unwind(Box::new(Full(self.refusal)));
            }
            self.items.push(item);
        }

        pub fn clear(&mut self) {
            self.items.clear();
        }
    }

    impl<T> Default for Vec<T> {
        fn default() -> Self {
            Vec::new()
        }
    }

    impl<T> Deref for Vec<T> {
        type Target = [T];
        fn deref(&self) -> &[T] {
            &self.items
        }
    }

    impl<T> DerefMut for Vec<T> {
        fn deref_mut(&mut self) -> &mut [T] {
            &mut self.items
        }
    }
}
