//! The Rust half of the comparison: kaori's own lowering beside the port and a model of document 01.

mod bounded;
pub mod cases;
pub mod clock;
pub mod compare;
pub mod depth;
pub mod expression;
pub mod generate;
pub mod model;
mod plain;
pub mod port;
pub mod record;
pub mod reference;
pub mod shrink;
pub mod text;
pub mod tree;
