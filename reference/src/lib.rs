//! The independent program that Drunquill's word expander is held against: documents 01 and 02 said as simply as Rust can,
//! of document 02 as many requests as have landed.

mod arithmetic;
mod assignment;
mod bracket;
mod calls;
pub mod case;
mod class;
mod constant;
mod cost;
mod dollar;
mod escape;
mod expand;
pub mod generate;
mod hex;
pub mod image;
mod lent;
pub mod limits;
mod matching;
pub mod number;
mod operation;
mod pattern;
pub mod program;
mod quoting;
mod read;
mod row;
mod seen;
pub mod shells;
mod split;
mod tree;
mod updates;
mod variables;

pub use calls::{assign, expand, normalise, quote, Answer, Tables};
pub use cost::{cost, Cost};
pub use updates::{delete, insert};
