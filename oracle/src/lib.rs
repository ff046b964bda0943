//! naga's pipeline constants, run unchanged beside the rules.
#![allow(dead_code)]
extern crate alloc;

// Files of naga 30.0.1, copied unchanged by extract.sh into naga/, and stand-ins for what they lean on: `back`, `ir` and `proc` hold one
// of those files each and stand in for the rest.
#[path = "../naga/arena/mod.rs"]
pub mod arena;
pub mod back;
pub mod ir;
pub mod proc;

// Stand-ins alone.
pub mod compact;
pub mod non_max_u32;
pub mod span;
pub mod valid;

// The harness.
pub mod expressions;
pub mod folders;
pub mod gen;
pub mod list;
pub mod model;
pub mod probe;
pub mod run;
pub mod shapes;
pub mod slots;
pub mod statements;
pub mod tables;
pub mod values;

pub use arena::{Arena, Handle, Range, UniqueArena};
pub use ir::*;
pub use span::{Span, WithSpan};
