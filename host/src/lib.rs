//! The proved printer for Rust programs: a function file in, its listing or its refusal out.
//!
//! A lifter puts its function into [`write::Function`], writes the file with [`write::write`] and lists it:
//!
//! ```
//! use host::write::{write, Block, Expr, Function, Kind, SsaFunction, Stmt};
//!
//! // One block that returns rdi (register 7), the function's one argument.
//! let kind = Kind::Return { val: Some(Expr::Use(7, 0)) };
//! let stmt = Stmt { address: 0x1010, kind, dead: false, flags: false, push: false };
//! let block = Block { start: 0x1010, stmts: vec![stmt], ..Block::default() };
//! let ssa = SsaFunction { blocks: vec![block], bits: 64 };
//! let function = Function { ssa, returns: true, args: vec![7], ..Function::default() };
//!
//! let file = write(&function)?.bytes();
//! let listing = host::list(&file)?;
//! assert_eq!(listing.lines[0].tokens[0].text, "return");
//! assert_eq!(listing.to_string(), "ifs 0 loops 0 lines 1 tests 0\n1010 1 return a1;\n");
//! # Ok::<(), Box<dyn std::error::Error>>(())
//! ```
//!
//! Whoever lists many files keeps a [`Lister`]. What is wrong with a file that is refused, [`Refusal::about`] says.
//! The other modules are there for the comparisons with upstream's Rust; the printer's pieces need the feature `pieces`.

#[macro_use]
mod lent;
pub mod entry;
mod lister;
mod listing;
mod refusal;
pub mod runs;
pub mod sheet;
pub mod tables;
pub mod turns;
pub mod upstream;
pub mod write;

#[cfg(feature = "pieces")]
pub mod lowered;
#[cfg(feature = "pieces")]
pub mod passes;
#[cfg(feature = "pieces")]
pub mod pieces;
#[cfg(feature = "pieces")]
pub mod reader;
#[cfg(feature = "pieces")]
pub mod values;

pub use lister::{list, Lister};
pub use listing::{Kind, Line, Listing, Token};
pub use refusal::Refusal;
