//! Function files out of a lifter's function.
//!
//! [`Function`] is upstream's `SsaFunction` with what its caller hands to `to_c` as `COptions`: whether it returns, the argument
//! registers, and the names of addresses (a map, since a file cannot call back). A lifter fills it and lists
//! `write(&function)?.bytes()`; the error says in words what a file cannot hold. It leaves unreachable blocks out, or numbers their
//! values apart: upstream leaves version 0 in them.

pub use oracle::read::Function;
pub use oracle::records::Records;
pub use oracle::upstream::ssa::{Block, Expr, Kind, Phi, SsaFunction, Stmt, Var};
pub use oracle::write::write;
