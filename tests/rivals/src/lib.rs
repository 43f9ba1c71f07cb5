//! What the product's cut is measured against: each module cuts the same lists.
//!
//! | module | what it is |
//! |---|---|
//! | `baseline` | a `HashMap` of edges and union-find, as a good Rust programmer would first write it |
//! | `unchecked` | the product's own algorithm in Rust, without bounds checks |
//! | `touch` | one touch of every entry of the list and of the buffers: the limit |

pub mod baseline;
pub mod touch;
pub mod unchecked;

/// The most entries of a list, and the greatest vertex count.
pub const LIMIT: usize = 65_536;
