//! Lists and texts to try the product on. Everything made here depends on its arguments alone.
//!
//! | module | what it has |
//! |---|---|
//! | `chance` | numbers that look random, from a seed |
//! | `meshes` | families of meshes of any size, to the limits |
//! | `damage` | small lists of all kinds, valid and damaged |
//! | `texts` | texts of all kinds, valid and damaged |

pub mod chance;
pub mod damage;
pub mod meshes;
pub mod texts;

/// The most entries of a list, and the greatest vertex count.
pub const LIMIT: usize = 65_536;
