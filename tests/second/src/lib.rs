//! The independent second program: every public call of Brimclif once more, written from the
//! paper (Guéziec and others, 1998, sections 2, 4.1 and 4.2) and from the order's own words.
//!
//! The method is another one than the product's. A fan is found by pivoting about its vertex from
//! face to face, as the paper does it (section 3, step III); edges and places are looked up in
//! ordered maps. Nothing is sorted, hashed or joined by union-find, and every vector is as large
//! as it likes. Each call answers the numbers in the order's sequence and leaves in every lent
//! buffer what the order says, so that answers and whole buffers can be compared.
//!
//! | module | what it has |
//! |---|---|
//! | `faces` | the limits, the faces of a list, the check, showing one face |
//! | `surface` | the edges of a checked list, its fans and the classes of its vertices |
//! | `calls` | the edge question, the class call and the cut, with their buffers |
//! | `text` | reading and writing the text of a list |
//! | `program` | what the program prints for an input |

mod calls;
mod faces;
mod program;
mod surface;
mod text;

pub use calls::{classes, cut, edge};
pub use faces::{check, face};
pub use program::program;
pub use text::{read, write};

/// A refusal: its code and its place.
#[derive(Clone, Copy, Debug, PartialEq, Eq)]
pub struct Refusal {
    pub code: u64,
    pub place: u64,
}

/// A refusal with `code` at `place`.
fn refusal(code: u64, place: usize) -> Refusal {
    Refusal {
        code,
        place: place as u64,
    }
}

/// The numbers of a call that refuses: code and place, all else 0.
fn refused<const N: usize>(refusal: Refusal) -> [u64; N] {
    let mut answer = [0; N];
    answer[0] = refusal.code;
    answer[1] = refusal.place;
    answer
}
