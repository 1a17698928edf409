//! A second implementation of the coded gear rows, written from the definitions alone and by other algorithms than
//! the product's, and what is needed to compare every public call of the product with it.
//!
//! `reference` is the second implementation, `library` the product through its Rust crate; `random`, `draw` and `bits`
//! make the inputs, `canary` lends the buffers and sees what became of them, and `expect` holds a call against what is
//! expected of it. `calls` has the calls on words one beside the other, and `faults` what refuses them; `rides` and
//! `plays` are for the simulator and for several senders.
//!
//! `ZOV_SEED` in the environment replaces the seeds of all tests.

pub mod bits;
pub mod calls;
pub mod canary;
pub mod draw;
pub mod expect;
pub mod faults;
pub mod library;
pub mod plays;
pub mod random;
pub mod reference;
pub mod rides;

pub use zovunelith::Elem;
