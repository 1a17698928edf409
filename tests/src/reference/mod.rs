//! The second implementation. Each call takes what the product's call takes, with the lengths of the buffers for its
//! results instead of the buffers, and gives either what is to be written or the refusal's number. A ride gives both
//! where it ends on the way. The calls for several senders take what stands in the buffers, since some of it stays.

pub mod block;
pub mod columns;
pub mod essence;
pub mod field;
pub mod formula;
pub mod params;
pub mod repair;
pub mod ride;
pub mod rows;
pub mod senders;
pub mod sheet;
pub mod words;
