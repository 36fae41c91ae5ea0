//! Call lists and change lists: reading and writing them, the judges of their numbers (`model`,
//! `apply`, `generations`), and a generator of them. Nothing here holds or needs the Rust text.

pub mod apply;
pub mod asked;
pub mod call_list;
pub mod candidate;
pub mod cases;
pub mod change_list;
pub mod changes;
pub mod digest;
pub mod edges;
pub mod fields;
pub mod generate;
pub mod generation_edges;
pub mod generations;
pub mod history;
pub mod key;
pub mod lent;
pub mod limits;
pub mod lru_root;
pub mod model;
pub mod order;
pub mod order_edges;
pub mod past_limits;
pub mod rng;
pub mod root_edges;
pub mod sort;
pub mod spoil;
pub mod timed;
pub mod vectors;
