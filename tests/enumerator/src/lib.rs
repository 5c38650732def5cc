//! A plain enumerator of GPC answers. It follows the words of the scope and of the
//! paper one by one and is slow on purpose: each part should be easy to check by reading.

pub mod answers;
pub mod cases;
pub mod graph;
pub mod image;
pub mod joins;
pub mod listing;
pub mod machine;
pub mod meaning;
pub mod operations;
pub mod path;
pub mod pattern;
pub mod program;
pub mod query;
pub mod random;
pub mod record;
pub mod refusal;
pub mod sitting;
pub mod table;
pub mod timed;
pub mod truth;
pub mod typing;
pub mod value;
