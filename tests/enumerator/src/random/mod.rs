//! Seeded generators of inputs. The same seed gives the same cases on every machine.

pub mod buffers;
pub mod candidates;
pub mod conditions;
pub mod cost;
pub mod damage;
pub mod faults;
pub mod graphs;
pub mod hosts;
pub mod inputs;
pub mod malformed;
pub mod parts;
pub mod patterns;
pub mod queries;
pub mod query_faults;
pub mod sittings;
pub mod source;
pub mod subjects;
pub mod tables;

/// Numbers that graphs and patterns draw from alike, so that they often meet.
pub const LABELS: [u16; 4] = [1, 2, 3, 65535];
pub const KEYS: [u16; 4] = [0, 7, 8, 65535];
pub const VALUES: [u16; 4] = [0, 1, 5, 65535];
