//! Hakkiyolu seen from outside: an independent model of the description, a safe
//! face of the compiled libraries, and what compares the two.

pub mod arguments;
pub mod call;
pub mod centuries;
pub mod coverage;
mod crossing;
pub mod damage;
pub mod dates;
pub mod demands;
pub mod deskgen;
pub mod edges;
pub mod explore;
pub mod face;
pub mod gen;
pub mod lent;
pub mod model;
pub mod occasions;
pub mod program;
pub mod random;
pub mod shrink;
pub mod subject;
pub mod texts;
pub mod town;
pub mod vectors;
