//! The proved library and the independent engine side by side. Each function here takes a seed, makes what it needs from it
//! and says where the two differ, so that a test, the soak and a look at one seed do the same thing.

pub mod kinds;
pub mod lent;
pub mod programs;
pub mod seeds;
