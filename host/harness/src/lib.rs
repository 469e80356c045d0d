//! What two engines are compared on, and how. Nothing here knows the proved library: an engine is a function, so that the
//! comparison itself can be tried on engines that are known to be wrong (tests/broken.rs).

pub mod calls;
pub mod difference;
pub mod plain;
pub mod sheets;
pub mod shrink;
