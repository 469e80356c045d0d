//! The independent second engine: document 01 written once more, by a hand that
//! has not seen the first engine, so that the two can be run against each other.

pub mod caller;
pub mod command;
pub mod compromise;
pub mod damage;
pub mod engine;
pub mod generate;
pub mod hex;
pub mod policy;
pub mod propose;
pub mod provoke;
pub mod random;
pub mod report;
pub mod sheet;
pub mod terms;
