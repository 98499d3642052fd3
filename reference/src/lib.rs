//! A latency monitor computed from the facts of a history, apart from the product, to compare the product with.

pub mod answers;
pub mod below_a;
pub mod deallocate;
pub mod events;
pub mod facts;
pub mod groups;
pub mod history;
pub mod mixed;
pub mod order;
pub mod page;
pub mod pages;
pub mod questions;
pub mod random;
pub mod reading;
pub mod reasons;
#[cfg(test)]
mod tests;
pub mod vectors;
