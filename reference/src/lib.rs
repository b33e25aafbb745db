//! A second, plain implementation of document 01, to compare the proved programs with.

pub mod bound;
pub mod dispatcher;
pub mod files;
pub mod planner;
pub mod programs;
pub mod records;

#[cfg(test)]
mod examples;
