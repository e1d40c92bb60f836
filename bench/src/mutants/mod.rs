//! Mutants: the C functions over the model, in the place of the library, each
//! mutant with one small bug. The variable MUTANT says which it is; without it
//! there is no bug.

mod arrays;
mod blocks;
mod guests;
pub mod journal;
pub mod list;
mod queues;
mod records;
mod replicas;
mod steps;
mod symbols;
mod votes;
