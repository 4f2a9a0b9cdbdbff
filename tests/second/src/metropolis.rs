//! The metropolis of `examples`: 900 events, and a diagram of 3,704 nodes.

use crate::equations::tree_of;
use crate::tree::Tree;

pub const EQUATIONS: &str = include_str!("../../../examples/metropolis.txt");

pub fn metropolis() -> Tree {
    tree_of(EQUATIONS)
}
