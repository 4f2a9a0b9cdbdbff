//! European 1: the tree in the appendix of document 000.

use crate::equations::tree_of;
use crate::tree::Tree;

pub const EQUATIONS: &str = include_str!("../../../examples/european1.txt");

pub fn european_1() -> Tree {
    tree_of(EQUATIONS)
}
