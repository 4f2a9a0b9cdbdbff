//! The heat removal system of document 004, 6.3. Event i of the document is event i − 1 here.

use crate::tree::*;

fn event(number: u32) -> Input {
    Input::Event(number - 1)
}

/// F023 open, over events 11 to 20 of the document or over those numbered from `first`.
pub fn f023_open(tree: &mut Tree, first: u32) -> Input {
    let event = |number: u32| event(number - 11 + first);
    let a16 = or(tree, &[event(14), event(15)]);
    let a15 = and(tree, &[a16, event(16)]);
    let a14 = or(tree, &[a15, event(17), event(19), event(20)]);
    let a18 = and(tree, &[a14, event(18)]);
    let inner = or(tree, &[event(12), event(13), a18]);
    and(tree, &[event(11), inner])
}

pub fn heat_removal() -> Tree {
    let mut tree = Tree::of_chances(&[1; 21]);
    let a2 = or(&mut tree, &[event(1), event(2)]);
    let g34 = or(&mut tree, &[event(3), event(4)]);
    let g345 = and(&mut tree, &[g34, event(5)]);
    let g3456 = or(&mut tree, &[g345, event(6)]);
    let a4 = and(&mut tree, &[g3456, event(7)]);
    let a8 = and(&mut tree, &[event(7), event(8)]);
    let middle = or(&mut tree, &[a4, a8, event(9), event(10)]);
    let a10 = f023_open(&mut tree, 11);
    let last = or(&mut tree, &[a10, event(21)]);
    and(&mut tree, &[a2, middle, last]);
    tree
}
