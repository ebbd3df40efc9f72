//! Every refusal of every call at both sides of its border, every pair of them, and that a refused call changes no buffer.
#[path = "../compare/mod.rs"]
mod compare;
mod edits;
#[path = "../model/mod.rs"]
mod model;

mod close;
mod open;
mod sending;
mod take;
mod tiles;

use lipvezor::Refusal;

#[test]
fn order() {
    let numbers = || Refusal::ALL.iter().map(|refusal| refusal.number());
    assert!(numbers().eq(edits::WITH_PACK.concat()));
    assert!(numbers().filter(|number| ![15, 16, 17].contains(number)).eq(edits::ORDER.concat()));
}
