//! Boards aimed at one border each: one below it, at it, and one above it.

mod large;
mod limits;
mod log;
mod offers;
mod opening;

use super::case::Case;
use super::rng::Rng;

pub use large::large_cases;

/// One round of all pointed boards but the large ones.
pub fn cases(rng: &mut Rng) -> Vec<Case> {
    let mut cases = opening::cases(rng);
    cases.extend(log::cases(rng));
    cases.extend(limits::cases(rng));
    cases.extend(offers::cases(rng));
    cases
}
