//! Calls for the length of the text between the calls of a list.

use super::rng::Rng;
use crate::session::Call;

/// The calls with lengths asked after some of them and after the last.
pub fn insert(rng: &mut Rng, calls: Vec<Call>) -> Vec<Call> {
    let mut all = Vec::new();
    let last = calls.len().saturating_sub(1);
    for (place, call) in calls.into_iter().enumerate() {
        all.push(call);
        if place == last || rng.chance(10) {
            all.push(Call::Length);
        }
    }
    all
}
