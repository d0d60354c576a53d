//! Files in which one edit has much below it, and such edits: deep chains, diamonds
//! one below another, and holders in many groups.

use super::edits::Editor;
use super::plan::{Plan, Size};
use super::rng::Rng;
use crate::declarations::Sort;

/// A sort of groups and the sort of their members.
type Sorts = (Sort, Sort);

const USERS: Sorts = (Sort::UserGroup, Sort::User);
const OBJECTS: Sorts = (Sort::ObjectGroup, Sort::Object);

/// Group 0 stands above all that a plan adds, or above nothing; an edit of group 1
/// has most of it below.
pub fn plan(rng: &mut Rng) -> Plan {
    let sorts = if rng.chance(70) { USERS } else { OBJECTS };
    match rng.weighted(&[30, 30, 34, 6]) {
        0 => chain(rng, sorts),
        1 => diamonds(rng, sorts),
        2 => {
            let (groups, parties) = (rng.between(3, 9), rng.between(3, 12));
            crowd(rng, sorts, groups, parties)
        }
        _ => {
            let (groups, parties) = (rng.between(18, 26), rng.between(55, 75));
            crowd(rng, sorts, groups, parties)
        }
    }
}

/// Few declarations and no ties but those of values: groups and parties of one sort.
fn bare(rng: &mut Rng, (group, party): Sorts, groups: usize, parties: usize) -> Plan {
    let size = Size { attributes: 8, operations: 1, pairs: rng.between(3, 12), ..Size::default() };
    let mut plan = Plan::new(rng, &size);
    plan.grow_holders(rng, group, groups);
    plan.grow_holders(rng, party, parties);
    plan.grow_values(rng, 10);
    plan
}

/// Each group below the one before, some below others too.
fn chain(rng: &mut Rng, sorts: Sorts) -> Plan {
    let length = if rng.chance(15) { 64 } else { rng.between(3, 40) };
    let parties = rng.between(1, 8);
    let mut plan = bare(rng, sorts, length, parties);
    let groups = plan.numbers(&[sorts.0]);
    plan.parents.extend(groups.windows(2).map(|two| (two[1], two[0])));
    for _ in 0..rng.below(6) {
        let low = rng.between(1, length - 1);
        add(&mut plan.parents, (groups[low], groups[rng.below(low)]));
    }
    add_members(rng, &mut plan, sorts, 2);
    plan
}

/// Each diamond hangs on the lowest group of the one before.
fn diamonds(rng: &mut Rng, sorts: Sorts) -> Plan {
    let (count, parties) = (rng.between(1, 12), rng.between(1, 10));
    let mut plan = bare(rng, sorts, 3 * count + 2, parties);
    let groups = plan.numbers(&[sorts.0]);
    for step in groups[1..].windows(4).step_by(3) {
        let ties = [(1, 0), (2, 0), (3, 1), (3, 2)];
        plan.parents.extend(ties.map(|(low, high)| (step[low], step[high])));
    }
    add_members(rng, &mut plan, sorts, 3);
    plan
}

/// Many parties, each in most of the groups right below group 1.
fn crowd(rng: &mut Rng, sorts: Sorts, groups: usize, parties: usize) -> Plan {
    let mut plan = bare(rng, sorts, groups, parties);
    let groups = plan.numbers(&[sorts.0]);
    plan.parents.extend(groups[2..].iter().map(|&low| (low, groups[1])));
    for party in plan.numbers(&[sorts.1]) {
        let some = groups[2..].iter().filter(|_| rng.chance(85));
        plan.members.extend(some.map(|&group| (party, group)));
    }
    plan
}

/// Each party in some of the groups, the lower ones more often.
fn add_members(rng: &mut Rng, plan: &mut Plan, sorts: Sorts, most: usize) {
    let groups = plan.numbers(&[sorts.0]);
    for party in plan.numbers(&[sorts.1]) {
        for _ in 0..rng.between(1, most) {
            let place = rng.below(groups.len()).max(rng.below(groups.len()));
            add(&mut plan.members, (party, groups[place]));
        }
    }
}

fn add(ties: &mut Vec<(usize, usize)>, tie: (usize, usize)) {
    if !ties.contains(&tie) {
        ties.push(tie);
    }
}

/// An edit with much below it, or now and then any other.
pub fn edit(rng: &mut Rng, plan: &Plan, editor: &mut Editor) -> Vec<u8> {
    match rng.weighted(&[60, 28, 12]) {
        0 => editor.turn(line(rng, plan)),
        1 => editor.plain(rng),
        _ => editor.flawed(rng),
    }
}

/// A tie of one of the highest groups, or of a party.
fn line(rng: &mut Rng, plan: &Plan) -> Vec<u8> {
    let groups = plan.numbers(&[Sort::UserGroup, Sort::ObjectGroup]);
    let parties = plan.numbers(&[Sort::User, Sort::Object]);
    let high = rng.below(3);
    let pairs = plan.pairs_for(groups[high]);
    match rng.weighted(&[40, 35, 25]) {
        0 if !pairs.is_empty() => plan.value_line((groups[high], *rng.pick(&pairs))),
        0 | 1 => {
            let low = rng.between(1, 2);
            plan.parent_line((groups[low], groups[rng.below(low)]))
        }
        _ => plan.member_line((*rng.pick(&parties), *rng.pick(&groups))),
    }
}
